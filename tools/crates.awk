# Reads crates.txt and writes the crate `top` and the crates of this repository that it stands on, lowest first, in the order in
# which the toolchain builds them.
#
#   awk -v top=NAME -f tools/crates.awk crates.txt

{ sub(/#.*/, "") }

/:/ {
  split($0, halves, ":")
  split(halves[1], head, " ")
  below[head[1]] = halves[2]
  known[head[1]] = 1
}

END { visit(top) }

function visit(name,    names, count, i) {
  if (!(name in known) || (name in seen)) return
  seen[name] = 1
  count = split(below[name], names, " ")
  for (i = 1; i <= count; i++) visit(names[i])
  print name
}
