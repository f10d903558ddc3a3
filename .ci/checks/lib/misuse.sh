#!/bin/sh
# Wants the toolchain to refuse each misuse of a crate, by the refusal's name and at the misused call.
#
#   sh .ci/checks/lib/misuse.sh CRATE FILE REFUSAL [FILE REFUSAL ..]      from the top of the repository
#
# A FILE is a module of a crate that stands on CRATE and on all that CRATE stands on. Its first line is a comment
# that says what is misused. A line that ends in '//~ wrong' is left out of the right use, and one that ends in
# '//~ right' is left out of the misuse. Every right use has to be proved, and every misuse has to be refused
# with 'error[REFUSAL]' at its wrong lines and nowhere else. All is written into a scratch folder.
set -u

crate=$1
shift
scratch=$(mktemp -d) || exit 1
trap 'rm -rf "$scratch"' EXIT
trap 'exit 1' HUP INT TERM
source=$scratch/crates/misuse/src

# The libraries that a crate of the repository names, and nothing for one of the kit.
named_by() {
  sed 's/#.*//' crates.txt | awk -v name="$1" -F: '{ split($1, head, " ") } head[1] == name { print $2 }'
}

# The crate, and the crates of the repository that it stands on, each once.
needed=$(awk -v top="$crate" -f tools/crates.awk crates.txt | tr '\n' ' ')

mkdir -p "$source"
cp HANDLES "$scratch/"
for name in $needed; do
  mkdir "$scratch/crates/$name"
  for part in src specs proofs; do
    [ ! -d "crates/$name/$part" ] || cp -R "crates/$name/$part" "$scratch/crates/$name/"
  done
  echo "$name: $(named_by "$name")" >>"$scratch/crates.txt"
done
echo "misuse: $needed" >>"$scratch/crates.txt"

# The text on standard input without the marks, as a module of the crate.
module() {
  sed 's| *//~ [a-z]*$||' >"$source/$1.rt"
  echo "pub mod $1;" >>"$source/lib.rt"
}

# Begins the crate anew, with no module.
begin() {
  rm -f "$source"/*.rt
  printf '#![tactic(auto)]\n\n' >"$source/lib.rt"
}

# Checks the crate, and leaves what the check says in $scratch/said.
checked() {
  (cd "$scratch/crates/misuse" && rt check) >"$scratch/said" 2>&1
}

# Whether there is a refusal, and each refusal is REFUSAL at one of the LINES of the misuse.
refused_at() {
  grep 'error\[' "$scratch/said" | awk -v refusal="error[$1]" -v lines=" $2 " -F: '
    $1 != "src/misused.rt" || index(lines, " " $2 " ") == 0 || index($4, refusal) == 0 { other = 1 }
    END { exit other || NR == 0 }'
}

failed() {
  echo "NOT AS WANTED: $1"
  tail -n 20 "$scratch/said"
  status=1
}

status=0
count=0
begin
for file in "$@"; do
  [ -f "$file" ] || continue
  count=$((count + 1))
  grep -v '//~ wrong$' "$file" | module "right_$count"
done
[ $# -eq $((2 * count)) ] || { echo "a text of a misuse is missing"; exit 1; }
checked || { failed "the right uses are not proved"; exit 1; }

while [ $# -ge 2 ]; do
  file=$1
  refusal=$2
  shift 2
  what=$(sed -n '1s|^// ||p' "$file")
  lines=$(grep -v '//~ right$' "$file" | grep -n '//~ wrong$' | cut -d: -f1 | tr '\n' ' ')
  begin
  grep -v '//~ right$' "$file" | module misused
  if checked; then
    failed "accepted: $what"
  elif refused_at "$refusal" "$lines"; then
    echo "refused as $refusal: $what"
  else
    failed "not refused as $refusal: $what"
  fi
done
exit $status
