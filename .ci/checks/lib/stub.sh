# shellcheck shell=sh
# A fresh copy of what the script t1s needs, and a toolchain in whose place nothing is proved: for checks of the script alone.
# Sourced by checks, from the top of the repository.
#
# begin            makes $room with the folder clone/ and a toolchain, and goes there
# want WHAT        compares how the last `call` ended with the files and variables that `expect_..` has set
# The toolchain's `rt` writes what a build writes, notes each call in $room/calls, and makes a program that writes the file
# $room/answer and ends with the status in $room/status, having noted its words in $room/words and its input in $room/read.

room=
status=0

begin() {
  room=$(mktemp -d) || exit 1
  trap 'rm -rf "$room"' EXIT
  trap 'exit 1' HUP INT TERM
  mkdir "$room/clone" "$room/bin" "$room/tmp"
  tar cf - --exclude=out --exclude=.git . | (cd "$room/clone" && tar xf -)
  stub_toolchain >"$room/bin/rt"
  chmod +x "$room/bin/rt"
  PATH=$room/bin:$PATH
  TMPDIR=$room/tmp
  ROOM=$room
  export PATH TMPDIR ROOM
  : >"$room/calls"
  : >"$room/answer"
  echo 0 >"$room/status"
  echo 0 >"$room/build_seconds"
  cd "$room/clone" || exit 1
}

stub_toolchain() {
  cat <<'RT'
#!/bin/sh
echo "rt $*" >>"$ROOM/calls"
[ "$1" = run ] && [ -f src/main.rt ] || exit 2
cat >/dev/null
for crate in $(awk -v top=t1s -f ../../tools/crates.awk ../../crates.txt); do
  echo "rt: chose --jobs 4 for $crate"
  echo "so far: 1 of 2 functions checked; the verdict comes last"
  echo "logic=proved functions=2"
done >&2
: >"$TMPDIR/left_behind"
sleep "$(cat "$ROOM/build_seconds")" &
trap 'kill $!; exit 143' TERM
wait $!
[ ! -f "$ROOM/fails" ] || { echo "error: not proved" >&2; exit 1; }
mkdir -p out
cat >out/t1s.new <<'PROGRAM'
#!/bin/sh
[ ! -f "$ROOM/is_built" ] || printf '%s\n' "$*" >"$ROOM/words"
cat >"$ROOM/read" || exit 3
cat "$ROOM/answer" || exit 4
exit "$(cat "$ROOM/status")"
PROGRAM
chmod +x out/t1s.new
mv out/t1s.new out/t1s
: >"$ROOM/is_built"
RT
}

# Calls the script with the words; `ended` is its status, and what it wrote and said are in $room/text and $room/said.
call() {
  ./t1s "$@" >"$room/text" 2>"$room/said"
  ended=$?
}

# Has the program answer with the text $1 and the status $2.
answer() {
  printf '%s' "$1" >"$room/answer"
  echo "$2" >"$room/status"
}

well() {
  echo "so: $1"
}

wrong() {
  echo "NOT AS WANTED: $1"
  [ ! -f "$room/said" ] || sed 's/^/    /' "$room/said" | head -n 20
  status=1
}

# Tells whether the command behind $1 holds.
so() {
  claim=$1
  shift
  if "$@"; then well "$claim"; else wrong "$claim"; fi
}

ended_with() {
  [ "$ended" -eq "$1" ]
}

# Whether what was said has the text $1.
said() {
  grep -Fq -e "$1" "$room/said"
}

said_nothing() {
  [ ! -s "$room/said" ]
}

# Whether the standard output is the text $1.
wrote() {
  printf '%s' "$1" >"$room/wanted"
  cmp -s "$room/text" "$room/wanted"
}

# Whether the program got the words $1.
got_words() {
  [ "$(cat "$room/words" 2>/dev/null)" = "$1" ]
}

# Whether the program got the octets of the file $1 as standard input.
got_input() {
  cmp -s "$room/read" "$1"
}

# Whether the toolchain was called $1 times.
built() {
  [ "$(wc -l <"$room/calls")" -eq "$1" ]
}

# Waits for the file $1.
until_there() {
  while [ ! -f "$1" ]; do sleep 0.1; done
}

all() {
  for test in "$@"; do
    eval "$test" || return 1
  done
}
