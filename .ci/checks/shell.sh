#!/bin/sh
# Each shell script of the repository is POSIX sh, passes shellcheck where it is installed, and has no function over 40 lines.
set -u

status=0
wrong() {
  echo "NOT AS WANTED: $1"
  status=1
}

set -- t1s tools/*.sh .ci/run .ci/checks/*.sh .ci/checks/lib/*.sh
for file in "$@"; do
  sh -n "$file" || wrong "sh can't read $file"
done
if command -v shellcheck >/dev/null; then
  shellcheck --shell=sh "$@" || wrong "shellcheck has something to say"
else
  echo "shellcheck is not installed: not tried"
fi
awk '
  FNR == 1 { begun = 0 }
  /^[a-z_]*\(\) \{$/ || /^function .*\{$/ { begun = FNR; name = $0 }
  /^\}$/ && begun {
    if (FNR - begun + 1 > 40) { print FILENAME ": " name " has " FNR - begun + 1 " lines"; long = 1 }
    begun = 0
  }
  END { exit long }' "$@" tools/*.awk || wrong "a function has over 40 lines"
[ $status -ne 0 ] || echo "so: $# shell scripts are POSIX, and no function has over 40 lines"
exit $status
