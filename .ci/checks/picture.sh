#!/bin/sh
# The picture of each report in examples/ is read by XML readers that are not this project's, and its bars are those that a short
# text in Python finds in the report. The pictures in docs/ are looked at in the same way. What is not there is skipped.
#
#   sh .ci/checks/picture.sh      from the top of the repository, once t1s_draw is built
set -u

command -v python3 >/dev/null || { echo "skipped: no python3 to read pictures with"; exit 0; }
drawer=crates/t1s_draw/out/t1s_draw
[ -x "$drawer" ] || { echo "skipped: $drawer is not built"; exit 0; }
scratch=$(mktemp -d) || exit 1
trap 'rm -rf "$scratch"' EXIT
trap 'exit 1' HUP INT TERM
status=0

# Whether the tools that are there read the picture $1.
is_read() {
  ! command -v xmllint >/dev/null || xmllint --noout "$1" || return 1
  ! command -v rsvg-convert >/dev/null || rsvg-convert -w 2000 -a "$1" -o "$scratch/picture.png"
}

for report in examples/*/run.txt; do
  story=${report%/*}
  ! grep -q '^refused' "$report" || continue
  end=$(awk '$1 == "end" { print $2 }' "$story/script.t1s")
  nodes=$(awk '$1 == "node" && $2 + 1 > lanes { lanes = $2 + 1 } END { print lanes }' "$report")
  from=$(awk 'NR == 1 { print ($1 == "settled" ? 0 : $1 - $1 % 100) }' "$report")
  if "$drawer" picture "$from" "$end" "$nodes" <"$report" >"$scratch/picture.svg" && is_read "$scratch/picture.svg" &&
    python3 .ci/checks/lib/picture_bars.py "$scratch/picture.svg" "$report" "$from" "$end"; then
    echo "the bars are the drives: $report"
  else
    echo "NOT AS WANTED: the picture of $report"
    status=1
  fi
done
for picture in docs/*.svg; do
  is_read "$picture" || { echo "NOT AS WANTED: $picture"; status=1; }
done
exit $status
