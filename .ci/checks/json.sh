#!/bin/sh
# What `json` writes is read by a JSON reader that is not this project's, and has the numbers of the summary of `run`. Each json.txt
# in examples/ is compared with the run.txt beside it; that the program writes both is the check of the examples.
#
#   sh .ci/checks/json.sh      from the top of the repository
set -u

command -v python3 >/dev/null || { echo "skipped: no python3 to read JSON with"; exit 0; }
status=0
for text in examples/*/json.txt; do
  story=${text%/*}
  if python3 .ci/checks/lib/json_summary.py "$text" "$story/run.txt"; then
    echo "as the summary of $story/run.txt: $text"
  else
    echo "NOT AS WANTED: $text"
    status=1
  fi
done
exit $status
