#!/bin/sh
# What `pcap K` writes is read by readers that are not this project's. Each examples/*/pcap_K.pcap has the frames, times and octets
# of the good arrivals at node K in the run.txt beside it; that the program writes both is the check of the examples.
#
#   sh .ci/checks/pcap.sh      from the top of the repository
#
# The reader in lib/pcap_frames.py needs python3. Where tshark or capinfos is installed, it reads the same number of frames, without a
# word on standard error but that of a user who is root. What is missing is skipped.
set -u

scratch=$(mktemp -d) || exit 1
trap 'rm -rf "$scratch"' EXIT
trap 'exit 1' HUP INT TERM
status=0

wrong() {
  echo "NOT AS WANTED: $1"
  cat "$scratch/said"
  status=1
}

# Whether the reader said nothing but what it says to each user who is root.
is_silent() {
  ! grep -v -e '^Running as user "root"' -e '^$' "$scratch/said"
}

# Has tshark read the file $1, which has $2 frames.
try_tshark() {
  tshark -n -r "$1" -T fields -e frame.number >"$scratch/frames" 2>"$scratch/said"
  ended=$?
  if [ $ended -eq 0 ] && is_silent && [ "$(wc -l <"$scratch/frames")" -eq "$2" ]; then
    echo "tshark reads $2 frames: $1"
  else
    wrong "tshark -r $1 (status $ended, $(wc -l <"$scratch/frames") frames, wanted $2)"
  fi
}

# The same of capinfos.
try_capinfos() {
  capinfos -c -M -T -r "$1" >"$scratch/frames" 2>"$scratch/said"
  ended=$?
  counted=$(awk -F '\t' '{ print $2 }' "$scratch/frames")
  if [ $ended -eq 0 ] && is_silent && [ "$counted" = "$2" ]; then
    echo "capinfos counts $2 frames: $1"
  else
    wrong "capinfos $1 (status $ended, $counted frames, wanted $2)"
  fi
}

for tool in python3 tshark capinfos; do
  command -v $tool >/dev/null || echo "skipped: no $tool to read pcap files with"
done
for file in examples/*/pcap_*.pcap; do
  report=${file%/*}/run.txt
  node=${file##*/pcap_}
  node=${node%.pcap}
  frames=$(grep -c "^[0-9]* arrive $node good " "$report")
  if command -v python3 >/dev/null; then
    if python3 .ci/checks/lib/pcap_frames.py "$file" "$node" "$report" >"$scratch/frames" 2>"$scratch/said"; then
      echo "as the arrivals at node $node of $report, $frames of them: $file"
    else
      wrong "$file"
    fi
  fi
  ! command -v tshark >/dev/null || try_tshark "$file" "$frames"
  ! command -v capinfos >/dev/null || try_capinfos "$file" "$frames"
done
exit $status
