#!/bin/sh
# Writes the script of a segment in ordinary use: eight nodes, at places 0 to 2, and every 10,000 ticks a frame for each of them. It is
# to measure a run with.
#
#   sh tools/ordinary_use.sh | ./t1s run --summary
set -u

printf 't1s 1\n'
place=0
for node in 0 1 2 3 4 5 6 7; do
  case $node in 3) place=1 ;; 7) place=2 ;; esac
  echo "node $node $node $place"
done
tick=10000
while [ $tick -le 490000 ]; do
  for node in 0 1 2 3 4 5 6 7; do
    echo "fill $tick $node 60 0$node"
  done
  tick=$((tick + 10000))
done
echo 'end 500000'
