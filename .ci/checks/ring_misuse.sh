#!/bin/sh
# A ring that is not lent has no head to read and none to spend, and a loan ends once.
misuse=.ci/checks/misuse
exec sh .ci/checks/lib/misuse.sh t1s_ring \
  "$misuse/spends_unlent_ring.txt" unknown-method \
  "$misuse/reads_head_of_unlent_ring.txt" unknown-method \
  "$misuse/reads_head_after_keep.txt" borrow-e0382 \
  "$misuse/spends_twice.txt" borrow-e0382
