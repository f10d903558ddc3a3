#!/bin/sh
# A decoder whose item is held cannot be fed before the item is released, a decoder that has refused is gone, and one that is
# fed in place cannot be fed while its item is used.
misuse=.ci/checks/misuse
exec sh .ci/checks/lib/misuse.sh t1s_capture \
  "$misuse/feeds_decoder_while_item_is_held.txt" unknown-method \
  "$misuse/feeds_decoder_that_holds.txt" borrow-e0382 \
  "$misuse/feeds_refused_decoder.txt" borrow-e0382 \
  "$misuse/feeds_decoder_whose_item_is_lent.txt" borrow-e0499
