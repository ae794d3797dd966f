#!/usr/bin/env bash
# Measures changes of a state under a mark with their undoing, and packing of objects, in states of many sizes.
source "$(dirname "${BASH_SOURCE[0]}")/common.sh"
uses rows_state mixed 1 0

# What stands there before is timed by itself, and taken off.
for bench_of in mixed frames; do
  for size in 1000 1000000; do
    spend "$program" "$bench_of" "$size" 0
    begun=$seconds
    spend "$program" "$bench_of" "$size" 1000000
    what='objects'
    [[ $bench_of == mixed ]] || what='open frames'
    report "changes beside $size $what" 1000000 changes "$(less "$seconds" "$begun")" "$kilobytes"
  done
done
for shape in "1000 0" "100000 0" "10000 10000000"; do
  read -r reached others <<<"$shape"
  spend "$program" parcels "$reached" "$others" 0
  begun=$seconds
  spend "$program" parcels "$reached" "$others" 100
  report "packing $reached of $((reached + others)) objects" "$((100 * reached))" objects "$(less "$seconds" "$begun")" "$kilobytes"
done
