#!/usr/bin/env bash
# Measures a table of pairs beside 10 to 10,000 receivers: updates, also beside a condition and of it, and pairs sought by number.
source "$(dirname "${BASH_SOURCE[0]}")/common.sh"
uses rows_match updates 1 0

# What stands there before is timed by itself, and taken off.
times_each=${1:-2000000}
for receivers in 10 100 1000 10000; do
  for case in "updates $times_each updates" "again $times_each updates that change nothing" "nearly $times_each updates in which one offer of ten changes" "conditions $times_each updates beside a condition" "askers $times_each updates of a condition" "pairs $times_each pairs sought" "ring $times_each pairs sought on wires of their own"; do
    read -r words times what <<<"$case"
    spend "$program" "$words" "$receivers" 0
    begun=$seconds
    spend "$program" "$words" "$receivers" "$times"
    grep -q "^$times done" "$room/out" || fail "$words did not do $times"
    report "$what, $receivers receivers" "$times" "${what%% *}" "$(less "$seconds" "$begun")" "$kilobytes"
  done
done
