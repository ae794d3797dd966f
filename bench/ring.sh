#!/usr/bin/env bash
# Measures the engine: rings of many stations, what a longer run and its trace take, and the replay of that trace.
source "$(dirname "${BASH_SOURCE[0]}")/common.sh"
uses poosl_run
many=${1:-1} # so many times as much of each

# how many actions the summary of the last run tells
actions() { sed -n 's/^actions \([0-9]*\) .*/\1/p' "$room/out"; }

for stations in 10 200 1000; do
  spend "$program" ring "$stations" --steps "$((many * 100000))"
  report "ring of $stations stations" "$(actions)" actions "$seconds" "$kilobytes"
done
spend "$program" ring 200 --steps "$((many * 400000))"
report 'ring of 200 stations, four times as long' "$(actions)" actions "$seconds" "$kilobytes"

# A run with its trace, and the replay of that. The model is one of those that are handed out.
model=$top/models/lossy_line.poosl
spend "$program" run "$model" --seed 1 --steps "$((many * 200000))"
cp "$room/out" "$room/trace"
lines=$(wc -l <"$room/trace")
report 'lossy_line, its trace printed' "$lines" lines "$seconds" "$kilobytes"
measure 'the replay of that trace' "$lines" lines "$program" replay "$model" "$room/trace"
