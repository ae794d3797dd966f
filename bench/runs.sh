#!/usr/bin/env bash
# Measures whole runs of the program: rings, a printed trace, a model with objects, and a text of a mebibyte.
source "$(dirname "${BASH_SOURCE[0]}")/common.sh"
uses poosl_run
many=${1:-1} # so many times as much of each

# how many actions the summary of the last run tells
actions() { sed -n 's/^actions \([0-9]*\) .*/\1/p' "$room/out"; }

for shape in "2 200000" "20 100000" "200 100000"; do
  read -r stations steps <<<"$shape"
  spend "$program" ring "$stations" --steps "$((many * steps))"
  report "ring of $stations stations" "$(actions)" actions "$seconds" "$kilobytes"
done
spend "$program" run "$top/models/lossy_line.poosl" --seed 1 --steps "$((many * 50000))" --summary
report 'lossy_line' "$(actions)" actions "$seconds" "$kilobytes"
spend "$program" run "$top/models/lossy_line.poosl" --seed 1 --steps "$((many * 50000))"
report 'lossy_line, its trace printed' "$(grep -c -v ' time ' "$room/out")" actions "$seconds" "$kilobytes"
spend "$program" run "$top/models/brake.poosl" --seed 1 --steps "$((many * 20000))" --summary
report 'brake' "$(actions)" actions "$seconds" "$kilobytes"
{
  printf 'process class P\ninit a()()\nmethods a()()\n'
  for ((i = 0; i < 30800; i++)); do
    printf 'skip;\ndelay %020d;\n' "$((i % 9 + 1))"
  done
  printf 'skip\nsystem instances p : P\n'
} >"$room/long.poosl"
measure 'a text of a mebibyte, checked' "$(wc -c <"$room/long.poosl")" bytes "$program" check "$room/long.poosl"
spend "$program" run "$room/long.poosl" --steps "$((many * 1000))" --summary
report 'a text of a mebibyte, run' "$(actions)" actions "$seconds" "$kilobytes"
