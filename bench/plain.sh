#!/usr/bin/env bash
# Measures rings of 2, 20 and 200 stations on the plain simulator, which looks at all processes after each event.
source "$(dirname "${BASH_SOURCE[0]}")/common.sh"
uses rows_term ring 2 0

# The first offer is taken each time. The reading of the model is timed as the ring without events, and taken off.
for shape in "2 ${1:-200000}" "20 ${2:-20000}" "200 ${3:-2000}"; do
  read -r stations events <<<"$shape"
  spend "$program" ring "$stations" 0
  begun=$seconds
  spend "$program" ring "$stations" "$events"
  read -r actions _ <"$room/out"
  report "$stations stations" "$actions" actions "$(less "$seconds" "$begun")" "$kilobytes"
done
