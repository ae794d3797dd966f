#!/usr/bin/env bash
# Measures the evaluation of a loop of about a hundred million units, of one that assigns a variable of the process under a mark, and the same in Python where it is.
source "$(dirname "${BASH_SOURCE[0]}")/common.sh"
uses rows_eval bench 1
rounds=${1:-8333333}
# (a round is a test, an addition and an increment, of twelve units together)
units=$((12 * rounds))
# (a round of the assignments is a test and an increment, of seven units together)
assignments=$((24 * rounds / 25))

measure 'Postgrape' "$units" units "$program" bench "$rounds"
measure 'Postgrape, assignments' "$((7 * assignments))" units "$program" assign "$assignments"
command -v python3 >/dev/null || { echo 'no python3 here'; exit 0; }
measure "$(python3 --version)" "$units" units python3 -c '
import sys
n = int(sys.argv[1])
i = 0
s = 0
while i < n:
    s = s + i
    i = i + 1
print(s)
' "$rounds"
measure "$(python3 --version), assignments" "$((7 * assignments))" units python3 -c '
import sys
def run(n):
    i = 0
    while i < n:
        i = i + 1
    return i
print(run(int(sys.argv[1])))
' "$assignments"
