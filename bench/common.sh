# What the benches share. A bench is a script whose first comment says what it measures. It sources this file,
# says by 'uses' which program it wants, and measures each case by 'measure', or by 'spend' and 'report' where
# something is to be taken off. Each case gives a line. Whatever fails ends the bench, with a status that is not 0.
# shellcheck shell=bash
set -euo pipefail
top=$(cd "$(dirname "${BASH_SOURCE[0]}")/.." && pwd)
bench=$(basename "$0" .sh)
room=$(mktemp -d)
trap 'rm -rf "$room"' EXIT
trap 'echo "bench/$bench: failed in line $LINENO" >&2' ERR
export LC_ALL=C

fail() { # why
  trap - ERR
  echo "bench/$bench: $*" >&2
  exit 1
}

[[ $(/usr/bin/time --version 2>&1 || true) == *GNU* ]] || fail "GNU time is wanted as /usr/bin/time (apt-get install time)"

# Builds the program of a crate, proved, with words for one short run of it; its path is in $program.
# BENCH_PROGRAMS names a folder of other programs, so that a bench can be tried before anything is proved.
uses() { # crate, words
  local crate=$1
  shift
  program=$top/crates/$crate/out/$crate
  if [[ -n ${BENCH_PROGRAMS:-} ]]; then
    program=$BENCH_PROGRAMS/$crate
  elif [[ $crate == poosl_run ]]; then
    "$top/poosl" check "$top/models/first.poosl" >/dev/null || fail "./poosl builds no program"
    program=$("$top/share/poosl/program") || fail "there is no proved program"
  else
    (cd "$top/crates/$crate" && rt run -- "$@" </dev/null) >"$room/built" 2>&1 || { tail -n 20 "$room/built" >&2; fail "$crate is not built"; }
  fi
  [[ -x $program ]] || fail "there is no program $program"
}

# Runs a command: $seconds are those of the processor, for the command and in the system, $kilobytes the most
# memory that it had at once, and $room/out is what it printed.
spend() { # command
  local user system status=0
  /usr/bin/time -q -o "$room/time" -f '%U %S %M' "$@" >"$room/out" 2>"$room/err" </dev/null || status=$?
  ((status == 0)) || { tail -n 5 "$room/err" >&2; fail "status $status of: $*"; }
  read -r user system kilobytes <"$room/time"
  seconds=$(awk -v u="$user" -v s="$system" 'BEGIN { printf "%.2f", u + s }')
}

# One number less another, and not below 0.
less() { awk -v a="$1" -v b="$2" 'BEGIN { printf "%.2f", (a > b ? a - b : 0) }'; }

# A number for readers, to three digits: 1,230,000 or 0.0123 (in awk).
# shellcheck disable=SC2016,SC2034
nice='function nice(x,   power, s, i, text) {
  if (x <= 0) return "0"
  power = 1
  while (x / power >= 1000) power *= 10
  if (power == 1 && x < 100) return sprintf(x < 1 ? "%.3f" : x < 10 ? "%.2f" : "%.1f", x)
  s = sprintf("%.0f", int(x / power + 0.5) * power)
  for (i = length(s); i > 3; i -= 3) text = "," substr(s, i - 2, 3) text
  return substr(s, 1, i) text
}'

# The line of a case. What took less than a tenth of a second tells no speed.
report() { # case, amount, unit, seconds, kilobytes
  [[ $2 =~ ^[1-9][0-9]*$ && $4 =~ ^[0-9.]+$ && $5 =~ ^[0-9]+$ ]] || fail "$1: these are no figures: $*"
  if [[ -n ${BENCH_RESULTS:-} ]]; then
    (IFS=$'\t' && echo "$bench	$*") >>"$BENCH_RESULTS"
  fi
  awk -v c="$1" -v a="$2" -v u="$3" -v s="$4" -v k="$5" "$nice"'BEGIN {
    printf "%s: %s %s in %.2f s, %.0f MB", c, a, u, s, k / 1000
    if (s >= 0.1) print ", " nice(a / s) " " u " a second"; else print ", too short to tell a speed"
  }'
}

# Runs a command as a case.
measure() { # case, amount, unit, command
  local case=$1 amount=$2 unit=$3
  shift 3
  spend "$@"
  report "$case" "$amount" "$unit" "$seconds" "$kilobytes"
}

# So many pieces of text, each with its number for % and the number before it for @.
pieces() { # count, piece
  # (gsub would take mawk a time that grows with the square of the count)
  awk -v count="$1" -v piece="$2" 'BEGIN {
    n = split(piece, part, /[%@]/)
    at = 0
    for (k = 1; k < n; k++) { at += length(part[k]) + 1; back[k] = (substr(piece, at, 1) == "@") }
    for (i = 1; i <= count; i++) {
      line = part[1]
      for (k = 1; k < n; k++) line = line (i - back[k]) part[k + 1]
      printf "%s", line
    }
  }'
}

# A front end's topic on the model that a file of $room has, as a case: bytes of its text.
measure_text() { # case, topic
  measure "$1" "$(wc -c <"$room/$1")" bytes "$program" rows "$2" "$room/$1"
  # (the topic says something of the model, and nothing is wrong with it but what the bench means)
  [[ $(wc -l <"$room/out") -ge 2 ]] || fail "$1: the program says nothing of it"
}
