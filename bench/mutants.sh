#!/usr/bin/env bash
# Looks for faults: tries the program on texts that nobody would write, models and traces with bytes changed, cut out,
# doubled, nested, with other words and with numbers at the ends of their types. It fails where the program crashes,
# takes longer than its limit, answers with a status that is not to be had there, or answers otherwise the second
# time.
#
#   bench/mutants.sh [--seed S] [--first I] [COUNT]    so many mutants, 1,000 if not given, from number I of the seed on
#
# A mutant is one of the files that a command line of crates/rows_run names, changed by bench/mutants.py, under the
# words of that line. Its number and the seed, which is printed, make it again. Mutants that are found go to out/mutants.
#
# It takes the proved program where there is one, or that of the folder that BENCH_PROGRAMS names. Else rt compiles
# the sources as they stand, with checks of its own, and runs that, as './poosl now' does.
source "$(dirname "${BASH_SOURCE[0]}")/common.sh"

seed='' first=0 count=1000
# how long one may take, in seconds, and how many are made and tried at a time
most=60 at_once=2000
while (($#)); do
  case $1 in
    --seed) seed=${2:-}; shift 2 ;;
    --first) first=${2:-}; shift 2 ;;
    *) count=$1; shift ;;
  esac
done
[[ $first =~ ^[0-9]+$ && $count =~ ^[1-9][0-9]*$ ]] || { sed -n '2,/^source/s/^# \{0,1\}//p' "$0" >&2; exit 2; }
seed=${seed:-$(date +%s)}
data=$top/crates/rows_run/data
lines=$top/crates/rows_run/stdin
found=$top/out/mutants
if [[ -n ${BENCH_PROGRAMS:-} ]]; then
  program=$BENCH_PROGRAMS/poosl_run
  [[ -x $program ]] || fail "there is no program $program"
else
  program=$("$top/share/poosl/program") || program=''
fi
echo "seed $seed, mutants $first to $((first + count - 1)), of ${program:-a program that rt compiles now}"

# The answers of the program to each case in $room/cases, by two runs of each: a line 'NAME STATUS SUM' in
# $room/answers.1 and in $room/answers.2.
answer_directly() {
  local name pass status words
  for name in $(cd "$room/cases" && ls -- *.args); do
    name=${name%.args}
    mapfile -t words <"$room/cases/$name.args"
    for pass in 1 2; do
      status=0
      (cd "$data" && timeout -k 1 "$most" "$program" "${words[@]/#\{\}/$room/cases/$name}") >"$room/out" 2>&1 </dev/null || status=$?
      echo "$name $status $(md5sum <"$room/out")" >>"$room/answers.$pass"
    done
  done
}

# The same where rt compiles the program and runs it: it tells each case in a line, and prints what each printed
# under its name. The two runs of a mutant are two cases there, run1.NAME and run2.NAME.
answer_by_rt() {
  local it pass given=()
  for it in "$data"/*; do given+=(--data "${it##*/}=$it"); done
  (cd "$top/crates/poosl_run" && rt try --cases "$room/cases" --seconds "$most" "${given[@]}") >"$room/out" 2>"$room/err" </dev/null || true
  grep -q '^cases=' "$room/err" || { tail -n 20 "$room/err" >&2; fail 'rt gave no answers'; }
  mkdir "$room/printed"
  (
    cd "$room/printed"
    awk '/^== run[12]\.[0-9]+$/ { if (name != "") close(name); name = $2; next } { print >name }' "$room/out"
    sed -n 's/^case=\(run[12]\.[0-9]*\) .*/\1/p' "$room/err" | xargs touch
    find . -type f -printf '%f\n' | xargs md5sum >"$room/sums"
  )
  for pass in 1 2; do
    awk -v before="run$pass." '
      NR == FNR { sum[$2] = $1; next }
      index($1, "case=" before) == 1 {
        name = substr($1, 6)
        status = $3
        if (sub(/^status=/, "", status) == 0) status = substr($2, 5)
        print substr(name, 6), status, sum[name], "-"
      }' "$room/sums" "$room/err" >"$room/answers.$pass"
  done
}

# Whether one of the files that a case names is not there.
lacks_a_file() { # name
  local it
  while read -r it; do
    [[ $it != *.* || -e $data/$it ]] || return 0
  done <"$room/cases/${befores[0]-}$1.args"
  return 1
}

# What is wrong with the answers of a case: nothing where it is empty. Neither want of memory nor a failing output
# has a reason here; a file that cannot be read is not there, watches are those of a watch, and a file that is too long
# is longer than its limit.
wrong_with() { # name, status and sum of the first run, those of the second
  local size job
  size=$(wc -c <"$room/cases/${befores[0]-}$1")
  job=$(head -n 1 "$room/cases/${befores[0]-}$1.args")
  if [[ $2 != "$4" || $3 != "$5" ]]; then
    echo "two answers: status $2, and then $4"
  elif [[ $2 == 8 ]] && lacks_a_file "$1"; then
    return
  elif [[ $2 =~ ^1[12]$ && $job == watch ]]; then
    return
  elif [[ ! $2 =~ ^[0-7]$ ]]; then
    echo "status $2"
  elif [[ $2 == 7 ]] && ((size <= 8388608)); then
    echo "too long, of $size bytes"
  fi
}

tried=0 bad=0
: >"$room/statuses"
while ((tried < count)); do
  some=$((count - tried < at_once ? count - tried : at_once))
  # (each call of rt compiles anew, so it gets all)
  [[ -n $program ]] || some=$count
  rm -rf "$room/cases" "$room/printed" "$room"/answers.*
  mkdir "$room/cases"
  befores=()
  [[ -n $program ]] || befores=(run1. run2.)
  python3 "$top/bench/mutants.py" "$seed" "$((first + tried))" "$some" "$lines" "$data" "$room/cases" "${befores[@]}"
  if [[ -n $program ]]; then answer_directly; else answer_by_rt; fi
  [[ $(wc -l <"$room/answers.1") == "$some" && $(wc -l <"$room/answers.2") == "$some" ]] || fail "there are not $some answers"
  while read -r name status sum _ _ again sum_again _; do
    why=$(wrong_with "$name" "$status" "$sum" "$again" "$sum_again")
    echo "$status" >>"$room/statuses"
    if [[ -n $why ]]; then
      bad=$((bad + 1))
      mkdir -p "$found"
      cp "$room/cases/${befores[0]-}$name" "$found/$name"
      cp "$room/cases/${befores[0]-}$name.args" "$found/$name.args"
      echo "mutant $name of seed $seed: $why; words: $(tr '\n' ' ' <"$found/$name.args")"
    fi
  done < <(paste -d ' ' <(sort "$room/answers.1") <(sort "$room/answers.2"))
  tried=$((tried + some))
  echo "$tried tried, $bad found; statuses: $(sort "$room/statuses" | uniq -c | awk '{ printf "%s%s of %s", (NR > 1 ? ", " : ""), $1, $2 }')"
done
((bad == 0)) || fail "$bad of $count mutants of seed $seed were answered wrongly; they lie in $found"
