#!/usr/bin/env bash
# Looks for faults: takes models on execution trees and on the plain simulator at once, and compares them at each
# step. It fails at the first difference, which it prints with the model and the step.
#
#   bench/trees.sh [FROM TO [STEPS]]    models made at random by the seeds from FROM to below TO, 1 to 21 if not given,
#                                       so many steps each (100)
#
# Before them come models by hand (bench/trees/models), those of models/, and those of crates/rows_run that a line
# replays a trace of. Each is taken by both editions of the rules.
#
# At each moment the internal actions of each tree, its sends and receives, the verdicts, the first trouble and what is
# due are held against moment and offers of the plain simulator. Then the same step is taken on both; what acts on a
# tree is tried before. The program is of bench/trees; rt compiles it over the sources as they stand, with checks of its
# own and no proof. What trees cost is not looked at.
source "$(dirname "${BASH_SOURCE[0]}")/common.sh"

from=${1:-1} to=${2:-21} steps=${3:-100}
if ! [[ $from$to$steps =~ ^[0-9]+$ ]] || ((from >= to)); then
  sed -n '2,/^source/s/^# \{0,1\}//p' "$0" >&2
  exit 2
fi
most=3000 # seconds

# a clone with one more crate
mkdir -p "$room/clone/crates/trees/src"
for it in "$top"/crates/*; do
  mkdir "$room/clone/crates/${it##*/}"
  for part in src specs proofs; do
    [[ ! -d $it/$part ]] || cp -R "$it/$part" "$room/clone/crates/${it##*/}"
  done
done
cp "$top/HANDLES" "$room/clone"
{
  cat "$top/crates.txt"
  echo 'trees: pz_tree pz_tree_acting pz_io pz_choice pz_run_reading pz_term pz_term_processes pz_rules pz_bind pz_classes_openings pz_classes pz_nodes pz_offer pz_copy pz_syntax pz_state'
} >"$room/clone/crates.txt"
for it in "$top"/bench/trees/*.rt.in; do
  name=${it##*/}
  cp "$it" "$room/clone/crates/trees/src/${name%.in}"
done

# Each line asks for a model: its file, how many steps, how often by other choices.
given=()
ask() { # file, steps, times
  given+=(--data "${1##*/}=$1")
  echo "${1##*/} $2 $3" >>"$room/asked"
}
for it in "$top"/bench/trees/models/*.poosl; do ask "$it" 60 4; done
for it in "$top"/models/*.poosl; do ask "$it" 80 1; done
echo 'delays 1000 12' >>"$room/asked"
while read -r _ it; do
  [[ -e $top/models/$it || ! -e $top/crates/rows_run/data/$it ]] || ask "$top/crates/rows_run/data/$it" 80 1
done < <(grep -o '^replay [a-z_0-9]*\.poosl' "$top/crates/rows_run/stdin" | sort -u)
echo "random $from $to $steps" >>"$room/asked"

status=0
(cd "$room/clone/crates/trees" && rt try --steps 1000 --seconds "$most" "${given[@]}" <"$room/asked") >"$room/out" 2>"$room/err" || status=$?
cat "$room/out"
((status == 0)) || { tail -n 5 "$room/err" >&2; fail "status $status"; }
echo "no difference"
