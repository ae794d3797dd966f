#!/usr/bin/env bash
# Looks for faults: refuses each growth of memory in turn, of some jobs of the program, and of unpacking a parcel and
# undoing changes. It says how many there were, and fails where one that was refused gave anything but want of memory,
# with a front of the output and a state as before, or the whole answer.
#
#   bench/failures.sh [LINE..]      each line a job, as 'run first.poosl', over the files of crates/rows_run/data
#
# Without a line it takes a run with a choice, one with objects in messages and one that is long, and then the parcel
# and the changes. Of jobs it takes the proved program, or that of the folder that BENCH_PROGRAMS names, and refuses
# by a library in the place of malloc and realloc (that wants cc). Parcels and changes have a small program here,
# which stands in no crate, so that the gate does not prove it: rt compiles it anew for each growth.
source "$(dirname "${BASH_SOURCE[0]}")/common.sh"
uses poosl_run
data=$top/crates/rows_run/data
lines=('run same_instant.poosl --choices 0,1' 'run cyclic_objects.poosl' 'run lost_item.poosl')
(($# == 0)) || lines=("$@")

cat >"$room/refusing.c" <<'END'
#include <stdio.h>
#include <stdlib.h>

extern void *__libc_malloc(size_t);
extern void *__libc_realloc(void *, size_t);
extern void *__libc_calloc(size_t, size_t);

/* Growths are counted from 1. The one that REFUSED names is refused, and how many there were goes to MADE. */
static unsigned long made, refused;

__attribute__((constructor)) static void begin(void) {
  const char *it = getenv("REFUSED");
  refused = it ? strtoul(it, 0, 10) : 0;
  made = 0;
}
__attribute__((destructor)) static void end(void) {
  unsigned long before = made;
  const char *it = getenv("MADE");
  FILE *file = it ? fopen(it, "w") : 0;
  if (file) {
    fprintf(file, "%lu\n", before);
    fclose(file);
  }
}
void *malloc(size_t size) { return ++made == refused ? 0 : __libc_malloc(size); }
void *calloc(size_t count, size_t size) { return ++made == refused ? 0 : __libc_calloc(count, size); }
void *realloc(void *old, size_t size) { return ++made == refused ? 0 : __libc_realloc(old, size); }
END
cc -shared -fPIC -O2 -o "$room/refusing.so" "$room/refusing.c" || fail 'cc makes no library'

# Does the job of $words, in the folder of the files, with this growth refused; none where it is 0.
refuse() { # growth, file for what is printed
  status=0
  (cd "$data" && timeout 60 env REFUSED="$1" MADE="$room/made" LD_PRELOAD="$room/refusing.so" "$program" "${words[@]}") >"$2" 2>&1 </dev/null || status=$?
  made=$(cat "$room/made")
}

for line in "${lines[@]}"; do
  read -ra words <<<"$line"
  refuse 0 "$room/whole"
  growths=$made ends=$status wanting=0 whole=0
  ((growths > 0)) || fail "$line: no growth was counted"
  for ((n = 1; n <= growths; n++)); do
    refuse "$n" "$room/front"
    if ((status == ends)) && cmp -s "$room/whole" "$room/front"; then
      whole=$((whole + 1))
    elif ((status == 10)) && cmp -s "$room/front" <(head -c "$(wc -c <"$room/front")" "$room/whole"); then
      wanting=$((wanting + 1))
    elif ((status == 99)) && [[ ! -s $room/front ]]; then
      # (the words of the command line could not be had)
      wanting=$((wanting + 1))
    else
      fail "$line: status $status where growth $n is refused, and this output: $(head -c 300 "$room/front")"
    fi
  done
  echo "$line: $growths growths; refused, $wanting gave want of memory, and $whole the whole answer"
done
(($# == 0)) || exit 0

# A clone with one more crate. It ends with 0 and prints nothing where all was done, and with 10 where memory was
# wanting and the state is as before; else it prints what is wrong.
mkdir -p "$room/clone/crates/failures/src"
for it in "$top"/crates/*; do
  mkdir "$room/clone/crates/${it##*/}"
  for part in src specs proofs; do
    [[ ! -d $it/$part ]] || cp -R "$it/$part" "$room/clone/crates/${it##*/}"
  done
done
{ cat "$top/crates.txt"; echo 'failures: pz_copy pz_state pz_value'; } >"$room/clone/crates.txt"
cat >"$room/clone/crates/failures/src/main.rt" <<'END'
#![tactic(auto)]

use pz_copy::{pack, unpack};
use pz_state::State;
use pz_value::{ClassId, Value};
use std::alloc::Global;
use std::process::ExitCode;

#[derive(Drop)]
enum Came {
    Whole,
    Wanting,
    Wrong(&'static str),
}

fn all_nil(state: &State) -> bool {
    for r in 0..state.objects() {
        if !state.object(r).items().iter().all(|it| matches!(it, Value::Nil)) {
            return false;
        }
    }
    true
}

// Two objects that name each other, packed, and unpacked into a state with five objects.
fn unpack_pair(alloc: Global) -> Option<Came> {
    let mut source = State::new(alloc, Vec::new(alloc));
    let mut state = State::new(alloc, Vec::new(alloc));
    for _object in 0..2 {
        source.make(ClassId(1), 2).ok()?;
    }
    for _object in 0..5 {
        state.make(ClassId(1), 2).ok()?;
    }
    source.set_item(0, 0, Value::Ref(1)).ok()?;
    source.set_item(0, 1, Value::Int(1)).ok()?;
    source.set_item(1, 0, Value::Ref(0)).ok()?;
    source.set_item(1, 1, Value::Int(2)).ok()?;
    let parcel = pack(alloc, &source, &[Value::Ref(0), Value::Ref(1)]).ok()?;
    Some(match unpack(alloc, &mut state, &parcel) {
        Ok(values) => match values.as_slice() {
            [Value::Ref(5), Value::Ref(6)] if state.objects() == 7 => Came::Whole,
            _ => Came::Wrong("other values"),
        },
        Err(_) if state.objects() == 5 && all_nil(&state) => Came::Wanting,
        Err(_) => Came::Wrong("a state that was changed"),
    })
}

// Changes a state behind a mark, as far as memory is there, and undoes that.
fn undo_changes(alloc: Global) -> Option<Came> {
    let mut variables = Vec::new(alloc);
    variables.push(Value::Nil).ok()?;
    let mut state = State::new(alloc, variables);
    let point = state.mark().ok()?;
    let set = state.set_var(0, Value::Int(4)).is_ok();
    let made = state.make(ClassId(1), 2).is_ok();
    state.undo_to(point);
    Some(if !matches!(state.var(0), Value::Nil) || state.objects() != 0 {
        Came::Wrong("a change that was not undone")
    } else if set && made {
        Came::Whole
    } else {
        Came::Wanting
    })
}

// Both, one after the other: at most one of them wants memory, since one growth is refused.
fn both(alloc: Global) -> Option<Came> {
    let unpacked = unpack_pair(alloc);
    let undone = undo_changes(alloc);
    match (unpacked, undone) {
        (Some(Came::Wrong(what)), _) | (_, Some(Came::Wrong(what))) => Some(Came::Wrong(what)),
        (Some(Came::Whole), Some(Came::Whole)) => Some(Came::Whole),
        _ => Some(Came::Wanting),
    }
}

fn main(rt: HostRuntime) -> ExitCode {
    match both(rt.alloc()) {
        Some(Came::Whole) => ExitCode::from(0),
        Some(Came::Wanting) | None => ExitCode::from(10),
        Some(Came::Wrong(what)) => {
            let _ = println!(rt; "{what}");
            ExitCode::from(0)
        }
    }
}
END

# Does all that with this growth refused: $status is what it ended with, and $growths how many there were where
# there is no such growth.
try_parcel() { # growth
  status=0
  (cd "$room/clone/crates/failures" && rt try --fail-alloc "$1") >"$room/out" 2>"$room/err" </dev/null || status=$?
  grep -q '^run=ended ' "$room/err" || { tail -n 5 "$room/err" >&2; fail "$what: rt gave no answer"; }
  [[ ! -s $room/out ]] || fail "$what: $(cat "$room/out") where growth $1 is refused"
  growths=$(sed -n 's/^allocations: //p' "$room/err")
}

what='a parcel that is unpacked, and changes that are undone'
try_parcel 1000000
[[ $status == 0 && $growths =~ ^[1-9][0-9]*$ ]] || fail "$what: status $status where none is refused, of ${growths:-no} growths"
most=$growths wanting=0 whole=0
for ((n = 1; n <= most; n++)); do
  try_parcel "$n"
  case $status in
    0) whole=$((whole + 1)) ;;
    10) wanting=$((wanting + 1)) ;;
    *) fail "$what: status $status where growth $n is refused" ;;
  esac
done
echo "$what: $most growths; refused, $wanting gave want of memory and a state as before, and $whole all that was to be done"
