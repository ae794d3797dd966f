# What the tests of this folder share. A test begins with
#   source "$(dirname "${BASH_SOURCE[0]}")/common.sh"
# calls 'same', 'has' and 'ends' as often as it likes, and ends with 'done_testing'.
# shellcheck shell=bash disable=SC2034
set -u
top=$(cd "$(dirname "${BASH_SOURCE[0]}")/../.." && pwd) || exit 2
scratch=$(mktemp -d "${TMPDIR:-/tmp}/poosl-test-XXXXXX") || exit 2
trap 'rm -rf "$scratch"' EXIT
export LC_ALL=C
failures=0

# Something is not as it should be. The test goes on, and fails at its end.
wrong() { # what
  failures=$((failures + 1))
  echo "  $*"
}

# Ends the test as one that this machine cannot run.
skip() { # what it lacks
  echo "$*"
  ((failures == 0)) || exit 1
  exit 77
}

# The test cannot do without these commands.
needs() { # commands
  local it
  for it; do
    command -v "$it" >/dev/null || skip "this machine has no $it"
  done
}

# Two texts are the same.
same() { # what they are, the one that is wanted, the one that was had
  [[ $2 == "$3" ]] && return
  wrong "$1: wanted (-), had (+):"
  diff -u <(printf '%s\n' "$2") <(printf '%s\n' "$3") | tail -n +3 | sed 's/^/    /'
}

# A text has a part.
has() { # what it is, the part, the text
  [[ $3 == *"$2"* ]] && return
  wrong "$1: wanted '$2' in:"
  printf '%s\n' "$3" | sed 's/^/    /'
}

# A command ends with a status. What it prints is in $out, what it says on standard error in $err; that is
# without the LFs at their end, and whole in the files $scratch/out and $scratch/err.
ends() { # status, command and its words
  local wanted=$1 status
  shift
  "$@" >"$scratch/out" 2>"$scratch/err"
  status=$?
  # (an output that is no text has bytes 0, which a variable cannot hold)
  out=$(tr -d '\0' <"$scratch/out") err=$(tr -d '\0' <"$scratch/err")
  [[ $status == "$wanted" ]] && return
  wrong "$*: wanted status $wanted, had $status; it said:"
  sed 's/^/    /' "$scratch/err"
}

# A launcher in a place of its own, as 'install' makes it, over the program that is given; its path is
# in $launcher. So a test need not wait for a proof, and can say what the program prints.
installed() { # program
  mkdir -p "$scratch/installed"/{bin,libexec/poosl,share}
  cp "$top/poosl" "$scratch/installed/bin/poosl"
  ln -sfn "$top/share/poosl" "$scratch/installed/share/poosl"
  cp "$1" "$scratch/installed/libexec/poosl/poosl_run"
  cp "$1" "$scratch/installed/libexec/poosl/poosl_debug"
  launcher=$scratch/installed/bin/poosl
}

# A clone with a few small crates, in $clone, and an rt of its own on the PATH that proves nothing: it notes how
# it was called in $scratch/calls, and what it builds prints the first line of each crate's src/lib.rt. Where
# $scratch/fails is there, its checks fail; $scratch/meanwhile is run while it checks.
cloned() {
  local it
  needs git flock
  clone=$scratch/clone
  mkdir -p "$clone/crates" "$scratch/bin"
  cp -r "$top/poosl" "$top/share" "$clone/"
  mkdir "$clone/docs" && cp "$top/docs/poosl.1" "$clone/docs/"
  printf '# crates\npoosl_run: pz_high\npoosl_debug: pz_low\npz_high: pz_low std\npz_low:\nother: pz_low\n' >"$clone/crates.txt"
  for it in poosl_run poosl_debug pz_high pz_low other; do
    mkdir -p "$clone/crates/$it"/{src,specs,proofs}
    echo "// $it" >"$clone/crates/$it/src/lib.rt"
    echo "-- $it" >"$clone/crates/$it/specs/Lib.antt"
  done
  cat >"$scratch/bin/rt" <<'R'
#!/usr/bin/env bash
echo "$*" >>"$SCRATCH/calls"
case $1 in
  version) echo 'kit-of-a-test' ;;
  all)
    [[ ! -e $SCRATCH/meanwhile ]] || source "$SCRATCH/meanwhile"
    if [[ -e $SCRATCH/fails ]]; then
      printf '== pz_low\nerror: it is wrong\npz_low: failed (1)\n'
      exit 1
    fi
    for it in pz_low pz_high poosl_run poosl_debug; do
      mkdir -p "../$it/out/rlib"
      touch "../$it/out/rlib/stamp"
      echo "== $it"
    done
    ;;
  run)
    mkdir -p out
    it=out/$(basename "$PWD")
    { echo '#!/bin/sh'; echo 'echo "$@"'; for lib in ./src/lib.rt ../pz_*/src/lib.rt; do echo "echo '$(head -n 1 "$lib")'"; done; } >"$it"
    chmod +x "$it"
    ;;
  *) exit 2 ;;
esac
R
  chmod +x "$scratch/bin/rt"
  export SCRATCH=$scratch PATH=$scratch/bin:$PATH
}

# How often it was called to prove.
proofs() {
  cat "$scratch/calls" 2>/dev/null | grep -c '^all check'
}

# The proved program, built from the sources as they stand: its path is in $program. Where there is none,
# the test is skipped, or, if POOSL_UNPROVED names a program, that one is tested.
proved() {
  program=${POOSL_UNPROVED:-$("$top/share/poosl/program" 2>/dev/null)} || skip "the program is not proved here: ./poosl proves it"
}

causes=$top/share/poosl/causes
# The entries of the file of causes of a sort, a line each: the fields that are named, separated by tabs.
entries() { # sort, words of fields, or 'entry' for the name
  awk -v of="$1" -v words="${*:2}" -f "$top/share/poosl/entries.awk" -f <(cat <<'A'
    END {
        n = split(words, word, " ")
        for (i = 1; i <= entries; i++)
            if (sort[i] == of)
                for (k = 1; k <= n; k++)
                    printf "%s%s", (word[k] == "entry" ? name[i] : field[i, word[k], 1]), (k < n ? "\t" : "\n")
    }
A
  ) "$causes"
}

# The last line of a test.
done_testing() {
  exit $((failures > 0))
}
