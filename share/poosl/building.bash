# What the launcher sources in a clone, $here: which program is proved from the sources as they stand, and
# how one is proved and built. It is poosl_run, or what $builds says.
# shellcheck shell=bash
: "${here:?}" "${builds:=poosl_run}"
top=$here/crates/$builds
log=$top/build.log
# The programs that were proved, each with the checksums of what it was proved from, in a folder of their sum.
kept=$here/out/poosl
started=$kept/started

# The crates that the program needs, itself first: those that crates.txt leads to from its line.
declare -A below=()
while IFS=: read -r name uses; do
  below[${name%% *}]=$uses
done < <(sed -n 's/#.*//; /:/p' "$here/crates.txt")
needed=("$builds")
for ((i = 0; i < ${#needed[@]}; i++)); do
  for it in ${below[${needed[i]}]}; do
    # (what has no line is a library of the toolchain)
    [[ -v below[$it] && " ${needed[*]} " != *" $it "* ]] && needed+=("$it")
  done
done

# The lines of crates.txt on these crates, and the checksum of each file that the program is proved from.
checksums() {
  local it
  for it in "${needed[@]}"; do
    echo "$it:${below[$it]}"
  done
  (cd "$here/crates" && find "${needed[@]/%//src}" "${needed[@]/%//specs}" "${needed[@]/%//proofs}" -type f -print0 2>/dev/null |
    LC_ALL=C sort -z | xargs -0 sha256sum)
}

# Which program goes with the sources as they stand, whether it is there or not.
sum='' program=''
look_up() {
  sum=$(checksums | sha256sum)
  sum=${sum%% *}
  program=$kept/$sum/$builds
}

# Whether it is not there.
is_stale() {
  look_up
  [[ ! -x $program ]] && ! { is_gates && keep; }
}

# Whether the gate has proved it, which leaves no checksums: no crate has a file that is newer than what was
# made of the crate.
is_gates() {
  local it made
  [[ -x $top/out/$builds && ! $here/crates.txt -nt $top/out/$builds ]] || return 1
  for it in "${needed[@]}"; do
    made=$here/crates/$it/out/rlib
    [[ $it != "$builds" ]] || made=$top/out/$builds
    [[ -e $made && -z $(find "$here/crates/$it"/{src,specs,proofs} -newer "$made" -print -quit 2>/dev/null) ]] || return 1
  done
}

# Keeps what was built as this program, with its checksums and the toolchain that proved it. Of all that
# are kept the last eight stay.
keep() {
  local room it
  mkdir -p "$kept" && room=$(mktemp -d "$kept/new-XXXXXX") || return 1
  checksums >"$room/checksums" && cp "$top/out/$builds" "$room/$builds" && chmod 755 "$room" &&
    { rt version 2>/dev/null || echo 'a toolchain that is not on the PATH'; } >"$room/kit" &&
    # (another call may have kept the same)
    { [[ -x $program ]] || mv -T "$room" "$kept/$sum"; }
  rm -rf "$room"
  # shellcheck disable=SC2012
  for it in $(cd "$kept" && ls -dt -- */ | tail -n +9); do
    rm -rf "${kept:?}/$it"
  done
  [[ -x $program ]]
}

# The commit of the clone, with a word where its files differ from it.
commit() {
  git -C "$here" describe --always --dirty=', with changes' --exclude '*' 2>/dev/null || echo 'that is not known'
}

# How many crates rt works on at once. Some of them wait for others, so there are more of them than
# processors: two for each, and no more than one for each 3 GB of free memory.
at_once() {
  local most free
  most=$((2 * $(nproc)))
  free=$(awk '/^MemAvailable:/ { print int($2 / 3000000) }' /proc/meminfo)
  ((free < most)) && most=$free
  echo "$((most < 1 ? 1 : most))"
}

# Notes for a crate and those below it how many lines the longest chain from it up to the program has.
declare -A size=() chain=()
measure() { # crate, lines above it
  local it lines
  [[ -v size[$1] ]] || size[$1]=$(find "$here/crates/$1/src" -name '*.rt' -exec cat {} + | wc -l)
  lines=$(($2 + size[$1]))
  ((lines > ${chain[$1]:-0})) || return 0
  chain[$1]=$lines
  for it in ${below[$1]}; do
    [[ -v below[$it] ]] && measure "$it" "$lines"
  done
}

length_of() { # seconds
  if (($1 < 60)); then echo "$1 s"; else echo "$((($1 + 30) / 60)) min"; fi
}

# Notes how far the build is. rt says '== NAME' of a crate that is done, and has written no stamp for
# one in hand. What is left is guessed from the longest chain of crates that wait for one another:
# 'due' is when it ends if the rest goes as what was proved so far.
whole=0 left=0 due=0 ended='' state=''
look() {
  local it rlib hand='' count=0 before=$left
  ended=" $(sed -n 's/^== //p' "$log" | tr '\n' ' ')"
  left=0
  for it in "${needed[@]}"; do
    rlib=$here/crates/$it/out/rlib
    if [[ $ended == *" $it "* ]]; then
      count=$((count + 1))
    else
      ((chain[$it] > left)) && left=${chain[$it]}
      [[ $rlib -nt $started && ! -e $rlib/stamp ]] && hand+=" $it"
    fi
  done
  ((count < ${#needed[@]} - 1)) || hand=" $builds"
  # (what an earlier build left is done at once, and tells nothing of the pace)
  ((whole || SECONDS < 5)) || whole=$left
  # (and the first crates tell little: before a tenth of the chain is done nothing is guessed)
  ((left == before || whole <= left || 10 * (whole - left) < whole)) || due=$((SECONDS * whole / (whole - left)))
  state="in hand:${hand:- the sources}; $count of ${#needed[@]} crates done, $(length_of $SECONDS) so far"
  ((due <= SECONDS)) || state+=", about $(length_of $((due - SECONDS))) left"
}

# Shows it: on a terminal over the line before, else a line for each crate that was proved.
shown=' '
show() {
  local it
  look
  if [[ -t 2 ]]; then
    it="poosl: $state"
    printf '\r\033[K%s' "${it:0:$(($(tput cols 2>/dev/null || echo 80) - 1))}" >&2
    return
  fi
  for it in $ended; do
    if [[ $shown != *" $it "* && $here/crates/$it/out/rlib/stamp -nt $started ]]; then
      shown+="$it "
      echo "poosl: $it proved; $state" >&2
    fi
  done
}

# Proves what has changed and all above it, so many crates at once. That is one run of rt, which lets
# no other work in the same crates; where this script ends first, it ends too.
prove() { # how many
  (cd "$top" && exec "$here/share/poosl/rt-once" all check --jobs "$1") >"$log" 2>&1 &
  local run=$!
  # shellcheck disable=SC2064
  trap "kill $run 2>/dev/null" EXIT
  while kill -0 "$run" 2>/dev/null; do
    show
    sleep 1
  done
  show
  trap - EXIT
  wait "$run"
}

fail() {
  local crate
  crate=$(sed -n 's/^\(.*\): failed (.*/\1/p' "$log" | head -n 1)
  [[ -t 2 ]] && echo >&2
  echo "poosl: ${crate:-the program} was not built; the last lines of $log on it:" >&2
  # (where no crate failed, something did before any was begun)
  [[ -z $crate ]] || crate="/^== $crate\$/,/^== /"
  sed -n "${crate}p" "$log" | grep -Ev '^(== |logic /|library |statements |checked )' | tail -n 20 >&2
  exit 2
}

build() {
  local before=$sum
  command -v rt >/dev/null || { echo "poosl: rt, the toolchain's command, is not on the PATH" >&2; exit 2; }
  echo "poosl: proving and building the program; that is done once, and again only after a change of its sources" >&2
  echo "poosl: to have a look meanwhile, in another terminal: 'poosl now run MODEL ..' takes some minutes, and proves nothing" >&2
  touch "$started"
  measure "$builds" 0
  SECONDS=0
  # (a check that was killed wants more memory than there was)
  prove "$(at_once)" || { grep -q 'failed (-9)$' "$log" && prove 1; } || fail
  # The run builds it; what it prints is that of a model beside it.
  local words=(run data/first.poosl --first)
  [[ $builds == poosl_run ]] || words=(data/equal.poosl data/commands)
  (cd "$top" && "$here/share/poosl/rt-once" run -- "${words[@]}") >/dev/null 2>>"$log" || fail
  [[ -t 2 ]] && printf '\r\033[K' >&2
  look_up
  if [[ $sum != "$before" ]]; then
    echo "poosl: its sources were changed meanwhile, so it is proved anew" >&2
    build
    return
  fi
  keep || { echo "poosl: the program cannot be kept in $kept" >&2; exit 2; }
  echo "poosl: built in $(length_of $SECONDS)" >&2
}

# Sees to it that 'program' is proved from the sources as they stand.
bring_up_to_date() {
  is_stale || return 0
  mkdir -p "$kept" && exec 9>"$kept/lock" || exit 2
  flock -n 9 || {
    echo "poosl: another call builds the program; waiting for it ('poosl now run MODEL ..' runs it without a proof meanwhile)" >&2
    flock 9
  }
  ! is_stale || build
  exec 9>&-
}
