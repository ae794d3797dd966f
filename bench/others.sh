#!/usr/bin/env bash
# Measures two small designs in Postgrape, and in SimPy, SystemC and Spin where they are installed.
source "$(dirname "${BASH_SOURCE[0]}")/common.sh"
uses poosl_run
many=${1:-1} # so many times as much of each
others=$top/bench/others

# A token goes round a ring, one unit of time for each hop.
ring() { # stations
  cat <<'END'
process class Station(first : Boolean)
ports left, right
messages left?token(Integer), right!token(Integer)
variables token : Integer
init start()()
methods
  start()()
    if first then right!token(0) fi;
    loop()()
  loop()()
    left?token(token);
    delay 1;
    right!token(token + 1);
    loop()()
system
instances
END
  echo 's0 : Station(first := true)'
  pieces "$(($1 - 1))" $'s% : Station(first := false)\n'
  echo channels
  pieces "$(($1 - 1))" $'{s@.right, s%.left}\n'
  echo "{s$(($1 - 1)).right, s0.left}"
}

# Producers send a number each to a consumer of their own, every 1 to 7 units of time.
pairs() { # pairs
  cat <<'END'
process class Producer(pause : Integer)
ports out
messages out!number(Integer)
variables number : Integer
init start()()
methods
  start()()
    number := 0;
    produce()()
  produce()()
    delay pause;
    out!number(number);
    number := number + 1;
    produce()()
process class Consumer
ports in
messages in?number(Integer)
variables number : Integer
init consume()()
methods
  consume()()
    in?number(number);
    consume()()
system
instances
END
  local i
  for ((i = 0; i < $1; i++)); do echo "p$i : Producer(pause := $((i % 7 + 1))) c$i : Consumer"; done
  echo channels
  for ((i = 0; i < $1; i++)); do echo "{p$i.out, c$i.in}"; done
}

# how many messages the pairs send until the clock is at a time
messages() { # pairs, until
  awk -v n="$1" -v t="$2" 'BEGIN { for (i = 0; i < n; i++) sum += int(t / (i % 7 + 1)); print sum }'
}
# What another simulator says it did is what was asked of it.
says() { # words
  grep -qxF -- "$*" "$room/out" || fail "not '$*' but: $(tail -n 1 "$room/out")"
}

python=''
for it in python3 /usr/bin/python3; do
  [[ -n $python ]] || ! "$it" -c 'import SimPy.Simulation' 2>/dev/null || python=$it
done
[[ -n $python ]] || echo 'no SimPy 2 here (apt-get install python3-simpy)'
systemc=''
if command -v g++ >/dev/null && g++ -O2 -o "$room/ring" "$others/ring.cpp" -lsystemc 2>/dev/null; then
  systemc=1
  g++ -O2 -o "$room/pairs" "$others/pairs.cpp" -lsystemc || fail 'pairs.cpp is not compiled'
else
  echo 'no SystemC here (apt-get install libsystemc-dev g++)'
fi
spin=''
if command -v spin >/dev/null; then spin=1; else echo 'no Spin here (apt-get install spin)'; fi

for shape in "2 60000 400000" "20 40000 40000" "200 40000 4000"; do
  read -r stations hops spinning <<<"$shape"
  hops=$((many * hops))
  ring "$stations" >"$room/ring.poosl"
  measure "ring of $stations: Postgrape" "$hops" hops "$program" run "$room/ring.poosl" --until "$hops" --steps 1000000000 --summary
  grep -q " clock $hops stop$" "$room/out" || fail "the ring ended otherwise: $(cat "$room/out")"
  if [[ -n $python ]]; then
    measure "ring of $stations: SimPy" 200000 hops "$python" "$others/ring.py" "$stations" 200000
    says 200000 hops
  fi
  if [[ -n $systemc ]]; then
    measure "ring of $stations: SystemC" 2000000 hops "$room/ring" "$stations" 2000000
    says 2000000 hops
  fi
  if [[ -n $spin ]]; then
    measure "ring of $stations: Spin, without time" "$spinning" hops spin -T "-DSTATIONS=$stations" "-DHOPS=$spinning" "$others/ring.pml"
    says "$spinning" hops
  fi
done

until=$((many * 2000))
pairs 100 >"$room/pairs.poosl"
measure '100 pairs: Postgrape' "$(messages 100 "$until")" messages "$program" run "$room/pairs.poosl" --until "$until" --steps 1000000000 --summary
grep -q " clock $until stop$" "$room/out" || fail "the pairs ended otherwise: $(cat "$room/out")"
if [[ -n $python ]]; then
  measure '100 pairs: SimPy' "$(messages 100 2000)" messages "$python" "$others/pairs.py" 100 2000
  says "$(messages 100 2000) messages"
fi
if [[ -n $systemc ]]; then
  measure '100 pairs: SystemC' "$(messages 100 20000)" messages "$room/pairs" 100 20000
fi
