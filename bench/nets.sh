#!/usr/bin/env bash
# Measures the front end with the net of processes and wires on models of up to a mebibyte, one shape each.
source "$(dirname "${BASH_SOURCE[0]}")/common.sh"
uses rows_front bench none
process='process class P(x : Integer) ports p messages p!m init s()() methods s()() p!m '

{ echo -n "$process cluster class C0 ports o instances p : P(x := 1) channels {p.p, o} "; pieces 10000 'cluster class C% ports o instances c : C@ channels {c.o, o} '; echo 'system instances c : C9999'; } >"$room/10,000 clusters in a chain"
{ echo -n "$process cluster class C(x : Integer) ports o instances p : P(x := x) channels {p.p, o} system instances"; pieces 10000 ' c% : C(x := %)'; echo -n ' channels {'; pieces 10000 ', c%.o' | sed 's/^, //'; echo '}'; } >"$room/10,000 clusters side by side"
{
  echo -n 'process class Q ports q0'; pieces 99 ', q%'; echo -n ' messages q0!m init s()() methods s()() q0!m cluster class C instances'; pieces 10 ' p% : Q'
  echo -n ' channels'; for p in $(seq 10); do echo -n " {p$p.q0}"; pieces 99 " {p$p.q%}"; done
  echo -n ' system instances'; pieces 1000 ' c% : C'; echo
} >"$room/1,000,000 wires in 1,000 clusters"
{ echo -n "$process system instances"; pieces 10000 ' p% : P(x := %)'; echo -n ' channels {'; pieces 10000 ', p%.p' | sed 's/^, //'; echo '}'; } >"$room/10,000 ends of a channel"
for shape in '10,000 clusters in a chain' '10,000 clusters side by side' '1,000,000 wires in 1,000 clusters' '10,000 ends of a channel'; do
  measure_text "$shape" net_size
done
