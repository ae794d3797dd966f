#!/usr/bin/env bash
# Measures the front end with the checker on models of up to a mebibyte, one shape each.
source "$(dirname "${BASH_SOURCE[0]}")/common.sh"
uses rows_front bench none
process='process class P(x : Integer) ports p messages p!m init s()() methods s()() p!m system'

{ pieces 19000 'data class A% variables x : A% methods m : Integer x m '; echo 'system'; } >"$room/many classes"
{ echo -n 'data class A0 '; pieces 10000 'data class A% extends A@ methods m% : Integer self m1 '; echo 'system'; } >"$room/a chain of data classes"
{ echo -n 'process class A0(x : Integer) ports p messages p!m(Integer), p?n init s()() methods s()() p!m(x); s()() '; pieces 10000 'process class A%() extends A@ methods s%()() p!m(x); p?n; s()() '; echo 'system'; } >"$room/a chain of process classes"
{ echo -n 'data class A0 variables f0 : Integer '; pieces 10000 'data class A% extends A@ variables f% : Integer methods m% : Integer f% '; echo 'system'; } >"$room/a chain of fields"
{ echo -n 'process class A0() init s()() methods s()() skip '; pieces 10000 'process class A%() extends A@ variables f% : Integer methods m%()() f% := 1 '; echo 'system'; } >"$room/a chain of variables"
{ echo -n 'process class A0() init s()() methods s()() skip '; pieces 10000 'process class A%() extends A@ ports p% messages p%!m methods m%()() p%!m '; echo 'system'; } >"$room/a chain of ports"
{ echo -n 'data class A0 variables f0'; pieces 6000 ', f%'; echo -n ' : Integer '; pieces 6000 'data class A% extends A0 variables g% : Integer methods m% : Integer f% '; echo 'system'; } >"$room/a star of fields"
{ echo -n 'process class A0() ports p0'; pieces 6000 ', p%'; echo -n ' init s()() methods s()() skip '; pieces 6000 'process class A%() extends A0 ports q% messages q%!m methods m%()() q%!m '; echo 'system'; } >"$room/a star of ports"
{ pieces 27000 'm%(x : Integer) : Integer x m%(1) ' | sed 's/^/data class A methods /'; echo 'system'; } >"$room/many methods"
{ echo -n 'process class A() init s()() methods s()() m1()() '; pieces 40000 'm%()() m1()() '; echo 'system'; } >"$room/many methods that call"
{ echo -n 'data class A variables x'; pieces 80000 ', x%'; echo -n ' : Integer methods m : Integer x'; pieces 40000 ' + x%'; echo ' system'; } >"$room/many variables"
{ echo -n "$process instances"; pieces 40000 ' p% : P(x := %)'; echo; } >"$room/many instances"
{ echo -n "$process instances"; pieces 10000 ' p% : P(x := %)'; echo -n ' channels {'; pieces 10000 ', p%.p' | sed 's/^, //'; echo '}'; } >"$room/many ends of a channel"
{ echo -n 'process class C0 init s()() methods s()() skip '; pieces 10000 'cluster class C% instances c : C@ '; echo 'system instances c : C10000'; } >"$room/clusters in a chain"
{ echo -n 'cluster class C0 instances c : C25000 '; pieces 25000 'cluster class C% instances c : C@ '; echo 'system instances c : C25000'; } >"$room/clusters in a ring"
# (from here on trees stand close in the text, most of them as close as they can)
body='process class A() ports p messages p!m, p?m variables x : Integer init s()() methods s()() '
{ echo -n "$body"; pieces 80000 'x := x + 1; '; echo 'skip system'; } >"$room/statements that assign"
{ echo -n "$body"; pieces 80000 'p?m; p!m; '; echo 'skip system'; } >"$room/messages"
{ echo -n "$body"; pieces 500000 'x;'; echo 'skip system'; } >"$room/names alone"
{ echo -n "$body"; pieces 200000 'x+x;'; echo 'skip system'; } >"$room/sums"
{ echo -n "$body"; pieces 10000 "x:=$(printf -- '-%.0s' {1..97})x;"; echo 'skip system'; } >"$room/signs"
{ echo -n "$body"; pieces 7500 "x$(printf -- '+x%.0s' {1..65});"; echo 'skip system'; } >"$room/long sums"
{ echo -n "$body"; pieces 5000 "$(printf -- '(%.0s' {1..97})x$(printf -- ')%.0s' {1..97});"; echo 'skip system'; } >"$room/brackets"
{ echo -n "$body"; pieces 3400 "$(printf -- '[x]%.0s' {1..97})x;"; echo 'skip system'; } >"$room/guards"
{ echo -n "$body"; pieces 200000 'p?m;'; echo 'skip system'; } >"$room/receives"
{ echo -n "$body"; pieces 200000 'p!m;'; echo 'skip system'; } >"$room/sends"
{ echo -n "$body"; pieces 150000 's()();'; echo 'skip system'; } >"$room/calls"
for shape in 'many classes' 'a chain of data classes' 'a chain of process classes' 'a chain of fields' 'a chain of variables' 'a chain of ports' 'a star of fields' 'a star of ports' 'many methods' 'many methods that call' 'many variables' 'many instances' 'many ends of a channel' 'clusters in a chain' 'clusters in a ring' \
  'statements that assign' messages 'names alone' sums 'long sums' signs brackets guards receives sends calls; do
  measure_text "$shape" violations
done
