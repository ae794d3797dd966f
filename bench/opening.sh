#!/usr/bin/env bash
# Measures the rules of opening, C23 and C24, on models of about a mebibyte, one shape each.
source "$(dirname "${BASH_SOURCE[0]}")/common.sh"
uses rows_front bench none
first='process class A0() init s()() methods s()() skip m0()() skip a()() b()() b()() c()() c()() skip '

{ echo -n 'process class A() init s()() methods s()() m0()() m0()() skip '; pieces 50000 'm%()() m@()() '; echo 'system'; } >"$room/many methods that begin with one another"
{ echo -n "$first"; pieces 12000 'process class A%() extends A@ methods m%()() m@()(); a()() n%()() par m%()() and m@()() rap '; echo 'system'; } >"$room/a chain of classes with methods of their own"
{ echo -n "$first"; pieces 12000 'process class A%() extends A@ methods b()() c()(); skip m%()() par a()() and b()() rap '; echo 'system'; } >"$room/a chain of classes that override"
{ pieces 12000 'process class A%() init a()() methods a()() b()(); b()() b()() sel skip or delay 1 les '; echo 'system'; } >"$room/classes apart"
{ echo -n 'process class A0() init s()() methods s()() skip m0()() skip a()() a()() '; pieces 12000 'process class A%() extends A@ methods m%()() m@()(); a()() n%()() par m%()() and m@()() rap '; echo 'system'; } >"$room/a chain of classes under one that begins with itself"
{ echo -n "$first"; pieces 12000 'process class A%() extends A@ methods b()() c()(); skip m%()() par a()() and b()() rap '; echo 'process class Z() extends A12000 methods z()() z()() system'; } >"$room/a chain of classes of which the last begins with itself"
{
  echo -n 'process class A0() init s()() methods s()() skip m0()() skip d0()() skip '
  pieces 20 'd%()() par d@()() and d@()() rap '
  pieces 12000 'process class A%() extends A@ methods m%()() m@()(); s()() n%()() par m%()() and m@()() rap '
  echo 'system'
} >"$room/a chain of classes under one with a method that is too large"
{
  echo -n 'process class Z() init d0()() methods d0()() skip; skip; skip; skip; skip '
  echo -n 'process class A0() init s()() methods s()() skip m0()() skip d0()() skip '
  pieces 17 'd%()() par d@()() and d@()() rap '
  pieces 12000 'process class A%() extends A@ methods m%()() m@()(); s()() n%()() par m%()() and m@()() rap '
  echo 'system'
} >"$room/a chain of classes under one with a method that is too large by names alone"
for shape in 'many methods that begin with one another' 'a chain of classes with methods of their own' 'a chain of classes that override' \
  'a chain of classes under one that begins with itself' 'a chain of classes of which the last begins with itself' \
  'a chain of classes under one with a method that is too large' \
  'a chain of classes under one with a method that is too large by names alone' 'classes apart'; do
  measure_text "$shape" openings
done
