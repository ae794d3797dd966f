#!/usr/bin/env bash
# Measures the layout of models of about a mebibyte, with the reading and the checking of the model, one shape each.
source "$(dirname "${BASH_SOURCE[0]}")/common.sh"
uses poosl_run

head='process class P init s()() methods s()() skip ' system='system instances p : P'
opened=$(pieces 90 '(') closed=$(pieces 90 ')') ifs=$(pieces 24 'if true then skip; ') fis=$(pieces 24 ' fi')
{ echo -n "$head"; pieces 130000 '; skip '; echo "$system"; } >"$room/statements"
{ echo -n "$head"; pieces 36000 'm%(x : Integer)() skip '; echo "$system"; } >"$room/methods"
{ echo -n "$head"; pieces 45000 '/* % */ // %#' | tr '#' '\n'; echo "$system"; } >"$room/comments"
{ echo -n "$head"; pieces 5200 "; ${opened}skip$closed "; echo "$system"; } >"$room/brackets"
{ echo -n "$head"; pieces 1900 "; ${ifs}skip$fis "; echo "$system"; } >"$room/deep lines"
for shape in statements methods comments brackets 'deep lines'; do
  measure "$shape" "$(wc -c <"$room/$shape")" bytes "$program" format "$room/$shape"
  (($(wc -c <"$room/out") >= 500000)) || fail "$shape: it is not laid out"
done
