#!/usr/bin/env bash
# Measures the lexer on six texts, the parser on five, and the table of classes on a chain of ten thousand.
source "$(dirname "${BASH_SOURCE[0]}")/common.sh"
uses rows_front bench none

# the bytes of all texts that the program names
whole() { awk '{ for (i = 1; i < NF; i++) if ($(i + 1) ~ /^bytes/) sum += $i } END { print sum + 0 }' "$room/out"; }

spend "$program" bench lex
report 'lexer' "$(whole)" bytes "$seconds" "$kilobytes"
spend "$program" bench parse
report 'lexer and parser' "$(whole)" bytes "$seconds" "$kilobytes"
measure 'table of classes' 10000 classes "$program" bench classes
