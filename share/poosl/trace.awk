# Shows the line 'number' of a trace that is refused and the one that is 'wanted' in its place, with a mark
# where they begin to differ. Needs point.awk. (awk tells no line without LF from one with it.)
NR == number { had = $0; is_there = 1; exit }
{ before = $0 }
END {
    at = 1
    if (is_there && wanted != "")
        while (at <= length(had) && substr(had, at, 1) == substr(wanted, at, 1))
            at++
    why = "no run of " model " has this line here"
    if (!is_there)
        why = "the trace ends before the run of " model " does"
    else if (had == wanted)
        why = "this line has no line end"
    else if (wanted != "" && had == wanted "\r")
        why = "this line ends in CR and LF, those of a trace in LF alone"
    else if (number > 1 && before ~ /^[0-9]+ (end|deadlock|stop|fault .*|spent .*|high .*)$/)
        why = "the run is over with the line before"
    printf "%s:%d:%d: TraceRefused: %s\n", file, number, at, why
    if (is_there)
        point("refused:  ", had, at)
    if (wanted != "")
        point("expected: ", wanted, 0)
}
