# Of what the program printed, with a line on its status behind it, one line each: that line, the last that
# was printed, the one before, how many actions there are, and the numbers of the offers that the first took.
/^[0-9]+ [0-9]+ [0-9]+ / {
    actions++
    if (actions <= 100)
        choices = choices (actions > 1 ? "," : "") $3
}
{ before = last; last = line; line = $0 }
END { print line; print last; print before; print actions + 0; print choices }
