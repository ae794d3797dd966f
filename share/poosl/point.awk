# Shows the line of a text that has the number 'line', and a mark below the byte 'column' of it.
NR == line { shown = 1; point("", $0, column); exit }
END {
    if (line && !shown)
        print "(the end of the text)"
}

# A line behind its title, and a mark below the byte; of a long line the part around it.
function point(title, text, at,   from, to, k, it, pad) {
    from = (at > 100 ? at - 60 : 1)
    to = (length(text) > from + 150 ? from + 150 : length(text))
    printf "%s", title
    gsub(/./, " ", title)
    pad = title
    for (k = from; k <= to; k++) {
        it = substr(text, k, 1)
        printf "%s", ((it >= " " && it != "\177") || it == "\t" ? it : it == "\r" && k == to ? "" : "?")
        # (a letter of several bytes is one wide)
        if (k < at && !(it >= "\200" && it < "\300"))
            pad = pad (it == "\t" ? it : " ")
    }
    print ""
    if (at)
        print pad "^"
}
