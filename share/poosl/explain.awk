# Prints the entry that is wanted of the causes, or a line of each where none is named. Needs entries.awk.
END {
    if (wanted == "") {
        for (i = 1; i <= entries; i++)
            printf "%-15s %s\n", (sort[i] == "status" ? "status " name[i] : name[i]), says(i)
        exit 0
    }
    i = entry_of(wanted)
    if (!i)
        exit 1
    print headline(i)
    print ""
    all(i, "rule", "Rule")
    for (k = 1; k <= fields[i, "cause"]; k++) {
        told("Cause", field[i, "cause", k])
        if (k <= fields[i, "place"])
            told("Place", field[i, "place", k])
    }
    for (k = 1; k <= fields[i, "answer"]; k++) {
        told("Answer", field[i, "answer", k])
        told("Printed", field[i, "printed", k])
    }
    example(i)
    all(i, "cure", "Cure")
}

function says(i) {
    return fields[i, "says"] ? field[i, "says", 1] : field[i, "answer", 1]
}

function headline(i,   title) {
    title = name[i]
    if (sort[i] == "status")
        title = "status " title " (" field[i, "name", 1] ")"
    else if (sort[i] == "fault")
        title = "fault " title
    return title ": " says(i)
}

function all(i, word, title,   k) {
    for (k = 1; k <= fields[i, word]; k++)
        told(title, field[i, word, k])
}

# A text behind its title, in lines of 80 columns at most where its words allow it.
function told(title, text,   n, words, k, line) {
    n = split(text, words, " ")
    line = sprintf("%-9s%s", title, words[1])
    for (k = 2; k <= n; k++) {
        if (length(line) + 1 + length(words[k]) > 80) {
            print line
            line = sprintf("%-9s%s", "", words[k])
        } else
            line = line " " words[k]
    }
    print line
}

# The model of the example as it stands, a mark below the place, and what is said of it.
function example(i,   k, n, there, place) {
    all(i, "shown", "Example")
    n = fields[i, "example"]
    there = field[i, "there", 1]
    for (k = 1; k <= n; k++)
        printf "%-9s%s\n", (k == 1 ? "Example" : ""), field[i, "example", k]
    if (match(there, /[0-9]+:[0-9]+$/)) {
        split(substr(there, RSTART), place, ":")
        if (place[1] == n)
            printf "%-9s%*s\n", "", place[2], "^"
    }
    if (there != "")
        told("", (there ~ /^[0-9]+:[0-9]+$/ ? "model refused: " name[i] " " there : there))
}
