# Reads the file of causes, for an END of another file: entry i, from 1 to 'entries', has sort[i] and name[i],
# and behind a WORD the texts field[i, WORD, 1] to field[i, WORD, fields[i, WORD]].
/^#/ { next }
/^$/ { inside = 0; next }
!inside { inside = 1; entries++; sort[entries] = $1; name[entries] = $2; next }
{
    it = ++fields[entries, $1]
    field[entries, $1, it] = substr($0, length($1) + 2)
}

# The entry of this name, or of this status by its number or its own name; 0 if there is none.
function entry_of(it,   i) {
    it = tolower(it)
    for (i = 1; i <= entries; i++)
        if (tolower(name[i]) == it || tolower(field[i, "name", 1]) == it)
            return i
    return 0
}
