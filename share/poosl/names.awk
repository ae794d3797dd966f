# The names of a model that 'poosl debug' completes, by its text: a line 'path PATH' for each process, 'holds
# PATH NAME' for each of its variables, and 'message NAME'. It reads what is written and judges nothing.
{
    gsub(/"([^"\\]|\\.)*"/, " \"\" ")
    gsub(/'([^'\\]|\\.)'/, " '' ")
    sub(/\/\/.*/, "")
    text = text " " $0
}

function word(i) { return i <= count ? token[i] : "" }

# what stands in a section 'a, b : Type' or 'name : Class(..)'
function declare(names, type) {
    if (section == "instances") {
        inside[class] = inside[class] names ":" type " "
    } else
        variables[class] = variables[class] names " "
}

function walk(path, of,    list, parts, n, i, at) {
    if (depth > 50) return
    depth++
    if (sort[of] == "cluster") {
        n = split(inside[of], list, " ")
        for (i = 1; i <= n; i++) {
            split(list[i], parts, ":")
            walk(path "." parts[1], parts[2])
        }
    } else if (sort[of] == "process") {
        print "path", path
        for (at = of; at != "" && !(at in seen); at = parent[at]) {
            seen[at] = 1
            n = split(variables[at], list, " ")
            for (i = 1; i <= n; i++) print "holds", path, list[i]
        }
        split("", seen)
    }
    depth--
}

END {
    while ((at = index(text, "/*"))) {
        rest = substr(text, at + 2)
        end = index(rest, "*/")
        text = substr(text, 1, at - 1) " " (end ? substr(rest, end + 2) : "")
    }
    while (match(text, /[A-Za-z_][A-Za-z0-9_]*|[^ \t\r]/)) {
        token[++count] = substr(text, RSTART, RLENGTH)
        text = substr(text, RSTART + RLENGTH)
    }
    for (i = 1; i <= count; i++) {
        it = token[i]
        if (it ~ /^(data|process|cluster)$/ && word(i + 1) == "class") {
            class = word(i + 2)
            sort[class] = it
            section = it == "data" ? "" : "parameters"
            if (word(i + 3) == "extends") {
                parent[class] = word(i + 4)
                i += 4
            } else
                i += 2
        } else if (it == "system") {
            class = "system"
            sort[class] = "cluster"
            section = ""
        } else if (it ~ /^(variables|instances|methods|ports|messages|channels|init)$/)
            section = it
        else if ((it == "!" || it == "?") && word(i + 1) ~ /^[A-Za-z_]/)
            messages[word(i + 1)] = 1
        else if (section ~ /^(variables|instances|parameters)$/ && it ~ /^[A-Za-z_]/ && word(i + 1) ~ /^[,:]$/ && word(i + 2) != "=") {
            for (j = i; word(j + 1) == ","; j += 2) ;
            for (k = i; k <= j; k += 2) declare(token[k], word(j + 2))
            i = j + 2
            # (what an instance is given)
            if (section == "instances" && word(i + 1) == "(") {
                level = 0
                do {
                    i++
                    level += (word(i) == "(") - (word(i) == ")")
                } while (level > 0 && i <= count)
            }
        }
    }
    n = split(inside["system"], list, " ")
    for (i = 1; i <= n; i++) {
        split(list[i], parts, ":")
        first[++paths] = parts[1]
        of[paths] = parts[2]
    }
    for (i = 1; i <= paths; i++) walk(first[i], of[i])
    for (it in messages) print "message", it
}
