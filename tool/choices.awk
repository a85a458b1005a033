# Reads a file of rules with alternatives, and prints its choices, each in a line, in the
# order of their numbers: the lines of the file that it picks, with blanks around each; with
# inside only those that stand in an either.

# The choices of what stands from line at on, up to the end of its block or to an or, joined
# by |; sets at to the line behind it.
function all_of(    found) {
    found = " "
    while (at <= last && text[at] != "or" && text[at] != "end") {
        if (text[at] == "either") {
            found = product(found, any_of())
        } else if (text[at] == "all") {
            at++
            found = product(found, all_of())
            at++
        } else if (text[at] != "") {
            found = product(found, level > 0 || !inside ? " " at " " : " ")
            at++
        } else {
            at++
        }
    }
    return found
}

# The choices of the either in this line, those of one alternative behind those of another.
function any_of(    found) {
    at++
    level++
    found = all_of()
    while (text[at] == "or") {
        at++
        found = found "|" all_of()
    }
    at++
    level--
    return found
}

# Each choice of the one with each of the other, of which the last changes fastest.
function product(one, other,    ones, others, i, j, count, many, found) {
    count = split(one, ones, "|")
    many = split(other, others, "|")
    for (i = 1; i <= count; i++) {
        for (j = 1; j <= many; j++) {
            found = found (found == "" ? "" : "|") ones[i] others[j]
        }
    }
    return found
}

{
    sub(/#.*/, "")
    gsub(/^[ \t]+|[ \t\r]+$/, "")
    text[NR] = $0
    last = NR
}

END {
    at = 1
    count = split(all_of(), found, "|")
    for (i = 1; i <= count; i++) print found[i]
}
