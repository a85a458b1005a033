# Reads a file of rules, then what the tool printed about it, and checks a no on a
# refutation whose sums are not low enough: each quoted rule stands in the line named, with
# the identifier beside it, the rules add up to the sums printed, and these to something
# that can hold. Takes line_numbers, the numbers of a line, of which the last is the
# identifier. Prints what is wrong, if anything.

# Adds a combination such as "x - 2*y <= 3" to sum[], and its bound to sum["<="].
function add(text, sum,    part, count, at, sign, factor) {
    count = split(text, part, " ")
    sign = 1
    for (at = 1; at <= count; at++) {
        if (part[at] == "<=") {
            sum["<="] += part[at + 1]
            return
        }
        if (part[at] == "+" || part[at] == "-") {
            sign = part[at] == "-" ? -1 : 1
            continue
        }
        if (sub(/^-/, "", part[at])) sign = -sign
        factor = 1
        if (match(part[at], /^[0-9]+\*/)) {
            factor = substr(part[at], 1, RLENGTH - 1) + 0
            part[at] = substr(part[at], RLENGTH + 1)
        }
        if (part[at] != "0") sum[part[at]] += sign * factor
        sign = 1
    }
}

# Whether two sums are the same.
function same(one, other,    key) {
    for (key in one) if (one[key] != other[key] + 0) return 0
    for (key in other) if (other[key] != one[key] + 0) return 0
    return 1
}

function half(number) {
    return number % 2 == 0 ? number / 2 : (number - 1) / 2
}

# An identifier, decimal or hexadecimal with 0x, as it is quoted; nothing for 0.
function quoted(text,    at, value) {
    value = text + 0
    if (text ~ /^0[xX]/) {
        value = 0
        for (at = 3; at <= length(text); at++) {
            value = 16 * value + index("0123456789abcdef", tolower(substr(text, at, 1))) - 1
        }
    }
    return value == 0 ? "" : sprintf("@ 0x%08X", value)
}

# Rules in words have the identifier behind an @, and are quoted without it.
FNR == NR {
    sub(/#.*/, "")
    gsub(/^[ \t]+|[ \t\r]+$/, "")
    gsub(/\t/, " ")
    rule[FNR] = $0
    if (match($0, / *@ */)) {
        rule[FNR] = substr($0, 1, RSTART - 1)
        identifier[FNR] = quoted(substr($0, RSTART + RLENGTH))
    } else if ($0 !~ /[<>=]/ && split($0, part, /[ ,]+/) == line_numbers) {
        identifier[FNR] = quoted(part[line_numbers])
    }
    next
}

/^  [^ ]*:[0-9]+: / {
    match($0, /:[0-9]+: */)
    number = substr($0, RSTART + 1) + 0
    text = substr($0, RSTART + RLENGTH)
    if (rule[number] == "" || index(text, rule[number] " ") != 1) {
        print "not in line " number ": " text
    }
    named = substr(text, length(rule[number]) + 1)
    sub(/  (says: |twice:)  .*$/, "", named)
    gsub(/^ +| +$/, "", named)
    if (named != identifier[number]) {
        print "not the identifier of line " number ": " text
    }
    sub(/^.* (says: |twice:)  /, "", text)
    add(text, walk)
    steps++
}

/^  Added up: / {
    text = $0
    sub(/^  Added up: /, "", text)
    split("", printed)
    add(text, printed)
    if (!same(walk, printed)) print "not the sum of its rules: " text
    bound = printed["<="]
    if (text ~ /, so /) {
        halves += half(bound)
        sub(/^.*, so /, "", text)
        split("", halved)
        add(text, halved)
        if (halved["<="] != half(bound)) print "not the half: " text
        for (key in printed) {
            if (key == "<=" || printed[key] == 0) continue
            if (printed[key] != 2 * halved[key] || printed[key] ^ 2 != 4) print "not halved: " key
            both[key] += printed[key]
        }
        walks++
    } else if (bound < 0) {
        print "false, though it says that it can hold: " text
    }
    sums++
    split("", walk)
}

/^  Together: / {
    if ($4 + 0 != halves || halves < 0 || walks != 2) print "not so together: " $0
    for (key in both) if (both[key] != 0) print "does not cancel: " key
    together = 1
}

END {
    if (steps == 0) print "no rule is named"
    if (sums == 0) print "nothing is added up"
    if (walks > 0 && !together) print "nothing is put together"
}
