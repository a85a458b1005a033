# Reads files of rules, then what the tool printed about them, and checks a no, a yes on
# a refutation, or why something always holds: each quoted rule stands in the line named,
# with its identifier and comment beside it, and no other way; each sentence that names a
# rule says what the rule says; what follows from it follows; and the end is something false,
# or what always holds follows from what is known then. Prints what is wrong, if anything.
# Takes line_numbers, the numbers of a line, of which the last is the identifier.
# A bound on an event is kept as three numbers: the sign of another event, 0 where there is
# none, that event, and a number.

function half(number) {
    return number % 2 == 0 ? number / 2 : (number - 1) / 2
}

# A number with all its digits.
function digits(number) {
    return number == 0 ? "0" : sprintf("%.0f", number)
}

# The length of the name that a text begins with, in quotes or not.
function name_at(text) {
    if (match(text, /^"[^"]*"/) || match(text, /^[A-Za-z_][A-Za-z_0-9.]*/)) return RLENGTH
    return 0
}

function bare(name) {
    gsub(/"/, "", name)
    return name
}

# The place of a character outside quotes; 0 where there is none.
function unquoted(text, characters,    at, quoted, c) {
    for (at = 1; at <= length(text); at++) {
        c = substr(text, at, 1)
        if (c == "\"") quoted = !quoted
        else if (!quoted && index(characters, c)) return at
    }
    return 0
}

function trimmed(text) {
    gsub(/^[ \t]+|[ \t\r]+$/, "", text)
    return text
}

# Adds a sum such as x - y + 3 to factor[] and to factor["1"], counted so many times.
function add_sum(text, times, factor,    sign, size) {
    sign = 1
    text = trimmed(text)
    while (text != "") {
        if (substr(text, 1, 1) == "+" || substr(text, 1, 1) == "-") {
            sign = substr(text, 1, 1) == "-" ? -1 : 1
            size = 1
        } else if ((size = name_at(text))) {
            factor[bare(substr(text, 1, size))] += sign * times
        } else {
            match(text, /^[0-9]+/)
            size = RLENGTH
            factor["1"] += sign * times * substr(text, 1, size)
        }
        text = trimmed(substr(text, size + 1))
    }
}

# An inequality as one text: its events in order with their factors, and its bound. A
# factor that is counted twice, and nothing else, is halved.
function normal(factor, sign,    key, keys, count, at, other, result, bound) {
    count = 0
    for (key in factor) if (key != "1" && factor[key] != 0) keys[++count] = key
    for (at = 1; at < count; at++) for (other = at + 1; other <= count; other++)
        if (keys[other] < keys[at]) { key = keys[at]; keys[at] = keys[other]; keys[other] = key }
    bound = -sign * factor["1"]
    if (count == 1 && factor[keys[1]] ^ 2 == 4)
        return (sign * factor[keys[1]] / 2) " " keys[1] " <= " digits(half(bound))
    for (at = 1; at <= count; at++) result = result (sign * factor[keys[at]]) " " keys[at] " "
    return result "<= " digits(bound)
}

# An identifier, decimal or hexadecimal with 0x, as it is quoted; nothing for 0.
function quoted(text,    at, value) {
    value = text + 0
    if (text ~ /^0[xX]/) {
        value = 0
        for (at = 3; at <= length(text); at++)
            value = 16 * value + index("0123456789abcdef", tolower(substr(text, at, 1))) - 1
    }
    return value == 0 ? "" : sprintf("  @ 0x%08X", value)
}

# Keeps what a rule in words says: one or two inequalities, at its place.
function keep_words(place, text,    at, relation, size, factor) {
    at = unquoted(text, "<>=")
    size = substr(text, at + 1, 1) == "=" ? 2 : 1
    relation = substr(text, at, size)
    add_sum(substr(text, 1, at - 1), 1, factor)
    add_sum(substr(text, at + size), -1, factor)
    if (relation == "<") factor["1"]++
    if (relation == ">") factor["1"]--
    if (relation !~ />/) says[place, normal(factor, 1)] = 1
    if (relation !~ /</) says[place, normal(factor, -1)] = 1
}

# The same of one in numbers.
function keep_numbers(place, text,    part, factor) {
    split(text, part, /[ ,]+/)
    factor["1"] = -part[5]
    factor["x" part[2]] += part[1]
    factor["x" part[4]] += part[3]
    says[place, normal(factor, 1)] = 1
}

FILENAME != "-" {
    place = FILENAME ":" FNR
    at = unquoted($0, "#")
    comment[place] = at ? trimmed(substr($0, at)) : ""
    text = trimmed(at ? substr($0, 1, at - 1) : $0)
    if (text == "" || text ~ /^variables [0-9]/ || text ~ /^(clock|origin) +["A-Za-z_]/) next
    at = unquoted(text, "@")
    if (at) identifier[place] = quoted(trimmed(substr(text, at + 1)))
    if (at) text = trimmed(substr(text, 1, at - 1))
    if (unquoted(text, "<>=")) keep_words(place, text)
    else {
        keep_numbers(place, text)
        split(text, part, /[ ,]+/)
        identifier[place] = quoted(part[line_numbers])
    }
    gsub(/\t/, " ", text)
    rule[place] = text
    only = FILENAME
    next
}

function wrong(what) {
    print what ": " $0
}

# Takes a sum with one event at most off a text, as a bound.
function read_bound(text, bound,    factor, key) {
    add_sum(text, 1, factor)
    bound["sign"] = 0
    bound["event"] = ""
    bound["number"] = factor["1"] + 0
    for (key in factor) if (key != "1" && factor[key] != 0) {
        bound["sign"] = factor[key]
        bound["event"] = key
    }
}

# Whether a rule says that an event is at least, or at most, a bound.
function is_said(place, event, least, bound,    factor) {
    factor[event] = 1
    if (bound["sign"] != 0) factor[bound["event"]] -= bound["sign"]
    factor["1"] = -bound["number"]
    return (place, normal(factor, least ? -1 : 1)) in says
}

# The key of what is known of an event beside another, which has a sign, or beside none.
function fact(event, is_least, sign, other) {
    return event SUBSEP (is_least ? "least" : "most") SUBSEP (sign + 0) SUBSEP other
}

# What is known, least[] or most[], of an event: a bound, by its parts. Of all that were
# known beside the same event, or beside none, the tightest is kept.
function know(event, is_least, bound,    key) {
    key = fact(event, is_least, bound["sign"], bound["event"])
    if (!(key in tightest) || (is_least ? bound["number"] > tightest[key] : bound["number"] < tightest[key]))
        tightest[key] = bound["number"]
    known[event, is_least, "sign"] = bound["sign"]
    known[event, is_least, "event"] = bound["event"]
    known[event, is_least, "number"] = bound["number"]
    known[event, is_least] = 1
}

# Puts what is known of the event of a bound in its place: of its least where it stands with
# a plus in a least.
function conclude(is_least, bound, result,    own) {
    own = bound["sign"] < 0 ? !is_least : is_least
    result["sign"] = result["number"] = 0
    result["event"] = ""
    if (bound["sign"] == 0 || !((bound["event"], own) in known)) return 0
    result["sign"] = bound["sign"] * known[bound["event"], own, "sign"]
    result["event"] = known[bound["event"], own, "event"]
    result["number"] = bound["number"] + bound["sign"] * known[bound["event"], own, "number"]
    return 1
}

function same_bound(one, other) {
    return one["sign"] == other["sign"] && one["event"] == other["event"] && one["number"] == other["number"]
}

# The rule in brackets that a text begins with, as a place; what stands behind it is left in
# behind.
function place_of(text,    inner) {
    match(text, /^ \([^)]*\)/)
    inner = substr(text, 3, RLENGTH - 3)
    behind = substr(text, RLENGTH + 1)
    sub(/, halved( and rounded)?$/, "", inner)
    if (inner ~ /^line /) return only ":" substr(inner, 6)
    return inner
}

# Both ends of what is known of an event: they clash, or bound twice another event.
function meet(event,    sign, gap) {
    gap = known[event, 0, "number"] - known[event, 1, "number"]
    sign = known[event, 1, "sign"] - known[event, 0, "sign"]
    if (known[event, 1, "event"] != known[event, 0, "event"]) wrong("ends at different events")
    if (sign == 0) sum = gap
    twice_sign = sign / 2
    twice_event = known[event, 1, "event"]
    twice = gap
}

# A claim on an event, by a rule: at least or at most a bound.
function claim(event, is_least, text,    at, bound, result, printed, place) {
    at = index(text, " (")
    read_bound(substr(text, 1, at - 1), bound)
    place = place_of(substr(text, at))
    if (!(place in quoted_once)) wrong("names a rule that is not quoted")
    if (!is_said(place, event, is_least, bound)) wrong("is not what " place " says")
    if (match(behind, /^, so at (least|most) /)) {
        printed_least = behind ~ /^, so at least/
        read_bound(substr(behind, RLENGTH + 1, length(behind) - RLENGTH - 1), printed)
        if (printed_least != is_least || !conclude(is_least, bound, result) || !same_bound(result, printed))
            wrong("does not follow")
        know(event, is_least, printed)
    } else know(event, is_least, bound)
}

# Whether it is known that factor[] times the events is at most a number, for one event or
# two, each counted once, or one counted twice: by bounds of each, or of one beside the other.
function is_forced(factor, most,    key, event, count, sum, at, known_key) {
    for (key in factor) if (key != "1" && factor[key] != 0) event[++count] = key
    sum = 0
    for (at = 1; at <= count; at++) {
        known_key = fact(event[at], factor[event[at]] < 0, 0, "")
        if (!(known_key in tightest)) break
        sum += factor[event[at]] * tightest[known_key]
    }
    if (at > count && sum <= most) return 1
    for (at = 1; count == 2 && at <= 2; at++) {
        known_key = fact(event[at], factor[event[at]] < 0,
            -factor[event[at]] * factor[event[3 - at]], event[3 - at])
        if (known_key in tightest && factor[event[at]] * tightest[known_key] <= most) return 1
    }
    return 0
}

# The rule that always holds, in words: each of its sides is forced.
function check_forced(text,    at, relation, size, factor, turned, key) {
    at = unquoted(text, "<>=")
    size = substr(text, at + 1, 1) == "=" ? 2 : 1
    relation = substr(text, at, size)
    add_sum(substr(text, 1, at - 1), 1, factor)
    add_sum(substr(text, at + size), -1, factor)
    if (relation == "<") factor["1"]++
    if (relation == ">") factor["1"]--
    for (key in factor) turned[key] = -factor[key]
    if (relation !~ />/ && !is_forced(factor, -factor["1"])) wrong("is not forced")
    if (relation !~ /</ && !is_forced(turned, factor["1"])) wrong("is not forced")
}

# A bound of an event that was said to be forced is what was found, and no more.
function check_due(    key) {
    if (due_event == "") return
    key = fact(due_event, due_least, 0, "")
    if (!(key in tightest) || tightest[key] != due_number)
        print "is not found: " due_event (due_least ? " at least " : " at most ") due_number
    due_event = ""
}

# An event and its bound, and behind it the rules that force it.
/^[^ ].* is at (least|most) -?[0-9]+\. Th(is rule forces|ese rules force) it:$/ {
    check_due()
    due_event = bare(substr($0, 1, name_at($0)))
    due_least = $0 ~ / is at least -?[0-9]+\. /
    due_number = $0
    sub(/^.* is at (least|most) /, "", due_number)
    due_number = due_number + 0
    delete quoted_once
    delete known
    delete tightest
    rules = 0
    ended = 1
    forced = 1
    next
}

/^Yes, always\. Th(is rule forces|ese rules force) / { forced = 1 }

/^  So .*\.$/ && forced {
    check_forced(substr($0, 6, length($0) - 6))
    ended = 1
    next
}

# A rule that is quoted: it stands there so, once.
/^  [^ ].*:[0-9]+: / && (!ended || forced) {
    match($0, /:[0-9]+: */)
    place = substr($0, 3, RSTART - 3) substr($0, RSTART, RLENGTH)
    sub(/: *$/, "", place)
    text = substr($0, RSTART + RLENGTH)
    if (place in quoted_once) wrong("is quoted twice")
    quoted_once[place] = 1
    if (index(text, rule[place]) != 1 || rule[place] == "") wrong("is not the rule of " place)
    text = substr(text, length(rule[place]) + 1)
    sub(/^ +/, "  ", text)
    due = identifier[place]
    if (comment[place] != "") due = due "  " comment[place]
    gsub(/ +/, " ", text); gsub(/ +/, " ", due); gsub(/\t/, " ", due)
    if (trimmed(text) != trimmed(due)) wrong("has not this identifier and comment: " due)
    rules++
    next
}

/^  Added up: 0 <= -/ || /^  It says: 0 <= -/ {
    last = $0
    sub(/^.*<= /, "", last)
    sub(/,.*/, "", last)
    if ($0 ~ /It says/) {
        for (place in quoted_once) if (!((place, "<= " last) in says)) wrong("is not what the rule says")
        if (rules != 1) wrong("is not about one rule")
    } else if (last + 0 != sum || sum >= 0) wrong("is not the sum, which is " sum)
    ended = 1
    next
}

/^  so twice / {
    match($0, / is at (least|most) -?[0-9]+, and /)
    number = substr($0, RSTART, RLENGTH)
    is_least = number ~ /least/
    gsub(/[^-0-9]/, "", number)
    event = bare(substr($0, 12, RSTART - 12))
    if (event != twice_event || number + 0 != (is_least ? -1 : 1) * twice || is_least != (twice_sign < 0))
        wrong("is not what twice the event is")
    bound["sign"] = 0
    bound["event"] = ""
    bound["number"] = is_least ? -half(twice) : half(twice)
    know(event, is_least, bound)
    text = substr($0, RSTART + RLENGTH)
    if (index(text, (is_least ? "at least " : "at most ") digits(bound["number"])) == 0) wrong("is not halved")
    next
}

/^  Only a fraction would do: / {
    fraction = $0
    sub(/\.$/, "", fraction)
    sub(/^.* = /, "", fraction)
    if (fraction * 2 != twice && fraction * 2 != -twice) wrong("is not the fraction")
    next
}

/^  ("|[A-Za-z_])/ && (!ended || forced) {
    text = substr($0, 3)
    is_but = sub(/^but /, "", text)
    size = name_at(text)
    event = bare(substr(text, 1, size))
    text = substr(text, size + 1)
    if (!match(text, /^ is at (least|most) /)) { wrong("is no sentence"); next }
    is_least = text ~ /^ is at least/
    text = substr(text, RLENGTH + 1)
    if (text ~ /^-?[0-9]+, at least -?[0-9]+\.$/) {
        sum = text - known[event, 1, "number"]
        if (text + 0 != known[event, 0, "number"] || substr(text, index(text, "least ") + 6) + 0 != known[event, 1, "number"])
            wrong("is not what was found")
        next
    }
    claim(event, is_least, text)
    if (match(behind, /^, at least -?[0-9]+ /)) {
        text = substr(behind, 12)
        claim(event, 1, text)
        meet(event)
    } else if (is_but) {
        meet(event)
    } else if (known[event, is_least, "event"] == event) {
        know_itself(event, !is_least)
        meet(event)
    }
    next
}

# An event is at least, and at most, itself.
function know_itself(event, is_least,    bound) {
    bound["sign"] = 1
    bound["event"] = event
    bound["number"] = 0
    know(event, is_least, bound)
}

END {
    check_due()
    if (rules == 0) print "no rule is quoted"
    if (!ended) print "nothing is false"
}
