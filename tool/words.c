/* Rules in words: sums of names and numbers on both sides of <=, >=, <, > or =, and
 * perhaps the identifier of a message behind them. */
#include "list.h"

#include <string.h>

static const char message_advice[] =
    "write @ and the number of the message at the end of the rule, decimal or hexadecimal with"
    " 0x, such as @ 416944369 or @ 0x18DA10F1";

enum kind { END, NAME, NUMBER, PLUS, MINUS, AT_MOST, AT_LEAST, BELOW, ABOVE, EQUAL, MESSAGE };

/* A name with its sign, after all is moved to the left. */
struct term {
    int sign;
    size_t variable;
};

/* A rule while it is read: what is left of it, the part that comes next, without quotes
 * where that is a name, and what was moved to the left (terms) and to the right
 * (constant). */
struct parser {
    struct list *list;
    struct origin origin;
    struct text rest;
    enum kind kind;
    struct text part;
    struct text name;
    int64_t value;
    struct term terms[MOST_RULE];
    size_t count;
    int64_t constant;
    int32_t identifier;
};

static bool fail(const struct parser *p, const char *what, const char *advice)
{
    return wrong(p->list, p->origin, p->part, what, advice);
}

/* Takes the next characters off the rest as the part. */
static void take(struct parser *p, enum kind kind, size_t length)
{
    p->kind = kind;
    p->part.at = p->rest.at;
    p->part.length = length;
    p->rest.at += length;
    p->rest.length -= length;
}

static bool next_name(struct parser *p)
{
    struct text rest = p->rest;
    take(p, NAME, scan_name(rest, &p->name));
    return is_right_name(p->list, p->origin, rest, p->name, p->part.length);
}


static bool next_number(struct parser *p)
{
    struct text rest = p->rest;
    scan_magnitude(&rest, &p->value);
    take(p, NUMBER, p->rest.length - rest.length);
    char after = rest.length > 0 ? rest.at[0] : ' ';
    if (is_letter(after) || after == '*') {
        return fail(p, "stands before a name as a factor, which is not in scope",
                    "write x + x for twice x; begin names with a letter");
    }
    if (after == '.' || after == ',') {
        return fail(p, "is followed by a point or a comma", "write whole numbers, digits only");
    }
    return p->value <= MOST_NUMBER ||
           fail(p, "is above " AS_TEXT(MOST_NUMBER), "choose a coarser unit");
}

/* Takes <=, >=, <, > or =, and says what to do about everything that looks like it. */
static bool next_relation(struct parser *p)
{
    size_t length = 1;
    while (length < p->rest.length && strchr("<>=!", p->rest.at[length]) != NULL) {
        length++;
    }
    take(p, EQUAL, length);
    char first = p->part.at[0], last = p->part.at[length - 1];
    if (length == 1 && first == '=') {
        return true;
    }
    if (length == 2 && last == '=' && (first == '<' || first == '>')) {
        p->kind = first == '<' ? AT_MOST : AT_LEAST;
        return true;
    }
    if (length == 1 && first != '!') {
        p->kind = first == '<' ? BELOW : ABOVE;
        return true;
    }
    return fail(p, "is not in scope",
                "write <= for at most, >= for at least, < for less, > for more or = for equal");
}

/* Takes @ and the number behind it, up to the next blank or @. */
static bool next_message(struct parser *p)
{
    struct text rest = {p->rest.at + 1, p->rest.length - 1};
    rest = trim(rest);
    struct text number = {rest.at, 0};
    while (number.length < rest.length && !is_blank(number.at[number.length]) &&
           number.at[number.length] != '@') {
        number.length++;
    }
    struct text digits = number;
    if (number.length == 0) {
        take(p, MESSAGE, 1);
        return fail(p, "has no number behind it", message_advice);
    }
    take(p, MESSAGE, (size_t)(number.at + number.length - p->rest.at));
    if (number.at[0] == '-' || number.at[0] == '+') {
        return fail(p, "has a sign, and an identifier has none", message_advice);
    }
    if (!scan_identifier(&digits, &p->value) || digits.length > 0) {
        return fail(p, "is no identifier", message_advice);
    }
    /* What 32 bits hold, the library looks at. */
    return p->value <= INT32_MAX || fail(p, identifier_range, identifier_advice);
}

/* Takes the next part, whatever it is. */
static bool next(struct parser *p)
{
    p->rest = trim(p->rest);
    char c = p->rest.length > 0 ? p->rest.at[0] : ' ';
    if (p->rest.length == 0) {
        take(p, END, 0);
        return true;
    }
    if (c == '+' || c == '-') {
        take(p, c == '+' ? PLUS : MINUS, 1);
        return true;
    }
    if (is_letter(c) || c == '"') {
        return next_name(p);
    }
    if (is_digit(c)) {
        return next_number(p);
    }
    if (strchr("<>=!", c) != NULL) {
        return next_relation(p);
    }
    if (c == '@') {
        return next_message(p);
    }
    take(p, END, 1);
    return fail(p, "can't stand in a rule",
                "use names, whole numbers, +, - and one of <=, >=, <, > and =; a name with other"
                " characters stands in quotes, as \"ABS-Status\"; @ begins an identifier, # a"
                " comment");
}

/* The number of a name; a new name gets the next one. */
static size_t number_of(struct parser *p)
{
    struct list *list = p->list;
    uint64_t variable;
    if (!find_name(list, p->name, &variable)) {
        list->names[variable] = p->name;
        list->offsets[variable] = offset_of(list, p->name);
        list->variables_from = p->origin;
        list->variables++;
    }
    return (size_t)variable;
}

/* Reads one name or number, with the sign that it has once it is moved. */
static bool read_term(struct parser *p, int sign)
{
    if (p->kind == NAME) {
        p->terms[p->count].sign = sign;
        p->terms[p->count].variable = number_of(p);
        p->count++;
    } else if (p->kind == NUMBER) {
        p->constant -= sign * p->value;
        if (p->constant < -MOST_NUMBER || p->constant > MOST_NUMBER) {
            return fail(p, "makes a sum above " AS_TEXT(MOST_NUMBER), "choose a coarser unit");
        }
    } else if (p->kind == PLUS || p->kind == MINUS) {
        return fail(p, "follows another sign", "write one sign between two terms");
    } else {
        return fail(p, p->kind == END ? "a name or a number is missing at the end"
                                      : "has no name or number before it",
                    "write a rule such as door - lamp <= -5");
    }
    return next(p);
}

/* Reads one side of a rule; side is 1 for the left and -1 for the right. */
static bool read_side(struct parser *p, int side)
{
    bool first = true;
    while (first || p->kind == PLUS || p->kind == MINUS) {
        int sign = p->kind == MINUS ? -side : side;
        if ((p->kind == PLUS || p->kind == MINUS) && !next(p)) {
            return false;
        }
        if (!read_term(p, sign)) {
            return false;
        }
        first = false;
    }
    if (p->kind == NAME || p->kind == NUMBER) {
        return fail(p, "follows another name or number", "write + or - between two terms");
    }
    return true;
}

/* Says that a rule has too many terms, and whether a dash may have made two of one. */
static bool too_many_terms(const struct parser *p)
{
    struct text word;
    struct problem problem =
        problem_at(p->list, p->origin, p->part,
                   "more than two terms remain once all names are moved to the left",
                   "give each rule at most two names, each with + or -; x + x counts as two");
    if (find_dashed(p->origin.rule, &word)) {
        snprintf(problem.example, sizeof problem.example,
                 "; a name with a dash stands in quotes: \"%.*s\"",
                 (int)(word.length < MOST_NAME ? word.length : MOST_NAME), word.at);
    }
    return report(problem);
}

/* Where more than two terms stand, leaves out those that cancel, as in
 * x + y <= x + 3. Of two terms none is left out: the list takes them as they are. */
static bool reduce(struct parser *p)
{
    int sums[MOST_NAMES] = {0};
    size_t kept = 0;
    for (size_t at = 0; at < p->count; at++) {
        sums[p->terms[at].variable] += p->terms[at].sign;
    }
    for (size_t at = 0; p->count > 2 && at < p->count; at++) {
        struct term term = p->terms[at];
        if (sums[term.variable] * term.sign > 0) {
            sums[term.variable] -= term.sign;
            p->terms[kept] = term;
            kept++;
        }
    }
    if (p->count > 2) {
        p->count = kept;
    }
    return p->count <= 2 || too_many_terms(p);
}

/* Says that the bound of a rule is too large, and which origin would do. */
static bool too_large(const struct parser *p)
{
    struct problem problem = problem_at(p->list, p->origin, nowhere.rule,
                                        "the bound is too large for 32 bits",
                                        "choose a coarser unit");
    if (p->count > 0) {
        advise_origin(&problem, p->list->names[p->terms[0].variable],
                      p->terms[0].sign * p->constant);
    }
    return report(problem);
}

/* Adds the rule's line, or with sign -1 the line that turns it round. */
static bool add_turned(const struct parser *p, int sign)
{
    int64_t d = sign * p->constant;
    int32_t line[UTVPI_LINE_NUMBERS] = {0};
    for (size_t at = 0; at < p->count; at++) {
        line[2 * at] = sign * p->terms[at].sign;
        line[2 * at + 1] = (int32_t)p->terms[at].variable;
        d -= line[2 * at] * p->list->offsets[p->terms[at].variable];
    }
    if (d < INT32_MIN || d > INT32_MAX) {
        return too_large(p);
    }
    line[BOUND] = (int32_t)d;
    line[IDENTIFIER] = p->identifier;
    return add_line(p->list, p->origin, line);
}

/* Reads the end of a rule: perhaps an identifier, and nothing behind it. */
static bool read_end(struct parser *p)
{
    if (p->kind == MESSAGE) {
        p->identifier = (int32_t)p->value;
        if (!next(p)) {
            return false;
        }
        if (p->kind != END) {
            return fail(p, p->kind == MESSAGE ? "is a second identifier"
                                              : "stands behind the identifier",
                        "give one identifier, at the end of the rule");
        }
    }
    return p->kind == END ||
           fail(p, "is a second comparison", "write two rules, one to a line");
}

/* Makes a strict rule one that is not: less than a whole number is at most one less. */
static enum kind loosen(struct parser *p, enum kind relation)
{
    p->constant += relation == BELOW ? -1 : relation == ABOVE ? 1 : 0;
    return relation == BELOW ? AT_MOST : relation == ABOVE ? AT_LEAST : relation;
}

/* Reads a rule that has <, > or = in it. */
bool read_words(struct list *list, struct origin origin)
{
    struct parser p = {.list = list, .origin = origin, .rest = origin.rule};
    if (!settle_form(list, origin, FORM_NAMES) || !next(&p) || !read_side(&p, 1)) {
        return false;
    }
    enum kind relation = p.kind;
    if (relation == END) {
        return fail(&p, "the rule has no <=, >=, <, > or = between its sides",
                    "write one of them");
    }
    if (relation == MESSAGE) {
        return fail(&p, "stands before the end of the rule", message_advice);
    }
    if (!next(&p) || !read_side(&p, -1) || !read_end(&p) || !reduce(&p)) {
        return false;
    }
    relation = loosen(&p, relation);
    return (relation == AT_LEAST || add_turned(&p, 1)) &&
           (relation == AT_MOST || add_turned(&p, -1));
}
