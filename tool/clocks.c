/* Clocks of recorders: reading "clock NAME = 100000 ticks per s", and which event has
 * which clock. */
#include "list.h"

#include <stdlib.h>
#include <string.h>

static const char clock_advice[] =
    "write how many seconds a tick lasts, such as clock left = 0.00001 s per tick, or how many"
    " ticks a second has, such as clock left = 100000 ticks per s";

/* What a clock's number counts, by its form. */
static const char *const units[][3] = {
    [UTVPI_SECONDS_PER_TICK] = {"s", "per", "tick"},
    [UTVPI_TICKS_PER_SECOND] = {"ticks", "per", "s"},
};

bool is_clock(struct text line)
{
    return is_definition(line, "clock");
}

static struct text take_part(struct text *rest)
{
    size_t length = 0;
    while (length < rest->length && !is_blank(rest->at[length])) {
        length++;
    }
    return take_off(rest, length);
}

/* Reads what the number counts, all that is left of the line. */
static bool read_unit(struct text rest, uint32_t *form)
{
    struct text parts[3];
    for (size_t at = 0; at < 3; at++) {
        parts[at] = take_part(&rest);
    }
    for (*form = UTVPI_SECONDS_PER_TICK; *form <= UTVPI_TICKS_PER_SECOND; ++*form) {
        bool same = rest.length == 0;
        for (size_t at = 0; at < 3; at++) {
            const char *word = units[*form][at];
            same = same && is_same(parts[at], (struct text){word, strlen(word)});
        }
        if (same) {
            return true;
        }
    }
    return false;
}

/* Takes digits off the rest. False where there are none. */
static bool skip_digits(struct text *rest)
{
    size_t length = 0;
    while (length < rest->length && is_digit(rest->at[length])) {
        length++;
    }
    rest->at += length;
    rest->length -= length;
    return length > 0;
}

/* Takes one of two characters off the rest. */
static bool skip_one(struct text *rest, const char *of_two)
{
    bool is_there = rest->length > 0 && (rest->at[0] == of_two[0] || rest->at[0] == of_two[1]);
    rest->at += is_there ? 1 : 0;
    rest->length -= is_there ? 1 : 0;
    return is_there;
}

/* Reads a decimal number, perhaps with a sign, a point and an exponent. Which of them a
 * clock can have, the library says. */
static bool read_rate(struct text part, double *rate)
{
    char digits[MOST_RULE + 1];
    struct text rest = part;
    skip_one(&rest, "-+");
    if (!skip_digits(&rest) || (skip_one(&rest, "..") && !skip_digits(&rest))) {
        return false;
    }
    if (skip_one(&rest, "eE")) {
        skip_one(&rest, "-+");
        if (!skip_digits(&rest)) {
            return false;
        }
    }
    memcpy(digits, part.at, part.length);
    digits[part.length] = '\0';
    *rate = strtod(digits, NULL);
    return rest.length == 0;
}

/* Reads a clock's name and =, and leaves what stands behind them. */
static bool read_name(const struct list *list, struct origin origin, struct text *rest,
                      struct text *name)
{
    if (!read_defined(list, origin, clock_advice, rest, name)) {
        return false;
    }
    for (size_t at = 0; at < list->clock_count; at++) {
        if (is_same(list->clocks[at].name, *name)) {
            return wrong(list, origin, *name, "has a clock already",
                         "give each recorder one clock");
        }
    }
    return true;
}

/* Reads a clock. The library looks at all that there are, of which the last is new. */
bool read_clock(struct list *list, struct origin origin)
{
    struct clock clock = {.origin = origin};
    struct text rest;
    if (!read_name(list, origin, &rest, &clock.name)) {
        return false;
    }
    struct text number = take_part(&rest);
    if (!read_rate(number, &clock.rate)) {
        return wrong(list, origin, number,
                     number.length > 0 ? "is no number of ticks or seconds"
                                       : "the clock's number is missing",
                     clock_advice);
    }
    if (!read_unit(rest, &clock.form)) {
        return wrong(list, origin, rest,
                     rest.length > 0 ? "stands in the place of \"s per tick\" or \"ticks per s\""
                                     : "what the clock's number counts is missing",
                     clock_advice);
    }
    if (!settle_form(list, origin, FORM_NAMES)) {
        return false;
    }
    list->clocks[list->clock_count] = clock;
    list->clock_count++;
    return take_clocks(list);
}

/* The clock of an event: of those NAME of which the event is NAME.rest, the longest. How
 * many clocks there are, where it has none. */
size_t clock_of(const struct list *list, uint64_t variable)
{
    size_t found = list->clock_count, longest = 0;
    for (size_t at = 0; at < list->clock_count; at++) {
        struct text name = list->clocks[at].name;
        if (belongs_to(list->names[variable], name) && name.length > longest) {
            longest = name.length;
            found = at;
        }
    }
    return found;
}
