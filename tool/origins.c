/* Origins: readings that are subtracted from those of a recorder, or of one event, so that
 * large ones stay within the library's limits. Rules and answers have the readings; the
 * numbers between them, which the library decides, are counted from the origins. */
#include "list.h"

#include <string.h>

static const char origin_advice[] =
    "write the reading to count from, a whole number from -" AS_TEXT(MOST_ORIGIN) " to "
    AS_TEXT(MOST_ORIGIN) ", such as origin left = 1436509052249713";

bool is_origin(struct text line)
{
    return is_definition(line, "origin");
}

/* Whether an event counts from the reading that NAME has. */
static bool counts_from(struct text event, struct text name)
{
    return is_same(event, name) || belongs_to(event, name);
}

/* Whether the origin of this name can stand here: it is the first, and no event counts
 * from it yet. */
static bool may_define(const struct list *list, struct origin origin, struct text name)
{
    for (size_t at = 0; at < list->base_count; at++) {
        if (is_same(list->bases[at].name, name)) {
            return wrong(list, origin, name, "has an origin already", "give it one origin");
        }
    }
    for (size_t v = 0; list->form == FORM_NAMES && v < list->variables; v++) {
        if (counts_from(list->names[v], name)) {
            return wrong(list, origin, list->names[v], "stands in a rule above its origin",
                         "write origins above the rules");
        }
    }
    return list->base_count < UTVPI_MOST_VARIABLES ||
           wrong(list, origin, name, "has an origin too many",
                 "leave out origins that no event has");
}

/* Reads an origin. */
bool read_origin(struct list *list, struct origin origin)
{
    struct base base = {.origin = origin};
    struct text rest;
    if (!read_defined(list, origin, origin_advice, &rest, &base.name)) {
        return false;
    }
    struct text digits = rest;
    bool negative = rest.length > 0 && rest.at[0] == '-';
    if (negative || (rest.length > 0 && rest.at[0] == '+')) {
        take_off(&digits, 1);
    }
    if (!scan_magnitude(&digits, &base.reading) || digits.length > 0 ||
        base.reading > MOST_ORIGIN) {
        return wrong(list, origin, rest,
                     rest.length > 0 ? "is no origin" : "the origin's number is missing",
                     origin_advice);
    }
    base.reading = negative ? -base.reading : base.reading;
    if (!settle_form(list, origin, FORM_NAMES) || !may_define(list, origin, base.name)) {
        return false;
    }
    list->bases[list->base_count] = base;
    list->base_count++;
    return true;
}

/* The reading from which an event counts: of the names that fit, that of the longest; 0
 * where none does. */
int64_t offset_of(const struct list *list, struct text event)
{
    int64_t offset = 0;
    size_t longest = 0;
    for (size_t at = 0; at < list->base_count; at++) {
        struct text name = list->bases[at].name;
        if (counts_from(event, name) && name.length > longest) {
            longest = name.length;
            offset = list->bases[at].reading;
        }
    }
    return offset;
}

/* The bound of a line in readings. */
int64_t bound_of(const struct list *list, const int32_t *line)
{
    int64_t bound = line[BOUND];
    for (int at = 0; at < BOUND; at += 2) {
        bound += line[at] == 0 ? 0 : line[at] * list->offsets[line[at + 1]];
    }
    return bound;
}

/* A number with another added. An absent bound stays one. */
int64_t shifted(int64_t number, int64_t by)
{
    return number == UTVPI_NO_LEAST || number == UTVPI_NO_GREATEST ? number : number + by;
}

/* An event's number as a reading. */
int64_t with_offset(const struct list *list, uint64_t variable, int64_t number)
{
    return shifted(number, list->offsets[variable]);
}

/* Advises to give an origin to the recorder of an event, or to the event alone, whose
 * reading is so large. */
void advise_origin(struct problem *problem, struct text event, int64_t reading)
{
    const char *point = memchr(event.at, '.', event.length);
    struct text name = event;
    if (point != NULL) {
        name.length = (size_t)(point - event.at);
    }
    const char *quote = name_length(name) < name.length ? "\"" : "";
    reading = reading > MOST_ORIGIN ? MOST_ORIGIN : reading;
    reading = reading < -MOST_ORIGIN ? -MOST_ORIGIN : reading;
    problem->advice = "choose a coarser unit, or have an origin subtracted from the readings, by"
                      " a line above the rules such as ";
    snprintf(problem->example, sizeof problem->example, "origin %s%.*s%s = %" PRId64, quote,
             (int)(name.length < MOST_NAME ? name.length : MOST_NAME), name.at, quote, reading);
}
