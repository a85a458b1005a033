/* Ticks in seconds: the numbers of a table of events, each by the clock of its event, as
 * the library writes them, and as texts that read back as the same floats. */
#include "list.h"

#include <float.h>
#include <stdlib.h>
#include <string.h>

/* The most digits that a float needs; C99 does not name them. */
#ifndef DBL_DECIMAL_DIG
#define DBL_DECIMAL_DIG (DBL_DIG + 2)
#endif

/* The most characters of a float, with a zero: a sign, the digits, a point, an exponent. */
#define MOST_FLOAT 32

/* The seconds that stand beside the numbers of a column, and their width. */
static char texts[COLUMNS][UTVPI_MOST_VARIABLES][MOST_FLOAT];
static int widths[COLUMNS];

/* The numbers of a column that have seconds, one behind the other: the event, its
 * recorder, the number and its seconds. */
struct counts {
    size_t count;
    size_t events[UTVPI_MOST_VARIABLES];
    uint32_t recorders[UTVPI_MOST_VARIABLES];
    int64_t ticks[UTVPI_MOST_VARIABLES];
    double seconds[UTVPI_MOST_VARIABLES];
};

/* Asks the library for the seconds. There may be one clock too many. */
static utvpi_seconds ask(const struct list *list, struct counts *counts)
{
    uint32_t forms[UTVPI_MOST_RECORDERS + 1] = {0};
    double rates[UTVPI_MOST_RECORDERS + 1] = {0};
    for (size_t at = 0; at < list->clock_count; at++) {
        forms[at] = list->clocks[at].form;
        rates[at] = list->clocks[at].rate;
    }
    return utvpi_events_seconds(forms, list->clock_count, rates, list->clock_count,
                                counts->recorders, counts->count, counts->ticks, counts->count,
                                counts->seconds, UTVPI_MOST_VARIABLES);
}

/* Whether the library takes the clocks; without events it looks at nothing else. Says
 * what is wrong where it refuses one. */
bool take_clocks(const struct list *list)
{
    static struct counts none;
    utvpi_seconds looked = ask(list, &none);
    if (looked.refusal != 0) {
        print_refusal(list, list->file, (int)looked.refusal, (size_t)looked.place);
    }
    return looked.refusal == 0;
}

/* A float as text: the fewest digits that read back as the same float, and as many more
 * as a large number needs to do without an exponent, if those are enough. */
static void write_float(char text[MOST_FLOAT], double number)
{
    for (int plain = 1; plain >= 0; plain--) {
        for (int digits = 1; digits <= DBL_DECIMAL_DIG; digits++) {
            snprintf(text, MOST_FLOAT, "%.*g", digits, number);
            if (strtod(text, NULL) == number && (plain == 0 || strstr(text, "e+") == NULL)) {
                return;
            }
        }
    }
}

/* Gathers the numbers of a column that have seconds, and gives the others their texts:
 * absent bounds, and numbers of events without a clock. */
static void gather(const struct list *list, char column[][MOST_FLOAT], const int64_t *numbers,
                   size_t stride, struct counts *counts)
{
    counts->count = 0;
    for (size_t v = 0; v < list->variables; v++) {
        int64_t number = numbers[stride * v];
        size_t recorder = clock_of(list, v);
        if (recorder == list->clock_count) {
            strcpy(column[v], "-");
        } else if (number == UTVPI_NO_LEAST || number == UTVPI_NO_GREATEST) {
            strcpy(column[v], "none");
        } else {
            counts->events[counts->count] = v;
            counts->recorders[counts->count] = (uint32_t)recorder;
            counts->ticks[counts->count] = number;
            counts->count++;
        }
    }
}

/* The seconds of ticks, worked out here. */
static double seconds_of(const struct clock *clock, int64_t ticks)
{
    return clock->form == UTVPI_SECONDS_PER_TICK ? (double)ticks * clock->rate
                                                 : (double)ticks / clock->rate;
}

/* Takes the seconds of a column: a number for each event, so many places apart. False
 * where they are not those that this program finds. Without clocks there are none. */
bool take_seconds(const struct list *list, enum column column, const int64_t *numbers,
                  size_t stride)
{
    static struct counts counts;
    if (list->clock_count == 0) {
        return true;
    }
    gather(list, texts[column], numbers, stride, &counts);
    if (ask(list, &counts).refusal != 0) {
        return false;
    }
    for (size_t at = 0; at < counts.count; at++) {
        double due = seconds_of(&list->clocks[counts.recorders[at]], counts.ticks[at]);
        if (memcmp(&due, &counts.seconds[at], sizeof due) != 0) {
            return false;
        }
        write_float(texts[column][counts.events[at]], due);
    }
    widths[column] = 10;
    for (size_t v = 0; v < list->variables; v++) {
        int width = (int)strlen(texts[column][v]);
        widths[column] = width > widths[column] ? width : widths[column];
    }
    return true;
}

/* The same of the column of values, which have 32 bits, and counts 64. */
bool take_value_seconds(const struct list *list, const int32_t *values)
{
    static int64_t counts[UTVPI_MODEL_ROOM(UTVPI_MOST_VARIABLES)];
    for (size_t v = 0; v < list->variables; v++) {
        counts[v] = values[v];
    }
    return take_seconds(list, VALUE, counts, 1);
}

/* Prints the head of a column of seconds, and an event's seconds in it, where there are
 * clocks. */
void print_seconds_head(const struct list *list, enum column column)
{
    if (list->clock_count > 0) {
        printf("  %*s", widths[column], "seconds");
    }
}

void print_seconds(const struct list *list, enum column column, uint64_t variable)
{
    if (list->clock_count > 0) {
        printf("  %*s", widths[column], texts[column][variable]);
    }
}

/* The seconds of an event as they are written for programs: NULL where there are none, and
 * beyond all floats, which is read as an infinity, where they are infinite. */
const char *seconds_text(enum column column, uint64_t variable)
{
    const char *text = texts[column][variable];
    if (strcmp(text, "-") == 0 || strcmp(text, "none") == 0) {
        return NULL;
    }
    return strcmp(text, "inf") == 0 ? "1e999" : strcmp(text, "-inf") == 0 ? "-1e999" : text;
}

/* Writes an event's seconds, of as many columns, as the member seconds: null where it has
 * no clock. */
void json_seconds(const struct list *list, uint64_t variable, int columns)
{
    static const char *const keys[COLUMNS] = {"value", "least", "greatest"};
    if (clock_of(list, variable) == list->clock_count) {
        json_null("seconds");
        return;
    }
    json_object("seconds");
    for (int column = VALUE; column < columns; column++) {
        const char *text = seconds_text((enum column)column, variable);
        json_number(keys[column], text == NULL ? "null" : text);
    }
    json_close();
}
