/* Printing a yes: each event's value, least, greatest and group; or values alone. Seconds
 * stand beside all numbers, where there are clocks. */
#include "list.h"

#include <inttypes.h>

/* Room for a 64-bit number in digits. */
#define DIGITS 24

/* An event's name. */
void print_event(FILE *to, const struct list *list, uint64_t variable)
{
    print_name(to, list->names[variable]);
}

/* Prints a point: an event, or its opposite with a minus. */
void print_point(const struct list *list, struct point point)
{
    fputs(point.sign < 0 ? "-" : "", stdout);
    print_event(stdout, list, point.variable);
}

/* How many characters an event's name has. */
int event_width(const struct list *list, uint64_t variable)
{
    return name_width(list->names[variable]);
}

/* An event's group: the first event that it always equals, or its opposite. */
static struct point group_of(const uint32_t *groups, uint64_t variable)
{
    return (struct point){groups[2 * variable + 1] == 0 ? 1 : -1, groups[2 * variable]};
}

static void print_cell(int64_t value, bool absent)
{
    char digits[DIGITS];
    snprintf(digits, sizeof digits, "%" PRId64, value);
    printf("  %10s", absent ? "none" : digits);
}

/* The width of the column of events. */
static int events_width(const struct list *list)
{
    int width = 5;
    for (uint64_t v = 0; v < list->variables; v++) {
        int own = event_width(list, v);
        width = own > width ? own : width;
    }
    return width;
}

/* Prints the columns that every table has. */
static void print_value(const struct list *list, uint64_t v, int width, int64_t value)
{
    fputs("  ", stdout);
    print_event(stdout, list, v);
    printf("%*s", width - event_width(list, v), "");
    print_cell(value, false);
    print_seconds(list, VALUE, v);
}

/* Prints values, one for each event. */
void print_values(const struct list *list, const int32_t *values)
{
    int width = events_width(list);
    if (json_wanted) {
        json_values(list, values);
        return;
    }
    printf("  %-*s  %10s", width, "event", "value");
    print_seconds_head(list, VALUE);
    putchar('\n');
    for (uint64_t v = 0; v < list->variables; v++) {
        print_value(list, v, width, with_offset(list, v, values[v]));
        putchar('\n');
    }
}

static void print_row(const struct list *list, uint64_t v, int width, int64_t value,
                      const int64_t *bound, struct point group)
{
    print_value(list, v, width, value);
    print_cell(bound[0], bound[0] == UTVPI_NO_LEAST);
    print_seconds(list, LEAST, v);
    print_cell(bound[1], bound[1] == UTVPI_NO_GREATEST);
    print_seconds(list, GREATEST, v);
    fputs("  ", stdout);
    print_point(list, group);
    fputc('\n', stdout);
}

/* Whether the group that is called by this event has the opposite of one. */
static bool has_opposite(const struct list *list, const uint32_t *groups, uint64_t first)
{
    for (uint64_t v = first; v < list->variables; v++) {
        if (same_point(group_of(groups, v), (struct point){-1, first})) {
            return true;
        }
    }
    return false;
}

/* Prints in one line how the events of a group depend on its first. An event that is
 * always the opposite of that has a minus here too. */
static void print_group(const struct list *list, const uint32_t *groups, uint64_t first)
{
    fputs("  ", stdout);
    print_event(stdout, list, first);
    for (uint64_t v = first + 1; v < list->variables; v++) {
        struct point group = group_of(groups, v);
        if (group.variable == first) {
            fputs(" = ", stdout);
            print_point(list, (struct point){group.sign, v});
        }
    }
    puts(", always");
}

static void print_head(const struct list *list, int width)
{
    printf("  %-*s  %10s", width, "event", "value");
    print_seconds_head(list, VALUE);
    printf("  %10s", "least");
    print_seconds_head(list, LEAST);
    printf("  %10s", "greatest");
    print_seconds_head(list, GREATEST);
    puts("  group");
}

static void print_legend(const struct list *list, bool some_low, bool some_high)
{
    putchar('\n');
    if (list->tree.either > 0) {
        puts("rules: those of the alternatives above, and those that stand in none. With other\n"
             "alternatives the table may be another.");
    }
    printf("value: together, these values meet every rule; each is as near to %s as the\n"
           "ones above it allow. least, greatest: over all the ways to meet the rules.\n",
           list->base_count > 0 ? "0, or its origin," : "0");
    if (list->clock_count > 0) {
        puts("seconds: of the number before them, by the clock NAME of the event NAME.rest; they\n"
             "read back as the same floats. - where the event has no clock.");
        fputs(list->base_count > 0 ? "They count from the event's origin, where it has one.\n" : "",
              stdout);
    }
    if (some_low) {
        puts("none under least: the rules let this event be as low as you like.");
    }
    if (some_high) {
        puts("none under greatest: the rules let this event be as high as you like.");
    }
}

/* Says what the groups are. Those with a minus are printed once more, each as a whole. */
static void print_groups(const struct list *list, const uint32_t *groups, bool some_shared,
                         bool some_opposite)
{
    if (!some_shared) {
        puts("group: each event is a group of its own; no two are always equal or opposite.");
    } else if (!some_opposite) {
        puts("group: events of one group always have the same value; a group is called by\n"
             "its first event.");
    } else {
        puts("group: events of one group always have the same value, or, with a minus, the\n"
             "opposite one; a group is called by its first event. The groups with a minus:\n");
        for (uint64_t v = 0; v < list->variables; v++) {
            if (has_opposite(list, groups, v)) {
                print_group(list, groups, v);
            }
        }
    }
}

/* Prints the table of a yes, and what stands in it. */
static void print_table(const struct list *list, const struct table *table)
{
    const int64_t *bounds = table->bounds;
    const uint32_t *groups = table->groups;
    bool some_low = false, some_high = false, some_shared = false, some_opposite = false;
    int width = events_width(list);
    for (uint64_t v = 0; v < list->variables; v++) {
        some_low = some_low || bounds[2 * v] == UTVPI_NO_LEAST;
        some_high = some_high || bounds[2 * v + 1] == UTVPI_NO_GREATEST;
        some_shared = some_shared || groups[2 * v] != v;
        some_opposite = some_opposite || group_of(groups, v).sign < 0;
    }
    print_head(list, width);
    for (uint64_t v = 0; v < list->variables; v++) {
        print_row(list, v, width, table->values[v], bounds + 2 * v, group_of(groups, v));
    }
    print_legend(list, some_low, some_high);
    print_groups(list, groups, some_shared, some_opposite);
}

/* Prints the library's yes. */
void print_yes(const struct list *list, const int32_t *model, const int64_t *bounds,
               const uint32_t *groups)
{
    static struct table table;
    if (json_wanted) {
        json_begin("yes");
        json_alternatives(list);
        json_events(list, model, bounds, groups);
        return;
    }
    if (list->tree.either > 0) {
        print_alternatives(list);
    } else {
        puts(list->variables > 0 ? "Yes. Whole numbers meet all the rules:\n"
                                 : "Yes. There are no events, and no rule is false.");
    }
    if (list->variables > 0) {
        make_table(list, model, bounds, groups, &table);
        print_table(list, &table);
    }
}

/* Prints a yes only as such. */
void print_short(void)
{
    if (json_wanted) {
        json_begin("yes");
    } else {
        puts("Yes. Whole numbers meet all the rules so far.");
    }
}
