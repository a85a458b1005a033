/* The table of a yes, in readings: each event's value, least, greatest and group; and its
 * lines as comma-separated values, and as JSON. */
#include "list.h"

/* The group of an event in readings: the lowest event of its group that always has its
 * reading, or the opposite one. Where origins differ, numbers that are always equal are
 * not. */
static void regroup(const struct list *list, const uint32_t *groups, size_t v, uint32_t *group)
{
    for (size_t first = 0; first <= v; first++) {
        int64_t sign = groups[2 * v + 1] == groups[2 * first + 1] ? 1 : -1;
        if (groups[2 * first] == groups[2 * v] &&
            list->offsets[v] == sign * list->offsets[first]) {
            group[0] = (uint32_t)first;
            group[1] = sign < 0 ? 1 : 0;
            return;
        }
    }
}

/* Makes the table of the library's yes. */
void make_table(const struct list *list, const int32_t *model, const int64_t *bounds,
                const uint32_t *groups, struct table *table)
{
    for (size_t v = 0; v < list->variables; v++) {
        table->values[v] = with_offset(list, v, model[v]);
        table->bounds[2 * v] = with_offset(list, v, bounds[2 * v]);
        table->bounds[2 * v + 1] = with_offset(list, v, bounds[2 * v + 1]);
        regroup(list, groups, v, table->groups + 2 * v);
    }
}

/* Writes an event's name, without quotes of its own. */
void json_event(const char *key, const struct list *list, uint64_t variable)
{
    json_text(key, list->names[variable]);
}

/* Writes a table as the member events. */
static void write_events(const struct list *list, const struct table *table)
{
    json_array("events");
    for (uint64_t v = 0; v < list->variables; v++) {
        json_object(NULL);
        json_event("event", list, v);
        json_integer("value", table->values[v]);
        json_bound("least", table->bounds[2 * v]);
        json_bound("greatest", table->bounds[2 * v + 1]);
        json_event("group", list, table->groups[2 * v]);
        json_integer("sign", table->groups[2 * v + 1] == 0 ? 1 : -1);
        json_seconds(list, v, COLUMNS);
        json_close();
    }
    json_close();
}

/* Writes the library's yes as the member events. */
void json_events(const struct list *list, const int32_t *model, const int64_t *bounds,
                 const uint32_t *groups)
{
    static struct table table;
    make_table(list, model, bounds, groups, &table);
    write_events(list, &table);
}

/* Writes values alone, one for each event, as the same member. */
void json_values(const struct list *list, const int32_t *values)
{
    json_array("events");
    for (uint64_t v = 0; v < list->variables; v++) {
        json_object(NULL);
        json_event("event", list, v);
        json_integer("value", with_offset(list, v, values[v]));
        json_seconds(list, v, VALUE + 1);
        json_close();
    }
    json_close();
}

static void print_bound(int64_t bound)
{
    if (bound == UTVPI_NO_LEAST || bound == UTVPI_NO_GREATEST) {
        putchar(',');
    } else {
        printf(",%" PRId64, bound);
    }
}

/* Prints a yes as comma-separated values, with a head. An absent bound is empty, and so
 * are the seconds of an event without a clock. A name in quotes is one here, too, as no
 * name has quotes in it. */
void print_csv(const struct list *list, const int32_t *model, const int64_t *bounds,
               const uint32_t *groups)
{
    static struct table table;
    make_table(list, model, bounds, groups, &table);
    fputs("event,value,least,greatest,group,sign", stdout);
    puts(list->clock_count > 0 ? ",value_seconds,least_seconds,greatest_seconds" : "");
    for (uint64_t v = 0; v < list->variables; v++) {
        print_event(stdout, list, v);
        printf(",%" PRId64, table.values[v]);
        print_bound(table.bounds[2 * v]);
        print_bound(table.bounds[2 * v + 1]);
        putchar(',');
        print_event(stdout, list, table.groups[2 * v]);
        fputs(table.groups[2 * v + 1] == 0 ? ",1" : ",-1", stdout);
        for (int column = VALUE; list->clock_count > 0 && column < COLUMNS; column++) {
            const char *seconds = seconds_text((enum column)column, v);
            printf(",%s", seconds == NULL ? "" : seconds);
        }
        putchar('\n');
    }
}
