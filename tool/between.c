/* How far apart and how large together two events can be, over all the ways to meet the
 * rules. */
#include "list.h"

#include <stdlib.h>

/* Whether deciding agrees that a sum of two points, each an event or its opposite, can be
 * as large as this, or that it can't: a yes or a no is expected. */
bool can_reach(struct list *list, struct point one, struct point other, int64_t value,
                      int expected)
{
    int64_t line[UTVPI_LINE_NUMBERS] = {-one.sign, (int64_t)one.variable, -other.sign,
                                        (int64_t)other.variable, turned(value)};
    return is_answered(list, line, expected);
}

/* Whether deciding agrees that this is the greatest value of a sum: it is reached, and
 * one more is not; where there is none, the greatest that can be asked for is reached. */
bool is_greatest(struct list *list, struct point one, struct point other, int64_t value)
{
    if (value == UTVPI_NO_GREATEST) {
        return can_reach(list, one, other, UTVPI_MOST_BOUND, STATUS_YES);
    }
    return can_reach(list, one, other, value, STATUS_YES) &&
           can_reach(list, one, other, value + 1, STATUS_NO);
}

/* The same of all four sums of two events. */
static bool agrees(struct list *list, uint64_t x, uint64_t y, const utvpi_pair *pair)
{
    struct point plus = {1, y}, minus = {-1, y};
    return is_greatest(list, (struct point){1, x}, plus, pair->plus[0]) &&
           is_greatest(list, (struct point){1, x}, minus, pair->plus[1]) &&
           is_greatest(list, (struct point){-1, x}, plus, pair->minus[0]) &&
           is_greatest(list, (struct point){-1, x}, minus, pair->minus[1]);
}

/* The least and the greatest value of a sum or a difference. */
struct range {
    int64_t least;
    int64_t greatest;
};

/* Prints a sum or a difference, and between which values it lies. */
static void print_range(const struct list *list, const int32_t *line, struct range range)
{
    int64_t least = range.least, greatest = range.greatest;
    bool low = least != UTVPI_NO_LEAST, high = greatest != UTVPI_NO_GREATEST;
    print_terms(list, line, 1);
    if (low && least == greatest) {
        printf(" is always %" PRId64 "\n", least);
    } else if (low && high) {
        printf(" is at least %" PRId64 " and at most %" PRId64 "\n", least, greatest);
    } else if (low) {
        printf(" is at least %" PRId64 "; there is no limit above\n", least);
    } else if (high) {
        printf(" is at most %" PRId64 "; there is no limit below\n", greatest);
    } else {
        puts(" can be anything; there is no limit");
    }
}

static void write_range(const char *key, struct range range)
{
    json_object(key);
    json_bound("least", range.least);
    json_bound("greatest", range.greatest);
    json_close();
}

/* Prints what two events imply about each other, in readings. */
static void print_pair(const struct list *list, uint64_t x, uint64_t y, const utvpi_pair *pair)
{
    int32_t minus[UTVPI_LINE_NUMBERS] = {1, (int32_t)x, -1, (int32_t)y};
    int32_t plus[UTVPI_LINE_NUMBERS] = {1, (int32_t)x, 1, (int32_t)y};
    int64_t apart = list->offsets[x] - list->offsets[y];
    int64_t together = list->offsets[x] + list->offsets[y];
    struct range difference = {shifted(turned(pair->minus[0]), apart),
                               shifted(pair->plus[1], apart)};
    struct range sum = {shifted(turned(pair->minus[1]), together),
                        shifted(pair->plus[0], together)};
    if (json_wanted) {
        json_begin("yes");
        json_array("between");
        json_event(NULL, list, x);
        json_event(NULL, list, y);
        json_close();
        write_range("difference", difference);
        write_range("sum", sum);
        return;
    }
    puts("Over all the ways to meet the rules:\n");
    fputs("  how far apart:       ", stdout);
    print_range(list, minus, difference);
    fputs("  how large together:  ", stdout);
    print_range(list, plus, sum);
}

/* Asks the library for what two events of the list imply about each other. */
static int ask_pair(struct list *list, uint64_t x, uint64_t y)
{
    int64_t *work = take_work_area(list->file, list->variables);
    if (work == NULL) {
        return STATUS_BAD;
    }
    utvpi_pair pair = utvpi_implied_pair(list->variables, numbers_of(list), length_of(list), x, y,
                                         work, UTVPI_WORK_ROOM(list->variables));
    free(work);
    if (UTVPI_IS_REFUSAL(pair.result)) {
        print_refusal(list, list->file, UTVPI_REFUSAL_NUMBER(pair.result),
                      (size_t)UTVPI_REFUSAL_PLACE(pair.result));
        return STATUS_BAD;
    }
    if (UTVPI_IS_UNSOLVABLE(pair.result)) {
        return answer_unsolvable(list);
    }
    if (!UTVPI_IS_YES(pair.result)) {
        return disagree("the library gave a number that is no answer");
    }
    if (!agrees(list, x, y, &pair)) {
        return disagree("the library's numbers for two events are not those that deciding finds");
    }
    print_pair(list, x, y, &pair);
    return STATUS_YES;
}

/* Says how far apart and how large together two events can be, unless the library
 * refuses the list. Gives back the exit status. */
int answer_between(struct list *list, const char *const events[2])
{
    uint64_t x, y;
    int status = take_questions(list);
    if (status != STATUS_YES) {
        return status;
    }
    return find_event(list, events[0], &x) && find_event(list, events[1], &y)
               ? ask_pair(list, x, y)
               : STATUS_BAD;
}
