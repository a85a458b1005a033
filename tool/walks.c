/* Printing the walks of a refutation that someone proposes: its rules, in the order of
 * the walk, and how they add up to something that can hold. */
#include "list.h"

#include <inttypes.h>

/* Steps, in a row. */
struct walk {
    const uint32_t *steps;
    uint32_t count;
};

/* What a walk's rules add up to: a factor for each variable, and the bound. */
struct sum {
    int64_t factors[UTVPI_MOST_VARIABLES];
    int64_t bound;
};

/* Half of a number, rounded down. */
int64_t half(int64_t number)
{
    return number / 2 - (number % 2 < 0 ? 1 : 0);
}

/* Prints a term. The first has its sign without blanks, and none where it is +. */
static void print_term(const struct list *list, int64_t factor, uint64_t variable, bool first)
{
    if (first) {
        fputs(factor < 0 ? "-" : "", stdout);
    } else {
        fputs(factor < 0 ? " - " : " + ", stdout);
    }
    if (factor != 1 && factor != -1) {
        printf("%" PRId64 "*", factor < 0 ? -factor : factor);
    }
    print_event(stdout, list, variable);
}

/* Prints the left side of a line, counted that many times. */
void print_terms(const struct list *list, const int32_t *line, int count)
{
    bool first = true;
    for (int at = 0; at < BOUND; at += 2) {
        if (line[at] != 0) {
            print_term(list, (int64_t)count * line[at], (uint64_t)line[at + 1], first);
            first = false;
        }
    }
    fputs(first ? "0" : "", stdout);
}

/* Prints a line in the same way. */
static void print_line(const struct list *list, const int32_t *line, int count)
{
    print_terms(list, line, count);
    printf(" <= %" PRId64 "\n", count * bound_of(list, line));
}

/* Prints a sum; with halved, half of each factor and of the bound, rounded down. */
static void print_sum(const struct list *list, const struct sum *sum, bool halved)
{
    bool first = true;
    for (uint64_t v = 0; v < list->variables; v++) {
        if (sum->factors[v] != 0) {
            print_term(list, halved ? sum->factors[v] / 2 : sum->factors[v], v, first);
            first = false;
        }
    }
    printf("%s <= %" PRId64, first ? "0" : "", halved ? half(sum->bound) : sum->bound);
}

/* Prints a rule, and what it says in one form for all. */
static void print_step(const struct list *list, uint32_t step, struct layout layout)
{
    const int32_t *line = line_of(list, step);
    print_quoted(list, step, layout, true);
    printf("  %-6s  ", times(line) == 2 ? "twice:" : "says:");
    print_line(list, line, times(line));
}

/* Prints the rules of a walk and adds them up. */
static struct sum print_walk(const struct list *list, struct walk walk, struct layout layout)
{
    struct sum sum = {{0}, 0};
    for (uint32_t at = 0; at < walk.count; at++) {
        const int32_t *line = line_of(list, walk.steps[at]);
        print_step(list, walk.steps[at], layout);
        sum.factors[line[1]] += times(line) * line[0];
        sum.factors[line[3]] += times(line) * line[2];
        sum.bound += weight_of(line);
    }
    for (uint64_t v = 0; v < list->variables; v++) {
        sum.bound += sum.factors[v] * list->offsets[v];
    }
    fputs("  Added up: ", stdout);
    print_sum(list, &sum, false);
    return sum;
}

/* Prints what one walk of kind 2 says: a bound on twice a variable. */
static void print_half(const struct list *list, struct walk walk, struct layout layout)
{
    struct sum sum = print_walk(list, walk, layout);
    fputs(", so ", stdout);
    print_sum(list, &sum, true);
    puts(sum.bound % 2 == 0 ? ".\n" : " (halved, and rounded down to a whole number).\n");
}

/* Prints the rule of a step in columns of its own. */
void print_rule(const struct list *list, uint32_t step)
{
    print_step(list, step, layout_of(list, &step, 1));
}

/* What all steps of kind 1 or 2 add up to: 0 <= this. */
int64_t bound_together(const struct list *list, const uint32_t *refutation)
{
    int64_t sums[2] = {0, 0};
    for (uint32_t at = 0; at < refutation[1] + refutation[2]; at++) {
        const int32_t *line = line_of(list, refutation[3 + (size_t)at]);
        sums[at < refutation[1] ? 0 : 1] += weight_of(line);
    }
    return refutation[0] == 1 ? sums[0] : half(sums[0]) + half(sums[1]);
}

/* Prints the walks of a refutation, which lead where they should, and what they add up
 * to, which is not false. */
void print_walks(const struct list *list, const uint32_t *refutation)
{
    uint32_t p = refutation[1], q = refutation[2];
    struct walk there = {refutation + 3, p}, back = {refutation + 3 + p, q};
    struct layout layout = layout_of(list, there.steps, (size_t)p + q);
    if (refutation[0] == 1) {
        print_walk(list, there, layout);
        puts(", which can hold.");
        return;
    }
    print_half(list, there, layout);
    print_half(list, back, layout);
    printf("  Together: 0 <= %" PRId64 ", which can hold.\n", bound_together(list, refutation));
}
