/* Printing a no on a proposed refutation: which of its numbers is wrong, and why; or
 * which of the identifiers beside it. */
#include "list.h"

#include <inttypes.h>

static void print_head(const struct proposal *proposal, enum reason reason)
{
    uint32_t kind = proposal->numbers[0], p = proposal->numbers[1], q = proposal->numbers[2];
    if (reason == TOO_FEW) {
        printf("  Of the three numbers that come first, the kind and two counts, it has %zu.\n",
               proposal->count);
    } else if (reason == BAD_KIND) {
        printf("  The kind is %" PRIu32 ", but there are only the kinds 1, 2 and 3.\n", kind);
    } else if (reason == BAD_COUNTS) {
        printf("  The counts, at index 1 and 2, are %" PRIu32 " and %" PRIu32 ".\n"
               "  Kind %" PRIu32 " has %s.\n",
               p, q, kind,
               kind == 1   ? "a first count of at least 1, and a second of 0"
               : kind == 2 ? "two counts of at least 1"
                           : "a first count of 1, and a second of 0");
    } else {
        printf("  The counts %" PRIu32 " and %" PRIu32 " ask for %" PRIu64 " numbers: three, and"
               " then the steps.\n  There are %zu.\n",
               p, q, (uint64_t)3 + p + q, proposal->count);
    }
}

/* Prints why a step number names nothing that its kind can use. */
static void print_no_step(const struct list *list, uint32_t step, enum reason reason)
{
    uint32_t rule = step / 2;
    if (reason == NO_RULE) {
        printf("  Step %" PRIu32 " is of rule %" PRIu32 ", but ", step, rule);
        if (list->count == 0) {
            puts("there are no rules.");
        } else {
            printf("the last is rule %zu.\n", list->count - 1);
        }
        return;
    }
    print_rule(list, step);
    if (reason == NO_SIDE) {
        printf("  Rule %" PRIu32 " is on one event and has only side 0: step %" PRIu32
               " in place of %" PRIu32 ".\n",
               rule, step - 1, step);
    } else if (reason == NO_STEPS) {
        printf("  Step %" PRIu32 " would be side %" PRIu32 " of rule %" PRIu32
               ", but a rule without events has no steps.\n",
               step, step % 2, rule);
    } else if (reason == HAS_EVENTS) {
        puts("  Kind 3 takes a rule without events, which is false by itself.");
    } else if (reason == IS_TRUE) {
        puts("  Kind 3 takes a rule that is false by itself, and this one is true.");
    } else {
        printf("  Kind 3 names rule %" PRIu32 " by twice its number: %" PRIu32
               " in place of %" PRIu32 ".\n",
               rule, step - 1, step);
    }
}

/* Prints why a step can't stand here: what it joins or where a walk has to end. */
static void print_walk_fault(const struct list *list, const struct proposal *proposal,
                             struct fault fault)
{
    uint32_t number = proposal->numbers[fault.place];
    struct step step = step_of(list, number);
    struct point start = step_of(list, proposal->numbers[3]).from;
    print_rule(list, number);
    printf("  Step %" PRIu32 ", side %" PRIu32 " of rule %" PRIu32 ", leads from ", number,
           number % 2, number / 2);
    print_point(list, step.from);
    fputs(" to ", stdout);
    print_point(list, step.to);
    if (fault.reason == NOT_JOINED) {
        fputs(".\n  It does not join: the walk is at ", stdout);
        print_point(list, step_of(list, proposal->numbers[fault.place - 1]).to);
    } else if (fault.reason == FIRST_ENDS_WRONG) {
        fputs(".\n  The first walk ends there. It has to end at the opposite of where it began: ",
              stdout);
        print_point(list, opposite(start));
    } else {
        printf(".\n  The %swalk ends there. It has to end where %s began: ",
               proposal->numbers[0] == 2 ? "second " : "",
               proposal->numbers[0] == 2 ? "the first" : "it");
        print_point(list, start);
    }
    puts(".");
}

/* Prints how places are counted. */
static void print_counting(void)
{
    puts("\nIndexes and rules count from 0, lines from 1. A rule with = counts as two.");
}

/* What is wrong, in a word for programs. */
static const char *const reasons[] = {
    [TOO_FEW] = "too_few",
    [BAD_KIND] = "bad_kind",
    [BAD_COUNTS] = "bad_counts",
    [BAD_LENGTH] = "bad_length",
    [NO_RULE] = "no_rule",
    [NO_SIDE] = "no_side",
    [NO_STEPS] = "no_steps",
    [HAS_EVENTS] = "has_events",
    [IS_TRUE] = "is_true",
    [IS_ODD] = "is_odd",
    [NOT_JOINED] = "not_joined",
    [FIRST_ENDS_WRONG] = "first_ends_wrong",
    [LAST_ENDS_WRONG] = "last_ends_wrong",
    [NOT_LOW] = "not_low",
};

static void write_broken(const struct proposal *proposal, struct fault fault)
{
    json_begin("no");
    json_object("breaks");
    json_integer("index", (int64_t)fault.place);
    json_bound("number", fault.place < proposal->count ? proposal->numbers[fault.place]
                                                       : UTVPI_NO_LEAST);
    json_string("reason", reasons[fault.reason]);
    json_close();
}

static void write_misnamed(const struct proposal *proposal, size_t place)
{
    bool counted = proposal->named_count == proposal->count - 3;
    json_begin("no");
    json_object("misnamed");
    json_bound("index", counted ? (int64_t)place : UTVPI_NO_LEAST);
    json_bound("named", counted ? proposal->named[place] : UTVPI_NO_LEAST);
    json_bound("identifier", counted ? proposal->identifiers[place] : UTVPI_NO_LEAST);
    json_close();
}

void print_broken(const struct list *list, const struct proposal *proposal, struct fault fault)
{
    if (json_wanted) {
        write_broken(proposal, fault);
        return;
    }
    printf("No. The refutation shows nothing. It breaks at index %zu, ", fault.place);
    if (fault.place < proposal->count) {
        printf("the number %" PRIu32 ":\n\n", proposal->numbers[fault.place]);
    } else {
        puts("which is missing:\n");
    }
    if (fault.reason <= BAD_LENGTH) {
        print_head(proposal, fault.reason);
    } else if (fault.reason <= IS_ODD) {
        print_no_step(list, proposal->numbers[fault.place], fault.reason);
    } else if (fault.reason <= LAST_ENDS_WRONG) {
        print_walk_fault(list, proposal, fault);
    } else {
        print_walks(list, proposal->numbers);
        puts("  The sums are not low enough: the rules have to add up to something false.");
    }
    print_counting();
}

/* Prints what is wrong with the identifiers that a refutation names, which is right
 * itself: how many they are, or the one at this place, a step counted from 0. */
void print_misnamed(const struct list *list, const struct proposal *proposal, size_t place)
{
    size_t steps = proposal->count - 3;
    if (json_wanted) {
        write_misnamed(proposal, place);
        return;
    }
    puts("No. The refutation is right, but the identifiers beside it are not those of its"
         " rules:\n");
    if (proposal->named_count != steps) {
        printf("  It has %zu steps, but line %zu of the refutation names %zu identifiers.\n", steps,
               proposal->named_line, proposal->named_count);
    } else {
        print_rule(list, proposal->numbers[3 + place]);
        printf("  In line %zu of the refutation the identifier at index %zu is %" PRIu32
               ", but that of this rule is %" PRIu32 ".\n",
               proposal->named_line, place, proposal->named[place], proposal->identifiers[place]);
    }
    print_counting();
}
