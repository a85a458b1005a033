/* Printing a refusal of the library, or of records: its number and place, the line
 * or the byte of the file, and what to do. */
#include "list.h"

/* What of the file a refusal is about: nothing that stands there, the line that
 * says how many variables there are, the first rule too many, the rule at the
 * refusal's place, which is the one at hand behind the last, the line of a session
 * that is read now, the last clock, the either with which there are too many choices, or
 * the node of the tree at the refusal's place. */
enum about {
    NOTHING, VARIABLES, RULE_TOO_MANY, RULE_AT_PLACE, LINE_AT_HAND, LAST_CLOCK,
    EITHER_TOO_MANY, NODE_AT_PLACE
};

struct words {
    const char *what;
    const char *advice;
    enum about about;
};

static const char fault[] = "this is a fault of this program, not of the file: report it";

/* The words on a refusal that no file can bring about: the library's. */
static struct words words_of_fault(enum utvpi_refusal number)
{
    return (struct words){utvpi_refusal_text((int)number), fault, NOTHING};
}

/* The table of refusals. What a file can't bring about is said in the library's words. A
 * number of the library's header that has no row here is an error, whatever the compiler's
 * options are. */
#pragma GCC diagnostic error "-Wswitch"
static struct words words_of(enum utvpi_refusal number)
{
    static const char again[] = "look for a damaged part, or get the file again";
    static char length[160];
    switch (number) {
    case UTVPI_TOO_MANY_VARIABLES:
        return (struct words){"there are more than " AS_TEXT(UTVPI_MOST_VARIABLES) " events",
                              "use fewer, or decide parts that share no event one by one",
                              VARIABLES};
    case UTVPI_TOO_MANY_LINES:
        return (struct words){"there are more than " AS_TEXT(UTVPI_MOST_LINES)
                              " rules; one with = counts twice",
                              "leave out rules that add nothing, or decide parts that share no"
                              " event one by one",
                              RULE_TOO_MANY};
    case UTVPI_BAD_COEFFICIENT:
        return (struct words){"a coefficient, the first or third number, is not -1, 0 or 1",
                              "correct it, or write the rule in another way", RULE_AT_PLACE};
    case UTVPI_BAD_VARIABLE:
        return (struct words){"a variable number is below 0 or not below the number of variables,"
                              " or is not 0 beside the coefficient 0",
                              "correct the second or fourth number, or the line that says how many"
                              " variables there are",
                              RULE_AT_PLACE};
    case UTVPI_BAD_BOUND:
        return (struct words){"the bound is below -1,000,000 or above 1,000,000",
                              "choose a coarser unit",
                              RULE_AT_PLACE};
    case UTVPI_LONG_REFUTATION:
        return (struct words){"the refutation has more than " AS_TEXT(UTVPI_MOST_REFUTATION)
                              " numbers",
                              "look for a shorter one; with --numbers this program gives one",
                              NOTHING};
    case UTVPI_MISPLACED_COEFFICIENT:
        return (struct words){"the first coefficient is 0 and the second, the third number, is"
                              " not",
                              "move the third and fourth number to the front, and write 0 and 0"
                              " in their places",
                              RULE_AT_PLACE};
    case UTVPI_BAD_IDENTIFIER:
        return (struct words){"the identifier is below 0 or above "
                              AS_TEXT(UTVPI_MOST_IDENTIFIER),
                              identifier_advice, RULE_AT_PLACE};
    case UTVPI_RECORD_CUT:
        return (struct words){"the file ends before this record does, or before the record of"
                              " kind 3 that ends a list",
                              "get the file again: the end is missing", NOTHING};
    case UTVPI_RECORD_UNKNOWN:
        return (struct words){"this record's kind, its third and fourth byte, is not 1, 2, 3 or 4",
                              again, NOTHING};
    case UTVPI_RECORD_LENGTH:
        snprintf(length, sizeof length,
                 "this record's length, its first two bytes, is not %d for kind %d, %zu for kind"
                 " %d, 0 for kind %d or %zu for kind %d",
                 UTVPI_VARIABLES_BYTES, UTVPI_KIND_VARIABLES, UTVPI_BARE_LINE_BYTES,
                 UTVPI_KIND_LINE, UTVPI_KIND_END, UTVPI_LINE_BYTES, UTVPI_KIND_IDENTIFIED_LINE);
        return (struct words){length, again, NOTHING};
    case UTVPI_RECORD_MISPLACED:
        return (struct words){"this record is out of place: kind 1, the number of variables,"
                              " stands first and only there",
                              again, NOTHING};
    case UTVPI_RECORD_AFTER_END:
        return (struct words){"something follows the record that ends the list",
                              "cut the file off at this byte, or get it again", NOTHING};
    case UTVPI_RECORD_NO_IDENTIFIER:
        return (struct words){"this record is a line of kind 4, and its identifier is 0",
                              "write the line as kind 2, which has no identifier, or look for a"
                              " damaged part",
                              NOTHING};
    case UTVPI_AFTER_NO:
        return (struct words){"the rules before this one can't all be met, so that none is added"
                              " to them",
                              "withdraw the last of them with undo, and add this one then",
                              LINE_AT_HAND};
    case UTVPI_NO_LINES:
        return (struct words){"there is no rule to withdraw", "add one first", LINE_AT_HAND};
    case UTVPI_TOO_MANY_CHOICES:
        return (struct words){"with this either there are more than "
                              AS_TEXT(UTVPI_MOST_CHOICES) " choices of alternatives",
                              "leave out alternatives, or decide a file for each alternative of"
                              " one either",
                              EITHER_TOO_MANY};
    case UTVPI_BROKEN_TREE:
        return (struct words){"the alternatives are no tree", fault, NODE_AT_PLACE};
    case UTVPI_TREE_TOO_DEEP:
        return (struct words){"this alternative is too deep: at most " AS_TEXT(MOST_EITHERS)
                              " eithers stand inside each other",
                              "write the alternatives of an inner either as some of the outer",
                              NODE_AT_PLACE};
    case UTVPI_BAD_CLOCK:
        return (struct words){"the clock's number is not above 0, or a float can't hold it",
                              "say how many seconds a tick lasts, or how many ticks a second has",
                              LAST_CLOCK};
    case UTVPI_BAD_TABLE:
        return (struct words){"there are more than " AS_TEXT(UTVPI_MOST_RECORDERS) " clocks",
                              "leave out clocks that no event has, or decide parts that share no"
                              " event one by one",
                              LAST_CLOCK};
    case UTVPI_NOT_DIFFERENCE:
        return (struct words){"this rule is no difference of two events",
                              "write it as one, such as door - lamp <= -5, leave it out, or decide"
                              " without --engine differences, which takes nothing else",
                              RULE_AT_PLACE};
    case UTVPI_BROKEN_LIST_LENGTH:
    case UTVPI_SHORT_OUTPUT:
    case UTVPI_SHORT_WORK_AREA:
    case UTVPI_BAD_MODEL_LENGTH:
    case UTVPI_BAD_MODEL_VALUE:
    case UTVPI_NO_ROOM:
    case UTVPI_NO_SUCH_CHOICE:
    case UTVPI_BAD_COUNT:
    case UTVPI_SHORT_SECONDS:
    case UTVPI_BAD_RECORDER:
        return words_of_fault(number);
    }
    return (struct words){"this number is not known", fault, NOTHING};
}

/* Prints a refusal of records, and the byte where the record begins. */
void print_fault(const char *file, int number, size_t at)
{
    struct words words = words_of((enum utvpi_refusal)number);
    struct origin origin = nowhere;
    origin.record = at + 1;
    report((struct problem){.file = file,
                            .origin = origin,
                            .number = number,
                            .place = at,
                            .what = words.what,
                            .advice = words.advice});
}

/* Where the part of the tree stands that a refusal is about. */
static struct origin origin_in_tree(const struct tree *tree, enum about about, size_t place)
{
    if (about == EITHER_TOO_MANY) {
        return origin_of_node(tree, tree->too_many);
    }
    return about == NODE_AT_PLACE && place / 2 < tree->count ? origin_of_node(tree, place / 2)
                                                             : nowhere;
}

/* The rule that a refusal is about; line 0 where it is about none. */
static struct origin offender(const struct list *list, enum about about, size_t place)
{
    if (about == VARIABLES) {
        return list->variables_from;
    }
    if (about == LINE_AT_HAND) {
        return list->at_hand;
    }
    if (about == LAST_CLOCK && list->clock_count > 0) {
        return list->clocks[list->clock_count - 1].origin;
    }
    if (about == RULE_TOO_MANY && list->count > UTVPI_MOST_LINES) {
        return list->origins[UTVPI_MOST_LINES];
    }
    if (about == RULE_AT_PLACE) {
        return place < list->count ? list->origins[place] : list->at_hand;
    }
    return origin_in_tree(&list->tree, about, place);
}

/* Prints a refusal of what stands in this file: the list, or a refutation of it. Its place
 * is told among all rules, those that were left out included. */
void print_refusal(const struct list *list, const char *file, int number, size_t place)
{
    struct words words = words_of((enum utvpi_refusal)number);
    struct origin origin = offender(list, words.about, place);
    struct problem problem = {.file = origin.line > 0 ? origin.file : file,
                              .origin = origin,
                              .number = number,
                              .place = words.about == RULE_AT_PLACE && place < list->count
                                           ? place_as_read(list, place)
                                           : place,
                              .what = words.what,
                              .advice = words.advice};
    const int32_t *line = list->numbers + UTVPI_LINE_NUMBERS * place;
    if (number == UTVPI_BAD_BOUND && list->form == FORM_NAMES && place < list->count &&
        line[0] != 0) {
        advise_origin(&problem, list->names[line[1]], line[0] * bound_of(list, line));
    }
    report(problem);
}
