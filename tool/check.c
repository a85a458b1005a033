/* Checks a refutation that someone proposes, by the library, and by this program, which
 * says why it breaks. */
#include "list.h"

#include <stdlib.h>
#include <string.h>

/* The lines that the library is given: all, or, of too many, those that are not needless
 * and those that the refutation names; and of each line of the list its place there. */
struct given {
    int32_t *numbers;
    size_t *places;
    size_t count;
};

/* Marks that the lines that a refutation names are not needless. */
static void unmark_named(const struct list *list, const struct proposal *proposal, char *marks)
{
    for (size_t at = 3; at < proposal->count; at++) {
        if (proposal->numbers[at] / 2 < list->count) {
            marks[proposal->numbers[at] / 2] = 0;
        }
    }
}

/* Takes the lines for the library. False where there is not enough memory. */
static bool take_lines(const struct list *list, const struct proposal *proposal,
                       struct given *given)
{
    char *marks =
        list->count > UTVPI_MOST_LINES ? mark_needless(list) : calloc(list->count + 1, 1);
    given->numbers = malloc((length_of(list) + 1) * sizeof *given->numbers);
    given->places = malloc((list->count + 1) * sizeof *given->places);
    given->count = 0;
    if (marks == NULL || given->numbers == NULL || given->places == NULL) {
        free(marks);
        return no_memory(list);
    }
    unmark_named(list, proposal, marks);
    for (size_t line = 0; line < list->count; line++) {
        given->places[line] = given->count;
        if (marks[line] == 0) {
            memcpy(given->numbers + UTVPI_LINE_NUMBERS * given->count,
                   list->numbers + UTVPI_LINE_NUMBERS * line,
                   UTVPI_LINE_NUMBERS * sizeof *given->numbers);
            given->count++;
        }
    }
    free(marks);
    return true;
}

/* A number of a refutation for the lines that the library has. One that is no step of the
 * list is none of theirs. */
static uint32_t given_number(const struct list *list, const struct given *given, size_t at,
                             uint32_t number)
{
    if (at < 3 || given->count == list->count) {
        return number;
    }
    size_t line = number / 2 < list->count ? given->places[number / 2] : given->count;
    return 2 * (uint32_t)line + number % 2;
}

/* Prints the answer on a proposed refutation that is right: yes, unless it names
 * identifiers that are not those of its rules. */
static int answer_right(const struct list *list, const struct proposal *proposal)
{
    size_t place;
    if (is_misnamed(proposal, &place)) {
        print_misnamed(list, proposal, place);
        return STATUS_NO;
    }
    return print_no(list, proposal->numbers, proposal->identifiers,
                    "Yes. This shows that no whole numbers meet all the rules.")
               ? STATUS_YES
               : disagree_on_argument();
}

/* Prints the library's answer on a proposed refutation, if this program finds the same. */
static int answer_result(const struct list *list, struct proposal *proposal, int64_t result)
{
    if (UTVPI_IS_REFUSAL(result)) {
        int number = UTVPI_REFUSAL_NUMBER(result);
        print_refusal(list, number == UTVPI_LONG_REFUTATION ? proposal->file : list->file, number,
                      (size_t)UTVPI_REFUSAL_PLACE(result));
        return STATUS_BAD;
    }
    if (list->variables > UTVPI_MOST_VARIABLES || proposal->count > UTVPI_MOST_REFUTATION) {
        return disagree("the library answered what is beyond its limits");
    }
    struct fault fault = first_fault(list, proposal);
    note_identifiers(list, proposal);
    if (UTVPI_IS_YES(result) && fault.reason == NO_FAULT) {
        return answer_right(list, proposal);
    }
    if (UTVPI_IS_NO(result) && fault.reason != NO_FAULT &&
        (size_t)UTVPI_NO_PLACE(result) == fault.place) {
        print_broken(list, proposal, fault);
        return STATUS_NO;
    }
    return disagree("the library's answer on the refutation is not what this program finds");
}

/* Checks a proposed refutation, number by number, so that neither it nor the list
 * need be packed. */
static int answer_check(const struct list *list, struct proposal *proposal)
{
    struct given given;
    if (!take_lines(list, proposal, &given)) {
        free(given.numbers);
        free(given.places);
        return STATUS_BAD;
    }
    size_t length = UTVPI_LINE_NUMBERS * given.count;
    utvpi_progress kept = utvpi_refutation_begin();
    for (size_t at = 0; at < proposal->count; at++) {
        kept = utvpi_refutation_take(kept, given.numbers, length,
                                     given_number(list, &given, at, proposal->numbers[at]));
    }
    int64_t result = utvpi_refutation_end(kept, list->variables, given.numbers, length);
    free(given.numbers);
    free(given.places);
    return answer_result(list, proposal, result);
}

/* Reads the proposed refutation and checks it. */
int run_check(struct list *list, const char *file)
{
    static struct proposal proposal;
    proposal.file = called(file);
    if (!load_file(file, &proposal.input)) {
        return STATUS_BAD;
    }
    int status = read_proposal(&proposal) ? answer_check(list, &proposal) : STATUS_BAD;
    free((void *)proposal.input.at);
    return status;
}
