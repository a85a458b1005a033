/* What the questions about all the ways to meet the rules share: a list that the library
 * takes, and deciding and its checkers, to which every answer is held before it is
 * printed. */
#include "list.h"

const char no_event[] = "is no event of the rules";
const char event_advice[] =
    "name events as utvpi prints them for the same rules; those of numbers and records are"
    " called x0, x1 and so on";

/* Makes sure that the list can be asked about. Says what is wrong where the library refuses
 * it, and gives back a status. No numbers of a refutation are too many, so that nothing but
 * the list is refused. */
int take_questions(const struct list *list)
{
    int64_t result = utvpi_refutation_end(utvpi_refutation_begin(), list->variables,
                                          numbers_of(list), length_of(list));
    if (UTVPI_IS_REFUSAL(result)) {
        print_refusal(list, list->file, UTVPI_REFUSAL_NUMBER(result),
                      (size_t)UTVPI_REFUSAL_PLACE(result));
        return STATUS_BAD;
    }
    return within_limits(list) ? STATUS_YES
                               : disagree("the library took a list that is beyond its limits");
}

/* Looks for the event with this name, perhaps in quotes. Says so where there is none. */
bool find_event(const struct list *list, const char *name, uint64_t *variable)
{
    struct text text = text_of(name), unquoted;
    if (find_name(list, text, variable) ||
        (scan_name(text, &unquoted) == text.length && find_name(list, unquoted, variable))) {
        return true;
    }
    return wrong(list, nowhere, text,
                 text.length > 0 ? no_event : "the name of an event is empty", event_advice);
}

/* Whether the answer on the list with a line more is as expected, a yes or a no. It is
 * checked and not printed. Where the library's limits leave no room for this line, it
 * can't be asked, and the answer is as expected. */
bool is_answered(struct list *list, const int64_t line[UTVPI_LINE_NUMBERS], int expected)
{
    int32_t numbers[UTVPI_LINE_NUMBERS];
    if (list->count == UTVPI_MOST_LINES || line[BOUND] < -UTVPI_MOST_BOUND ||
        line[BOUND] > UTVPI_MOST_BOUND) {
        return true;
    }
    for (size_t at = 0; at < UTVPI_LINE_NUMBERS; at++) {
        numbers[at] = (int32_t)line[at];
    }
    if (!add_line(list, nowhere, numbers)) {
        return false;
    }
    int status = answer(list, UNPRINTED);
    list->count--;
    return status == expected;
}

/* Says that the rules clash, once deciding and the checker say so too. */
int answer_unsolvable(const struct list *list)
{
    int status = answer(list, UNPRINTED);
    if (status == STATUS_YES) {
        return disagree("the library says that the rules can't be met, and then that they can");
    }
    return status == STATUS_NO ? answer(list, IN_WORDS) : status;
}
