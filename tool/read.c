/* Reading a text of rules: tells which form each rule has, and keeps the lines of
 * the list. */
#include "list.h"

#include <stdlib.h>
#include <string.h>

static const struct text nothing = {"", 0};

/* Settles the form of all rules, or finds that it was settled otherwise, which is said
 * once for a file. */
bool settle_form(struct list *list, struct origin origin, enum form form)
{
    if (list->form == FORM_OPEN) {
        list->form = form;
        list->form_from = origin;
        if (form == FORM_NUMBERS) {
            name_by_numbers(list);
        }
    }
    if (list->form == form || list->form_broken) {
        return list->form == form;
    }
    list->form_broken = true;
    struct problem problem =
        problem_at(list, origin, nothing,
                   form == FORM_NAMES ? "this is a rule in words among numbers"
                                      : "this is a line of numbers among rules in words",
                   "write all rules in one form; it was settled in ");
    snprintf(problem.example, sizeof problem.example, "%.64s:%zu", list->form_from.file,
             list->form_from.line);
    return report(problem);
}

/* Adds a line to the list. */
bool add_line(struct list *list, struct origin origin, const int32_t line[UTVPI_LINE_NUMBERS])
{
    if (list->count == list->room) {
        size_t longer = list->room == 0 ? 64 : 2 * list->room;
        int32_t *numbers = realloc(list->numbers, longer * UTVPI_LINE_NUMBERS * sizeof *numbers);
        if (numbers != NULL) {
            list->numbers = numbers;
        }
        struct origin *origins = realloc(list->origins, longer * sizeof *origins);
        if (origins != NULL) {
            list->origins = origins;
        }
        if (numbers == NULL || origins == NULL) {
            return no_memory(list);
        }
        list->room = longer;
    }
    memcpy(list->numbers + length_of(list), line, UTVPI_LINE_NUMBERS * sizeof *line);
    list->origins[list->count] = origin;
    list->count++;
    return true;
}

/* Whether a rule is of plain ASCII, and all its quotes are closed. */
static bool is_right_text(const struct list *list, struct origin origin)
{
    struct text rule = origin.rule;
    size_t open = rule.length;
    for (size_t at = 0; at < rule.length; at++) {
        if ((unsigned char)rule.at[at] > 127) {
            return wrong(list, origin, nothing, "this rule has a character outside plain ASCII",
                         "write <= for at most, >= for at least, - for minus, and names in the"
                         " letters a to z");
        }
        if (rule.at[at] == '"') {
            open = open < rule.length ? rule.length : at;
        }
    }
    return open == rule.length ||
           wrong(list, origin, (struct text){rule.at + open, rule.length - open}, open_quote,
                 quote_advice);
}

/* Reads one rule, clock or origin, which is not empty. */
bool read_rule(struct list *list, struct origin origin)
{
    if (origin.rule.length > MOST_RULE) {
        origin.rule.length = 40;
        return wrong(list, origin, nothing,
                     "this rule has more than " AS_TEXT(MOST_RULE)
                     " characters; it begins as shown",
                     "write one rule to a line");
    }
    if (!is_right_text(list, origin)) {
        return false;
    }
    if (is_clock(origin.rule)) {
        return read_clock(list, origin);
    }
    if (is_origin(origin.rule)) {
        return read_origin(list, origin);
    }
    if (has_relation(origin.rule)) {
        return read_words(list, origin);
    }
    return begins_with_word(origin.rule, "variables") ? read_variables(list, origin)
                                                      : read_numbers(list, origin);
}

/* Reads the whole input, also behind what is wrong, as far as it is text. Of a rule that
 * is wrong no line and no name is kept. With too many names the library refuses the list
 * whatever follows, so that reading ends there. */
void read_list(struct list *list, struct text input)
{
    struct text rest = skip_mark(input);
    struct origin origin = nowhere;
    while (rest.length > 0 && next_line(list->file, &rest, &origin) &&
           (list->form != FORM_NAMES || list->variables <= UTVPI_MOST_VARIABLES)) {
        size_t count = list->count;
        uint64_t variables = list->variables;
        struct origin from = list->variables_from;
        if (origin.rule.length > 0 && !read_in_block(list, origin)) {
            list->count = count;
            list->variables = variables;
            list->variables_from = from;
        }
    }
    end_blocks(list, rest.length == 0);
}
