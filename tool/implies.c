/* Whether a rule follows from the others: whether all values that meet these meet it. */
#include "list.h"

#include <stdlib.h>
#include <string.h>

static int32_t model[UTVPI_MODEL_ROOM(UTVPI_MOST_VARIABLES)];

/* The left side of a line, for these values. */
static int64_t left_side(const int32_t *line, const int32_t *values)
{
    int64_t sum = 0;
    for (int at = 0; at < BOUND; at += 2) {
        sum += line[at] == 0 ? 0 : (int64_t)line[at] * values[line[at + 1]];
    }
    return sum;
}

/* Writes the events of a line, with their signs, and what their sum is at most. */
void json_line_said(const struct list *list, const int32_t *line)
{
    json_array("terms");
    for (int at = 0; at < BOUND; at += 2) {
        if (line[at] != 0) {
            json_object(NULL);
            json_event("event", list, (uint64_t)line[at + 1]);
            json_integer("sign", line[at]);
            json_close();
        }
    }
    json_close();
    json_integer("at_most", bound_of(list, line));
}

/* Writes that the values break a line of the rule asked about. */
static void write_broken_line(const struct list *list, const int32_t *line, int64_t value)
{
    json_begin("no");
    json_text("rule", list->at_hand.rule);
    json_values(list, model);
    json_object("broken");
    json_line_said(list, line);
    json_integer("value", value);
    json_close();
}

/* Whether deciding agrees that a line is implied: with its opposite, the rules clash. */
static bool is_implied(struct list *list, const int32_t *line)
{
    int64_t opposite[UTVPI_LINE_NUMBERS] = {-line[0], line[1], -line[2], line[3],
                                            -(int64_t)line[BOUND] - 1};
    return is_answered(list, opposite, STATUS_NO);
}

/* Prints the values, and that they break a line of the rule asked about. */
static void print_broken_line(const struct list *list, const int32_t *line)
{
    int64_t bound = bound_of(list, line);
    int64_t value = left_side(line, model) + (bound - line[BOUND]);
    if (json_wanted) {
        write_broken_line(list, line, value);
        return;
    }
    if (list->variables == 0) {
        fputs("No. There are no events, and no rule is false but ", stdout);
        show(stdout, list->at_hand.rule);
        puts(".");
        return;
    }
    fputs("No. These values meet all the rules, but not ", stdout);
    show(stdout, list->at_hand.rule);
    puts(":\n");
    print_values(list, model);
    fputs("\nThe rule says ", stdout);
    print_terms(list, line, 1);
    printf(" <= %" PRId64 ", but there it is %" PRId64 ".\n", bound, value);
}

/* Says that a line of the rule asked about is not implied, once the values are found to
 * meet the rules and to break it. */
static int answer_broken(const struct list *list, const int32_t *line)
{
    if (!values_hold(list, (size_t)list->variables, model)) {
        return disagree("the library answered no, but its values fail the library's own check");
    }
    if (left_side(line, model) <= line[BOUND]) {
        return disagree("the library answered no, but its values meet the rule");
    }
    if (!take_value_seconds(list, model)) {
        return disagree_on_seconds();
    }
    print_broken_line(list, line);
    return STATUS_NO;
}

/* Asks the library whether a line is implied. A yes is not printed yet, as the rule may
 * have another line. */
int ask_line(struct list *list, const char *option, const int32_t *line)
{
    utvpi_line asked = {line[0], line[1], line[2], line[3], line[BOUND], line[IDENTIFIER]};
    int64_t *work = take_work_area(list->file, list->variables);
    if (work == NULL) {
        return STATUS_BAD;
    }
    int64_t result = utvpi_implied_line(list->variables, numbers_of(list), length_of(list), asked,
                                        model, UTVPI_MODEL_ROOM(UTVPI_MOST_VARIABLES), work,
                                        UTVPI_WORK_ROOM(list->variables));
    free(work);
    if (UTVPI_IS_REFUSAL(result)) {
        print_refusal(list, option, UTVPI_REFUSAL_NUMBER(result),
                      (size_t)UTVPI_REFUSAL_PLACE(result));
        return STATUS_BAD;
    }
    if (UTVPI_IS_UNSOLVABLE(result)) {
        return answer_unsolvable(list);
    }
    if (UTVPI_IS_NO(result)) {
        return answer_broken(list, line);
    }
    if (!UTVPI_IS_YES(result)) {
        return disagree("the library gave a number that is no answer");
    }
    return is_implied(list, line)
               ? STATUS_YES
               : disagree("the library says that a rule follows, and deciding that it does not");
}

/* Reads the rule at hand, in words or as the list has its rules, behind those of the
 * list. It may name no event that the list has not. */
static bool read_at_hand(struct list *list)
{
    struct origin origin = list->at_hand;
    uint64_t events = list->variables;
    bool in_words =
        has_relation(origin.rule) && !is_clock(origin.rule) && !is_origin(origin.rule);
    if (!in_words && (list->form == FORM_NAMES || origin.rule.length == 0 ||
                      is_letter(origin.rule.at[0]))) {
        return wrong(list, nowhere, origin.rule,
                     origin.rule.length > 0 ? "is no rule in words" : "the rule is empty",
                     "write one such as \"door - lamp <= -5\" or, where the rules of the file are"
                     " numbers, such as \"1 0 -1 1 -5 0\"");
    }
    list->form = in_words ? FORM_NAMES : list->form;
    list->declared = true;
    if (!read_rule(list, origin)) {
        return false;
    }
    return list->variables == events ||
           wrong(list, origin, list->names[events], no_event, event_advice);
}

/* Reads the rule that an option asks about, and leaves the list with its own alone. */
bool read_asked(struct list *list, const char *option, const char *rule, struct asked *asked)
{
    const char *file = list->file;
    size_t count = list->count;
    list->at_hand = nowhere;
    list->at_hand.rule = trim(text_of(rule));
    list->file = option;
    bool read = read_at_hand(list);
    asked->count = list->count - count;
    list->file = file;
    list->count = count;
    if (read) {
        memcpy(asked->lines, list->numbers + length_of(list),
               asked->count * sizeof asked->lines[0]);
    }
    return read;
}

/* Says whether all values that meet the rules meet this one too, each of its lines,
 * unless the library refuses the list. Gives back the exit status. */
int answer_implies(struct list *list, const char *rule)
{
    static const char option[] = "--implies";
    struct asked asked;
    int status = take_questions(list);
    if (status == STATUS_YES && !read_asked(list, option, rule, &asked)) {
        return STATUS_BAD;
    }
    for (size_t at = 0; status == STATUS_YES && at < asked.count; at++) {
        status = ask_line(list, option, asked.lines[at]);
    }
    if (status == STATUS_YES && json_wanted) {
        json_begin("yes");
        json_text("rule", list->at_hand.rule);
    } else if (status == STATUS_YES) {
        fputs("Yes. All values that meet the rules meet ", stdout);
        show(stdout, list->at_hand.rule);
        puts(", too.");
    }
    return status;
}
