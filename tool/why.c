/* Why something always holds: a rule, or both bounds of an event. The library shows it, by
 * a refutation of the rules with the opposite of what is shown; the showing is checked, and
 * told as what rules force. Where a rule does not always hold, it is said what breaks it. */
#include "list.h"

#include <stdlib.h>
#include <string.h>

static const char option[] = "--why";

/* A line that is shown: the library's showing, with the identifiers of its steps, and the
 * grounds that it comes to. */
struct shown {
    int32_t line[UTVPI_LINE_NUMBERS];
    uint32_t numbers[UTVPI_REFUTATION_ROOM(UTVPI_MOST_VARIABLES)];
    uint32_t identifiers[UTVPI_IDENTIFIERS_ROOM(UTVPI_MOST_VARIABLES)];
    struct grounds grounds;
};

/* Whether the identifiers of a showing are those of its rules, and of the line that is
 * shown where a step is of its opposite. */
static bool identifiers_agree(const struct list *list, const struct shown *shown, size_t steps)
{
    for (size_t at = 0; at < steps; at++) {
        uint32_t step = shown->numbers[3 + at];
        uint32_t own = step / 2 < list->count ? identifier_of(list, step)
                                              : (uint32_t)shown->line[IDENTIFIER];
        if (shown->identifiers[at] != own) {
            return false;
        }
    }
    return true;
}

/* Has a showing checked, and what this program makes of it. */
static int check_shown(const struct list *list, struct shown *shown)
{
    static uint32_t numbers[MOST_ARGUMENT];
    uint64_t count = (uint64_t)3 + shown->numbers[1] + shown->numbers[2];
    if (count > UTVPI_REFUTATION_ROOM(list->variables) ||
        !showing_holds(list, shown->line, shown->numbers, (size_t)count)) {
        return disagree("the library shows a rule, but this fails the library's own check");
    }
    if (!identifiers_agree(list, shown, (size_t)count - 3)) {
        return disagree("the library shows a rule, but not with the identifiers of its rules");
    }
    if (!find_grounds(list, shown->line, shown->numbers, &shown->grounds) ||
        !showing_holds(list, shown->line, numbers,
                       showing_of(list, shown->line, &shown->grounds, numbers))) {
        return disagree_on_argument();
    }
    return STATUS_YES;
}

/* Asks the library to show a line, of which the bound can be as large as that of a line that
 * is shown. A yes is checked, and not printed yet. */
static int ask_within(const struct list *list, int64_t *work, struct shown *shown)
{
    const int32_t *line = shown->line;
    utvpi_line asked = {line[0], line[1], line[2], line[3], line[BOUND], line[IDENTIFIER]};
    int64_t result = utvpi_show_line(
        list->variables, numbers_of(list), length_of(list), asked,
        shown->numbers, UTVPI_REFUTATION_ROOM(UTVPI_MOST_VARIABLES),
        shown->identifiers, UTVPI_IDENTIFIERS_ROOM(UTVPI_MOST_VARIABLES),
        work, UTVPI_WORK_ROOM(list->variables));
    if (UTVPI_IS_REFUSAL(result)) {
        print_refusal(list, option, UTVPI_REFUSAL_NUMBER(result),
                      (size_t)UTVPI_REFUSAL_PLACE(result));
        return STATUS_BAD;
    }
    if (UTVPI_IS_NO(result)) {
        return STATUS_NO;
    }
    return UTVPI_IS_YES(result) ? check_shown(list, shown)
                                : disagree("the library gave a number that is no answer");
}

/* The same of a line with any bound. No greatest value is further from 0 than the largest
 * bound that can be shown: so with a larger one a line holds exactly if it does with that,
 * and with one that is further below 0 none holds. */
static int ask_shown(const struct list *list, const int32_t *line, int64_t bound, int64_t *work,
                     struct shown *shown)
{
    int64_t most = UTVPI_MOST_SHOWN_BOUND(list->variables);
    memcpy(shown->line, line, sizeof shown->line);
    shown->line[BOUND] = (int32_t)(bound > most ? most : bound < -most ? -most : bound);
    int status = ask_within(list, work, shown);
    return status == STATUS_YES && bound < -most ? STATUS_NO : status;
}

/* Asks for the line that says that a sum is at most its greatest value: it is shown, and with
 * one less it is not. Where there is no greatest value, no bound is shown. */
static int ask_greatest(const struct list *list, const int32_t *line, int64_t greatest,
                        int64_t *work, struct shown *shown)
{
    static struct shown less;
    bool absent = greatest == UTVPI_NO_GREATEST;
    int status = ask_shown(list, line, greatest, work, shown);
    int expected = absent ? STATUS_NO : STATUS_YES;
    if (status == expected && !absent) {
        status = ask_shown(list, line, greatest - 1, work, &less);
        expected = STATUS_NO;
    }
    if (status == STATUS_BAD || status == STATUS_DISAGREE) {
        return status;
    }
    return status == expected ? STATUS_YES
                              : disagree("the library's bounds are not those that it shows");
}

/* Finds the greatest value of the sum on the left side of a line. */
static bool find_greatest(const struct list *list, const int32_t *line, int64_t *work,
                          int64_t *greatest)
{
    bool lone = line[2] == 0;
    uint64_t x = (uint64_t)line[1], y = (uint64_t)(lone ? line[1] : line[3]);
    *greatest = 0;
    if (line[0] == 0) {
        return true;
    }
    utvpi_pair pair = utvpi_implied_pair(list->variables, numbers_of(list), length_of(list), x, y,
                                         work, UTVPI_WORK_ROOM(list->variables));
    const int64_t *sums = line[0] > 0 ? pair.plus : pair.minus;
    *greatest = sums[(lone ? line[0] : line[2]) > 0 ? 0 : 1];
    if (lone && *greatest != UTVPI_NO_GREATEST) {
        *greatest /= 2;
    }
    return UTVPI_IS_YES(pair.result);
}

/* Prints the rule that is asked about: in words, without its identifier. */
static void print_asked(const struct list *list, const int32_t *line)
{
    if (has_relation(list->at_hand.rule)) {
        show(stdout, without_identifier(list->at_hand.rule));
    } else {
        print_terms(list, line, 1);
        printf(" <= %" PRId64, bound_of(list, line));
    }
}

/* Prints that a line does not always hold, whose bound is beyond those of rules: no values
 * can be asked for that break it, but how large they can make it is known. */
static void print_beyond(const struct list *list, const int32_t *line, int64_t greatest)
{
    int64_t bound = bound_of(list, line);
    int64_t value = shifted(greatest, bound - line[BOUND]);
    if (json_wanted) {
        json_begin("no");
        json_text("rule", list->at_hand.rule);
        json_object("broken");
        json_line_said(list, line);
        json_bound("value", value);
        json_close();
        return;
    }
    fputs("No. Not all values that meet the rules meet ", stdout);
    print_asked(list, line);
    fputs(".\n\nThe rule says ", stdout);
    print_terms(list, line, 1);
    printf(" <= %" PRId64 ", but the rules let it be ", bound);
    if (value == UTVPI_NO_GREATEST) {
        puts("as high as you like.");
    } else {
        printf("%" PRId64 ".\n", value);
    }
}

/* Says that a line of the rule asked about does not always hold: by values that break it, or
 * where the bound is beyond those of rules, by how large its left side can be. */
static int answer_broken(struct list *list, const int32_t *line, int64_t *work)
{
    static struct shown shown;
    int64_t greatest;
    if (line[BOUND] >= -UTVPI_MOST_BOUND && line[BOUND] <= UTVPI_MOST_BOUND) {
        int status = ask_line(list, option, line);
        return status != STATUS_YES
                   ? status
                   : disagree("the library says that a rule follows, and does not show it");
    }
    if (!find_greatest(list, line, work, &greatest) || greatest <= line[BOUND]) {
        return disagree("the library does not show a rule, and can't say what breaks it");
    }
    int status = ask_greatest(list, line, greatest, work, &shown);
    if (status == STATUS_YES) {
        print_beyond(list, line, greatest);
        return STATUS_NO;
    }
    return status;
}

/* Writes a line that is shown, and how. Where more lines were read than the library takes,
 * the numbers of some would be those of the opposite line. */
static void write_shown(const struct list *list, const struct shown *shown)
{
    static uint32_t steps[MOST_ARGUMENT];
    size_t last = list->count > 0 ? list->places[list->count - 1] : 0;
    json_object(NULL);
    json_line_said(list, shown->line);
    json_rules(list, steps, add_grounds(list, &shown->grounds, steps, 0));
    json_array("argument");
    say_grounds(list, &shown->grounds);
    json_close();
    if (last < UTVPI_MOST_LINES) {
        json_numbers(list, "showing", shown->numbers, shown->identifiers);
    }
    json_close();
}

/* Prints that rules force the one that is asked about, and how, line by line. */
static void print_forced(const struct list *list, const struct shown *shown, size_t count)
{
    static uint32_t steps[MOST_ARGUMENT];
    size_t rules = 0;
    bool parted = count > 1;
    for (size_t at = 0; at < count; at++) {
        const struct grounds *grounds = &shown[at].grounds;
        rules = add_grounds(list, grounds, steps, rules);
        parted = parted || (grounds->form == EACH && grounds->count > 1);
    }
    if (rules == 0) {
        fputs("Yes, always. ", stdout);
        print_asked(list, shown[0].line);
        puts(" is true by itself, whatever the rules say.");
        return;
    }
    printf("Yes, always. %s ", rules == 1 ? "This rule forces" : "These rules force");
    print_asked(list, shown[0].line);
    puts(":");
    print_rules(list, steps, rules);
    for (size_t at = 0; at < count; at++) {
        fputs(at > 0 ? "\n" : "", stdout);
        say_grounds(list, &shown[at].grounds);
    }
    fputs(parted ? "\n  So " : "  So ", stdout);
    print_asked(list, shown[0].line);
    puts(".");
}

/* Says why a rule always holds, each of its lines, or that it does not. */
static int why_rule(struct list *list, const struct asked *asked, int64_t *work)
{
    static struct shown shown[2];
    for (size_t at = 0; at < asked->count; at++) {
        const int32_t *line = asked->lines[at];
        int status = ask_shown(list, line, line[BOUND], work, &shown[at]);
        if (status != STATUS_YES) {
            return status == STATUS_NO ? answer_broken(list, line, work) : status;
        }
    }
    if (!json_wanted) {
        print_forced(list, shown, asked->count);
        return STATUS_YES;
    }
    json_begin("yes");
    json_text("rule", list->at_hand.rule);
    json_array("shown");
    for (size_t at = 0; at < asked->count; at++) {
        write_shown(list, &shown[at]);
    }
    json_close();
    return STATUS_YES;
}

/* Prints what an event is forced to be, at least or at most, and how; or that there is no
 * such bound. */
static void print_bound(const struct list *list, const struct shown *shown, bool absent)
{
    static uint32_t steps[MOST_ARGUMENT];
    const int32_t *line = shown->line;
    if (absent) {
        fputs("The rules let ", stdout);
        print_event(stdout, list, (uint64_t)line[1]);
        printf(" be as %s as you like.\n", line[0] < 0 ? "low" : "high");
        return;
    }
    size_t rules = add_grounds(list, &shown->grounds, steps, 0);
    print_event(stdout, list, (uint64_t)line[1]);
    printf(" is at %s %" PRId64 ". %s:\n", line[0] < 0 ? "least" : "most",
           line[0] * bound_of(list, line),
           rules == 1 ? "This rule forces it" : "These rules force it");
    print_rules(list, steps, rules);
    say_grounds(list, &shown->grounds);
}

/* Writes the bounds of an event that are there, and how they are shown. */
static void write_bounds(const struct list *list, uint64_t event, const struct shown *shown,
                         const int64_t bounds[2])
{
    json_begin("yes");
    json_event("event", list, event);
    json_bound("least", with_offset(list, event, turned(bounds[0])));
    json_bound("greatest", with_offset(list, event, bounds[1]));
    json_array("shown");
    for (size_t at = 0; at < 2; at++) {
        if (bounds[at] != UTVPI_NO_GREATEST) {
            write_shown(list, &shown[at]);
        }
    }
    json_close();
}

/* Says why an event, which deciding has given bounds, is at least and at most what it is: of
 * its opposite and of itself, what each is at most. */
static int why_event(const struct list *list, uint64_t event, int64_t *work)
{
    static struct shown shown[2];
    const int64_t *own = last_yes().bounds + 2 * event;
    const int64_t bounds[2] = {turned(own[0]), own[1]};
    for (int at = 0; at < 2; at++) {
        int32_t line[UTVPI_LINE_NUMBERS] = {at == 0 ? -1 : 1, (int32_t)event};
        int status = ask_greatest(list, line, bounds[at], work, &shown[at]);
        if (status != STATUS_YES) {
            return status;
        }
    }
    if (json_wanted) {
        write_bounds(list, event, shown, bounds);
        return STATUS_YES;
    }
    print_bound(list, &shown[0], bounds[0] == UTVPI_NO_GREATEST);
    putchar('\n');
    print_bound(list, &shown[1], bounds[1] == UTVPI_NO_GREATEST);
    return STATUS_YES;
}

/* Says that the rules clash, which deciding has found. */
static int answer_clash(const struct list *list)
{
    static uint32_t refutation[UTVPI_REFUTATION_ROOM(UTVPI_MOST_VARIABLES)];
    static uint32_t identifiers[UTVPI_IDENTIFIERS_ROOM(UTVPI_MOST_VARIABLES)];
    copy_last_no(refutation, identifiers);
    return print_no(list, refutation, identifiers,
                    "No. No whole numbers meet all the rules, so that everything follows from"
                    " them.")
               ? STATUS_NO
               : disagree_on_argument();
}

/* Whether a rule is asked about, and no event: in words it has <, > or =; in numbers it does
 * not begin as a name does. */
static bool is_rule(const struct list *list, struct text text)
{
    return has_relation(text) || (list->form != FORM_NAMES && text.length > 0 &&
                                  text.at[0] != '"' && !is_letter(text.at[0]));
}

/* Says why a rule always holds, or that it does not; or why an event has its bounds; unless
 * the library refuses the list. Gives back the exit status. */
int answer_why(struct list *list, const char *asked_about)
{
    struct asked asked;
    uint64_t event = 0;
    bool about_rule = is_rule(list, trim(text_of(asked_about)));
    int status = take_questions(list);
    if (status != STATUS_YES) {
        return status;
    }
    if (!(about_rule ? read_asked(list, option, asked_about, &asked)
                     : find_event(list, asked_about, &event))) {
        return STATUS_BAD;
    }
    status = answer(list, UNPRINTED);
    if (status != STATUS_YES) {
        return status == STATUS_NO ? answer_clash(list) : status;
    }
    int64_t *work = take_work_area(list->file, list->variables);
    if (work == NULL) {
        return STATUS_BAD;
    }
    status = about_rule ? why_rule(list, &asked, work) : why_event(list, event, work);
    free(work);
    return status;
}
