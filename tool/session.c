/* A session: rules come one at a time, each is added to those before it and answered at
 * once, and the last can be withdrawn. The library keeps the lines in the state lent to
 * it; here are the same lines, with the text that they came from. */
#define _POSIX_C_SOURCE 200809L
#include "list.h"

#include <stdlib.h>
#include <string.h>
#include <unistd.h>

static const struct text nothing = {"", 0};

/* What a list was before a line of the input was read. What that brings, lines, names, a
 * clock or an origin, stands behind the others: how many there were is enough to go back. */
struct before {
    size_t count;
    size_t clock_count;
    size_t base_count;
    uint64_t variables;
    struct origin variables_from;
    bool declared;
    enum form form;
    struct origin form_from;
};

/* A line of the input that was taken: a rule, a clock, an origin, or how many variables.
 * The list points into its text. */
struct entry {
    struct text input;
    struct origin origin;
    struct before before;
};

struct session {
    struct list list;

    /* What is lent to the library, for how many variables, a number that none is before the
     * start, and how many lines it has. */
    int64_t state[UTVPI_SESSION_ROOM(UTVPI_MOST_VARIABLES)];
    int64_t *work;
    uint64_t n;
    size_t lines;

    struct entry *entries;
    size_t count;
    size_t room;

    /* The last result, whether the buffers still have what belongs to it, and whether
     * the rules clash. */
    int64_t result;
    bool current;
    bool clash;
};

static struct before before_now(const struct list *list)
{
    return (struct before){list->count,          list->clock_count, list->base_count,
                           list->variables,      list->variables_from, list->declared,
                           list->form,           list->form_from};
}

static void go_back(struct list *list, struct before before)
{
    list->count = before.count;
    list->clock_count = before.clock_count;
    list->base_count = before.base_count;
    list->variables = before.variables;
    list->variables_from = before.variables_from;
    list->declared = before.declared;
    list->form = before.form;
    list->form_from = before.form_from;
    list->form_broken = false;
}

/* Starts the library's session for as many variables as the list asks for, where that
 * is another number: the most that there can be, unless the list says how many. Only
 * without lines is it another; or with too many names, which the library refuses. */
static int64_t start(struct session *session)
{
    const struct list *list = &session->list;
    uint64_t n = list->variables;
    if (!list->declared && n < UTVPI_MOST_VARIABLES) {
        n = UTVPI_MOST_VARIABLES;
    }
    if (n == session->n) {
        return 0;
    }
    int64_t result = utvpi_session_start(n, session->state,
                                         UTVPI_SESSION_ROOM(UTVPI_MOST_VARIABLES));
    if (UTVPI_IS_YES(result)) {
        session->n = n;
    }
    return result;
}

/* Adds the list's lines that the library does not have, up to one that makes a no:
 * those behind it leave the list. */
static int64_t add_lines(struct session *session)
{
    struct list *list = &session->list;
    int64_t result = start(session);
    session->current = false;
    while (session->lines < list->count && UTVPI_IS_YES(result)) {
        result = add_to_session(session->n, session->state,
                                list->numbers + UTVPI_LINE_NUMBERS * session->lines,
                                session->work);
        session->lines += UTVPI_IS_REFUSAL(result) ? 0 : 1;
    }
    if (UTVPI_IS_NO(result)) {
        list->count = session->lines;
    }
    return result;
}

/* Goes back to what was before, and withdraws the lines that came since. Gives back a
 * status. */
static int withdraw(struct session *session, struct before before)
{
    while (session->lines > before.count) {
        if (!UTVPI_IS_YES(utvpi_session_withdraw(session->state,
                                                 UTVPI_SESSION_ROOM(session->n)))) {
            return disagree("the library did not withdraw a rule that it had taken");
        }
        session->lines--;
    }
    session->current = false;
    go_back(&session->list, before);
    return UTVPI_IS_YES(start(session)) ? STATUS_YES
                                        : disagree("the library did not start a session again");
}

/* Makes room for an entry more. */
static bool has_room(struct session *session)
{
    if (session->count == session->room) {
        size_t longer = session->room == 0 ? 64 : 2 * session->room;
        struct entry *entries = realloc(session->entries, longer * sizeof *entries);
        if (entries == NULL) {
            return no_memory(&session->list);
        }
        session->entries = entries;
        session->room = longer;
    }
    return true;
}

/* Whether a line is for read_rule to judge: it is none that begins with a word, but for a
 * clock where the rules don't clash, and how many variables there are, before all rules. */
static bool may_be_rule(const struct session *session, struct origin origin)
{
    const struct list *list = &session->list;
    struct text line = origin.rule;
    if (session->clash && (is_clock(line) || is_origin(line))) {
        origin.rule = nothing;
        return wrong(list, origin, line, "comes after rules that can't all be met",
                     "withdraw the last of them with undo, and give the clock or origin then");
    }
    if (has_relation(line) || !is_letter(line.at[0]) || line.length > MOST_RULE) {
        return true;
    }
    origin.rule = nothing;
    if (is_block_word(line)) {
        return wrong(list, origin, line, "is for alternatives, and a session takes none",
                     "write all the rules to a file, and decide that: utvpi FILE");
    }
    if (!begins_with_word(line, "variables")) {
        return wrong(list, origin, line,
                     "is no rule, and none of the words show, order, list, undo and help",
                     "write a rule, such as door - lamp <= -5, or one of these words");
    }
    return list->count == 0 ||
           wrong(list, origin, line,
                 "stands behind a rule, and the number of variables can't change there",
                 "withdraw the rules with undo, or begin another session with this line");
}

/* Takes a rule, and answers; or a clock, or how many variables there are. Where it is
 * not taken, all is as it was before. Gives back a status; the text is kept if that is a
 * yes or a no. */
static int take(struct session *session, struct text input)
{
    struct list *list = &session->list;
    struct origin origin = list->at_hand;
    struct before before = before_now(list);
    if (!has_room(session) || !may_be_rule(session, origin)) {
        return STATUS_BAD;
    }
    if (!read_rule(list, origin)) {
        go_back(list, before);
        return STATUS_BAD;
    }
    int64_t result = add_lines(session);
    bool answered = !UTVPI_IS_YES(result) || list->count > before.count;
    int status = answered ? give_answer(list, session->n, result, IN_SHORT) : STATUS_YES;
    if (status != STATUS_YES && status != STATUS_NO) {
        return status == STATUS_BAD && withdraw(session, before) != STATUS_YES ? STATUS_DISAGREE
                                                                               : status;
    }
    session->entries[session->count++] = (struct entry){input, origin, before};
    session->result = result;
    session->current = answered;
    session->clash = status == STATUS_NO;
    if (json_wanted && !answered) {
        json_begin("taken");
    } else if (session->clash && !json_wanted) {
        printf("\nTo go on, write undo: it withdraws line %zu.\n", origin.line);
    }
    return status;
}

/* Prints a line of the input, behind something; of JSON it is a member, or, without a key,
 * an element. */
static void print_entry(const char *before, const char *key, struct origin origin)
{
    if (json_wanted) {
        json_object(key);
        json_integer("line", (int64_t)origin.line);
        json_text("rule", origin.rule);
        json_text_or_null("comment", origin.comment);
        json_close();
        return;
    }
    printf("%sline %zu:  ", before, origin.line);
    show(stdout, origin.rule);
    putchar('\n');
}

/* Withdraws the last line of the input that was taken, with the names that it brought.
 * Without one it is the library that refuses. Gives back a status. */
static int undo(struct session *session)
{
    struct list *list = &session->list;
    list->at_hand.rule = nothing;
    if (session->count == 0) {
        int64_t result = utvpi_session_withdraw(session->state, UTVPI_SESSION_ROOM(session->n));
        return UTVPI_IS_REFUSAL(result) ? give_answer(list, session->n, result, IN_SHORT)
                                        : disagree("the library withdrew a rule that it had not");
    }
    struct entry last = session->entries[session->count - 1];
    int status = withdraw(session, last.before);
    if (status == STATUS_YES) {
        session->count--;
        session->clash = false;
        if (json_wanted) {
            json_begin("withdrawn");
        }
        print_entry("Withdrawn: ", "withdrawn", last.origin);
        free((void *)last.input.at);
    }
    return status;
}

/* Prints the answer so far: the last one, or, where its last rule was withdrawn or it was
 * put in order, one that is found afresh. Gives back a status. */
static int show_answer(const struct session *session)
{
    return session->current
               ? give_answer(&session->list, session->n, session->result, IN_WORDS)
               : answer(&session->list, IN_WORDS);
}

static void print_entries(const struct session *session)
{
    if (json_wanted) {
        json_begin("list");
        json_array("list");
    } else if (session->count == 0) {
        puts("There are no rules.");
    }
    for (size_t at = 0; at < session->count; at++) {
        print_entry("  ", NULL, session->entries[at].origin);
    }
}

static void print_help(void)
{
    if (json_wanted) {
        json_begin("help");
        json_string("help", help_of_session);
    } else {
        fputs(help_of_session, stdout);
    }
}

/* Does what a line of the input says. Gives back a status. */
static int obey(struct session *session, struct text input)
{
    struct text rule = session->list.at_hand.rule;
    if (is_word(rule, "undo")) {
        return undo(session);
    }
    if (is_word(rule, "show")) {
        return show_answer(session);
    }
    if (is_word(rule, "order")) {
        session->current = false;
        return answer_order(&session->list);
    }
    if (is_word(rule, "list")) {
        print_entries(session);
    } else if (is_word(rule, "help")) {
        print_help();
    } else if (rule.length > 0) {
        return take(session, input);
    }
    return STATUS_YES;
}

/* Reads a line of the input, whose line number is one above the last, and does what it
 * says. Gives back a status. */
static int read_input(struct session *session, struct text input)
{
    struct list *list = &session->list;
    struct text rest = list->at_hand.line == 0 ? skip_mark(input) : input;
    json_line = list->at_hand.line + 1;
    int status = next_line(list->file, &rest, &list->at_hand) ? obey(session, input) : STATUS_BAD;
    json_end();
    return status;
}

/* Reads lines up to the end of the input, or up to an answer that can't be trusted, and
 * asks for each with its number where someone sits at a terminal. Gives back the status
 * of the last thing that went wrong, or else of the rules. */
static int converse(struct session *session, bool at_terminal)
{
    int worst = STATUS_YES;
    struct text input;
    while (worst != STATUS_DISAGREE && fflush(stdout) == 0) {
        if (at_terminal) {
            printf("%zu> ", session->list.at_hand.line + 1);
            fflush(stdout);
        }
        if (!load_line(stdin, session->list.file, &input)) {
            return STATUS_BAD;
        }
        if (input.length == 0) {
            free((void *)input.at);
            fputs(at_terminal ? "\n" : "", stdout);
            break;
        }
        size_t count = session->count;
        int status = read_input(session, input);
        if (session->count <= count) {
            free((void *)input.at);
        }
        worst = status == STATUS_BAD || status == STATUS_DISAGREE ? status : worst;
    }
    return worst == STATUS_YES && session->clash ? STATUS_NO : worst;
}

/* Takes rules from standard input, which is called so. Gives back the exit status. */
int run_session(const char *file)
{
    static struct session session;
    bool at_terminal = isatty(STDIN_FILENO) && isatty(STDOUT_FILENO) && !json_wanted;
    session.n = UINT64_MAX;
    session.list.file = file;
    session.work = take_work_area(file, UTVPI_MOST_VARIABLES);
    if (session.work == NULL) {
        return STATUS_BAD;
    }
    if (at_terminal) {
        puts("Write a rule, or one of the words show, order, list, undo and help. Ctrl-D ends it.");
    }
    int status = UTVPI_IS_YES(start(&session)) ? converse(&session, at_terminal)
                                               : disagree("the library did not start a session");
    for (size_t at = 0; at < session.count; at++) {
        free((void *)session.entries[at].input.at);
    }
    free(session.entries);
    free(session.work);
    free(session.list.numbers);
    free(session.list.origins);
    return status;
}
