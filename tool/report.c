/* What is wrong: said on standard error, each where it stands, what it is and what to do,
 * or, with --json, as the answer. Of a file it is gathered, and told in the order of its
 * lines. */
#include "list.h"

#include <stdlib.h>
#include <string.h>

/* The most that is gathered. What is beyond is only counted. */
#define MOST_GATHERED 100

static struct problem gathered[MOST_GATHERED];
static size_t found;
static bool gathering;

static void print_place(const struct problem *problem)
{
    struct origin origin = problem->origin;
    if (problem->file == NULL) {
        fputs("utvpi: ", stderr);
    } else if (origin.record > 0) {
        fprintf(stderr, "utvpi: %s, byte %zu: ", problem->file, origin.record - 1);
    } else if (origin.line > 0) {
        fprintf(stderr, "%s:%zu: ", problem->file, origin.line);
    } else {
        fprintf(stderr, "utvpi: %s: ", problem->file);
    }
}

static void print_problem(const struct problem *problem)
{
    print_place(problem);
    if (problem->number != 0) {
        fprintf(stderr, "refused with number %d, place %zu: ", problem->number, problem->place);
    }
    if (problem->part.length > 0) {
        fputc('"', stderr);
        show(stderr, problem->part);
        fputs("\" ", stderr);
    }
    fprintf(stderr, "%s.\n", problem->what);
    if (problem->origin.rule.length > 0) {
        fputs("  The rule: ", stderr);
        show(stderr, problem->origin.rule);
        fputc('\n', stderr);
    }
    if (problem->advice != NULL) {
        fprintf(stderr, "  What to do: %s%s.\n", problem->advice, problem->example);
    }
}

/* Writes where a problem stands: null for what it has not. */
static void write_place(const struct problem *problem)
{
    struct origin origin = problem->origin;
    bool in_line = origin.line > 0 && origin.record == 0;
    json_text_or_null("file", text_of(problem->file == NULL ? "" : problem->file));
    json_bound("line", in_line ? (int64_t)origin.line : UTVPI_NO_LEAST);
    json_bound("byte", origin.record > 0 ? (int64_t)origin.record - 1 : UTVPI_NO_LEAST);
    json_bound("number", problem->number != 0 ? problem->number : UTVPI_NO_LEAST);
    json_bound("place", problem->number != 0 ? (int64_t)problem->place : UTVPI_NO_LEAST);
}

static void write_problem(const struct problem *problem)
{
    struct text quote = text_of(problem->part.length > 0 ? "\"" : "");
    struct text behind = text_of(problem->part.length > 0 ? "\" " : "");
    struct text what[] = {quote, problem->part, behind, text_of(problem->what)};
    struct text advice[] = {text_of(problem->advice == NULL ? "" : problem->advice),
                            text_of(problem->example)};
    json_begin_errors("refused");
    json_object(NULL);
    write_place(problem);
    json_pieces("what", what, 4);
    json_text_or_null("rule", problem->origin.rule);
    json_pieces("advice", advice, 2);
    json_close();
}

static void tell(const struct problem *problem)
{
    if (json_wanted) {
        write_problem(problem);
    } else {
        print_problem(problem);
    }
}

/* Says what is wrong, at once or, where it is gathered, later. Gives back false. */
bool report(struct problem problem)
{
    if (!gathering) {
        tell(&problem);
    } else if (found++ < MOST_GATHERED) {
        problem.found = found;
        gathered[found - 1] = problem;
    }
    return false;
}

/* Begins to gather. */
void gather_problems(void)
{
    gathering = true;
    found = 0;
}

/* In the order of their lines, and within one as they were found. Those that stand in no
 * line come first. */
static int compare_problems(const void *one, const void *other)
{
    const struct problem *first = one, *second = other;
    if (first->origin.line != second->origin.line) {
        return first->origin.line < second->origin.line ? -1 : 1;
    }
    return first->found < second->found ? -1 : first->found > second->found;
}

/* Tells what was gathered, and ends that. False where there was something. */
bool tell_problems(void)
{
    size_t count = found < MOST_GATHERED ? found : MOST_GATHERED;
    gathering = false;
    qsort(gathered, count, sizeof gathered[0], compare_problems);
    for (size_t at = 0; at < count; at++) {
        tell(&gathered[at]);
    }
    if (found > count) {
        char more[80];
        snprintf(more, sizeof more, "%zu more things are wrong, which are not shown",
                 found - count);
        tell(&(struct problem){.origin = nowhere, .what = more, .advice = NULL});
    }
    return found == 0;
}

/* Says what is wrong in a line of a file, in none where that is 0, and what to do. The
 * part, where it is not empty, begins the sentence. Gives back false. */
bool wrong_in(const char *file, struct origin origin, struct text part, const char *what,
              const char *advice)
{
    return report((struct problem){
        .file = file, .origin = origin, .part = part, .what = what, .advice = advice});
}

/* What is wrong with a rule of the list, or with one that stands in no file. */
struct problem problem_at(const struct list *list, struct origin origin, struct text part,
                          const char *what, const char *advice)
{
    return (struct problem){.file = origin.line > 0 ? origin.file : list->file,
                            .origin = origin,
                            .part = part,
                            .what = what,
                            .advice = advice};
}

/* Says that. */
bool wrong(const struct list *list, struct origin origin, struct text part, const char *what,
           const char *advice)
{
    return report(problem_at(list, origin, part, what, advice));
}

/* Says that there is not enough memory for a list. Gives back false. */
bool no_memory(const struct list *list)
{
    return wrong_in(list->file, nowhere, nowhere.rule,
                    "there is not enough memory for so many rules",
                    "free memory, or leave out rules that add nothing");
}

/* Says what is wrong with the command line. Gives back the status for that. */
int refuse_use(const char *wrong_use)
{
    if (json_wanted) {
        report((struct problem){
            .origin = nowhere, .what = wrong_use, .advice = "see utvpi --help"});
    } else {
        fprintf(stderr, "utvpi: %s; utvpi --help explains\n", wrong_use);
    }
    return STATUS_BAD;
}
