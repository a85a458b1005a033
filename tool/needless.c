/* Needless rules: of the lines on the same two terms the one with the lowest bound says
 * all, of several with that bound the first; the others are left out before the library
 * sees the list. It has the same solutions without them. */
#include "list.h"

#include <stdlib.h>
#include <string.h>

/* A line with its terms as one number, the same for x + y as for y + x. */
struct row {
    uint64_t terms;
    int32_t bound;
    size_t line;
};

/* A term as a number; one that is not there has the highest. */
static uint64_t number_of_term(int32_t coefficient, int32_t variable)
{
    return coefficient == 0 ? UINT32_MAX
                            : 2 * (uint64_t)(uint32_t)variable + (coefficient < 0 ? 1 : 0);
}

static struct row row_of(const struct list *list, size_t line)
{
    const int32_t *numbers = list->numbers + UTVPI_LINE_NUMBERS * line;
    uint64_t one = number_of_term(numbers[0], numbers[1]);
    uint64_t other = number_of_term(numbers[2], numbers[3]);
    uint64_t terms = one < other ? one << 32 | other : other << 32 | one;
    return (struct row){terms, numbers[BOUND], line};
}

/* By terms, then by bounds, then as they stand. */
static int compare_rows(const void *one, const void *other)
{
    const struct row *first = one, *second = other;
    if (first->terms != second->terms) {
        return first->terms < second->terms ? -1 : 1;
    }
    if (first->bound != second->bound) {
        return first->bound < second->bound ? -1 : 1;
    }
    return first->line < second->line ? -1 : first->line > second->line;
}

/* Marks the lines of a list that are needless, each with a byte that is 1, to be freed;
 * NULL where there is not enough memory. A line without terms is none. */
char *mark_needless(const struct list *list)
{
    struct row *rows = malloc((list->count + 1) * sizeof *rows);
    char *marks = calloc(list->count + 1, 1);
    if (rows == NULL || marks == NULL) {
        free(rows);
        free(marks);
        return NULL;
    }
    for (size_t line = 0; line < list->count; line++) {
        rows[line] = row_of(list, line);
    }
    qsort(rows, list->count, sizeof *rows, compare_rows);
    for (size_t at = 1; at < list->count; at++) {
        bool some_term = list->numbers[UTVPI_LINE_NUMBERS * rows[at].line] != 0;
        marks[rows[at].line] = some_term && rows[at].terms == rows[at - 1].terms;
    }
    free(rows);
    return marks;
}

bool same_rule(struct origin one, struct origin other)
{
    return one.line == other.line && one.file == other.file;
}

/* Counts the rules of a list, and those of which all lines are marked; without marks, none
 * is. */
void count_rules(struct list *list, const char *marks)
{
    bool kept = true;
    list->rules = list->left_out = 0;
    for (size_t line = 0; line < list->count; line++) {
        if (line == 0 || !same_rule(list->origins[line], list->origins[line - 1])) {
            list->left_out += kept ? 0 : 1;
            list->rules++;
            kept = false;
        }
        kept = kept || marks == NULL || marks[line] == 0;
    }
    list->left_out += kept ? 0 : 1;
}

/* Leaves needless lines out of the list, and notes where those that are kept stood. False,
 * which is said, where there is not enough memory. */
bool leave_out(struct list *list)
{
    char *marks = mark_needless(list);
    list->places = malloc((list->count + 1) * sizeof *list->places);
    if (marks == NULL || list->places == NULL) {
        free(marks);
        return no_memory(list);
    }
    count_rules(list, marks);
    size_t kept = 0;
    for (size_t line = 0; line < list->count; line++) {
        if (marks[line] == 0) {
            memmove(list->numbers + UTVPI_LINE_NUMBERS * kept,
                    list->numbers + UTVPI_LINE_NUMBERS * line,
                    UTVPI_LINE_NUMBERS * sizeof *list->numbers);
            list->origins[kept] = list->origins[line];
            list->places[kept] = line;
            kept++;
        }
    }
    list->count = kept;
    free(marks);
    return true;
}

/* The numbers that a line and a step have among all rules as they were read. That of a line
 * which the list has not stays. */
size_t place_as_read(const struct list *list, size_t line)
{
    return list->places == NULL || line >= list->count ? line : list->places[line];
}

uint32_t step_as_read(const struct list *list, uint32_t step)
{
    return 2 * (uint32_t)place_as_read(list, step / 2) + step % 2;
}
