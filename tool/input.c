/* The files of a list: loads each, reads it as text or records, and asks the library about
 * each of its lines, so that all that is wrong with a file is told at once. */
#include "list.h"

#include <errno.h>
#include <stdlib.h>
#include <string.h>

bool is_standard_input(const char *file)
{
    return strcmp(file, "-") == 0;
}

/* How a file is called in what is printed. */
const char *called(const char *file)
{
    return is_standard_input(file) ? "standard input" : file;
}

/* Loads a file, or standard input. Says what is wrong where it can't. */
bool load_file(const char *file, struct text *input)
{
    if (is_standard_input(file)) {
        return load(stdin, called(file), input);
    }
    FILE *from = fopen(file, "rb");
    if (from == NULL) {
        return wrong_in(file, nowhere, nowhere.rule, strerror(errno), NULL);
    }
    bool loaded = load(from, file, input);
    fclose(from);
    return loaded;
}

/* What the library says of so many lines from a place on. No numbers of a refutation are
 * too many, so that nothing but the lines is refused. */
static int64_t look_at(const struct list *list, size_t from, size_t count)
{
    return utvpi_refutation_end(utvpi_refutation_begin(), list->variables,
                                numbers_of(list) + UTVPI_LINE_NUMBERS * from,
                                UTVPI_LINE_NUMBERS * count);
}

/* Has the library look at the lines from a place on, one by one, and says which of them it
 * refuses, of each rule once. Too many events are refused before all lines. */
static void look_at_lines(const struct list *list, size_t from)
{
    int64_t result = look_at(list, 0, 0);
    size_t last = 0;
    if (UTVPI_IS_REFUSAL(result)) {
        print_refusal(list, list->file, UTVPI_REFUSAL_NUMBER(result),
                      (size_t)UTVPI_REFUSAL_PLACE(result));
        return;
    }
    for (size_t at = from; at < list->count; at++) {
        result = look_at(list, at, 1);
        if (UTVPI_IS_REFUSAL(result) && list->origins[at].line != last) {
            print_refusal(list, list->file, UTVPI_REFUSAL_NUMBER(result), at);
            last = list->origins[at].line;
        }
    }
}

/* Reads a file behind those before it. Each may say how many variables there are; there
 * are as many as the greatest of these numbers. False where something is wrong. */
static bool read_source(struct list *list, struct source *source)
{
    uint64_t before = list->variables;
    size_t from = list->count;
    gather_problems();
    list->file = source->file;
    list->declared = false;
    list->form_broken = false;
    if (is_records(source->input)) {
        read_records(list, source);
        add_leaves(list, from);
    } else {
        read_list(list, source->input);
    }
    look_at_lines(list, from);
    if (list->variables < before) {
        list->variables = before;
    }
    return tell_problems();
}

/* Reads all files, and says what is wrong with each of them, up to the one that has too
 * many events. False where something is. */
bool read_files(struct list *list, const char *const *files, size_t count)
{
    bool right = true;
    list->sources = calloc(count, sizeof *list->sources);
    if (list->sources == NULL) {
        list->file = called(files[0]);
        return no_memory(list);
    }
    list->source_count = count;
    for (size_t at = 0; at < count && list->variables <= UTVPI_MOST_VARIABLES; at++) {
        struct source *source = &list->sources[at];
        source->file = called(files[at]);
        right = load_file(files[at], &source->input) && read_source(list, source) && right;
    }
    return right;
}

void free_list(struct list *list)
{
    for (size_t at = 0; at < list->source_count; at++) {
        free((void *)list->sources[at].input.at);
        free(list->sources[at].shown);
    }
    free(list->sources);
    free(list->numbers);
    free(list->origins);
    free(list->places);
    free_tree(&list->tree);
}
