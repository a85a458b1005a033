/* Writes a list in another form: as text in numbers, or as records, which the
 * library writes. */
#include "list.h"

#include <errno.h>
#include <string.h>

/* The records, with room for those of the most lines. */
static uint8_t records[UTVPI_FILE_SIZE(UTVPI_MOST_LINES)];

/* The list's numbers: a pointer to something, even where there are none. */
const int32_t *numbers_of(const struct list *list)
{
    static const int32_t empty[UTVPI_LINE_NUMBERS] = {0};
    return list->count > 0 ? list->numbers : empty;
}

/* How many they are. */
size_t length_of(const struct list *list)
{
    return UTVPI_LINE_NUMBERS * list->count;
}

/* Prints the list as text in numbers. */
static void print_text(const struct list *list)
{
    char shown[MOST_SHOWN_LINE];
    printf("variables %" PRIu64 "\n", list->variables);
    for (size_t line = 0; line < list->count; line++) {
        show_line(shown, list->numbers + UTVPI_LINE_NUMBERS * line);
        printf("%s\n", shown);
    }
}

/* Puts so many bytes of records into a new file. What can't be written whole is
 * taken away again, which harms nobody, as the file was not there before. */
static int write_new(const char *to, size_t bytes)
{
    FILE *file = fopen(to, "wbx");
    if (file == NULL) {
        fprintf(stderr, "utvpi: %s can't be made: %s\n", to, strerror(errno));
        return STATUS_BAD;
    }
    bool written = fwrite(records, 1, bytes, file) == bytes && fflush(file) == 0;
    int why = errno;
    if (fclose(file) != 0 && written) {
        why = errno;
        written = false;
    }
    if (!written) {
        fprintf(stderr, "utvpi: %s could not be written: %s\n", to, strerror(why));
        remove(to);
    }
    return written ? STATUS_YES : STATUS_BAD;
}

/* Converts the list to records in a file or, without one, to text, unless the
 * library refuses it: so it is asked for the records in both cases. */
int convert(const struct list *list, const char *to)
{
    utvpi_file_written written = utvpi_write_list(list->variables, numbers_of(list),
                                                  length_of(list), records, sizeof records);
    if (written.refusal != 0) {
        print_refusal(list, list->file, (int)written.refusal, (size_t)written.place);
        return STATUS_BAD;
    }
    if (to == NULL) {
        print_text(list);
        return STATUS_YES;
    }
    if (strcmp(to, "-") == 0) {
        fwrite(records, 1, (size_t)written.bytes, stdout);
        return STATUS_YES;
    }
    return write_new(to, (size_t)written.bytes);
}
