/* Reading a list that is given as records: a two-byte length of the body, a two-byte
 * kind, the body, the lowest byte of each number first. One record of kind 1 has the
 * number of variables, each of kind 4 a line, each of kind 2 one whose identifier is 0,
 * without it, and one of kind 3, without a body, is the end. */
#include "list.h"

#include <stdlib.h>
#include <string.h>

/* The length of the body for each kind. */
static const uint32_t body_of[] = {
    [UTVPI_KIND_VARIABLES] = UTVPI_VARIABLES_BYTES,
    [UTVPI_KIND_LINE] = UTVPI_BARE_LINE_BYTES,
    [UTVPI_KIND_END] = 0,
    [UTVPI_KIND_IDENTIFIED_LINE] = UTVPI_LINE_BYTES,
};

/* A refusal with its place, a byte offset; number 0 where nothing is wrong. */
struct damage {
    int number;
    size_t at;
};

static uint32_t unpack(const char *from, size_t bytes)
{
    uint32_t number = 0;
    for (size_t at = 0; at < bytes; at++) {
        number |= (uint32_t)(unsigned char)from[at] << (8 * at);
    }
    return number;
}

/* Of the record at an offset its kind, and a number of its body. */
static uint32_t kind_at(struct text input, size_t at)
{
    return unpack(input.at + at + 2, 2);
}

static uint32_t number_at(struct text input, size_t at, size_t place)
{
    return unpack(input.at + at + UTVPI_RECORD_HEAD + 4 * place, 4);
}

/* Where the record behind it begins. */
static size_t next_record(struct text input, size_t at)
{
    return at + UTVPI_RECORD_HEAD + body_of[kind_at(input, at)];
}

/* The number whose lowest 32 bits these are, in a way that every compiler takes. */
static int32_t with_sign(uint32_t bits)
{
    return bits <= INT32_MAX ? (int32_t)bits : (int32_t)((int64_t)bits - UINT32_MAX - 1);
}

/* Whether the input is records and not text. A cut may leave less than a header,
 * but its first byte is still one that no text has. */
bool is_records(struct text input)
{
    static const char first[UTVPI_RECORD_HEAD] = {UTVPI_VARIABLES_BYTES, 0,
                                                  UTVPI_KIND_VARIABLES, 0};
    size_t length = input.length < UTVPI_RECORD_HEAD ? input.length : UTVPI_RECORD_HEAD;
    return length > 0 && memcmp(input.at, first, length) == 0;
}

/* What is wrong with the record at an offset: the number of a refusal, or 0. The
 * format settles the order. Of its refusals 25, no room for the line, can't occur,
 * as there is room for more lines than a list may have. */
static int fault_of(struct text input, size_t at)
{
    size_t left = input.length - at;
    if (left < UTVPI_RECORD_HEAD) {
        return UTVPI_RECORD_CUT;
    }
    uint32_t length = unpack(input.at + at, 2), kind = kind_at(input, at);
    if (kind < UTVPI_KIND_VARIABLES || kind > UTVPI_KIND_IDENTIFIED_LINE) {
        return UTVPI_RECORD_UNKNOWN;
    }
    if (length != body_of[kind]) {
        return UTVPI_RECORD_LENGTH;
    }
    if (left - UTVPI_RECORD_HEAD < length) {
        return UTVPI_RECORD_CUT;
    }
    if ((kind == UTVPI_KIND_VARIABLES) != (at == 0)) {
        return UTVPI_RECORD_MISPLACED;
    }
    return kind == UTVPI_KIND_IDENTIFIED_LINE && number_at(input, at, IDENTIFIER) == 0
               ? UTVPI_RECORD_NO_IDENTIFIER
               : 0;
}

/* Looks at all records, however many: what is wrong with the last of them comes
 * before a line too many, which the library refuses. */
static struct damage first_damage(struct text input)
{
    struct damage fault = {0, 0};
    uint32_t kind = 0;
    while (kind != UTVPI_KIND_END) {
        fault.number = fault_of(input, fault.at);
        if (fault.number != 0) {
            return fault;
        }
        kind = kind_at(input, fault.at);
        fault.at = next_record(input, fault.at);
    }
    fault.number = fault.at < input.length ? UTVPI_RECORD_AFTER_END : 0;
    return fault;
}

/* Makes room for the text of all lines, and of how many variables there are. */
static bool make_shown(struct source *source)
{
    size_t lines = 1;
    for (size_t at = 0; at < source->input.length; at = next_record(source->input, at)) {
        lines++;
    }
    source->shown = malloc(lines * sizeof source->shown[0]);
    return source->shown != NULL;
}

static void read_count(struct list *list, struct source *source)
{
    list->declared = true;
    list->variables = number_at(source->input, 0, 0);
    int length = snprintf(source->shown[0], MOST_SHOWN_LINE, "variables %" PRIu64,
                          list->variables);
    list->variables_from = (struct origin){.line = 1,
                                           .rule = {source->shown[0], (size_t)length},
                                           .comment = nowhere.comment,
                                           .file = source->file,
                                           .record = 1};
}

/* Writes a line as text, its numbers with a blank between them, and says how many
 * characters that takes. */
size_t show_line(char shown[MOST_SHOWN_LINE], const int32_t line[UTVPI_LINE_NUMBERS])
{
    size_t length = 0;
    for (size_t part = 0; part < UTVPI_LINE_NUMBERS; part++) {
        length += (size_t)snprintf(shown + length, MOST_SHOWN_LINE - length,
                                   part > 0 ? " %" PRId32 : "%" PRId32, line[part]);
    }
    return length;
}

/* Adds the line in the record at an offset, and makes the text that it has none of: that
 * of so many lines before it and one. What the record leaves out, the identifier, is 0. */
static bool read_line(struct list *list, struct source *source, size_t at, size_t before)
{
    char *shown = source->shown[before];
    int32_t line[UTVPI_LINE_NUMBERS] = {0};
    for (size_t place = 0; 4 * place < body_of[kind_at(source->input, at)]; place++) {
        line[place] = with_sign(number_at(source->input, at, place));
    }
    struct origin origin = {.line = before + 1,
                            .rule = {shown, show_line(shown, line)},
                            .comment = nowhere.comment,
                            .file = source->file,
                            .record = at + 1};
    return add_line(list, origin, line);
}

/* Reads a file that is records, behind others that have no rules in words. */
void read_records(struct list *list, struct source *source)
{
    struct damage fault = first_damage(source->input);
    if (fault.number != 0) {
        print_fault(source->file, fault.number, fault.at);
        return;
    }
    if (!settle_form(list, (struct origin){.line = 1, .file = source->file, .record = 1},
                     FORM_NUMBERS) ||
        (!make_shown(source) && !no_memory(list))) {
        return;
    }
    size_t end = fault.at - UTVPI_RECORD_HEAD, before = 1;
    bool added = true;
    read_count(list, source);
    for (size_t at = next_record(source->input, 0); at < end && added;
         at = next_record(source->input, at)) {
        added = read_line(list, source, at, before);
        before++;
    }
}
