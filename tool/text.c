/* The bytes of an input: loading them, the kinds of characters, showing a part of
 * them, and cutting them into lines. */
#include "list.h"

#include <errno.h>
#include <stdlib.h>
#include <string.h>

/* The most characters of a text that are shown: a rule in full. */
#define MOST_SHOWN MOST_RULE

const struct origin nowhere = {0, {"", 0}, {"", 0}, NULL, 0};

/* Says why the input could not be loaded, and drops what there is of it. Gives
 * back false. */
static bool not_loaded(const char *file, char *bytes, const char *why)
{
    free(bytes);
    return wrong_in(file, nowhere, nowhere.rule, why, NULL);
}

/* Makes room for more bytes behind so many, from so many the first time. */
static bool make_room(char **bytes, size_t length, size_t *room, size_t first)
{
    if (length < *room) {
        return true;
    }
    size_t longer = *room == 0 ? first : 2 * *room;
    char *more = realloc(*bytes, longer);
    if (more == NULL) {
        return false;
    }
    *bytes = more;
    *room = longer;
    return true;
}

/* Loads all bytes up to the end of the input, or, of one that is read line by line, up
 * to the end of a line, which may be the input's. Says what is wrong where it can't. */
static bool load_to(FILE *from, const char *file, bool by_lines, struct text *input)
{
    char *bytes = NULL;
    size_t length = 0, room = 0, got = 1;
    while (got > 0 && !(by_lines && length > 0 && bytes[length - 1] == '\n')) {
        if (!make_room(&bytes, length, &room, by_lines ? 128 : 65536)) {
            return not_loaded(file, bytes, "there is not enough memory to read it");
        }
        errno = 0;
        got = fread(bytes + length, 1, by_lines ? 1 : room - length, from);
        length += got;
        if (got == 0 && ferror(from)) {
            return not_loaded(file, bytes, errno != 0 ? strerror(errno) : "it can't be read");
        }
        if (length > (size_t)MOST_MIB * 1024 * 1024) {
            return not_loaded(file, bytes,
                              by_lines ? "a line has more than " AS_TEXT(MOST_MIB)
                                         " MiB: leave out what is not needed"
                                       : "it has more than " AS_TEXT(MOST_MIB)
                                         " MiB: leave out what is not needed");
        }
    }
    input->at = bytes;
    input->length = length;
    return true;
}

/* Loads all bytes, whatever they are. */
bool load(FILE *from, const char *file, struct text *input)
{
    return load_to(from, file, false, input);
}

/* Loads the next line; at the end of the input it is empty. */
bool load_line(FILE *from, const char *file, struct text *line)
{
    return load_to(from, file, true, line);
}

struct text text_of(const char *string)
{
    return (struct text){string, strlen(string)};
}

/* How many bytes the character has with which a text begins, in UTF-8; 0 where it is
 * none, or one that only controls. */
size_t character_length(struct text text)
{
    unsigned char first = (unsigned char)text.at[0];
    size_t length = first < 0x80 ? 1 : first < 0xE0 ? 2 : first < 0xF0 ? 3 : 4;
    uint32_t code = length == 1 ? first : (uint32_t)first & (0x7Fu >> length);
    static const uint32_t least[] = {0, 0x20, 0xA0, 0x800, 0x10000};
    if ((first >= 0x80 && first < 0xC2) || first > 0xF4 || text.length < length || code == 0x7F) {
        return 0;
    }
    for (size_t at = 1; at < length; at++) {
        unsigned char next = (unsigned char)text.at[at];
        if (next < 0x80 || next > 0xBF) {
            return 0;
        }
        code = code << 6 | (next & 0x3Fu);
    }
    return code < least[length] || code > 0x10FFFF || (code >= 0xD800 && code < 0xE000) ? 0
                                                                                       : length;
}

bool is_blank(char c)
{
    return c == ' ' || c == '\t';
}

bool is_digit(char c)
{
    return c >= '0' && c <= '9';
}

/* A character that a name can begin with. */
bool is_letter(char c)
{
    return (c >= 'a' && c <= 'z') || (c >= 'A' && c <= 'Z') || c == '_';
}

/* Whether a text begins with a word, with nothing or a blank behind it. */
bool begins_with_word(struct text text, const char *word)
{
    size_t length = strlen(word);
    return text.length >= length && memcmp(text.at, word, length) == 0 &&
           (text.length == length || is_blank(text.at[length]));
}

/* Whether a text is this word, and nothing else. */
bool is_word(struct text text, const char *word)
{
    return text.length == strlen(word) && begins_with_word(text, word);
}

/* The place of the first of these characters that stands outside names in quotes; the
 * length of the text where there is none. */
size_t find_unquoted(struct text text, const char *characters)
{
    bool quoted = false;
    for (size_t at = 0; at < text.length; at++) {
        if (!quoted && strchr(characters, text.at[at]) != NULL) {
            return at;
        }
        quoted = quoted != (text.at[at] == '"');
    }
    return text.length;
}

/* Whether a text has a sign that every rule in words has. */
bool has_relation(struct text text)
{
    return find_unquoted(text, "<>=") < text.length;
}

/* The text without the blanks around it. */
struct text trim(struct text text)
{
    while (text.length > 0 && is_blank(text.at[0])) {
        text.at++;
        text.length--;
    }
    while (text.length > 0 && is_blank(text.at[text.length - 1])) {
        text.length--;
    }
    return text;
}

/* Shows a text; what a terminal might not print is shown by its number. */
void show(FILE *to, struct text text)
{
    for (size_t at = 0; at < text.length && at < MOST_SHOWN; at++) {
        unsigned char c = (unsigned char)text.at[at];
        if (c == '\t') {
            fputc(' ', to);
        } else if (c < 32 || c > 126) {
            fprintf(to, "\\x%02X", c);
        } else {
            fputc(c, to);
        }
    }
    if (text.length > MOST_SHOWN) {
        fputs("...", to);
    }
}

/* Shows a comment, whose characters need not be plain ASCII. */
void show_comment(FILE *to, struct text comment)
{
    for (size_t at = 0; at < comment.length && at < MOST_SHOWN;) {
        struct text rest = {comment.at + at, comment.length - at};
        size_t length = character_length(rest);
        if (length > 1) {
            fwrite(rest.at, 1, length, to);
        } else {
            show(to, (struct text){rest.at, 1});
        }
        at += length > 1 ? length : 1;
    }
    fputs(comment.length > MOST_SHOWN ? "..." : "", to);
}

/* The input without the mark that some editors put before a text. */
struct text skip_mark(struct text input)
{
    if (input.length >= 3 && memcmp(input.at, "\xEF\xBB\xBF", 3) == 0) {
        input.at += 3;
        input.length -= 3;
    }
    return input;
}

/* Looks for bytes that no text has, in comments too: a file that is not text may
 * look like one long comment. */
static bool is_plain(const char *file, size_t number, struct text line)
{
    struct origin origin = nowhere;
    origin.line = number;
    for (size_t at = 0; at < line.length; at++) {
        unsigned char c = (unsigned char)line.at[at];
        if ((c < 32 && c != '\t') || c == 127) {
            struct text part = {line.at + at, 1};
            return wrong_in(file, origin, part, "is a character that no text has",
                            "give a plain text file whose lines end with LF or CR LF, or records,"
                            " which begin with the bytes 04 00 01 00");
        }
    }
    return true;
}

/* Takes the next line off the rest of the input: its number, one above the last, what
 * stands there but for blanks, and the comment apart. False where it is no text. */
bool next_line(const char *file, struct text *rest, struct origin *origin)
{
    const char *end = memchr(rest->at, '\n', rest->length);
    struct text line = {rest->at, end == NULL ? rest->length : (size_t)(end - rest->at)};
    size_t taken = end == NULL ? line.length : line.length + 1;
    rest->at += taken;
    rest->length -= taken;
    origin->line++;
    if (line.length > 0 && line.at[line.length - 1] == '\r') {
        line.length--;
    }
    if (!is_plain(file, origin->line, line)) {
        return false;
    }
    size_t length = find_unquoted(line, "#");
    origin->file = file;
    origin->comment = trim((struct text){line.at + length, line.length - length});
    origin->rule = trim((struct text){line.at, length});
    return true;
}
