/* A writer of JSON, for --json: one object in one line, and in a session one for each
 * line that is answered. What is begun is closed in the end, whatever stands open. */
#include "list.h"

bool json_wanted;
size_t json_line;

/* How many brackets stand open, for each a bit, 1 for an array's, the last one lowest, and
 * whether nothing stands behind that yet. No answer is as deep as there are bits. */
static size_t depth;
static uint64_t arrays;
static bool fresh;

/* Writes what stands between the quotes of a string. A byte that is no character is
 * written as the character with its number. */
static void write_escaped(struct text text)
{
    while (text.length > 0) {
        size_t length = character_length(text);
        if (length == 0) {
            printf("\\u%04X", (unsigned)(unsigned char)text.at[0]);
        } else if (text.at[0] == '"' || text.at[0] == '\\') {
            printf("\\%c", text.at[0]);
        } else {
            fwrite(text.at, 1, length, stdout);
        }
        text.at += length > 0 ? length : 1;
        text.length -= length > 0 ? length : 1;
    }
}

/* Begins a member of an object, or, without a key, an element of an array. */
static void begin_value(const char *key)
{
    if (!fresh && depth > 0) {
        putchar(',');
    }
    fresh = false;
    if (key != NULL) {
        printf("\"%s\":", key);
    }
}

static void open_bracket(const char *key, bool is_array)
{
    begin_value(key);
    putchar(is_array ? '[' : '{');
    arrays = arrays << 1 | is_array;
    depth++;
    fresh = true;
}

void json_object(const char *key)
{
    open_bracket(key, false);
}

void json_array(const char *key)
{
    open_bracket(key, true);
}

void json_close(void)
{
    putchar((arrays & 1) == 1 ? ']' : '}');
    arrays >>= 1;
    depth--;
    fresh = false;
}

/* A string that is made of pieces. */
void json_pieces(const char *key, const struct text *pieces, size_t count)
{
    begin_value(key);
    putchar('"');
    for (size_t at = 0; at < count; at++) {
        write_escaped(pieces[at]);
    }
    putchar('"');
}

void json_text(const char *key, struct text text)
{
    json_pieces(key, &text, 1);
}

void json_string(const char *key, const char *string)
{
    json_text(key, text_of(string));
}

/* A text, or null where it is empty. */
void json_text_or_null(const char *key, struct text text)
{
    if (text.length > 0) {
        json_text(key, text);
    } else {
        json_null(key);
    }
}

void json_integer(const char *key, int64_t number)
{
    begin_value(key);
    printf("%" PRId64, number);
}

/* A number that is there already as text. */
void json_number(const char *key, const char *digits)
{
    begin_value(key);
    fputs(digits, stdout);
}

void json_null(const char *key)
{
    json_number(key, "null");
}

/* A number, or null where it is an absent bound. */
void json_bound(const char *key, int64_t number)
{
    if (number == UTVPI_NO_LEAST || number == UTVPI_NO_GREATEST) {
        json_null(key);
    } else {
        json_integer(key, number);
    }
}

/* Begins the object of an answer. */
void json_begin(const char *answer)
{
    json_object(NULL);
    if (json_line > 0) {
        json_integer("line", (int64_t)json_line);
    }
    json_string("answer", answer);
}

bool json_is_open(void)
{
    return depth > 0;
}

/* Begins it, unless that was done, as one that has nothing but what is wrong. */
void json_begin_errors(const char *answer)
{
    if (!json_is_open()) {
        json_begin(answer);
        json_array("errors");
    }
}

/* Ends the object, if there is one. */
void json_end(void)
{
    bool some = json_is_open();
    while (json_is_open()) {
        json_close();
    }
    if (some) {
        putchar('\n');
    }
}
