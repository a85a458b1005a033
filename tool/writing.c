/* A sentence that is made piece by piece, before it is printed, written as JSON or drawn. */
#include "list.h"

#include <stdlib.h>
#include <string.h>

/* Room for a 64-bit number in digits, its sign and an end. */
#define DIGITS 24

/* Adds a text. Where there is no memory for it, it is lost, and an ellipsis is all that
 * is left of the sentence. */
void put_text(struct writing *writing, struct text text)
{
    size_t needed = writing->length + text.length + 1;
    if (needed > writing->room) {
        char *longer = realloc(writing->at, 2 * needed);
        if (longer == NULL) {
            writing->lost = true;
            return;
        }
        writing->at = longer;
        writing->room = 2 * needed;
    }
    memcpy(writing->at + writing->length, text.at, text.length);
    writing->length += text.length;
}

void put_string(struct writing *writing, const char *string)
{
    put_text(writing, text_of(string));
}

void put_number(struct writing *writing, int64_t number)
{
    char digits[DIGITS];
    snprintf(digits, sizeof digits, "%" PRId64, number);
    put_string(writing, digits);
}

/* Adds a name, as a rule has it. */
void put_name(struct writing *writing, struct text name)
{
    const char *quote = name_length(name) < name.length ? "\"" : "";
    put_string(writing, quote);
    put_text(writing, name);
    put_string(writing, quote);
}

void put_event(struct writing *writing, const struct list *list, uint64_t variable)
{
    put_name(writing, list->names[variable]);
}

/* What was written so far. */
struct text written(const struct writing *writing)
{
    return writing->lost ? text_of("...") : (struct text){writing->at, writing->length};
}

/* Begins anew. */
void clear_writing(struct writing *writing)
{
    writing->length = 0;
    writing->lost = false;
}

void free_writing(struct writing *writing)
{
    free(writing->at);
    *writing = (struct writing){NULL, 0, 0, false};
}
