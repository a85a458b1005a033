/* The names of events and recorders: plain ones, of letters, digits, _ and points, and
 * those that stand in quotes, of any characters but quotes. */
#include "list.h"

#include <string.h>

const char open_quote[] = "begins with a quote that no name stands behind, or none closes";
const char quote_advice[] = "write a name in quotes such as \"ABS-Status\"";

/* How many characters the plain name has with which a text begins. */
size_t name_length(struct text text)
{
    size_t length = 0;
    while (length < text.length && (is_letter(text.at[length]) ||
                                    (length > 0 && (is_digit(text.at[length]) ||
                                                    text.at[length] == '.')))) {
        length++;
    }
    return length;
}

/* The name with which a text begins, without its quotes, and how many characters it takes
 * with them. 0 where there is none, or nothing closes its quotes or stands between them. */
size_t scan_name(struct text text, struct text *name)
{
    if (text.length == 0 || text.at[0] != '"') {
        *name = (struct text){text.at, name_length(text)};
        return name->length;
    }
    const char *end = memchr(text.at + 1, '"', text.length - 1);
    *name = (struct text){text.at, 0};
    if (end == NULL || end == text.at + 1) {
        return 0;
    }
    *name = (struct text){text.at + 1, (size_t)(end - text.at) - 1};
    return name->length + 2;
}

bool is_same(struct text one, struct text other)
{
    return one.length == other.length && memcmp(one.at, other.at, one.length) == 0;
}

/* Looks for the event with a name among those of the list. */
bool find_name(const struct list *list, struct text name, uint64_t *variable)
{
    for (*variable = 0; *variable < list->variables; *variable += 1) {
        if (is_same(list->names[*variable], name)) {
            return true;
        }
    }
    return false;
}

/* Names the events of a list in numbers: variable 3 is called x3. */
void name_by_numbers(struct list *list)
{
    static char named[UTVPI_MOST_VARIABLES][MOST_NAME + 1];
    for (size_t v = 0; v < UTVPI_MOST_VARIABLES; v++) {
        int length = snprintf(named[v], sizeof named[v], "x%zu", v);
        list->names[v] = (struct text){named[v], (size_t)length};
    }
}

/* Whether a name needs quotes. */
static bool is_odd(struct text name)
{
    return name_length(name) < name.length;
}

/* Prints a name as a rule has it. */
void print_name(FILE *to, struct text name)
{
    fputs(is_odd(name) ? "\"" : "", to);
    show(to, name);
    fputs(is_odd(name) ? "\"" : "", to);
}

/* How many characters that takes. */
int name_width(struct text name)
{
    return (int)name.length + (is_odd(name) ? 2 : 0);
}

/* Whether an event is one of a recorder's: NAME.rest, where the recorder is NAME. */
bool belongs_to(struct text event, struct text recorder)
{
    return event.length > recorder.length && event.at[recorder.length] == '.' &&
           memcmp(event.at, recorder.at, recorder.length) == 0;
}

/* Takes so many characters off the rest, and the blanks behind them. */
struct text take_off(struct text *rest, size_t length)
{
    struct text part = {rest->at, length};
    *rest = trim((struct text){rest->at + length, rest->length - length});
    return part;
}

/* Whether a line is a definition and no rule: a word, and a name behind it. So an event
 * may be called by the word, too. */
bool is_definition(struct text line, const char *word)
{
    if (!begins_with_word(line, word)) {
        return false;
    }
    take_off(&line, strlen(word));
    return line.length > 0 && (is_letter(line.at[0]) || line.at[0] == '"');
}

/* Says what is wrong with the name that the rest begins with, if anything is. */
bool is_right_name(const struct list *list, struct origin origin, struct text rest,
                   struct text name, size_t length)
{
    if (length == 0) {
        return wrong(list, origin, rest, open_quote, quote_advice);
    }
    return name.length <= MOST_NAME ||
           wrong(list, origin, name, "is a name of more than " AS_TEXT(MOST_NAME) " characters",
                 "choose a shorter name");
}

/* Reads the name behind the word of a definition, and =. Leaves what stands behind. */
bool read_defined(const struct list *list, struct origin origin, const char *advice,
                  struct text *rest, struct text *name)
{
    *rest = origin.rule;
    take_off(rest, name_length(*rest));
    size_t length = scan_name(*rest, name);
    if (!is_right_name(list, origin, *rest, *name, length)) {
        return false;
    }
    take_off(rest, length);
    if (rest->length == 0 || rest->at[0] != '=') {
        return wrong(list, origin, *name, "has no = behind it", advice);
    }
    take_off(rest, 1);
    return true;
}
