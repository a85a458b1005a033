/* Quoting rules: where each stands, the rule as its file has it, and its identifier, in
 * columns. */
#include "list.h"

#include <string.h>

/* Rules are padded to the longest among them, but to no more than this. */
#define MOST_PADDED 40

/* An identifier beside a rule: all its digits, as those who look for a message read
 * them. */
#define SHOWN_IDENTIFIER "  @ 0x%08" PRIX32

/* A rule as the file has it, but for the identifier behind a rule in words: that has
 * a column of its own. */
struct text without_identifier(struct text rule)
{
    return trim((struct text){rule.at, find_unquoted(rule, "@")});
}

static int padded(struct text rule)
{
    return rule.length > MOST_PADDED ? MOST_PADDED : (int)rule.length;
}

/* How many characters the place takes: FILE:LINE: with its colons. */
static int place_width(const struct origin *origin)
{
    return snprintf(NULL, 0, "%s:%zu:", origin->file, origin->line);
}

/* How many characters an identifier takes; 0 is none. */
static int identifier_width(uint32_t identifier)
{
    return identifier == 0 ? 0 : snprintf(NULL, 0, SHOWN_IDENTIFIER, identifier);
}

static int greater(int one, int other)
{
    return one > other ? one : other;
}

/* The widths of the columns that the rules of these steps need. */
struct layout layout_of(const struct list *list, const uint32_t *steps, size_t count)
{
    struct layout layout = {0, 0, 0};
    for (size_t at = 0; at < count; at++) {
        const struct origin *origin = &list->origins[steps[at] / 2];
        uint32_t identifier = identifier_of(list, steps[at]);
        layout.place = greater(layout.place, place_width(origin));
        layout.rule = greater(layout.rule, padded(without_identifier(origin->rule)));
        layout.identifier = greater(layout.identifier, identifier_width(identifier));
    }
    return layout;
}

/* Prints the rule of a step, and blanks up to the end of the columns only where something
 * follows. */
void print_quoted(const struct list *list, uint32_t step, struct layout layout, bool followed)
{
    const struct origin *origin = &list->origins[step / 2];
    uint32_t identifier = identifier_of(list, step);
    struct text rule = without_identifier(origin->rule);
    printf("  %s:%zu:%*s ", origin->file, origin->line, layout.place - place_width(origin), "");
    show(stdout, rule);
    if (identifier != 0 || followed) {
        printf("%*s", layout.rule - padded(rule), "");
    }
    if (identifier != 0) {
        printf(SHOWN_IDENTIFIER, identifier);
    }
    if (followed) {
        printf("%*s", layout.identifier - identifier_width(identifier), "");
    }
}
