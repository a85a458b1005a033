/* Reading a refutation that someone proposes: whole numbers from 0 on, with blanks,
 * commas or new lines between them; and, in a line of their own behind the word
 * identifiers, those of its steps' rules. */
#include "list.h"

#include <string.h>

static const struct text nothing = {"", 0};

static const char word[] = "identifiers";

static const char advice[] =
    "write whole numbers, with blanks, commas or new lines between them, such as"
    " 2 2 2 0 5 2 7; # begins a comment";

static const char names_advice[] =
    "name one identifier for each step, in one line, as --numbers does, or leave the line out";

/* Takes a number off the rest of a line. */
static bool read_number(struct proposal *proposal, struct origin origin, struct text *rest)
{
    struct text part = first_part(*rest), digits = part;
    int64_t value;
    if (part.at[0] == '-') {
        return wrong_in(proposal->file, origin, part, "begins with a minus",
                        "correct it; every number of a refutation is 0 or more");
    }
    if (!scan_magnitude(&digits, &value) || digits.length > 0) {
        return wrong_in(proposal->file, origin, part, "is no whole number", advice);
    }
    if (value > UINT32_MAX) {
        return wrong_in(proposal->file, origin, part, "is too large for 32 bits",
                        "correct it; a step's number is below twice the number of rules");
    }
    proposal->numbers[proposal->count] = (uint32_t)value;
    proposal->count++;
    rest->at += part.length;
    rest->length -= part.length;
    return true;
}

/* Reads the numbers of one line. A comma needs a number on both sides, perhaps in
 * another line; after_comma says whether the one behind it is still to come. */
static bool read_line(struct proposal *proposal, struct origin origin, bool *after_comma)
{
    struct text rest = origin.rule;
    /* The line may be long, and is no rule: the part says enough. */
    origin.rule = nothing;
    while (rest.length > 0 && proposal->count <= UTVPI_MOST_REFUTATION) {
        bool comma = rest.at[0] == ',';
        if (comma && (*after_comma || proposal->count == 0)) {
            return wrong_in(proposal->file, origin, nothing,
                            "a number is missing before a comma", advice);
        }
        if (comma) {
            rest.at++;
            rest.length--;
        } else if (!read_number(proposal, origin, &rest)) {
            return false;
        }
        *after_comma = comma;
        rest = trim(rest);
    }
    return true;
}

/* Takes an identifier off the rest of the line that names them. */
static bool read_identifier(struct proposal *proposal, struct origin origin, struct text *rest)
{
    struct text part = first_part(*rest), digits = part;
    int64_t value;
    if (!scan_identifier(&digits, &value) || digits.length > 0) {
        return wrong_in(proposal->file, origin, part,
                        part.length > 0 ? "is no identifier"
                                        : "an identifier is missing beside a comma",
                        names_advice);
    }
    if (value > UTVPI_MOST_IDENTIFIER) {
        return wrong_in(proposal->file, origin, part, identifier_range, identifier_advice);
    }
    if (proposal->named_count == UTVPI_MOST_REFUTATION) {
        return wrong_in(proposal->file, origin, nothing,
                        "there are more identifiers than a refutation may have numbers",
                        names_advice);
    }
    proposal->named[proposal->named_count] = (uint32_t)value;
    proposal->named_count++;
    rest->at += part.length;
    rest->length -= part.length;
    return true;
}

/* Reads the line that names identifiers, of which there may be one. */
static bool read_identifiers(struct proposal *proposal, struct origin origin)
{
    struct text rest = {origin.rule.at + strlen(word), origin.rule.length - strlen(word)};
    rest = trim(rest);
    bool more = rest.length > 0;
    origin.rule = nothing;
    if (proposal->named_line > 0) {
        return wrong_in(proposal->file, origin, nothing,
                        "identifiers are named for the second time", names_advice);
    }
    proposal->named_line = origin.line;
    while (more) {
        if (!read_identifier(proposal, origin, &rest)) {
            return false;
        }
        more = skip_separator(&rest) || rest.length > 0;
    }
    return true;
}

/* Reads the whole input, up to the first thing that is wrong. With too many numbers
 * the library refuses the refutation whatever follows, so that reading ends there. */
bool read_proposal(struct proposal *proposal)
{
    struct text rest = skip_mark(proposal->input);
    struct origin origin = nowhere;
    bool after_comma = false;
    while (rest.length > 0 && proposal->count <= UTVPI_MOST_REFUTATION) {
        if (!next_line(proposal->file, &rest, &origin)) {
            return false;
        }
        if (begins_with_word(origin.rule, word) ? !read_identifiers(proposal, origin)
                                                : !read_line(proposal, origin, &after_comma)) {
            return false;
        }
    }
    origin.rule = nothing;
    return !after_comma || wrong_in(proposal->file, origin, nothing,
                                    "a number is missing after the last comma", advice);
}
