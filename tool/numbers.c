/* Rules in numbers, a x b y d and the identifier, and the line "variables N". */
#include "list.h"

#include <string.h>

static const char numbers_advice[] =
    "write " AS_TEXT(UTVPI_LINE_NUMBERS) " whole numbers a x b y d identifier, such as"
    " 1 0 -1 1 5 0x18DA10F1, with 0 where there is no identifier, or a rule in words, such as"
    " door - lamp <= -5";

const char identifier_range[] = "is not from 0 to " AS_TEXT(UTVPI_MOST_IDENTIFIER);
const char identifier_advice[] =
    "give the message's own number, from 0 to " AS_TEXT(UTVPI_MOST_IDENTIFIER)
    ", without a flag that a tool may have added to it, such as 0x80000000";

/* Takes digits off the rest. The value stops growing only where it is larger than all
 * that may stand anywhere, so that a number that is too large stays too large. False
 * where no digit stands. */
bool scan_magnitude(struct text *rest, int64_t *value)
{
    if (rest->length == 0 || !is_digit(rest->at[0])) {
        return false;
    }
    *value = 0;
    while (rest->length > 0 && is_digit(rest->at[0])) {
        *value = *value > MOST_NUMBER / 10 ? MOST_NUMBER + 1 : 10 * *value + (rest->at[0] - '0');
        rest->at++;
        rest->length--;
    }
    return true;
}

/* Takes hexadecimal digits off the rest, in the same way. */
static bool scan_hexadecimal(struct text *rest, int64_t *value)
{
    static const char digits[] = "0123456789ABCDEF0123456789abcdef";
    const char *digit;
    bool some = false;
    *value = 0;
    while (rest->length > 0 && (digit = memchr(digits, rest->at[0], sizeof digits - 1)) != NULL) {
        if (*value <= UINT32_MAX) {
            *value = 16 * *value + (digit - digits) % 16;
        }
        rest->at++;
        rest->length--;
        some = true;
    }
    return some;
}

/* Takes an identifier's digits off the rest: decimal ones, or 0x and hexadecimal ones. */
bool scan_identifier(struct text *rest, int64_t *value)
{
    if (rest->length < 2 || rest->at[0] != '0' || (rest->at[1] != 'x' && rest->at[1] != 'X')) {
        return scan_magnitude(rest, value);
    }
    rest->at += 2;
    rest->length -= 2;
    return scan_hexadecimal(rest, value);
}

/* The characters up to the next blank or comma. */
struct text first_part(struct text rest)
{
    struct text part = {rest.at, 0};
    while (part.length < rest.length && !is_blank(rest.at[part.length]) &&
           rest.at[part.length] != ',') {
        part.length++;
    }
    return part;
}

/* Takes a number with its sign off the rest, one that stands at this place in its
 * line. */
static bool scan_number(const struct list *list, struct origin origin, struct text *rest,
                        size_t place, int32_t *number)
{
    struct text part = first_part(*rest), digits = part;
    int64_t value;
    bool negative = part.length > 0 && part.at[0] == '-';
    if (part.length == 0) {
        return wrong(list, origin, part, "a number is missing beside a comma", numbers_advice);
    }
    if (part.at[0] == '@') {
        return wrong(list, origin, part, "can't stand in a line of numbers",
                     "write the identifier as the last number of the line, without @");
    }
    if (negative || part.at[0] == '+') {
        digits.at++;
        digits.length--;
    }
    bool scanned = place == IDENTIFIER ? scan_identifier(&digits, &value)
                                       : scan_magnitude(&digits, &value);
    if (!scanned || digits.length > 0) {
        return wrong(list, origin, part, "is no whole number, and the line has no <=, >= or =",
                     numbers_advice);
    }
    value = negative ? -value : value;
    if (value < INT32_MIN || value > INT32_MAX) {
        return place == IDENTIFIER
                   ? wrong(list, origin, part, identifier_range, identifier_advice)
                   : wrong(list, origin, part, "is too large for 32 bits",
                           "correct it; a bound is from -1,000,000 to 1,000,000");
    }
    *number = (int32_t)value;
    rest->at += part.length;
    rest->length -= part.length;
    return true;
}

/* Takes blanks with at most one comma among them off the rest. True if there was
 * a comma. */
bool skip_separator(struct text *rest)
{
    *rest = trim(*rest);
    if (rest->length == 0 || rest->at[0] != ',') {
        return false;
    }
    rest->at++;
    rest->length--;
    *rest = trim(*rest);
    return true;
}

/* The greatest variable number so far says how many variables there are. A place
 * with coefficient 0 names no variable. */
static void note_variable(struct list *list, struct origin origin, int32_t a, int32_t x)
{
    if (!list->declared && a != 0 && x >= 0 && (uint64_t)x >= list->variables) {
        list->variables = (uint64_t)x + 1;
        list->variables_from = origin;
    }
}

bool read_numbers(struct list *list, struct origin origin)
{
    static const struct text nothing = {"", 0};
    struct text rest = origin.rule;
    int32_t line[UTVPI_LINE_NUMBERS];
    size_t count = 0;
    bool more = true;
    while (more) {
        int32_t number = 0;
        if (!scan_number(list, origin, &rest, count, &number)) {
            return false;
        }
        if (count < UTVPI_LINE_NUMBERS) {
            line[count] = number;
        }
        count++;
        more = skip_separator(&rest) || rest.length > 0;
    }
    if (count != UTVPI_LINE_NUMBERS) {
        return wrong(list, origin, nothing,
                     count < UTVPI_LINE_NUMBERS
                         ? "this line has fewer than " AS_TEXT(UTVPI_LINE_NUMBERS) " numbers"
                         : "this line has more than " AS_TEXT(UTVPI_LINE_NUMBERS) " numbers",
                     numbers_advice);
    }
    if (!settle_form(list, origin, FORM_NUMBERS)) {
        return false;
    }
    note_variable(list, origin, line[0], line[1]);
    note_variable(list, origin, line[2], line[3]);
    return add_line(list, origin, line);
}

/* Reads "variables N", which a file of numbers may have once. */
bool read_variables(struct list *list, struct origin origin)
{
    static const char advice[] = "write, once, the word variables and how many there are, such as"
                                 " variables 3";
    struct text word = {origin.rule.at, strlen("variables")};
    struct text rest = {word.at + word.length, origin.rule.length - word.length};
    int64_t value;
    rest = trim(rest);
    if (!scan_magnitude(&rest, &value) || rest.length > 0) {
        return wrong(list, origin, word, "is not followed by one number, or a <= is missing",
                     advice);
    }
    if (value > INT32_MAX) {
        return wrong(list, origin, word, "is followed by a number too large for 32 bits",
                     "use at most " AS_TEXT(UTVPI_MOST_VARIABLES) " variables");
    }
    if (!settle_form(list, origin, FORM_NUMBERS)) {
        return false;
    }
    if (list->declared) {
        return wrong(list, origin, word, "stands in this file for the second time", advice);
    }
    list->declared = true;
    list->variables = (uint64_t)value;
    list->variables_from = origin;
    return true;
}
