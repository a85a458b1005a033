/* An example of the C interface: checks a merge of two recordings, a wrong
 * one, a proof that another merge is impossible, damaged proofs, and a damaged
 * list.
 *
 * Two recorders ran side by side and each wrote down when it noticed an event,
 * in whole ticks. The first counts up from 0. The second counts down from 100,
 * so that what it reads as y happened at tick 100 - y. What is known about the
 * events is a list of lines, each of the form  a*x + b*y <= d,  with the
 * identifier of the message that said so. A merge gives each event a reading; it is
 * right if it meets every line.
 */
#include "utvpi.h"

#include <inttypes.h>
#include <stdio.h>

/* Writes a number's lowest `bytes` bytes, the lowest first. */
static void pack(uint8_t *to, uint64_t number, size_t bytes)
{
    for (size_t at = 0; at < bytes; at++) {
        to[at] = (uint8_t)(number >> (8 * at) & 255);
    }
}

/* A line as its numbers; an identifier that is not written out is 0. */
typedef int32_t line[UTVPI_LINE_NUMBERS];

/* Writes a list's lines and returns how many bytes they take. */
static size_t pack_list(uint8_t *to, const line *lines, size_t count)
{
    for (size_t at = 0; at < count; at++) {
        for (size_t part = 0; part < UTVPI_LINE_NUMBERS; part++) {
            pack(to + UTVPI_LINE_BYTES * at + 4 * part, (uint64_t)lines[at][part], 4);
        }
    }
    return UTVPI_LINE_BYTES * count;
}

/* The messages that the recorders sent, by their identifiers. The low eleven bits of
 * the two are the same, but all 29 count. */
#define FROM_UP 0x18FEF100
#define FROM_DOWN 0x18FEF900

/* The first list. Variables: 0 the door opens and 1 the lamp goes on, as read by
 * the recorder that counts up; 2 the bell rings, as read by the one that counts
 * down. */
#define DOOR 0
#define LAMP 1
#define BELL 2

#define MERGE_LINES 5
static const line merge[MERGE_LINES] = {
    /* door - lamp <= -5: the door opens 5 ticks before the lamp, or more. */
    {1, DOOR, -1, LAMP, -5, FROM_UP},
    /* lamp <= 40: the lamp goes on at tick 40 or earlier. */
    {1, LAMP, 0, 0, 40, FROM_UP},
    /* -door <= -10: the door opens at tick 10 or later. */
    {-1, DOOR, 0, 0, -10, FROM_UP},
    /* lamp + bell <= 100, as lamp <= 100 - bell: the lamp is not after the bell. */
    {1, LAMP, 1, BELL, 100, FROM_DOWN},
    /* -lamp - bell <= -98, as 100 - bell <= lamp + 2: the bell follows within 2
     * ticks. */
    {-1, LAMP, -1, BELL, -98, FROM_DOWN},
};

/* The second list: both recorders saw one flash, the second while it counted
 * down from 101. Variables: 0 the reading that counts up, 1 the one down. No message
 * said that both read the same: that was noted by hand, and has no identifier. */
#define UP 0
#define DOWN 1

#define FLASH_LINES 4
static const line flash[FLASH_LINES] = {
    /* up + down <= 101, and -up - down <= -101: together they make 101. */
    {1, UP, 1, DOWN, 101, FROM_DOWN},
    {-1, UP, -1, DOWN, -101, FROM_DOWN},
    /* up - down <= 0, and -up + down <= 0: both recorders read the same. */
    {1, UP, -1, DOWN, 0, 0},
    {-1, UP, 1, DOWN, 0, 0},
};

/* A refutation of the second list: kind 2, walks of 2 and 2 steps. Steps 0 and
 * 5 (of lines 0 and 2) lead from up to -up and say 2*up <= 101; steps 2 and 7
 * (of lines 1 and 3) lead back and say -2*up <= -101. */
#define NUMBERS 7
static const uint32_t refutation[NUMBERS] = {2, 2, 2, 0, 5, 2, 7};

/* A number in a text, as it is defined. */
#define AS_TEXT(number) AS_WRITTEN(number)
#define AS_WRITTEN(number) #number

/* What is wrong where a refutation breaks. */
static const char *place_in_words(int place)
{
    switch (place) {
    case 0:
        return "the kind is wrong, or there are fewer than three numbers";
    case 1:
        return "the counts do not suit the kind";
    case 2:
        return "there are not as many steps as the counts say";
    default:
        return "this step does not fit, or the sums are not low enough";
    }
}

/* Whether each answer so far was the one expected. */
static int all_as_expected = 1;

/* What is checked. */
enum proposal { MODEL, REFUTATION };

/* Says in words what a result is and, where it is the expected one, why. */
static void tell(enum proposal proposal, const char *asked, int64_t result, int64_t expected,
                 const char *why)
{
    printf("%s\n", asked);
    if (UTVPI_IS_YES(result)) {
        printf("  Yes.\n");
    } else if (UTVPI_IS_NO(result) && proposal == MODEL) {
        printf("  No. The first line that fails is line %d.\n", UTVPI_NO_LINE(result));
    } else if (UTVPI_IS_NO(result)) {
        int place = UTVPI_NO_PLACE(result);
        printf("  No. It breaks at index %d: %s.\n", place, place_in_words(place));
    } else {
        int number = UTVPI_REFUSAL_NUMBER(result);
        printf("  Refused, with number %d at place %d.\n", number, UTVPI_REFUSAL_PLACE(result));
        printf("  In words: %s.\n", utvpi_refusal_text(number));
    }
    if (result == expected) {
        printf("%s", why);
    } else {
        printf("  NOT AS EXPECTED: %" PRId64 " in place of %" PRId64 ".\n", result, expected);
        all_as_expected = 0;
    }
}

static int64_t check_model(const uint8_t *list, size_t length, int64_t door, int64_t lamp,
                           int64_t bell)
{
    uint8_t model[8 * 3];
    pack(model, (uint64_t)door, 8);
    pack(model + 8, (uint64_t)lamp, 8);
    pack(model + 16, (uint64_t)bell, 8);
    return utvpi_check_model(3, list, length, model, sizeof model);
}

/* Checks the refutation of the second list with the number at one index changed. */
static int64_t check_changed(size_t index, uint32_t number)
{
    uint8_t list[UTVPI_LINE_BYTES * FLASH_LINES], proposed[4 * NUMBERS];
    size_t length = pack_list(list, flash, FLASH_LINES);
    for (size_t at = 0; at < NUMBERS; at++) {
        pack(proposed + 4 * at, at == index ? number : refutation[at], 4);
    }
    return utvpi_check_refutation(2, list, length, proposed, sizeof proposed);
}

static void check_merges(void)
{
    uint8_t list[UTVPI_LINE_BYTES * MERGE_LINES];
    size_t length = pack_list(list, merge, MERGE_LINES);

    tell(MODEL, "Do door 30, lamp 35 and bell 64 meet every line of the merge?",
         check_model(list, length, 30, 35, 64), 0,
         "  The bell's reading 64 is tick 36, one tick after the lamp.\n");

    tell(MODEL, "Do door 30, lamp 35 and bell 66 meet every line of the merge?",
         check_model(list, length, 30, 35, 66), UTVPI_NO + 3,
         "  Line 3, from message " AS_TEXT(FROM_DOWN) ", says that the lamp is not after\n"
         "  the bell, but the bell's reading 66 is tick 34.\n");
}

static void check_refutations(void)
{
    tell(REFUTATION, "Does the refutation show that the readings of the flash cannot be right?",
         check_changed(0, refutation[0]), 0,
         "  No whole numbers can meet these lines. By lines 0 and 2 twice the reading is\n"
         "  at most 101, so the reading is at most 50. By lines 1 and 3 twice the reading\n"
         "  is at least 101, so the reading is at least 51.\n");

    /* Damage: the second step is 4 in place of 5, the other side of line 2. */
    tell(REFUTATION, "Does it if the step number at index 4 is changed from 5 to 4?",
         check_changed(4, 4), UTVPI_NO + 4,
         "  Step 0 ends at -down. Step 4 is side 0 of line 2 and begins at up, so that it\n"
         "  does not join. Step 5, side 1 of this line, begins at -down.\n");

    /* Damage: a count that does not suit the kind, and one that is too high. */
    tell(REFUTATION, "Does it if the second count, at index 2, is changed from 2 to 0?",
         check_changed(2, 0), UTVPI_NO + 1,
         "  Kind 2 has two walks, each of at least one step. Index 1 stands for both counts.\n");
    tell(REFUTATION, "Does it if the second count, at index 2, is changed from 2 to 3?",
         check_changed(2, 3), UTVPI_NO + 2,
         "  The counts 2 and 3 ask for 5 steps, 8 numbers in all, and there are 7.\n");
}

static void check_damaged_lists(void)
{
    uint8_t list[UTVPI_LINE_BYTES * MERGE_LINES];
    size_t length = pack_list(list, merge, MERGE_LINES);

    /* Damage: the last byte is missing. */
    tell(MODEL, "Do door 30, lamp 35 and bell 64 meet the merge without its last byte?",
         check_model(list, length - 1, 30, 35, 64),
         -(UTVPI_BROKEN_LIST_LENGTH * UTVPI_REFUSAL_UNIT), "");

    /* Damage: the second variable of line 4, at byte 12 of the line, becomes 7. */
    list[UTVPI_LINE_BYTES * 4 + 12] = 7;
    tell(MODEL, "Do door 30, lamp 35 and bell 64 meet the merge if its line 4 names a variable 7?",
         check_model(list, length, 30, 35, 64),
         -(UTVPI_BAD_VARIABLE * UTVPI_REFUSAL_UNIT + 4), "");

    /* Damage: the last byte of line 2, the highest of its identifier, becomes 255, so
     * that the number is below 0. */
    list[UTVPI_LINE_BYTES * 3 - 1] = 255;
    tell(MODEL, "Do they if the identifier of its line 2 is damaged, too?",
         check_model(list, length, 30, 35, 64),
         -(UTVPI_BAD_IDENTIFIER * UTVPI_REFUSAL_UNIT + 2),
         "  Line 2 comes before line 4.\n");
}

int main(void)
{
    check_merges();
    check_refutations();
    check_damaged_lists();
    printf(all_as_expected ? "All answers are as expected.\n" : "Some answers are WRONG.\n");
    return all_as_expected ? 0 : 1;
}
