/* Has the library decide the list, and its answers checked before they are used. */
#include "merge.h"

#include <stdlib.h>
#include <string.h>

/* The library takes the list as numbers, a line behind the other. */
_Static_assert(sizeof(utvpi_line) == UTVPI_LINE_BYTES, "a line is its numbers");

static const int32_t *numbers_of(const struct merge *merge)
{
    return &merge->lines[0].a;
}

static size_t length_of(const struct merge *merge)
{
    return UTVPI_LINE_NUMBERS * merge->line_count;
}

/* A model as the library writes it. */
typedef int32_t model_number;
static model_number model[UTVPI_MODEL_ROOM(UTVPI_MOST_VARIABLES)];

/* The values that the library wrote last. */
static void copy_model(const struct merge *merge, int64_t *values)
{
    for (size_t at = 0; at < merge->n; at++) {
        values[at] = model[at];
    }
}

/* Says that an answer can't be trusted, and ends the program. */
void distrust(const char *what)
{
    fprintf(stderr,
            "merge: %s.\n"
            "  This answer can't be trusted. It is a fault of the library or of this program,\n"
            "  not of the logs: report it, with the logs.\n",
            what);
    exit(STATUS_DISAGREE);
}

/* Writes numbers of so many bytes, the lowest byte first. */
static void pack(uint8_t *to, uint64_t number, size_t bytes)
{
    for (size_t at = 0; at < bytes; at++) {
        to[at] = (uint8_t)(number >> (8 * at) & 255);
    }
}

static const uint8_t *list_bytes(const struct merge *merge)
{
    static uint8_t bytes[UTVPI_LINE_BYTES * UTVPI_MOST_LINES];
    for (size_t at = 0; at < length_of(merge); at++) {
        pack(bytes + sizeof(int32_t) * at, (uint64_t)numbers_of(merge)[at], sizeof(int32_t));
    }
    return bytes;
}

/* Whether the library's check takes these values for a model of the list. */
static bool values_hold(const struct merge *merge, const int64_t *values)
{
    static uint8_t bytes[sizeof(int64_t) * UTVPI_MOST_VARIABLES];
    for (size_t at = 0; at < merge->n; at++) {
        pack(bytes + sizeof(int64_t) * at, (uint64_t)values[at], sizeof(int64_t));
    }
    return UTVPI_IS_YES(utvpi_check_model(merge->n, list_bytes(merge),
                                          UTVPI_LINE_BYTES * merge->line_count, bytes,
                                          sizeof(int64_t) * (size_t)merge->n));
}

/* Whether the library's check takes the refutation, and the identifiers are its lines'. */
static bool refutation_holds(const struct merge *merge)
{
    static uint8_t bytes[sizeof(uint32_t) * UTVPI_REFUTATION_ROOM(UTVPI_MOST_VARIABLES)];
    uint64_t count = (uint64_t)3 + merge->refutation[1] + merge->refutation[2];
    if (count > UTVPI_REFUTATION_ROOM(merge->n)) {
        return false;
    }
    for (size_t at = 0; at < count; at++) {
        pack(bytes + sizeof(uint32_t) * at, merge->refutation[at], sizeof(uint32_t));
    }
    if (!UTVPI_IS_YES(utvpi_check_refutation(merge->n, list_bytes(merge),
                                             UTVPI_LINE_BYTES * merge->line_count, bytes,
                                             sizeof(uint32_t) * (size_t)count))) {
        return false;
    }
    for (size_t at = 3; at < count; at++) {
        if (merge->identifiers[at - 3] !=
            (uint32_t)merge->lines[merge->refutation[at] / 2].identifier) {
            return false;
        }
    }
    return true;
}

/* Of all offsets that meet the rules, the library's model has those nearest 0. Those in the
 * middle between the least and the greatest are nearer to most: they are proposed to the
 * check, and taken where it accepts them. */
static void take_middle(struct merge *merge)
{
    int64_t middle[UTVPI_MOST_VARIABLES];
    for (size_t at = 0; at < merge->n; at++) {
        int64_t sense = merge->logs[merge->windows[at].log].sense;
        int64_t twice = merge->bounds[2 * at] + merge->bounds[2 * at + 1];
        middle[at] = sense * divided(sense * twice, 2);
    }
    if (values_hold(merge, middle)) {
        memcpy(merge->offsets, middle, (size_t)merge->n * sizeof middle[0]);
    }
}

/* Whether frames tie each log to the first, so that no offset is without bounds. */
static int look_for_ties(const struct merge *merge)
{
    for (size_t at = 0; at < merge->n; at++) {
        if (merge->bounds[2 * at] == UTVPI_NO_LEAST ||
            merge->bounds[2 * at + 1] == UTVPI_NO_GREATEST) {
            return refuse(merge->logs[merge->windows[at].log].name,
                          "no frame that is alone in a window ties it to the first log",
                          "write a shorter --window or a longer --reach, or give longer logs");
        }
    }
    return STATUS_YES;
}

int decide(struct merge *merge)
{
    merge->work = take(NULL, UTVPI_WORK_BYTES(merge->n), 1);
    int64_t result = utvpi_decide(
        merge->n, numbers_of(merge), length_of(merge),
        model, UTVPI_MODEL_ROOM(merge->n), merge->bounds, UTVPI_BOUNDS_ROOM(merge->n),
        merge->groups, UTVPI_GROUPS_ROOM(merge->n),
        merge->refutation, UTVPI_REFUTATION_ROOM(merge->n),
        merge->identifiers, UTVPI_IDENTIFIERS_ROOM(merge->n),
        merge->work, UTVPI_WORK_ROOM(merge->n));
    if (UTVPI_IS_REFUSAL(result)) {
        distrust(utvpi_refusal_text(UTVPI_REFUSAL_NUMBER(result)));
    }
    if (UTVPI_IS_NO(result)) {
        if (!refutation_holds(merge)) {
            distrust("the library answered no, but its refutation fails its own check");
        }
        return STATUS_NO;
    }
    copy_model(merge, merge->offsets);
    if (!UTVPI_IS_YES(result) || !values_hold(merge, merge->offsets)) {
        distrust("the library answered yes, but its values fail its own check");
    }
    if (look_for_ties(merge) != STATUS_YES) {
        return STATUS_BAD;
    }
    take_middle(merge);
    return STATUS_YES;
}

/* The left side of a line, in values of all windows. */
static int64_t worked_out(utvpi_line line, const int64_t *values)
{
    return line.a * values[line.x] + line.b * values[line.y];
}

/* Asks whether a line is implied; if not, the library writes a model that breaks it. */
static int64_t ask_line(struct merge *merge, utvpi_line line)
{
    return utvpi_implied_line(merge->n, numbers_of(merge), length_of(merge), line, model,
                              UTVPI_MODEL_ROOM(merge->n), merge->work, UTVPI_WORK_ROOM(merge->n));
}

/* Holds a greatest value to a second question: that it is one is implied, and one less is
 * not, as values that meet the rules show. A line can ask only for what is in its range. */
static void hold(struct merge *merge, utvpi_line line, int64_t greatest)
{
    int64_t values[UTVPI_MOST_VARIABLES];
    if (worked_out(line, merge->offsets) > greatest) {
        distrust("the library's greatest difference of two offsets is below one that there is");
    }
    if (greatest > UTVPI_MOST_BOUND || greatest <= -UTVPI_MOST_BOUND) {
        return;
    }
    line.d = (int32_t)greatest;
    int64_t implied = ask_line(merge, line);
    line.d--;
    int64_t less = ask_line(merge, line);
    copy_model(merge, values);
    if (!UTVPI_IS_YES(implied) || !UTVPI_IS_NO(less) || !values_hold(merge, values) ||
        worked_out(line, values) != greatest) {
        distrust("the library's greatest difference of two offsets is not what values show");
    }
}

/* By how much what is sent by window u's offset can at most be behind what is sent by
 * window v's, beside what the frames' own times say. Each two windows are asked about
 * once. */
int64_t most_behind(struct merge *merge, uint64_t u, uint64_t v)
{
    static struct {
        bool known;
        int64_t greatest;
    } answers[UTVPI_MOST_VARIABLES][UTVPI_MOST_VARIABLES];
    if (!answers[u][v].known) {
        utvpi_pair pair = utvpi_implied_pair(merge->n, numbers_of(merge), length_of(merge), u, v,
                                             merge->work, UTVPI_WORK_ROOM(merge->n));
        utvpi_line line = {.a = (int32_t)-merge->logs[merge->windows[u].log].sense,
                           .x = (int32_t)u,
                           .b = (int32_t)merge->logs[merge->windows[v].log].sense,
                           .y = (int32_t)v};
        const int64_t *row = line.a > 0 ? pair.plus : pair.minus;
        if (!UTVPI_IS_YES(pair.result)) {
            distrust("the library does not say how two offsets lie to each other");
        }
        answers[u][v].known = true;
        answers[u][v].greatest = row[line.b > 0 ? 0 : 1];
        hold(merge, line, answers[u][v].greatest);
    }
    return answers[u][v].greatest;
}
