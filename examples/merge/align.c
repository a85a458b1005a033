/* How the logs lie to each other, roughly: each is shifted so that as many frames as
 * possible that two logs have in common stand at the same time. Nothing is decided by it
 * but which frames are taken for one, and from where offsets count. */
#include "merge.h"

#include <inttypes.h>
#include <stdlib.h>
#include <string.h>

/* Keys that are rare in both logs vote first: those that make at most so many pairs, four
 * times as many in each round, until there are enough votes. */
#define LAST_ROUND 4096
#define ENOUGH 16
#define MOST_VOTES ((size_t)1 << 22)

/* The order of keys and, of one key in one log, of times. */
int by_key(const void *one, const void *other)
{
    const struct frame *a = *(struct frame *const *)one, *b = *(struct frame *const *)other;
    int order = strcmp(a->key, b->key);
    return order != 0 ? order : a->place < b->place ? -1 : a->place > b->place;
}

/* Where the frames with the key that stands at this place end in their row. */
static size_t end_of_key(struct frame **row, size_t count, size_t at)
{
    const char *key = row[at]->key;
    while (at < count && strcmp(row[at]->key, key) == 0) {
        at++;
    }
    return at;
}

/* Goes on to the next key that both rows have. What is no frame of the bus has none. */
bool next_common(struct common *common)
{
    common->from[0] = common->to[0];
    common->from[1] = common->to[1];
    while (common->from[0] < common->counts[0] && common->from[1] < common->counts[1]) {
        struct frame *one = common->rows[0][common->from[0]];
        struct frame *other = common->rows[1][common->from[1]];
        int order = strcmp(one->key, other->key);
        if (order == 0 && one->of_bus) {
            for (int side = 0; side < 2; side++) {
                common->to[side] =
                    end_of_key(common->rows[side], common->counts[side], common->from[side]);
            }
            return true;
        }
        common->from[0] += order <= 0;
        common->from[1] += order >= 0;
    }
    return false;
}

/* How far a clock may drift in so many ticks, rounded up. */
int64_t drift(const struct merge *merge, int64_t ticks)
{
    return ticks / MILLION * merge->ppm -
           divided(-(ticks % MILLION) * merge->ppm, MILLION);
}

/* How far apart the frames of two logs that are one may seem, with one shift for all: by
 * the tolerance on both sides, and by the drift of both clocks over the longest log. */
static int64_t find_spread(const struct merge *merge)
{
    int64_t longest = 0;
    for (size_t at = 0; at < merge->log_count; at++) {
        const struct log *log = &merge->logs[at];
        int64_t last = log->frames[log->count - 1].elapsed;
        longest = last > longest ? last : longest;
    }
    return 2 * (divided(merge->tolerance, merge->tick) + 1 + drift(merge, longest));
}

/* The shifts for which frames vote, and those that most agree on. */
struct votes {
    int64_t *shifts;
    size_t count;
    size_t most;
    int64_t shift;
};

static int by_number(const void *one, const void *other)
{
    int64_t a = *(const int64_t *)one, b = *(const int64_t *)other;
    return a < b ? -1 : a > b;
}

/* Has each pair of frames that make at most so many pairs vote. */
static void vote(struct votes *votes, const struct log *fixed, const struct log *log, size_t most)
{
    struct common common = {.rows = {fixed->by_key, log->by_key},
                            .counts = {fixed->count, log->count}};
    votes->count = 0;
    while (next_common(&common)) {
        size_t pairs = (common.to[0] - common.from[0]) * (common.to[1] - common.from[1]);
        if (pairs > most || votes->count + pairs > MOST_VOTES) {
            continue;
        }
        for (size_t one = common.from[0]; one < common.to[0]; one++) {
            for (size_t other = common.from[1]; other < common.to[1]; other++) {
                votes->shifts[votes->count++] = fixed->by_key[one]->elapsed + fixed->shift -
                                                log->by_key[other]->elapsed;
            }
        }
    }
    qsort(votes->shifts, votes->count, sizeof *votes->shifts, by_number);
}

/* Finds the shifts that lie within a width of each other and have most votes, and takes
 * the middle one. */
static void count(struct votes *votes, int64_t width)
{
    size_t from = 0;
    votes->most = 0;
    for (size_t to = 0; to < votes->count; to++) {
        while (votes->shifts[to] - votes->shifts[from] > width) {
            from++;
        }
        if (to + 1 - from > votes->most) {
            votes->most = to + 1 - from;
            votes->shift = votes->shifts[from + (to - from) / 2];
        }
    }
}

/* The most votes for a shift that is not near the one found. */
static size_t runner_up(const struct votes *votes, int64_t width)
{
    size_t from = 0, most = 0;
    for (size_t to = 0; to < votes->count; to++) {
        int64_t apart = votes->shifts[to] - votes->shift;
        if (apart >= -2 * width && apart <= 2 * width) {
            from = to + 1;
            continue;
        }
        while (votes->shifts[to] - votes->shifts[from] > width) {
            from++;
        }
        most = to + 1 - from > most ? to + 1 - from : most;
    }
    return most;
}

/* Shifts a log against one that is in place. Gives back by how many votes. */
static size_t place(struct merge *merge, const struct log *fixed, struct log *log,
                    struct votes *votes)
{
    int64_t width = merge->spread;
    votes->most = 0;
    for (size_t most = 1; most <= LAST_ROUND && votes->most < ENOUGH; most *= 4) {
        vote(votes, fixed, log, most);
        count(votes, width);
    }
    if (2 * runner_up(votes, width) > votes->most) {
        fprintf(merge->report,
                "%s: frames repeat so that it could lie otherwise against %s, too.\n"
                "  What to do: look at the table of offsets; where it is wrong, give longer"
                " logs.\n",
                log->name, fixed->name);
    }
    return votes->most;
}

/* Puts the first log that is not in place yet against the first that is and has frames in
 * common with it. Whether there is one. */
static bool place_next(struct merge *merge, struct votes *votes)
{
    for (size_t one = 0; one < merge->log_count; one++) {
        struct log *log = &merge->logs[one];
        for (size_t other = 0; !log->aligned && other < merge->log_count; other++) {
            const struct log *fixed = &merge->logs[other];
            if (fixed->aligned && place(merge, fixed, log, votes) > 0) {
                log->shift = votes->shift;
                log->aligned = true;
                return true;
            }
        }
    }
    return false;
}

int align(struct merge *merge)
{
    struct votes votes = {.shifts = take(NULL, MOST_VOTES, sizeof *votes.shifts)};
    merge->spread = find_spread(merge);
    merge->logs[0].aligned = true;
    while (place_next(merge, &votes)) {
    }
    free(votes.shifts);
    for (size_t at = 0; at < merge->log_count; at++) {
        struct log *log = &merge->logs[at];
        if (!log->aligned) {
            return refuse(log->name, "it has no frame in common with the other logs that is rare",
                          "give logs of one bus that were recorded at the same time");
        }
        for (size_t frame = 0; frame < log->count; frame++) {
            log->frames[frame].at = log->frames[frame].elapsed + log->shift;
        }
    }
    return STATUS_YES;
}
