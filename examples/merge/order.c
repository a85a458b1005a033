/* Puts the frames of all logs in one order. Between the middles of two windows an offset
 * goes evenly from the one's to the other's, so that no recorder's frames change places.
 * Frames with one key that come out near each other are one frame of the bus, as far as
 * the recorders have them in the same order. */
#include "merge.h"

#include <stdlib.h>

/* Not in order yet. */
#define NOWHERE SIZE_MAX

/* Which of two frames is first. */
enum { FIRST = -1, OPEN = 0, SECOND = 1 };

static int64_t middle_of(const struct merge *merge, uint64_t window)
{
    return merge->begin + merge->windows[window].number * merge->length + merge->length / 2;
}

/* A recorder's offset where a frame of it stands. */
static int64_t offset_at(const struct merge *merge, const struct frame *frame)
{
    uint64_t left = frame->window;
    if (frame->at < middle_of(merge, left)) {
        if (left == 0 || merge->windows[left - 1].log != frame->log) {
            return merge->offsets[left];
        }
        left--;
    } else if (left + 1 == merge->n || merge->windows[left + 1].log != frame->log) {
        return merge->offsets[left];
    }
    int64_t from = middle_of(merge, left), to = middle_of(merge, left + 1);
    return merge->offsets[left] +
           divided((merge->offsets[left + 1] - merge->offsets[left]) * (frame->at - from),
                   to - from);
}

/* Two frames that may be one, by their places in two logs. Of the rows of pairs that are in
 * the order of both logs and end with this one, the heaviest: its weight, and the pair
 * before this one in it. */
struct pair {
    size_t one, other, weight, before;
};

/* The order in which a row of pairs can take one of two that share a place. */
static int by_places(const void *one, const void *other)
{
    const struct pair *a = one, *b = other;
    if (a->one != b->one) {
        return a->one < b->one ? -1 : 1;
    }
    return a->other > b->other ? -1 : a->other < b->other;
}

/* How far apart the merged times of one frame may be in two logs: between the middles of
 * windows offsets change once more. */
static int64_t farthest(const struct merge *merge, size_t one, size_t other)
{
    return most_apart(merge, one, other) + slack(merge, one) + slack(merge, other);
}

/* Finds the pairs of frames with one key that are near enough. One that rules were made of
 * weighs more than all others together. Gives back how many there are. */
static size_t find_pairs(const struct merge *merge, size_t one, size_t other,
                         struct pair **pairs)
{
    struct frame **rows[2] = {merge->logs[one].by_key, merge->logs[other].by_key};
    struct common common = {.rows = {rows[0], rows[1]},
                            .counts = {merge->logs[one].count, merge->logs[other].count}};
    int64_t near = farthest(merge, one, other);
    size_t count = 0, room = 0;
    while (next_common(&common)) {
        size_t from = common.from[1];
        for (size_t at = common.from[0]; at < common.to[0]; at++) {
            while (from < common.to[1] && rows[0][at]->time - rows[1][from]->time > near) {
                from++;
            }
            for (size_t to = from;
                 to < common.to[1] && rows[1][to]->time - rows[0][at]->time <= near; to++) {
                if (count == room) {
                    room = 2 * room + 64;
                    *pairs = take(*pairs, room, sizeof **pairs);
                }
                bool sure = rows[0][at]->alone && rows[1][to]->alone;
                (*pairs)[count++] = (struct pair){rows[0][at]->place, rows[1][to]->place,
                                                  sure ? common.counts[0] : 1, NOWHERE};
            }
        }
    }
    if (count > 0) {
        qsort(*pairs, count, sizeof **pairs, by_places);
    }
    return count;
}

/* The heaviest row of pairs in which the places in both logs rise: gives back its last
 * pair. The pairs that end the heaviest rows up to a place of the second log are in a tree,
 * in which a place has those of as many places before it as its lowest bit says; they count
 * from 1, and 0 is none. */
static size_t heaviest_row(struct pair *pairs, size_t count, size_t *tree, size_t places)
{
    size_t best = NOWHERE;
    for (size_t at = 0; at < count; at++) {
        size_t before = 0;
        for (size_t place = pairs[at].other; place > 0; place &= place - 1) {
            if (tree[place] > 0 &&
                (before == 0 || pairs[tree[place] - 1].weight > pairs[before - 1].weight)) {
                before = tree[place];
            }
        }
        pairs[at].before = before > 0 ? before - 1 : NOWHERE;
        pairs[at].weight += before > 0 ? pairs[before - 1].weight : 0;
        for (size_t place = pairs[at].other + 1; place <= places; place += place & (0 - place)) {
            if (tree[place] == 0 || pairs[tree[place] - 1].weight < pairs[at].weight) {
                tree[place] = at + 1;
            }
        }
        best = best == NOWHERE || pairs[best].weight < pairs[at].weight ? at : best;
    }
    return best;
}

/* Takes as many frames of two logs for one as are in the same order in both. */
static void join_logs(struct merge *merge, size_t one, size_t other)
{
    struct pair *pairs = NULL;
    size_t count = find_pairs(merge, one, other, &pairs);
    size_t places = merge->logs[other].count;
    size_t *tree = take(NULL, places + 1, sizeof *tree);
    for (size_t at = heaviest_row(pairs, count, tree, places); at != NOWHERE;
         at = pairs[at].before) {
        struct bus_frame *bus = merge->logs[one].frames[pairs[at].one].bus;
        struct frame *frame = &merge->logs[other].frames[pairs[at].other];
        if (frame->bus == NULL && bus->by[other] == NULL) {
            frame->bus = bus;
            bus->by[other] = frame;
            bus->sure = bus->sure && bus->first->alone && frame->alone;
        }
    }
    free(pairs);
    free(tree);
}

/* Finds the frames of the bus, log by log. */
static void find_bus_frames(struct merge *merge)
{
    size_t most = 0;
    for (size_t at = 0; at < merge->log_count; at++) {
        most += merge->logs[at].count;
    }
    merge->bus = take(NULL, most, sizeof *merge->bus);
    for (size_t log = 0; log < merge->log_count; log++) {
        for (size_t before = 0; before < log; before++) {
            join_logs(merge, before, log);
        }
        for (size_t at = 0; at < merge->logs[log].count; at++) {
            struct frame *frame = &merge->logs[log].frames[at];
            if (frame->bus == NULL) {
                frame->bus = &merge->bus[merge->bus_count++];
                *frame->bus = (struct bus_frame){.first = frame, .sure = true, .place = NOWHERE};
                frame->bus->by[log] = frame;
            }
        }
    }
}

/* Whether a frame is before another in every answer, whatever the clocks do within their
 * windows. */
static bool settled(struct merge *merge, const struct frame *one, const struct frame *other)
{
    int64_t most = most_behind(merge, one->window, other->window);
    int64_t off = slack(merge, one->log) + slack(merge, other->log);
    return one->at - other->at + most + off < 0;
}

/* Which of two frames of the bus is first: by a recorder that saw both, or else by the
 * rules, for two recorders that saw one each. */
static int order_of(struct merge *merge, const struct bus_frame *one, const struct bus_frame *other)
{
    for (size_t at = 0; at < merge->log_count; at++) {
        if (one->by[at] != NULL && other->by[at] != NULL) {
            return one->by[at]->place < other->by[at]->place ? FIRST : SECOND;
        }
    }
    for (size_t p = 0; p < merge->log_count; p++) {
        for (size_t q = 0; one->by[p] != NULL && q < merge->log_count; q++) {
            if (other->by[q] != NULL && settled(merge, one->by[p], other->by[q])) {
                return FIRST;
            }
            if (other->by[q] != NULL && settled(merge, other->by[q], one->by[p])) {
                return SECOND;
            }
        }
    }
    return OPEN;
}

/* Whether one of two frames goes before the other: where nothing settles it, by time. Of
 * frames that one recorder alone saw, times keep to what the rules settle. */
static bool goes_first(struct merge *merge, const struct bus_frame *one,
                       const struct bus_frame *other)
{
    size_t seen = 0;
    for (size_t at = 0; at < merge->log_count; at++) {
        seen += (size_t)(one->by[at] != NULL) + (size_t)(other->by[at] != NULL);
    }
    int order = seen > 2 ? order_of(merge, one, other) : OPEN;
    return order != OPEN ? order == FIRST : one->first->time < other->first->time;
}

/* Whether every recorder that saw a frame has it next. */
static bool is_next(const struct merge *merge, const struct bus_frame *frame, const size_t *next)
{
    for (size_t at = 0; at < merge->log_count; at++) {
        if (frame->by[at] != NULL && frame->by[at]->place != next[at]) {
            return false;
        }
    }
    return true;
}

/* The frame that goes next: one that every recorder that saw it has next, or, where
 * recorders contradict each other, any. NULL at the end. */
static struct bus_frame *choose_next(struct merge *merge, size_t *next)
{
    struct bus_frame *chosen = NULL, *any = NULL;
    for (size_t at = 0; at < merge->log_count; at++) {
        struct log *log = &merge->logs[at];
        while (next[at] < log->count && log->frames[next[at]].bus->place != NOWHERE) {
            next[at]++;
        }
    }
    for (size_t at = 0; at < merge->log_count; at++) {
        if (next[at] == merge->logs[at].count) {
            continue;
        }
        struct bus_frame *frame = merge->logs[at].frames[next[at]].bus;
        if (is_next(merge, frame, next) &&
            (chosen == NULL || goes_first(merge, frame, chosen))) {
            chosen = frame;
        }
        if (any == NULL || frame->first->time < any->first->time) {
            any = frame;
        }
    }
    merge->contradictions += chosen == NULL && any != NULL;
    return chosen != NULL ? chosen : any;
}

void put_in_order(struct merge *merge)
{
    size_t next[MOST_LOGS] = {0};
    for (size_t one = 0; one < merge->log_count; one++) {
        struct log *log = &merge->logs[one];
        for (size_t at = 0; at < log->count; at++) {
            struct frame *frame = &log->frames[at];
            frame->time = frame->at - log->sense * offset_at(merge, frame);
        }
    }
    find_bus_frames(merge);
    merge->order = take(NULL, merge->bus_count, sizeof *merge->order);
    for (size_t at = 0; at < merge->bus_count; at++) {
        merge->order[at] = choose_next(merge, next);
        merge->order[at]->place = at;
    }
}

/* Keeps two frames whose order is open; the room doubles. */
static void add_open(struct merge *merge, const struct bus_frame *one,
                     const struct bus_frame *other)
{
    if ((merge->open_count & (merge->open_count - 1)) == 0) {
        size_t room = merge->open_count == 0 ? 1 : 2 * merge->open_count;
        merge->open = take(merge->open, room, sizeof *merge->open);
    }
    merge->open[merge->open_count++] = (struct open_pair){one, other};
}

/* Finds the frames whose order with this one is open and that go behind it. In a log that
 * has not this one, they end with a frame that is surely settled to be behind it. */
static void find_open_with(struct merge *merge, const struct bus_frame *one, size_t *next)
{
    for (size_t log = 0; log < merge->log_count; log++) {
        const struct log *other = &merge->logs[log];
        while (next[log] < other->count && other->frames[next[log]].bus->place <= one->place) {
            next[log]++;
        }
        bool ended = one->by[log] != NULL;
        for (size_t at = next[log]; !ended && at < other->count; at++) {
            const struct bus_frame *frame = other->frames[at].bus;
            int order = frame->place <= one->place ? SECOND : order_of(merge, one, frame);
            if (order == OPEN && frame->first->log == log) {
                add_open(merge, one, frame);
            }
            ended = order == FIRST && frame->sure;
        }
    }
}

void find_open(struct merge *merge)
{
    size_t next[MOST_LOGS] = {0};
    for (size_t at = 0; at < merge->bus_count; at++) {
        find_open_with(merge, merge->order[at], next);
    }
}
