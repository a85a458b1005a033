/* The windows of time, and the list of rules on their offsets. A frame that a recorder
 * with offset o read as t was sent at t - o, or at o - t where the clock counts down. So
 * two recorders that saw one frame have offsets of which the difference or, where one of
 * them counts down, the sum is known up to the tolerance. */
#include "merge.h"

#include <inttypes.h>
#include <string.h>

/* Windows are at least so long where their length is chosen, in microseconds. */
#define LEAST_CHOSEN MICROSECONDS

/* What of the library's limits a list passes. */
enum fit { FITS, TOO_MANY_WINDOWS, TOO_MANY_LINES, TOO_LARGE_BOUNDS };

/* Gives each frame its window. A window without a frame is left out. */
static enum fit make_windows(struct merge *merge)
{
    merge->n = 0;
    for (size_t one = 0; one < merge->log_count; one++) {
        struct log *log = &merge->logs[one];
        int64_t last = -1;
        for (size_t at = 0; at < log->count; at++) {
            int64_t number = (log->frames[at].at - merge->begin) / merge->length;
            if (number != last && merge->n == UTVPI_MOST_VARIABLES) {
                return TOO_MANY_WINDOWS;
            }
            if (number != last) {
                merge->windows[merge->n++] = (struct window){.log = one, .number = number};
                last = number;
            }
            log->frames[at].window = merge->n - 1;
            merge->windows[merge->n - 1].frames++;
        }
    }
    return FITS;
}

/* Finds the frames that are the only ones with their key in their log within the length
 * of a window, before and behind. Those that are to be matched with none are not. */
static void find_alone(struct merge *merge, struct log *log)
{
    for (size_t at = 0; at < log->count; at++) {
        log->by_key[at]->alone = !log->by_key[at]->unmatched;
    }
    for (size_t at = 1; at < log->count; at++) {
        struct frame *one = log->by_key[at - 1], *other = log->by_key[at];
        if (strcmp(one->key, other->key) == 0 && other->at - one->at <= merge->length) {
            one->alone = false;
            other->alone = false;
        }
    }
}

/* Adds the line that what is sent by window u's offset is at most d behind what is sent by
 * window v's, unless there is one as tight. False where there is no room. */
static bool add_behind(struct merge *merge, uint64_t u, uint64_t v, int64_t d,
                       struct origin origin)
{
    size_t *number = &merge->tightest[u][v];
    if (*number == 0 && merge->line_count == UTVPI_MOST_LINES) {
        return false;
    }
    if (*number != 0 && merge->lines[*number - 1].d <= d) {
        return true;
    }
    if (*number == 0) {
        *number = ++merge->line_count;
    }
    origin.windows[0] = u;
    origin.windows[1] = v;
    merge->origins[*number - 1] = origin;
    merge->lines[*number - 1] = (utvpi_line){
        .a = (int32_t)-merge->logs[merge->windows[u].log].sense, .x = (int32_t)u,
        .b = (int32_t)merge->logs[merge->windows[v].log].sense, .y = (int32_t)v,
        .d = (int32_t)d,
        .identifier = origin.what == ONE_FRAME ? (int32_t)origin.frames[0]->identifier : 0};
    return true;
}

/* How far a frame of a log may be off its window's offset, which holds in the middle: by
 * the drift in half a window, and by a tick for rounding. The first log's clock is the
 * measure of the others. */
int64_t slack(const struct merge *merge, size_t log)
{
    return log == 0 ? 0 : drift(merge, merge->length) / 2 + 1;
}

/* How far apart the times of one frame may be by two logs' offsets: by the tolerance, and
 * a tick for rounding; and by what each may be off. */
int64_t most_apart(const struct merge *merge, size_t one, size_t other)
{
    return divided(merge->tolerance, merge->tick) + 1 + slack(merge, one) + slack(merge, other);
}

/* Adds both lines of two frames that are one. */
static bool add_match(struct merge *merge, const struct frame *one, const struct frame *other)
{
    struct origin origin = {.what = ONE_FRAME, .frames = {one, other}};
    int64_t behind = one->at - other->at, apart = most_apart(merge, one->log, other->log);
    merge->windows[one->window].matches++;
    merge->windows[other->window].matches++;
    return add_behind(merge, one->window, other->window, apart - behind, origin) &&
           add_behind(merge, other->window, one->window, apart + behind, origin);
}

/* Adds the lines of the frames that two logs have in common. Two that are alone in their
 * logs within a window, and within reach, which is half a window at most, are one: a wrong
 * match would need that both recorders lost a frame. */
static bool add_matches(struct merge *merge, const struct log *one, const struct log *other)
{
    struct common common = {.rows = {one->by_key, other->by_key},
                            .counts = {one->count, other->count}};
    while (next_common(&common)) {
        size_t next = common.from[1];
        for (size_t at = common.from[0]; at < common.to[0]; at++) {
            const struct frame *frame = one->by_key[at];
            while (next < common.to[1] &&
                   frame->at - other->by_key[next]->at > merge->reach) {
                next++;
            }
            if (next < common.to[1] && frame->alone && other->by_key[next]->alone &&
                other->by_key[next]->at - frame->at <= merge->reach &&
                !add_match(merge, frame, other->by_key[next])) {
                return false;
            }
        }
    }
    return true;
}

/* Adds the lines of each clock's drift from a window to the next. By the first log's clock
 * others are measured: it has none, and in its first window the offset 0. */
static bool add_drift(struct merge *merge)
{
    struct origin origin = {.what = DRIFT};
    for (uint64_t u = 0; u + 1 < merge->n; u++) {
        const struct window *one = &merge->windows[u], *next = one + 1;
        int64_t passed = (next->number - one->number) * merge->length;
        int64_t most = one->log == 0 ? 0 : drift(merge, passed);
        if (one->log == next->log && !(add_behind(merge, u, u + 1, most, origin) &&
                                       add_behind(merge, u + 1, u, most, origin))) {
            return false;
        }
    }
    origin.what = BEGINNING;
    for (int32_t sign = -1; sign <= 1; sign += 2) {
        if (merge->line_count == UTVPI_MOST_LINES) {
            return false;
        }
        merge->origins[merge->line_count] = origin;
        merge->lines[merge->line_count++] = (utvpi_line){.a = sign};
    }
    return true;
}

/* Makes the windows and the list with windows of this length. Frames are looked for at
 * least as far away as logs may be off; no bound is larger than that and what one frame
 * may be apart. */
static enum fit make_list(struct merge *merge, int64_t length)
{
    merge->length = length;
    merge->reach = merge->asked_reach / merge->tick;
    merge->reach = merge->reach > 2 * merge->spread ? merge->reach : 2 * merge->spread;
    merge->reach = merge->reach < length / 2 ? merge->reach : length / 2;
    if (merge->reach + most_apart(merge, 1, 1) > UTVPI_MOST_BOUND) {
        return TOO_LARGE_BOUNDS;
    }
    merge->line_count = 0;
    memset(merge->tightest, 0, sizeof merge->tightest);
    if (make_windows(merge) != FITS) {
        return TOO_MANY_WINDOWS;
    }
    for (size_t one = 0; one < merge->log_count; one++) {
        find_alone(merge, &merge->logs[one]);
    }
    for (size_t one = 0; one < merge->log_count; one++) {
        for (size_t other = one + 1; other < merge->log_count; other++) {
            if (!add_matches(merge, &merge->logs[one], &merge->logs[other])) {
                return TOO_MANY_LINES;
            }
        }
    }
    return add_drift(merge) ? FITS : TOO_MANY_LINES;
}

/* The lengths that are tried are 1, 2 and 5 with zeros behind, in microseconds. */
static int64_t next_length(int64_t length)
{
    int64_t unit = LEAST_CHOSEN;
    while (unit * 10 <= length) {
        unit *= 10;
    }
    return length < 2 * unit ? 2 * unit : length < 5 * unit ? 5 * unit : 10 * unit;
}

/* Takes the least length of windows whose list is within the library's limits. */
static enum fit choose_length(struct merge *merge, int64_t least)
{
    int64_t length = LEAST_CHOSEN;
    enum fit fit = TOO_MANY_LINES;
    while (fit == TOO_MANY_LINES || fit == TOO_MANY_WINDOWS) {
        fit = length < least ? TOO_MANY_LINES : make_list(merge, length / merge->tick);
        length = next_length(length);
    }
    return fit;
}

/* Says what to do where bounds are too large: a coarser tick that divides a second, if
 * one does. */
static int refuse_bounds(const struct merge *merge)
{
    int64_t tick = merge->tick;
    int64_t most = (most_apart(merge, 1, 1) + merge->reach) * tick;
    while (tick < MICROSECONDS && (MICROSECONDS % tick != 0 || most / tick >= UTVPI_MOST_BOUND)) {
        tick++;
    }
    char advice[120];
    snprintf(advice, sizeof advice,
             tick < MICROSECONDS ? "write --tick %" PRId64 ", or a lower --ppm or --reach"
                                 : "look for a wrong time, or merge the logs in parts",
             tick);
    return refuse("--tick", "the clocks may drift further than a rule of the library can say",
                  advice);
}

/* Says what to do where the windows that were asked for are too many or too short. */
static int refuse_window(int64_t least, enum fit fit)
{
    char text[120];
    if (fit == FITS) {
        snprintf(text, sizeof text,
                 "write --window %" PRId64 ".%06" PRId64 " or more, or a lower --ppm",
                 least / MICROSECONDS, least % MICROSECONDS);
        return refuse("--window", "the logs may be off against each other by more than a quarter"
                      " of it, so that frames could be mistaken", text);
    }
    bool windows = fit == TOO_MANY_WINDOWS;
    snprintf(text, sizeof text, "it makes more than %d %s, the library's limit",
             windows ? UTVPI_MOST_VARIABLES : UTVPI_MOST_LINES,
             windows ? "windows" : "rules between windows");
    return refuse("--window", text, "write a longer one, leave it out, so that one is chosen, or"
                  " merge the logs in parts");
}

int make_rules(struct merge *merge)
{
    int64_t least = 4 * merge->spread * merge->tick;
    merge->begin = merge->logs[0].frames[0].at;
    for (size_t at = 1; at < merge->log_count; at++) {
        int64_t first = merge->logs[at].frames[0].at;
        merge->begin = first < merge->begin ? first : merge->begin;
    }
    if (merge->asked_window != 0 && merge->asked_window < least) {
        return refuse_window(least, FITS);
    }
    enum fit fit = merge->asked_window == 0
                       ? choose_length(merge, least)
                       : make_list(merge, merge->asked_window / merge->tick);
    if (fit == TOO_LARGE_BOUNDS) {
        return refuse_bounds(merge);
    }
    return fit == FITS ? STATUS_YES : refuse_window(least, fit);
}
