/* What the parts of merge share: logs and their frames, windows of time, the rules on
 * the recorders' offsets, and the frames of the bus. */
#ifndef MERGE_H
#define MERGE_H

#include "utvpi.h"

#include <stdbool.h>
#include <stdio.h>

/* Exit statuses: as the command has them. */
enum status { STATUS_YES, STATUS_NO, STATUS_BAD, STATUS_DISAGREE };

/* As many logs as the library takes recorders in a table. */
#define MOST_LOGS UTVPI_MOST_RECORDERS

/* Microseconds in a second, and what counts a clock's drift. */
#define MICROSECONDS 1000000
#define MILLION 1000000

/* A frame as a log has it. Its key is what it sent, from the identifier on. Times are in
 * ticks, from the log's first frame on; at is where the frame stands on the first log's
 * clock as far as aligning the logs tells, and time where it stands in the merged log. */
struct frame {
    size_t log;
    size_t line;
    int64_t stamp;
    const char *interface;
    const char *key;
    const char *direction;
    uint32_t identifier;
    bool of_bus;
    bool unmatched;
    bool alone;
    uint64_t window;
    int64_t elapsed;
    int64_t at;
    int64_t time;
    size_t place;
    struct bus_frame *bus;
};

/* A recorder's log: its frames in the order of their times, and the same by key. The sense
 * is 1 for a clock that counts up and -1 for one that counts down. */
struct log {
    const char *name;
    char *text;
    int64_t sense;
    struct frame *frames;
    struct frame **by_key;
    size_t count;
    size_t damaged;
    bool aligned;
    int64_t shift;
};

/* An event of the list: the offset of one recorder in one window of time. */
struct window {
    size_t log;
    int64_t number;
    size_t frames;
    size_t matches;
};

/* Where a line of the list comes from: that two frames are one, that a clock's drift from
 * one window to the next is small, or that merged time begins with the first log. */
struct origin {
    enum { ONE_FRAME, DRIFT, BEGINNING } what;
    const struct frame *frames[2];
    uint64_t windows[2];
};

/* A frame of the bus: as each log has it, NULL where one has not, and as the first has it.
 * It is sure where no other frame could be mistaken for it. The place is that in the
 * merged log. */
struct bus_frame {
    const struct frame *by[MOST_LOGS];
    const struct frame *first;
    bool sure;
    size_t place;
};

/* Two frames whose order nothing settles. */
struct open_pair {
    const struct bus_frame *one, *other;
};

struct merge {
    /* As asked for; a window of 0 is to be chosen. Times are in microseconds. */
    int64_t tick, tolerance, ppm, asked_reach, asked_window;
    bool strict, all;
    const char **unmatched;
    size_t unmatched_count;
    const char *output, *report_to;
    FILE *out, *report;

    struct log logs[MOST_LOGS];
    size_t log_count;

    /* How far the logs may be off against each other, once aligned, and within what a frame
     * of one is looked for in another; the length of a window, and where the first begins.
     * In ticks. */
    int64_t spread, reach, length, begin;
    struct window windows[UTVPI_MOST_VARIABLES];
    uint64_t n;

    /* The list and where its lines come from; the number of the tightest line for each
     * two windows, counted from 1. */
    utvpi_line lines[UTVPI_MOST_LINES];
    struct origin origins[UTVPI_MOST_LINES];
    size_t line_count;
    size_t tightest[UTVPI_MOST_VARIABLES][UTVPI_MOST_VARIABLES];

    /* The answer: the offset of each window, and what else the library says. */
    int64_t offsets[UTVPI_MOST_VARIABLES];
    int64_t bounds[UTVPI_BOUNDS_ROOM(UTVPI_MOST_VARIABLES)];
    uint32_t groups[UTVPI_GROUPS_ROOM(UTVPI_MOST_VARIABLES)];
    uint32_t refutation[UTVPI_REFUTATION_ROOM(UTVPI_MOST_VARIABLES)];
    uint32_t identifiers[UTVPI_IDENTIFIERS_ROOM(UTVPI_MOST_VARIABLES)];
    int64_t *work;

    /* The frames of the bus, in merged order. */
    struct bus_frame *bus;
    struct bus_frame **order;
    size_t bus_count;
    size_t contradictions;
    struct open_pair *open;
    size_t open_count;
};

/* The frames with one key in two rows of frames that are in the order of keys. */
struct common {
    struct frame **rows[2];
    size_t counts[2];
    size_t from[2];
    size_t to[2];
};

/* merge.c: memory, or the end of the program; what is wrong, said, as a status; and a
 * division that rounds down. */
void *take(void *old, size_t count, size_t size);
int refuse(const char *file, const char *what, const char *advice);
int64_t divided(int64_t number, int64_t by);

/* log.c: reads a log. */
int read_log(struct merge *merge, struct log *log);

/* align.c: the frames of a row that have one key; how the logs lie to each other. */
int by_key(const void *one, const void *other);
bool next_common(struct common *common);
int64_t drift(const struct merge *merge, int64_t ticks);
int align(struct merge *merge);

/* rules.c: the windows and the list; how far a frame may be off its window's offset, and
 * how far apart one frame may be by two. */
int make_rules(struct merge *merge);
int64_t slack(const struct merge *merge, size_t log);
int64_t most_apart(const struct merge *merge, size_t one, size_t other);

/* decide.c: the answer, checked; the greatest that one window's time can be behind
 * another's, over all answers; and the end, where one can't be trusted. */
void distrust(const char *what);
int decide(struct merge *merge);
int64_t most_behind(struct merge *merge, uint64_t u, uint64_t v);

/* order.c: the frames of the bus, in order, and those whose order is open. */
void put_in_order(struct merge *merge);
void find_open(struct merge *merge);

/* report.c: what is printed. */
void print_merged(const struct merge *merge);
void print_yes(const struct merge *merge);
void print_no(const struct merge *merge);

#endif
