/* Reads a log as candump writes it, lines of (seconds.microseconds) interface frame. The
 * frame is an identifier, of three hexadecimal digits or, where it has 29 bits, of eight,
 * then # and data, #R for a remote frame, or ## and a digit of flags for an FD frame. */
#include "merge.h"

#include <ctype.h>
#include <errno.h>
#include <stdlib.h>
#include <string.h>

/* The most digits of seconds, so that what is made of microseconds fits 64 bits; the
 * digits of the two forms of identifiers; the most bytes of data, of both kinds. */
#define MOST_DIGITS 11
#define SHORT_IDENTIFIER 3
#define LONG_IDENTIFIER 8
#define MOST_SHORT_IDENTIFIER 0x7FF
#define MOST_DATA 8
#define MOST_FD_DATA 64

/* Beyond 29 bits candump has a mark for what is no frame of the bus, but a report of the
 * recorder's own on errors. */
#define ERROR_MARK ((uint32_t)UTVPI_MOST_IDENTIFIER + 1)

/* How many digits a text begins with; hexadecimal ones are made capitals. */
static size_t digits_of(char *text, bool hexadecimal)
{
    size_t at = 0;
    while (hexadecimal ? isxdigit((unsigned char)text[at]) : isdigit((unsigned char)text[at])) {
        text[at] = (char)toupper((unsigned char)text[at]);
        at++;
    }
    return at;
}

/* Takes the next word, which ends at a blank or at the end; empty where there is none. */
static char *take_word(char **rest)
{
    char *word = *rest + strspn(*rest, " ");
    char *end = word + strcspn(word, " ");
    *rest = *end == '\0' ? end : end + 1;
    *end = '\0';
    return word;
}

/* What is wrong with the time of a line, or NULL. */
static const char *read_stamp(char *word, int64_t *stamp)
{
    size_t seconds = word[0] == '(' ? digits_of(word + 1, false) : 0;
    char *behind = word + 1 + seconds;
    if (seconds == 0 || seconds > MOST_DIGITS || behind[0] != '.' ||
        digits_of(behind + 1, false) != 6 || strcmp(behind + 7, ")") != 0) {
        return "the time is not (seconds.microseconds), with six digits behind the point";
    }
    *stamp = strtoll(word + 1, NULL, 10) * MICROSECONDS + strtoll(behind + 1, NULL, 10);
    return NULL;
}

/* Whether these are bytes of data, at most so many, and nothing behind them but, of
 * eight, _ and a digit for the length that the frame names. */
static bool is_data(char *text, size_t most)
{
    size_t digits = digits_of(text, true);
    char *behind = text + digits;
    if (digits == 2 * MOST_DATA && most == MOST_DATA && behind[0] == '_') {
        return digits_of(behind + 1, true) == 1 && behind[2] == '\0';
    }
    return digits % 2 == 0 && digits <= 2 * most && behind[0] == '\0';
}

/* What is wrong with a frame, or NULL. */
static const char *read_frame(char *key, struct frame *frame)
{
    size_t digits = digits_of(key, true);
    char *behind = key + digits + 1;
    frame->key = key;
    frame->identifier = (uint32_t)strtoull(key, NULL, 16);
    frame->of_bus = frame->identifier <= UTVPI_MOST_IDENTIFIER;
    if (key[digits] != '#' || (digits != SHORT_IDENTIFIER && digits != LONG_IDENTIFIER)) {
        return "the identifier has not three or eight hexadecimal digits before #";
    }
    if (digits == SHORT_IDENTIFIER && frame->identifier > MOST_SHORT_IDENTIFIER) {
        return "an identifier of three digits is above 7FF";
    }
    if (frame->identifier / ERROR_MARK > 1) {
        return "the identifier has more than 29 bits";
    }
    if (behind[0] == 'R') {
        return behind[1] == '\0' || (behind[1] >= '0' && behind[1] <= '8' && behind[2] == '\0')
                   ? NULL
                   : "a remote frame is #R and a length from 0 to 8";
    }
    if (behind[0] == '#') {
        return digits_of(behind + 1, true) > 0 && is_data(behind + 2, MOST_FD_DATA)
                   ? NULL
                   : "an FD frame is ##, a digit of flags and at most 64 bytes";
    }
    return is_data(behind, MOST_DATA) ? NULL : "the data is not at most 8 bytes of two digits";
}

/* What is wrong with a line, or NULL: then the frame is read. Words end in zeros then. */
static const char *read_line(char *line, struct frame *frame)
{
    const char *wrong = read_stamp(take_word(&line), &frame->stamp);
    frame->interface = take_word(&line);
    char *key = take_word(&line);
    frame->direction = take_word(&line);
    if (wrong == NULL && (frame->interface[0] == '\0' || key[0] == '\0')) {
        wrong = "there is no interface and frame behind the time";
    }
    if (wrong == NULL) {
        wrong = read_frame(key, frame);
    }
    if (wrong == NULL &&
        (strspn(frame->direction, "RT") != strlen(frame->direction) ||
         strlen(frame->direction) > 1 || line[strspn(line, " ")] != '\0')) {
        wrong = "something stands behind the frame";
    }
    return wrong;
}

/* Reads a file whole, with a zero behind it. Gives back its length. */
static size_t load(FILE *from, char **text)
{
    size_t length = 0, room = 0, got = 1;
    while (got > 0) {
        if (room - length < 2) {
            room = room == 0 ? 1 << 16 : 2 * room;
            *text = take(*text, room, 1);
        }
        got = fread(*text + length, 1, room - length - 1, from);
        length += got;
    }
    (*text)[length] = '\0';
    return length;
}

/* Adds a frame; the room doubles. */
static void add_frame(struct log *log, struct frame frame)
{
    if ((log->count & (log->count - 1)) == 0) {
        log->frames = take(log->frames, log->count == 0 ? 1 : 2 * log->count, sizeof frame);
    }
    log->frames[log->count] = frame;
    log->count++;
}

/* Reads the lines, and names those that are damaged. Empty ones are none. */
static void read_lines(struct merge *merge, struct log *log, size_t length)
{
    char *at = log->text, *end = log->text + length;
    for (size_t line = 1; at < end; line++) {
        char *next = memchr(at, '\n', (size_t)(end - at));
        next = next == NULL ? end : next;
        struct frame frame = {.log = (size_t)(log - merge->logs), .line = line};
        char *last = next > at && next[-1] == '\r' ? next - 1 : next;
        *last = '\0';
        const char *wrong = memchr(at, '\0', (size_t)(last - at)) != NULL
                                ? "there is a zero byte in it"
                                : NULL;
        if (wrong == NULL && at[strspn(at, " ")] != '\0') {
            wrong = read_line(at, &frame);
            if (wrong == NULL) {
                add_frame(log, frame);
            }
        }
        if (wrong != NULL) {
            log->damaged++;
            fprintf(merge->report, "%s:%zu: %s: %s\n", log->name, line,
                    merge->strict ? "damaged" : "skipped", wrong);
        }
        at = next + 1;
    }
}

static int by_time(const void *one, const void *other)
{
    const struct frame *a = one, *b = other;
    if (a->elapsed != b->elapsed) {
        return a->elapsed < b->elapsed ? -1 : 1;
    }
    return a->line < b->line ? -1 : a->line > b->line;
}

/* Puts the frames in the order of their times, which count from the first, in ticks. */
static void put_in_time(struct merge *merge, struct log *log)
{
    for (size_t at = 0; at < log->count; at++) {
        log->frames[at].elapsed = log->sense * log->frames[at].stamp;
    }
    qsort(log->frames, log->count, sizeof *log->frames, by_time);
    int64_t first = log->frames[0].elapsed;
    log->by_key = take(NULL, log->count, sizeof *log->by_key);
    for (size_t at = 0; at < log->count; at++) {
        log->frames[at].elapsed = divided(log->frames[at].elapsed - first, merge->tick);
        log->frames[at].place = at;
        log->by_key[at] = &log->frames[at];
    }
    qsort(log->by_key, log->count, sizeof *log->by_key, by_key);
}

/* Whether more times go against the clock's sense than with it, line by line. */
static bool runs_other_way(const struct log *log)
{
    int64_t balance = 0;
    for (size_t at = 1; at < log->count; at++) {
        int64_t step = log->sense * (log->frames[at].stamp - log->frames[at - 1].stamp);
        balance += step > 0 ? 1 : step < 0 ? -1 : 0;
    }
    return balance < 0;
}

int read_log(struct merge *merge, struct log *log)
{
    FILE *from = fopen(log->name, "rb");
    if (from == NULL) {
        return refuse(log->name, strerror(errno), "name a log that can be read");
    }
    size_t length = load(from, &log->text);
    bool failed = ferror(from) != 0;
    fclose(from);
    if (failed) {
        return refuse(log->name, "it can't be read to its end", "name a file");
    }
    read_lines(merge, log, length);
    if (merge->strict && log->damaged > 0) {
        return refuse(log->name, "it has damaged lines, and --strict takes none",
                      "correct them, or leave --strict out");
    }
    if (log->count == 0) {
        return refuse(log->name, "it has no frame",
                      "give a log that candump -l or candump -L wrote");
    }
    if (runs_other_way(log)) {
        return refuse(log->name,
                      log->sense > 0 ? "its times fall" : "its times rise, in spite of --down",
                      log->sense > 0 ? "where the recorder counts down, write --down before it"
                                     : "leave --down out");
    }
    put_in_time(merge, log);
    return STATUS_YES;
}
