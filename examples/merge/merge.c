/* Merges the logs of several recorders of one bus into one trace. Recorded times are
 * constants; what is unknown is each recorder's offset. See README.md. */
#include "merge.h"

#include <errno.h>
#include <stdlib.h>
#include <string.h>

/* What is taken where nothing is asked for; and a number in a text, as it is defined. */
#define USUAL_TOLERANCE 200
#define USUAL_PPM 100
#define USUAL_REACH 20000
#define AS_TEXT(number) AS_WRITTEN(number)
#define AS_WRITTEN(number) #number

/* The greatest numbers that options take: a clock is not a tenth off, and a window is a
 * few months at most. */
#define MOST_PPM (MILLION / 10)
#define MOST_WINDOW ((int64_t)MICROSECONDS * 10000000)

static const char help[] =
    "Usage: merge [OPTION ..] A.log [--down] B.log [[--down] C.log ..]\n"
    "\n"
    "Merges logs of one bus, as candump -l or candump -L wrote them, into one: each frame\n"
    "once, in order, by the first log's clock, to standard output. What the clocks did,\n"
    "and which frames may be the other way round, is said on standard error. Or it says\n"
    "which frames clash.\n"
    "\n"
    "    --down           the clock of the next log counts down\n"
    "    --tolerance US   recorders give one frame times within so many microseconds ("
    AS_TEXT(USUAL_TOLERANCE) ")\n"
    "    --ppm N          each clock runs as the first does, within so many ppm ("
    AS_TEXT(USUAL_PPM) ")\n"
    "    --reach US       a frame of one log is looked for in another within so many ("
    AS_TEXT(USUAL_REACH) "):\n"
    "                     what is further off is another frame\n"
    "    --window S       a clock's offset is told for each so many seconds (chosen)\n"
    "    --tick US        times are counted in so many microseconds (1)\n"
    "    --unmatched LOG:LINE\n"
    "                     takes this frame for none of another log, so that no rule is made\n"
    "                     of it\n"
    "    --strict         damaged lines are refused; else they are named and skipped\n"
    "    --all            prints a frame as each log has it\n"
    "    --output FILE    writes the merged log there\n"
    "    --report FILE    writes there what else is said of the logs\n"
    "\n"
    "Exit status: 0 merged; 1 the logs clash; 2 something is wrong with the input; 3 the\n"
    "library's answer did not pass its check.\n";

/* Memory for so many of a size, all 0 where it is new; or the program ends. */
void *take(void *old, size_t count, size_t size)
{
    void *taken = count > SIZE_MAX / size ? NULL
                  : old == NULL           ? calloc(count + (count == 0), size)
                                          : realloc(old, count * size);
    if (taken == NULL) {
        fputs("merge: there is not enough memory.\n"
              "  What to do: merge the logs in parts.\n", stderr);
        exit(STATUS_BAD);
    }
    return taken;
}

int refuse(const char *file, const char *what, const char *advice)
{
    fprintf(stderr, "merge: %s: %s.\n  What to do: %s.\n", file, what, advice);
    return STATUS_BAD;
}

int64_t divided(int64_t number, int64_t by)
{
    return number / by - (number % by < 0);
}

/* Reads a decimal number, which may have six digits behind a point, in millionths. */
static bool read_millionths(const char *text, int64_t *number)
{
    int64_t value = 0, unit = MILLION;
    size_t digits = strspn(text, "0123456789");
    const char *behind = text[digits] == '.' ? text + digits + 1 : text + digits;
    size_t rest = strspn(behind, "0123456789");
    if (digits == 0 || digits > 12 || rest > 6 || behind[rest] != '\0') {
        return false;
    }
    value = strtoll(text, NULL, 10) * unit;
    for (size_t at = 0; at < rest; at++) {
        unit /= 10;
        value += (behind[at] - '0') * unit;
    }
    *number = value;
    return true;
}

/* An option that a number follows: where it goes, its range, and by what it is divided once
 * it is read in millionths. */
struct option {
    const char *name;
    int64_t *number;
    int64_t least, most, unit;
};

/* Reads an option and the number behind it. Gives back what is wrong, or NULL. */
static const char *read_number(struct merge *merge, const char *name, const char *text)
{
    const struct option options[] = {
        {"--tolerance", &merge->tolerance, 0, MICROSECONDS, MILLION},
        {"--ppm", &merge->ppm, 0, MOST_PPM, MILLION},
        {"--reach", &merge->asked_reach, 1, MOST_WINDOW, MILLION},
        {"--tick", &merge->tick, 1, MICROSECONDS, MILLION},
        {"--window", &merge->asked_window, 1, MOST_WINDOW, 1},
    };
    for (size_t at = 0; at < sizeof options / sizeof options[0]; at++) {
        const struct option *option = &options[at];
        if (strcmp(name, option->name) != 0) {
            continue;
        }
        if (text == NULL || !read_millionths(text, option->number) ||
            *option->number % option->unit != 0) {
            return "a number has to follow";
        }
        *option->number /= option->unit;
        return *option->number < option->least || *option->number > option->most
                   ? "the number is out of range"
                   : NULL;
    }
    return "there is no such option";
}

/* Reads an option and the text behind it. Whether there is such an option. */
static bool read_text(struct merge *merge, const char *name, const char *text)
{
    if (strcmp(name, "--output") == 0) {
        merge->output = text;
    } else if (strcmp(name, "--report") == 0) {
        merge->report_to = text;
    } else if (strcmp(name, "--unmatched") == 0) {
        merge->unmatched[merge->unmatched_count++] = text;
    } else {
        return false;
    }
    return true;
}

/* Opens a file to write to, where one is named that is no log. Gives back a status, after
 * what is wrong is said. */
static int open_file(const struct merge *merge, FILE **file, const char *name)
{
    for (size_t at = 0; name != NULL && at < merge->log_count; at++) {
        if (strcmp(name, merge->logs[at].name) == 0) {
            return refuse(name, "this is a log to read", "name another file to write to");
        }
    }
    FILE *opened = name == NULL ? NULL : fopen(name, "wb");
    *file = opened == NULL ? *file : opened;
    return name == NULL || opened != NULL
               ? STATUS_YES
               : refuse(name, strerror(errno), "name a file that can be written");
}

/* Reads the arguments. Gives back a status, after what is wrong is said. */
static int read_arguments(struct merge *merge, int argc, char **argv)
{
    int64_t sense = 1;
    for (int at = 1; at < argc; at++) {
        const char *wrong = NULL, *name = argv[at], *next = at + 1 < argc ? argv[at + 1] : NULL;
        if (strcmp(name, "--down") == 0) {
            sense = -1;
        } else if (strcmp(name, "--strict") == 0) {
            merge->strict = true;
        } else if (strcmp(name, "--all") == 0) {
            merge->all = true;
        } else if (read_text(merge, name, next)) {
            wrong = next == NULL ? "a file has to follow, or LOG:LINE" : NULL;
            at++;
        } else if (name[0] == '-') {
            wrong = read_number(merge, name, next);
            at++;
        } else if (merge->log_count == MOST_LOGS) {
            wrong = "there are too many logs";
        } else {
            merge->logs[merge->log_count++] = (struct log){.name = name, .sense = sense};
            sense = 1;
        }
        if (wrong != NULL) {
            return refuse(name, wrong, "merge --help explains");
        }
    }
    if (MICROSECONDS % merge->tick != 0) {
        return refuse("--tick", "it does not divide a second", "write one such as 10, 100 or 500");
    }
    return merge->log_count < 2 ? refuse("merge", "there are not two logs", "merge --help explains")
                                : STATUS_YES;
}

/* Marks a frame that is to be matched with none, given as LOG:LINE. */
static int mark_unmatched(struct merge *merge, const char *frame)
{
    const char *behind = strrchr(frame, ':');
    size_t length = behind == NULL ? 0 : (size_t)(behind - frame);
    for (size_t one = 0; one < merge->log_count; one++) {
        struct log *log = &merge->logs[one];
        if (strlen(log->name) != length || strncmp(log->name, frame, length) != 0) {
            continue;
        }
        for (size_t at = 0; at < log->count; at++) {
            if (log->frames[at].line == strtoull(behind + 1, NULL, 10)) {
                log->frames[at].unmatched = true;
                return STATUS_YES;
            }
        }
    }
    return refuse(frame, "no log has such a frame", "write LOG:LINE, as merge names a frame");
}

/* Reads the logs, decides and prints; all is found and checked before. */
static int run(struct merge *merge)
{
    if (open_file(merge, &merge->report, merge->report_to) != STATUS_YES) {
        return STATUS_BAD;
    }
    for (size_t at = 0; at < merge->log_count; at++) {
        if (read_log(merge, &merge->logs[at]) != STATUS_YES) {
            return STATUS_BAD;
        }
    }
    for (size_t at = 0; at < merge->unmatched_count; at++) {
        if (mark_unmatched(merge, merge->unmatched[at]) != STATUS_YES) {
            return STATUS_BAD;
        }
    }
    if (align(merge) != STATUS_YES || make_rules(merge) != STATUS_YES) {
        return STATUS_BAD;
    }
    int status = decide(merge);
    if (status == STATUS_NO) {
        print_no(merge);
    }
    if (status == STATUS_YES) {
        put_in_order(merge);
        find_open(merge);
        status = open_file(merge, &merge->out, merge->output);
    }
    if (status == STATUS_YES) {
        print_yes(merge);
        print_merged(merge);
    }
    return status;
}

static void give_back(struct merge *merge)
{
    for (size_t at = 0; at < merge->log_count; at++) {
        free(merge->logs[at].text);
        free(merge->logs[at].frames);
        free(merge->logs[at].by_key);
    }
    free(merge->unmatched);
    free(merge->work);
    free(merge->bus);
    free(merge->order);
    free(merge->open);
}

int main(int argc, char **argv)
{
    static struct merge merge = {.tick = 1, .tolerance = USUAL_TOLERANCE, .ppm = USUAL_PPM,
                                 .asked_reach = USUAL_REACH};
    merge.out = stdout;
    merge.report = stderr;
    if (argc > 1 && (strcmp(argv[1], "--help") == 0 || strcmp(argv[1], "-h") == 0)) {
        return fputs(help, stdout) < 0 || fflush(stdout) != 0 ? STATUS_BAD : 0;
    }
    merge.unmatched = take(NULL, (size_t)argc, sizeof *merge.unmatched);
    int status = read_arguments(&merge, argc, argv);
    if (status == STATUS_YES) {
        status = run(&merge);
    }
    give_back(&merge);
    if (fflush(merge.out) != 0 || ferror(merge.out) || fflush(merge.report) != 0) {
        return refuse("merge", "what was found could not be written", "free room on the disk");
    }
    return status;
}
