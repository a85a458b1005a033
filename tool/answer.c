/* The library's answers: decides a list, or adds a line to a session; has the answer
 * checked by the library's two checkers, and prints it. */
#include "list.h"

#include <inttypes.h>
#include <stdlib.h>
#include <string.h>

static int32_t model[UTVPI_MODEL_ROOM(UTVPI_MOST_VARIABLES)];
static int64_t bounds[UTVPI_BOUNDS_ROOM(UTVPI_MOST_VARIABLES)];
static uint32_t groups[UTVPI_GROUPS_ROOM(UTVPI_MOST_VARIABLES)];
static uint32_t refutation[UTVPI_REFUTATION_ROOM(UTVPI_MOST_VARIABLES)];
static uint32_t identifiers[UTVPI_IDENTIFIERS_ROOM(UTVPI_MOST_VARIABLES)];

/* The list, the model and the refutation, the library's or one made of it, as the checkers
 * take them. */
static uint8_t list_bytes[UTVPI_LINE_BYTES * (UTVPI_MOST_LINES > MOST_ARGUMENT ? UTVPI_MOST_LINES
                                                                               : MOST_ARGUMENT)];
static uint8_t model_bytes[8 * UTVPI_MODEL_ROOM(UTVPI_MOST_VARIABLES)];
static uint8_t refutation_bytes[4 * MOST_ARGUMENT];

/* Writes a number's lowest `bytes` bytes, the lowest first. */
static void pack(uint8_t *to, uint64_t number, size_t bytes)
{
    for (size_t at = 0; at < bytes; at++) {
        to[at] = (uint8_t)(number >> (8 * at) & 255);
    }
}

static void pack_line(uint8_t *to, const int32_t *line)
{
    for (size_t at = 0; at < UTVPI_LINE_NUMBERS; at++) {
        pack(to + 4 * at, (uint64_t)line[at], 4);
    }
}

static size_t pack_list(const struct list *list)
{
    for (size_t line = 0; line < list->count; line++) {
        pack_line(list_bytes + UTVPI_LINE_BYTES * line, list->numbers + UTVPI_LINE_NUMBERS * line);
    }
    return UTVPI_LINE_BYTES * list->count;
}

static size_t pack_refutation(const uint32_t *numbers, size_t count)
{
    for (size_t at = 0; at < count; at++) {
        pack(refutation_bytes + 4 * at, numbers[at], 4);
    }
    return 4 * count;
}

/* Says that an answer can't be trusted, and why. Gives back the status for that. */
int disagree(const char *what)
{
    if (json_wanted) {
        json_begin_errors("untrusted");
        json_object(NULL);
        json_string("what", what);
        json_close();
        return STATUS_DISAGREE;
    }
    fprintf(stderr,
            "utvpi: %s.\n"
            "  This answer can't be trusted. It is a fault of the library or of this program,\n"
            "  not of the file: report it, with the file.\n",
            what);
    return STATUS_DISAGREE;
}

int disagree_on_seconds(void)
{
    return disagree("the library's seconds are not those that this program finds");
}

int disagree_on_argument(void)
{
    return disagree("what this program made of a refutation fails the library's check");
}

bool within_limits(const struct list *list)
{
    return list->variables <= UTVPI_MOST_VARIABLES && list->count <= UTVPI_MOST_LINES;
}

/* Whether every group is called by an event that is none after its own ones, and that
 * is called by itself, with plus. */
static bool groups_exist(size_t n)
{
    for (size_t v = 0; v < n; v++) {
        uint32_t first = groups[2 * v];
        if (first > v || groups[2 * v + 1] > 1 || groups[2 * (size_t)first] != first ||
            groups[2 * (size_t)first + 1] != 0) {
            return false;
        }
    }
    return true;
}

/* A number with its sign turned; of an absent bound, the one absent on the other side. */
int64_t turned(int64_t number)
{
    if (number == UTVPI_NO_LEAST || number == UTVPI_NO_GREATEST) {
        return number == UTVPI_NO_LEAST ? UTVPI_NO_GREATEST : UTVPI_NO_LEAST;
    }
    return -number;
}

/* Whether all events of a group have the value, the least and the greatest of its
 * first; with a minus the opposite ones, and they are not always 0. */
static bool groups_agree(size_t n)
{
    for (size_t v = 0; v < n; v++) {
        size_t first = groups[2 * v];
        bool minus = groups[2 * v + 1] == 1;
        int64_t value = model[first], least = bounds[2 * first], greatest = bounds[2 * first + 1];
        if (minus && least == 0 && greatest == 0) {
            return false;
        }
        if (model[v] != (minus ? turned(value) : value) ||
            bounds[2 * v] != (minus ? turned(greatest) : least) ||
            bounds[2 * v + 1] != (minus ? turned(least) : greatest)) {
            return false;
        }
    }
    return true;
}

/* Whether the library's check, which takes values of 64 bits, takes these of n variables
 * for a model of the list. */
bool values_hold(const struct list *list, size_t n, const int32_t *values)
{
    size_t length = pack_list(list);
    for (size_t at = 0; at < n; at++) {
        pack(model_bytes + 8 * at, (uint64_t)values[at], 8);
    }
    return UTVPI_IS_YES(utvpi_check_model(n, list_bytes, length, model_bytes, 8 * n));
}

/* Whether the library's check takes these numbers for a refutation of the list: of the
 * lines that it names, for each step one. */
bool refutation_holds(const struct list *list, const uint32_t *numbers, size_t count)
{
    size_t steps = count - 3;
    for (size_t at = 0; at < count; at++) {
        bool is_step = at >= 3;
        pack(refutation_bytes + 4 * at,
             is_step ? 2 * (at - 3) + numbers[at] % 2 : numbers[at], 4);
        if (is_step) {
            pack_line(list_bytes + UTVPI_LINE_BYTES * (at - 3), line_of(list, numbers[at]));
        }
    }
    return UTVPI_IS_YES(utvpi_check_refutation(list->variables, list_bytes,
                                               UTVPI_LINE_BYTES * steps, refutation_bytes,
                                               4 * count));
}

/* Whether the library's check takes these numbers for a showing of a line, by the rules of
 * the list. */
bool showing_holds(const struct list *list, const int32_t *line, const uint32_t *numbers,
                   size_t count)
{
    uint8_t line_bytes[UTVPI_LINE_BYTES];
    size_t length = pack_list(list);
    pack_line(line_bytes, line);
    return UTVPI_IS_YES(utvpi_check_shown(list->variables, list_bytes, length, line_bytes,
                                          sizeof line_bytes, refutation_bytes,
                                          pack_refutation(numbers, count)));
}

/* Takes the seconds of all that a yes prints. False where they can't be trusted. */
static bool take_all_seconds(const struct list *list)
{
    return take_value_seconds(list, model) && take_seconds(list, LEAST, bounds, 2) &&
           take_seconds(list, GREATEST, bounds + 1, 2);
}

/* Prints a yes on the list among n variables, in full or only as such. */
static int answer_yes(const struct list *list, size_t n, enum manner manner)
{
    if (!values_hold(list, n, model)) {
        return disagree("the library answered yes, but its values fail the library's own check");
    }
    if (!groups_exist(n)) {
        return disagree("the library answered yes with a group that does not exist");
    }
    if (!groups_agree(n)) {
        return disagree("the library answered yes, but its groups do not agree with its values");
    }
    if (manner == IN_SHORT) {
        print_short();
    } else if (manner != UNPRINTED && !take_all_seconds(list)) {
        return disagree_on_seconds();
    } else if (manner == IN_CSV) {
        print_csv(list, model, bounds, groups);
    } else if (manner != UNPRINTED) {
        print_yes(list, model, bounds, groups);
    }
    return STATUS_YES;
}

/* Whether the identifiers that the library gave for so many steps of its refutation,
 * which is right, are those of their rules. */
static bool identifiers_agree(const struct list *list, size_t steps)
{
    if (steps > UTVPI_IDENTIFIERS_ROOM(UTVPI_MOST_VARIABLES)) {
        return false;
    }
    for (size_t at = 0; at < steps; at++) {
        if (identifiers[at] != identifier_of(list, refutation[3 + at])) {
            return false;
        }
    }
    return true;
}

/* Prints numbers with a blank between them, after what stands there. */
static void print_numbers(const char *before, const uint32_t *numbers, size_t count)
{
    fputs(before, stdout);
    for (size_t at = 0; at < count; at++) {
        printf(at > 0 || before[0] != '\0' ? " %" PRIu32 : "%" PRIu32, numbers[at]);
    }
    putchar('\n');
}

/* Prints a no in numbers: the refutation, of so many steps, by the numbers that its rules
 * have in the file, and, where some rule has one, the identifiers of its steps' rules. */
static void print_no_in_numbers(const struct list *list, size_t steps)
{
    bool some = false;
    for (size_t at = 0; at < steps; at++) {
        some = some || identifiers[at] != 0;
        refutation[3 + at] = step_as_read(list, refutation[3 + at]);
    }
    print_numbers("", refutation, 3 + steps);
    if (some) {
        print_numbers("identifiers", identifiers, steps);
    }
}

/* Prints a no on the list among n variables, in words or, to be checked later, in
 * numbers. */
static int answer_no(const struct list *list, size_t n, enum manner manner)
{
    static const char fails[] =
        "the library answered no, but its refutation fails the library's own check";
    size_t length = pack_list(list);
    uint64_t count = (uint64_t)3 + refutation[1] + refutation[2];
    if (count > UTVPI_REFUTATION_ROOM(n)) {
        return disagree(fails);
    }
    if (!UTVPI_IS_YES(utvpi_check_refutation(n, list_bytes, length, refutation_bytes,
                                             pack_refutation(refutation, (size_t)count)))) {
        return disagree(fails);
    }
    if (!identifiers_agree(list, (size_t)count - 3)) {
        return disagree("the library answered no, but not with the identifiers of its rules");
    }
    if (manner == IN_NUMBERS) {
        print_no_in_numbers(list, (size_t)count - 3);
        return STATUS_NO;
    }
    if (manner == IN_CSV) {
        fputs("utvpi: no whole numbers meet all the rules, so that there is no table; without"
              " --csv it is shown\n", stderr);
    }
    if (manner == UNPRINTED || manner == IN_CSV) {
        return STATUS_NO;
    }
    return print_no(list, refutation, identifiers, "No. No whole numbers meet all the rules.")
               ? STATUS_NO
               : disagree_on_argument();
}

/* Has the result of deciding the list among n variables checked, and prints it. An
 * answer is given only to a list within the limits of the buffers above. */
int give_answer(const struct list *list, uint64_t n, int64_t result, enum manner manner)
{
    if (UTVPI_IS_REFUSAL(result)) {
        print_refusal(list, list->file, UTVPI_REFUSAL_NUMBER(result),
                      (size_t)UTVPI_REFUSAL_PLACE(result));
        return STATUS_BAD;
    }
    if (!within_limits(list) || n > UTVPI_MOST_VARIABLES) {
        return disagree("the library answered a list that is beyond its limits");
    }
    if (UTVPI_IS_YES(result)) {
        return answer_yes(list, (size_t)n, manner);
    }
    return UTVPI_IS_NO(result) ? answer_no(list, (size_t)n, manner)
                               : disagree("the library gave a number that is no answer");
}

/* How many numbers the work area of an engine needs, or that of deciding. A list with too
 * many variables is refused before its room is looked at. */
static size_t room_for(enum engine engine, uint64_t n)
{
    uint64_t within = n <= UTVPI_MOST_VARIABLES ? n : 0;
    return engine == ENGINE_ALL ? UTVPI_WORK_ROOM(within) : UTVPI_DIFFERENCES_WORK_ROOM(within);
}

size_t work_room(uint64_t n)
{
    return room_for(ENGINE_ALL, n);
}

/* Says that there is not enough memory for a work area of so many numbers. */
static void lack_memory(const char *file, uint64_t n, size_t room)
{
    char what[120];
    snprintf(what, sizeof what,
             "there is not enough memory to decide %" PRIu64 " events: %zu bytes are needed",
             n, room * sizeof(int64_t));
    wrong_in(file, nowhere, nowhere.rule, what,
             "free memory, or decide parts that share no event one by one");
}

/* A work area for n variables, to be freed; NULL, which is said, where there is not
 * enough memory. */
int64_t *take_work_area(const char *file, uint64_t n)
{
    int64_t *work = malloc(work_room(n) * sizeof *work);
    if (work == NULL) {
        lack_memory(file, n, work_room(n));
    }
    return work;
}

/* What the library wrote for the last yes, and for the last no. */
struct yes last_yes(void)
{
    return (struct yes){model, bounds, groups};
}

const uint32_t *last_refutation(void)
{
    return refutation;
}

/* Has the list decided by an engine, in the work area that it needs. The result is for
 * give_answer. False where there is not enough memory, and then nothing is changed. */
static bool decide(const struct list *list, enum engine engine, int64_t *result)
{
    size_t room = room_for(engine, list->variables);
    int64_t *work = malloc(room * sizeof *work);
    if (work == NULL) {
        return false;
    }
    *result = (engine == ENGINE_ALL ? utvpi_decide : utvpi_decide_differences)(
        list->variables, numbers_of(list), length_of(list),
        model, UTVPI_MODEL_ROOM(UTVPI_MOST_VARIABLES),
        bounds, UTVPI_BOUNDS_ROOM(UTVPI_MOST_VARIABLES),
        groups, UTVPI_GROUPS_ROOM(UTVPI_MOST_VARIABLES),
        refutation, UTVPI_REFUTATION_ROOM(UTVPI_MOST_VARIABLES),
        identifiers, UTVPI_IDENTIFIERS_ROOM(UTVPI_MOST_VARIABLES), work, room);
    free(work);
    return true;
}

/* Keeps the shorter of the last no and another refutation, of so many steps, both of which
 * were checked, as the library finds it; the last no when they tie. False where that is not
 * what it finds. */
static bool keep_shorter(const struct list *list, const uint32_t *other,
                         const uint32_t *other_identifiers, uint32_t steps)
{
    uint32_t own = refutation[1] + refutation[2];
    utvpi_part part = utvpi_shorter(
        list->variables, numbers_of(list), length_of(list),
        refutation, UTVPI_REFUTATION_ROOM(UTVPI_MOST_VARIABLES),
        other, UTVPI_REFUTATION_ROOM(UTVPI_MOST_VARIABLES));
    if (part.which != (steps < own ? UTVPI_SHORTER_SECOND : UTVPI_SHORTER_FIRST) ||
        part.length != 3 + (uint64_t)(steps < own ? steps : own)) {
        return false;
    }
    if (part.which == UTVPI_SHORTER_SECOND) {
        memcpy(refutation, other, (size_t)part.length * sizeof *refutation);
        memcpy(identifiers, other_identifiers, steps * sizeof *identifiers);
    }
    return true;
}

/* Prints a no that the engine for differences gave: by the shorter of its refutation and
 * that of the engine for all lists, which has to say no, too; or by its own alone where
 * there is no memory for the other. */
static int answer_shorter(const struct list *list, int64_t result, enum manner manner)
{
    static uint32_t kept[UTVPI_REFUTATION_ROOM(UTVPI_MOST_VARIABLES)];
    static uint32_t kept_identifiers[UTVPI_IDENTIFIERS_ROOM(UTVPI_MOST_VARIABLES)];
    int64_t other = result;
    int status = give_answer(list, list->variables, result, UNPRINTED);
    if (status != STATUS_NO) {
        return status;
    }
    uint32_t steps = copy_last_no(kept, kept_identifiers);
    if (decide(list, ENGINE_ALL, &other)) {
        if (!UTVPI_IS_NO(other)) {
            return disagree("the library's two engines do not give the same answer");
        }
        status = give_answer(list, list->variables, other, UNPRINTED);
        if (status == STATUS_NO && !keep_shorter(list, kept, kept_identifiers, steps)) {
            status = disagree("the library did not find the shorter of two refutations");
        }
    }
    return status == STATUS_NO ? give_answer(list, list->variables, other, manner) : status;
}

/* Decides the list, which the library may refuse, by its engine, and prints the answer. */
int answer(const struct list *list, enum manner manner)
{
    enum engine engine = list->engine == ENGINE_ALL ? ENGINE_ALL : ENGINE_DIFFERENCES;
    bool fitting = list->engine == ENGINE_FITTING;
    int64_t result = 0;
    bool decided = decide(list, engine, &result);
    if (decided && fitting && UTVPI_IS_NO(result)) {
        return answer_shorter(list, result, manner);
    }
    if (decided && fitting && UTVPI_REFUSAL_NUMBER(result) == UTVPI_NOT_DIFFERENCE) {
        engine = ENGINE_ALL;
        decided = decide(list, engine, &result);
    }
    if (!decided) {
        lack_memory(list->file, list->variables, room_for(engine, list->variables));
        return STATUS_BAD;
    }
    return give_answer(list, list->variables, result, manner);
}

/* Adds a line to a session of n variables, whose state has its room and is lent with a
 * work area for them. Gives back the library's result, for give_answer. */
int64_t add_to_session(uint64_t n, int64_t *state, const int32_t line[UTVPI_LINE_NUMBERS],
                       int64_t *work)
{
    utvpi_line added = {line[0], line[1], line[2], line[3], line[BOUND], line[IDENTIFIER]};
    return utvpi_session_add(
        state, UTVPI_SESSION_ROOM(n), added,
        model, UTVPI_MODEL_ROOM(UTVPI_MOST_VARIABLES),
        bounds, UTVPI_BOUNDS_ROOM(UTVPI_MOST_VARIABLES),
        groups, UTVPI_GROUPS_ROOM(UTVPI_MOST_VARIABLES),
        refutation, UTVPI_REFUTATION_ROOM(UTVPI_MOST_VARIABLES),
        identifiers, UTVPI_IDENTIFIERS_ROOM(UTVPI_MOST_VARIABLES), work, work_room(n));
}

/* Decides a choice of the list's tree, by its number, with a work area for the list's
 * variables. The library's answer is for give_answer, unless it is a refusal. */
utvpi_choice decide_choice(const struct list *list, uint64_t choice, int64_t *work)
{
    return utvpi_tree_decide(
        list->variables, numbers_of(list), length_of(list), list->tree.numbers,
        2 * list->tree.count, choice,
        model, UTVPI_MODEL_ROOM(UTVPI_MOST_VARIABLES),
        bounds, UTVPI_BOUNDS_ROOM(UTVPI_MOST_VARIABLES),
        groups, UTVPI_GROUPS_ROOM(UTVPI_MOST_VARIABLES),
        refutation, UTVPI_REFUTATION_ROOM(UTVPI_MOST_VARIABLES),
        identifiers, UTVPI_IDENTIFIERS_ROOM(UTVPI_MOST_VARIABLES), work,
        work_room(list->variables));
}

/* Whether these values are those of the last yes. */
bool is_last_model(const struct list *list, const int32_t *values)
{
    return memcmp(values, model, (size_t)list->variables * sizeof *model) == 0;
}

/* Copies the refutation and the identifiers of the last no, which was checked. Gives back
 * how many steps it has. */
uint32_t copy_last_no(uint32_t *to, uint32_t *identifiers_to)
{
    uint32_t steps = refutation[1] + refutation[2];
    memcpy(to, refutation, (3 + (size_t)steps) * sizeof *to);
    memcpy(identifiers_to, identifiers, steps * sizeof *to);
    return steps;
}
