/* A clash made short: out of a refutation, which may go round and count rules twice, the
 * argument that a person would give. It has one of four forms. One rule is false ALONE. A
 * chain of rules leads ROUND to where it began, and says that an event is below itself. A
 * chain is BOUNDED: what is below it is above what is above it. Or rules bound twice an
 * event, from below and from above, and only a fraction lies between: HALVED. */
#include "list.h"

#include <string.h>

/* Whether a line bounds one event, perhaps twice that event. */
bool is_bound(const int32_t *line)
{
    return line[2] == 0 || (line[0] == line[2] && line[1] == line[3]);
}

/* What such a line says its first point is at most. */
int64_t bound_of_one(const int32_t *line)
{
    return line[2] == 0 ? line[BOUND] : half(line[BOUND]);
}

static bool is_bound_step(const struct list *list, uint32_t step)
{
    return is_bound(line_of(list, step));
}

/* How far a chain leads from a place on: the sum of its weights, in which a line on one
 * event counts twice. */
static int64_t sum_from(const struct list *list, const struct chain *chain, size_t from)
{
    int64_t sum = 0;
    for (size_t at = from; at < chain->count; at++) {
        sum += weight_of(line_of(list, chain->steps[at]));
    }
    return sum;
}

int64_t sum_of(const struct list *list, const struct chain *chain)
{
    return sum_from(list, chain, 0);
}

/* Cuts what leads round out of a walk, so that it visits no point twice. Where what leads
 * round has a negative sum, nothing else is kept, and the answer is true. */
static bool cut(const struct list *list, const uint32_t *steps, size_t count, struct chain *chain)
{
    size_t left[MOST_POINTS] = {0};
    chain->count = 0;
    for (size_t at = 0; at < count; at++) {
        struct step step = step_of(list, steps[at]);
        chain->steps[chain->count] = steps[at];
        chain->count++;
        left[number_of_point(step.from)] = chain->count;
        size_t back = left[number_of_point(step.to)];
        if (back == 0) {
            continue;
        }
        if (sum_from(list, chain, back - 1) < 0) {
            chain->count -= back - 1;
            memmove(chain->steps, chain->steps + back - 1, chain->count * sizeof *chain->steps);
            return true;
        }
        while (chain->count >= back) {
            chain->count--;
            left[number_of_point(step_of(list, chain->steps[chain->count]).from)] = 0;
        }
    }
    return false;
}

/* A part of a chain, which may go on behind its end at its front. */
struct chain part_of(const struct chain *chain, size_t from, size_t count)
{
    struct chain part = {.count = count};
    for (size_t at = 0; at < count; at++) {
        part.steps[at] = chain->steps[(from + at) % chain->count];
    }
    return part;
}

/* The chain of the opposite points, which leads the other way, by the other sides of the
 * same rules. */
struct chain mirrored(const struct list *list, const struct chain *chain)
{
    struct chain mirror = {.count = chain->count};
    for (size_t at = 0; at < chain->count; at++) {
        uint32_t step = chain->steps[chain->count - 1 - at];
        mirror.steps[at] = line_of(list, step)[2] == 0 ? step : step ^ 1;
    }
    return mirror;
}

/* How many points on the way are opposites; a person would rather have few of them. */
static size_t opposites_on(const struct list *list, const struct chain *chain)
{
    size_t count = 0;
    for (size_t at = 0; at < chain->count; at++) {
        count += step_of(list, chain->steps[at]).from.sign < 0 ? 1 : 0;
        count += step_of(list, chain->steps[at]).to.sign < 0 ? 1 : 0;
    }
    return count;
}

/* Whether the mirrored chain has fewer of them, and then takes it. */
bool turn(const struct list *list, struct chain *chain)
{
    struct chain mirror = mirrored(list, chain);
    bool better = opposites_on(list, &mirror) < opposites_on(list, chain);
    if (better) {
        *chain = mirror;
    }
    return better;
}

/* The place of the next step on one event from a place on; of a chain that leads round,
 * perhaps behind its end. Without one the place is as far as it goes. */
static size_t next_bound(const struct list *list, const struct chain *chain, size_t from,
                         size_t end)
{
    while (from < end && !is_bound_step(list, chain->steps[from % chain->count])) {
        from++;
    }
    return from;
}

/* Notes a bounded chain, between two steps on one event each, unless one is noted that is
 * as short. */
static void note_bounded(const struct list *list, uint32_t first, struct chain chain,
                         uint32_t last, struct argument *argument)
{
    int64_t sum = bound_of_one(line_of(list, first)) + sum_of(list, &chain) +
                  bound_of_one(line_of(list, last));
    if (sum >= 0 || (argument->form == BOUNDED && argument->chain.count <= chain.count)) {
        return;
    }
    bool turned_round = chain.count > 0
                            ? turn(list, &chain)
                            : step_of(list, first).to.sign < 0;
    argument->form = BOUNDED;
    argument->chain = chain;
    argument->first = turned_round ? last : first;
    argument->last = turned_round ? first : last;
    argument->sum = sum;
}

/* Of a chain that leads round, or of one that does not, what lies between two steps on one
 * event, next to each other, that clash. Leading round, with such a step, two of them do,
 * or one clashes with itself. */
static void find_bounded(const struct list *list, const struct chain *chain, bool round,
                         struct argument *argument)
{
    size_t end = round ? 2 * chain->count : chain->count;
    size_t first = next_bound(list, chain, 0, chain->count);
    while (first < chain->count) {
        size_t last = next_bound(list, chain, first + 1, end);
        if (last < end) {
            note_bounded(list, chain->steps[first], part_of(chain, first + 1, last - first - 1),
                         chain->steps[last % chain->count], argument);
        }
        first = last;
    }
}

/* A chain that leads round, begun at its first event, if it has steps on two events only. */
static void take_round(const struct list *list, struct chain *chain, struct argument *argument)
{
    find_bounded(list, chain, true, argument);
    if (argument->form == BOUNDED) {
        return;
    }
    turn(list, chain);
    size_t from = 0, lowest = 2 * MOST_POINTS;
    for (size_t at = 0; at < chain->count; at++) {
        struct point point = step_of(list, chain->steps[at]).from;
        size_t own = number_of_point(point) + (point.sign < 0 ? MOST_POINTS : 0);
        from = own < lowest ? at : from;
        lowest = own < lowest ? own : lowest;
    }
    argument->form = ROUND;
    argument->chain = part_of(chain, from, chain->count);
    argument->sum = sum_of(list, chain);
}

/* Half of a refutation of kind 2: what its walk says that the point is at most where it
 * begins. Where there is a step on one event, the chain up to that says it directly, or
 * from the other end the mirrored one: what is lower. */
static struct half half_of(const struct list *list, const struct chain *walk)
{
    size_t first = next_bound(list, walk, 0, walk->count), last = walk->count;
    struct half whole = {*walk, false, 0, half(sum_of(list, walk))};
    if (first == walk->count) {
        turn(list, &whole.chain);
        return whole;
    }
    while (!is_bound_step(list, walk->steps[last - 1])) {
        last--;
    }
    struct chain behind = part_of(walk, last, walk->count - last);
    struct half one = {part_of(walk, 0, first), true, walk->steps[first], 0};
    struct half other = {mirrored(list, &behind), true, walk->steps[last - 1], 0};
    one.bound = sum_of(list, &one.chain) + bound_of_one(line_of(list, one.step));
    other.bound = sum_of(list, &other.chain) + bound_of_one(line_of(list, other.step));
    return one.bound < other.bound ||
                   (one.bound == other.bound && one.chain.count <= other.chain.count)
               ? one
               : other;
}

/* Joins two halves that end with steps on one event: a bounded chain. */
static void join_halves(const struct list *list, struct argument *argument)
{
    struct half *there = &argument->halves[0], *back = &argument->halves[1];
    struct chain chain = mirrored(list, &there->chain), joined;
    memcpy(chain.steps + chain.count, back->chain.steps,
           back->chain.count * sizeof *chain.steps);
    chain.count += back->chain.count;
    if (cut(list, chain.steps, chain.count, &joined)) {
        take_round(list, &joined, argument);
    } else {
        note_bounded(list, there->step, joined, back->step, argument);
    }
}

/* The two walks of a refutation of kind 2, from a point to its opposite and back. Where
 * either has more than is needed, that is the argument. */
static void take_halves(const struct list *list, const uint32_t *refutation,
                        struct argument *argument)
{
    size_t p = refutation[1], q = refutation[2];
    struct chain walks[2];
    for (size_t at = 0; at < 2 && argument->form == NO_ARGUMENT; at++) {
        if (cut(list, refutation + 3 + (at == 0 ? 0 : p), at == 0 ? p : q, &walks[at])) {
            take_round(list, &walks[at], argument);
        } else {
            find_bounded(list, &walks[at], false, argument);
        }
    }
    if (argument->form != NO_ARGUMENT) {
        return;
    }
    bool swap = step_of(list, walks[0].steps[0]).from.sign < 0;
    argument->halves[0] = half_of(list, &walks[swap ? 1 : 0]);
    argument->halves[1] = half_of(list, &walks[swap ? 0 : 1]);
    if (argument->halves[0].bounded && argument->halves[1].bounded) {
        join_halves(list, argument);
        return;
    }
    argument->form = HALVED;
    argument->start = step_of(list, walks[swap ? 1 : 0].steps[0]).from;
    argument->sum = argument->halves[0].bound + argument->halves[1].bound;
}

/* Adds a chain's steps, or those of its mirror. */
size_t add_steps(uint32_t *numbers, size_t count, const struct chain *chain)
{
    memcpy(numbers + count, chain->steps, chain->count * sizeof *numbers);
    return count + chain->count;
}

/* Adds the walk of a half: all of it, or up to its step on one event, that, and back. */
size_t add_half(const struct list *list, uint32_t *numbers, size_t count,
                const struct half *from)
{
    struct chain mirror = mirrored(list, &from->chain);
    count = add_steps(numbers, count, &from->chain);
    if (from->bounded) {
        numbers[count] = from->step;
        count = add_steps(numbers, count + 1, &mirror);
    }
    return count;
}

/* The argument as a refutation, so that it can be checked. Gives back how many numbers it
 * has. */
size_t refutation_of(const struct list *list, const struct argument *argument,
                     uint32_t numbers[MOST_ARGUMENT])
{
    struct half bounded = {argument->chain, true, argument->last, 0};
    size_t first = 0, all;
    if (argument->form == HALVED) {
        first = add_half(list, numbers, 3, &argument->halves[0]) - 3;
        all = add_half(list, numbers, 3 + first, &argument->halves[1]);
    } else if (argument->form == BOUNDED) {
        numbers[3] = argument->first;
        first = 1;
        all = add_half(list, numbers, 4, &bounded);
    } else {
        all = add_steps(numbers, 3, &argument->chain);
        first = all - 3;
    }
    numbers[0] = argument->form == ALONE ? 3 : argument->form == ROUND ? 1 : 2;
    numbers[1] = (uint32_t)first;
    numbers[2] = (uint32_t)(all - 3 - first);
    return all;
}

/* Makes the argument of a refutation that the checker has accepted. */
void make_argument(const struct list *list, const uint32_t *refutation,
                   struct argument *argument)
{
    struct chain chain;
    argument->form = NO_ARGUMENT;
    if (refutation[0] == 3) {
        argument->form = ALONE;
        argument->chain = (struct chain){.count = 1, .steps = {refutation[3]}};
        argument->sum = line_of(list, refutation[3])[BOUND];
    } else if (refutation[0] == 2) {
        take_halves(list, refutation, argument);
    } else if (cut(list, refutation + 3, refutation[1], &chain)) {
        take_round(list, &chain, argument);
    }
}
