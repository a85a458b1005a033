/* The grounds of a line that is shown: out of a showing, which supposes that the line is
 * broken and may go round, what a person would say for the line itself. It has one of three
 * forms. The line is EVIDENT: true by itself. Its two events are LINKED by a chain of rules.
 * Or rules bound EACH of its events, and the bounds are added.
 *
 * Only the rules that the showing names are looked at. They show the line, and there are
 * whole numbers that meet them: so it has grounds of one of these forms. */
#include "list.h"

#include <string.h>

/* The rules that a showing names, each by a side: those on two events by both sides, and
 * apart from them those that bound one event. */
struct named {
    uint32_t steps[2 * UTVPI_MOST_LINES];
    size_t count;
    uint32_t bounds[UTVPI_MOST_LINES];
    size_t bound_count;
};

/* Where chains lead from a point: the least sum to each point, and the step that comes
 * last. */
struct reached {
    bool found[MOST_POINTS];
    int64_t sums[MOST_POINTS];
    uint32_t steps[MOST_POINTS];
};

/* The term of a line at a place, as a point. */
static struct point term_at(const int32_t *line, int at)
{
    return (struct point){line[at], (uint64_t)line[at + 1]};
}

/* Takes the rules that a showing names, in the order of the list, so that it does not matter
 * how it goes through them. The opposite line is none of the list's. */
static void take_named(const struct list *list, const uint32_t *showing, struct named *named)
{
    bool marks[UTVPI_MOST_LINES + 1] = {false};
    named->count = named->bound_count = 0;
    for (size_t at = 0; at < (size_t)showing[1] + showing[2]; at++) {
        marks[showing[3 + at] / 2] = true;
    }
    for (uint32_t line = 0; line < list->count; line++) {
        if (marks[line] && is_bound(line_of(list, 2 * line))) {
            named->bounds[named->bound_count] = 2 * line;
            named->bound_count++;
        } else if (marks[line]) {
            named->steps[named->count] = 2 * line;
            named->steps[named->count + 1] = 2 * line + 1;
            named->count += 2;
        }
    }
}

/* Goes on by a step, where it leads to a point by a lower sum. */
static bool go_on(const struct list *list, uint32_t number, struct reached *reached)
{
    struct step step = step_of(list, number);
    size_t from = number_of_point(step.from), to = number_of_point(step.to);
    int64_t sum = reached->sums[from] + weight_of(line_of(list, number));
    if (!reached->found[from] || (reached->found[to] && reached->sums[to] <= sum)) {
        return false;
    }
    reached->found[to] = true;
    reached->sums[to] = sum;
    reached->steps[to] = number;
    return true;
}

/* Finds where chains lead from a point, by rules on two events. As these can be met, no
 * chain that leads round has a sum below 0, and none has to visit a point twice. */
static void reach(const struct list *list, const struct named *named, struct point from,
                  struct reached *reached)
{
    bool some = true;
    memset(reached, 0, sizeof *reached);
    reached->found[number_of_point(from)] = true;
    for (size_t round = 0; some && round < MOST_POINTS; round++) {
        some = false;
        for (size_t at = 0; at < named->count; at++) {
            some = go_on(list, named->steps[at], reached) || some;
        }
    }
}

/* The chain that leads from one point to another that was reached from it. False where it
 * goes round without an end, which it can't if the rules can be met. */
static bool take_chain(const struct list *list, const struct reached *reached, struct point from,
                       struct point to, struct chain *chain)
{
    uint32_t last[MOST_POINTS];
    size_t count = 0;
    while (!same_point(from, to) && count < MOST_POINTS) {
        last[count] = reached->steps[number_of_point(to)];
        to = step_of(list, last[count]).from;
        count++;
    }
    chain->count = count;
    for (size_t at = 0; at < count; at++) {
        chain->steps[at] = last[count - 1 - at];
    }
    return same_point(from, to);
}

/* The lowest bound of a point: by a chain to one that a rule bounds, or to its opposite. */
static bool find_half(const struct list *list, const struct named *named, struct point start,
                      struct half *found)
{
    struct reached reached;
    struct point end = opposite(start);
    reach(list, named, start, &reached);
    bool some = reached.found[number_of_point(end)];
    found->bounded = false;
    found->bound = half(reached.sums[number_of_point(end)]);
    for (size_t at = 0; at < named->bound_count; at++) {
        struct point from = step_of(list, named->bounds[at]).from;
        size_t place = number_of_point(from);
        int64_t bound = reached.sums[place] + bound_of_one(line_of(list, named->bounds[at]));
        bool lower = !some || bound < found->bound || (bound == found->bound && !found->bounded);
        if (reached.found[place] && lower) {
            found->bounded = some = true;
            found->step = named->bounds[at];
            found->bound = bound;
            end = from;
        }
    }
    if (!some || !take_chain(list, &reached, start, end, &found->chain)) {
        return false;
    }
    if (!found->bounded) {
        turn(list, &found->chain);
    }
    return true;
}

/* The grounds of a line on two events: a chain between them, or a bound of each. */
static bool find_for_two(const struct list *list, const struct named *named,
                         const int32_t *line, struct grounds *grounds)
{
    struct reached reached;
    struct point end = opposite(grounds->terms[1]);
    reach(list, named, grounds->terms[0], &reached);
    if (reached.found[number_of_point(end)] &&
        reached.sums[number_of_point(end)] <= line[BOUND]) {
        grounds->form = LINKED;
        bool taken = take_chain(list, &reached, grounds->terms[0], end, &grounds->chain);
        turn(list, &grounds->chain);
        return taken;
    }
    grounds->form = EACH;
    grounds->count = 2;
    return find_half(list, named, grounds->terms[0], &grounds->halves[0]) &&
           find_half(list, named, grounds->terms[1], &grounds->halves[1]) &&
           grounds->halves[0].bound + grounds->halves[1].bound <= line[BOUND];
}

/* Finds the grounds of a line in a showing of it that the checker has accepted, by rules
 * that can be met. */
bool find_grounds(const struct list *list, const int32_t *line, const uint32_t *showing,
                  struct grounds *grounds)
{
    static struct named named;
    bool lone = line[2] == 0;
    grounds->terms[0] = term_at(line, 0);
    grounds->terms[1] = lone ? grounds->terms[0] : term_at(line, 2);
    take_named(list, showing, &named);
    if (line[0] == 0 || same_point(grounds->terms[0], opposite(grounds->terms[1]))) {
        grounds->form = EVIDENT;
        return line[BOUND] >= 0;
    }
    if (!same_point(grounds->terms[0], grounds->terms[1])) {
        return find_for_two(list, &named, line, grounds);
    }
    grounds->form = EACH;
    grounds->count = 1;
    return find_half(list, &named, grounds->terms[0], &grounds->halves[0]) &&
           grounds->halves[0].bound <= bound_of_one(line);
}

/* Adds the numbers of the grounds' steps, and of those of the opposite line, which leads
 * from the opposite of each term to the other term. Gives back how many numbers belong to
 * the first walk; those of the second follow, up to the end. */
static size_t add_walks(const struct list *list, const struct grounds *grounds,
                        uint32_t *numbers, size_t *end)
{
    const uint32_t back = 2 * UTVPI_MOST_LINES;
    size_t first = 0;
    *end = 3;
    if (grounds->form == EACH) {
        *end = add_half(list, numbers, *end, &grounds->halves[0]);
        first = *end - 3;
    }
    if (grounds->form == LINKED) {
        struct point from = step_of(list, grounds->chain.steps[0]).from;
        *end = add_steps(numbers, *end, &grounds->chain);
        numbers[*end] = same_point(from, grounds->terms[0]) ? back + 1 : back;
    } else {
        numbers[*end] = back;
    }
    *end += 1;
    if (grounds->form == EACH && grounds->count == 2) {
        *end = add_half(list, numbers, *end, &grounds->halves[1]);
        numbers[*end] = back + 1;
        *end += 1;
    }
    return first > 0 ? first : *end - 3;
}

/* The grounds as a showing, so that they can be checked. Gives back how many numbers it
 * has. */
size_t showing_of(const struct list *list, const int32_t *line, const struct grounds *grounds,
                  uint32_t numbers[MOST_ARGUMENT])
{
    size_t end, first = add_walks(list, grounds, numbers, &end);
    numbers[0] = grounds->form == EACH ? 2 : line[0] == 0 ? 3 : 1;
    numbers[1] = (uint32_t)first;
    numbers[2] = (uint32_t)(end - 3 - first);
    return end;
}
