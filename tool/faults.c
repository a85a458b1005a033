/* Where a proposed refutation breaks, and why. The library says where; why is worked
 * out here, outside the proof, and so is the place once more, to compare. */
#include "list.h"

/* What is wrong at index 0, 1 or 2, with all before it right. */
static enum reason head_reason(const struct proposal *proposal, size_t place)
{
    uint32_t kind = proposal->numbers[0], p = proposal->numbers[1], q = proposal->numbers[2];
    if (place == 0) {
        if (proposal->count < 3) {
            return TOO_FEW;
        }
        return kind < 1 || kind > 3 ? BAD_KIND : NO_FAULT;
    }
    if (place == 1) {
        bool suits = kind == 2 ? p > 0 && q > 0 : q == 0 && (kind == 1 ? p > 0 : p == 1);
        return suits ? NO_FAULT : BAD_COUNTS;
    }
    return (uint64_t)3 + p + q != proposal->count ? BAD_LENGTH : NO_FAULT;
}

/* What is wrong with a step number of kind 3, which names this line. */
static enum reason false_reason(const int32_t *line, uint32_t number)
{
    if (line[0] != 0 || line[2] != 0) {
        return HAS_EVENTS;
    }
    if (line[BOUND] >= 0) {
        return IS_TRUE;
    }
    return number % 2 == 1 ? IS_ODD : NO_FAULT;
}

/* What is wrong with a step number that names a step: whether it joins the one
 * before, and whether a walk that ends here ends right. */
static enum reason walk_reason(const struct list *list, const struct proposal *proposal,
                               size_t place)
{
    const uint32_t *numbers = proposal->numbers;
    struct step step = step_of(list, numbers[place]);
    struct point start = step_of(list, numbers[3]).from;
    bool last = place + 1 == proposal->count;
    if (place > 3 && !same_point(step.from, step_of(list, numbers[place - 1]).to)) {
        return NOT_JOINED;
    }
    if (numbers[0] == 2 && place == (size_t)2 + numbers[1] &&
        !same_point(step.to, opposite(start))) {
        return FIRST_ENDS_WRONG;
    }
    if (last && !same_point(step.to, start)) {
        return LAST_ENDS_WRONG;
    }
    return last && bound_together(list, numbers) >= 0 ? NOT_LOW : NO_FAULT;
}

/* What is wrong at an index from 3 on, with all before it right. */
static enum reason step_reason(const struct list *list, const struct proposal *proposal,
                               size_t place)
{
    uint32_t number = proposal->numbers[place];
    if (number / 2 >= list->count) {
        return NO_RULE;
    }
    const int32_t *line = line_of(list, number);
    bool first = line[0] != 0, second = line[2] != 0;
    if (proposal->numbers[0] == 3) {
        return false_reason(line, number);
    }
    if (!first && !second) {
        return NO_STEPS;
    }
    if (first != second && number % 2 == 1) {
        return NO_SIDE;
    }
    return walk_reason(list, proposal, place);
}

/* The first number that is wrong; NO_FAULT where none is. With a right head there
 * is at least one step, so that no place is left out. */
struct fault first_fault(const struct list *list, const struct proposal *proposal)
{
    struct fault fault = {0, head_reason(proposal, 0)};
    while (fault.reason == NO_FAULT && fault.place + 1 < proposal->count) {
        fault.place++;
        fault.reason = fault.place < 3 ? head_reason(proposal, fault.place)
                                       : step_reason(list, proposal, fault.place);
    }
    return fault;
}

/* Notes the identifiers of the steps' rules, as far as the steps are of rules. */
void note_identifiers(const struct list *list, struct proposal *proposal)
{
    for (size_t at = 3; at < proposal->count && proposal->numbers[at] / 2 < list->count; at++) {
        proposal->identifiers[at - 3] = identifier_of(list, proposal->numbers[at]);
    }
}

/* Whether a refutation, which breaks nowhere, names identifiers that are not those of
 * its rules, and the first step of which that is so. */
bool is_misnamed(const struct proposal *proposal, size_t *place)
{
    size_t steps = proposal->count - 3;
    *place = 0;
    if (proposal->named_line == 0) {
        return false;
    }
    if (proposal->named_count != steps) {
        return true;
    }
    while (*place < steps && proposal->named[*place] == proposal->identifiers[*place]) {
        *place += 1;
    }
    return *place < steps;
}
