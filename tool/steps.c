/* What a step number stands for: twice its line's number, plus the side. */
#include "list.h"

/* The line of a step. */
const int32_t *line_of(const struct list *list, uint32_t step)
{
    return list->numbers + UTVPI_LINE_NUMBERS * (size_t)(step / 2);
}

/* The identifier of its line. */
uint32_t identifier_of(const struct list *list, uint32_t step)
{
    return (uint32_t)line_of(list, step)[IDENTIFIER];
}

/* How often a step counts its line: a line on one variable counts twice, so that
 * every step takes in two terms. */
int times(const int32_t *line)
{
    return (line[0] == 0) != (line[2] == 0) ? 2 : 1;
}

/* The weight of its steps. */
int64_t weight_of(const int32_t *line)
{
    return (int64_t)times(line) * line[BOUND];
}

/* The point with the other sign. */
struct point opposite(struct point point)
{
    point.sign = -point.sign;
    return point;
}

/* Its number among all points: those of an event follow each other. */
size_t number_of_point(struct point point)
{
    return 2 * (size_t)point.variable + (point.sign < 0 ? 1 : 0);
}

bool same_point(struct point one, struct point other)
{
    return one.sign == other.sign && one.variable == other.variable;
}

/* The step with this number, which has to be there. Side 0 leads from the first
 * term to the second with its sign turned round, side 1 from the second to the
 * first turned round. A lone term, which stands first, is taken for both. */
struct step step_of(const struct list *list, uint32_t number)
{
    const int32_t *line = line_of(list, number);
    struct point first = {line[0], (uint64_t)line[1]}, second = {line[2], (uint64_t)line[3]};
    second = second.sign == 0 ? first : second;
    bool turned = number % 2 == 1;
    return (struct step){turned ? second : first, opposite(turned ? first : second)};
}
