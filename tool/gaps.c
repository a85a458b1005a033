/* Looks how far apart any two events can be, all at once: from each event the least sums
 * of steps, by Dijkstra's method, which the values of a model make fit for it. This is
 * outside the proof: what is printed of it is held to deciding and the checkers. */
#include "list.h"

#include <stdlib.h>
#include <string.h>

/* The steps of all lines, at most. */
#define MOST_STEPS (2 * UTVPI_MOST_LINES)

/* The steps from each point, one behind the other, and where they lead. A step's weight is
 * how much its rule leaves beyond the model's values, 0 or more. */
struct graph {
    size_t points;
    size_t first[MOST_POINTS];
    size_t next[MOST_STEPS + 1];
    size_t to[MOST_STEPS + 1];
    int64_t weight[MOST_STEPS + 1];
    size_t count;
    int64_t value[MOST_POINTS];
};

static void add_step(struct graph *graph, const struct list *list, uint32_t number)
{
    struct step step = step_of(list, number);
    size_t from = number_of_point(step.from), to = number_of_point(step.to);
    graph->count++;
    graph->to[graph->count] = to;
    graph->weight[graph->count] = weight_of(line_of(list, number)) - graph->value[from] + graph->value[to];
    graph->next[graph->count] = graph->first[from];
    graph->first[from] = graph->count;
}

static void make_graph(struct graph *graph, const struct list *list, const int32_t *model)
{
    memset(graph, 0, sizeof *graph);
    graph->points = 2 * (size_t)list->variables;
    for (size_t v = 0; v < list->variables; v++) {
        graph->value[2 * v] = model[v];
        graph->value[2 * v + 1] = -model[v];
    }
    for (size_t line = 0; line < list->count; line++) {
        const int32_t *numbers = list->numbers + UTVPI_LINE_NUMBERS * line;
        uint32_t sides = numbers[2] != 0 ? 2 : numbers[0] != 0 ? 1 : 0;
        for (uint32_t side = 0; side < sides; side++) {
            add_step(graph, list, 2 * (uint32_t)line + side);
        }
    }
}

/* The point that is nearest of those that are not settled; how many there are, where none
 * is left that can be reached. */
static size_t nearest(const struct graph *graph, const int64_t *distance, const bool *settled)
{
    size_t found = graph->points;
    for (size_t point = 0; point < graph->points; point++) {
        if (!settled[point] && distance[point] != UTVPI_NO_GREATEST &&
            (found == graph->points || distance[point] < distance[found])) {
            found = point;
        }
    }
    return found;
}

/* The least sums of steps from a point, in the weights of the graph. */
static void find_distances(const struct graph *graph, size_t from, int64_t *distance)
{
    bool settled[MOST_POINTS] = {false};
    for (size_t point = 0; point < graph->points; point++) {
        distance[point] = point == from ? 0 : UTVPI_NO_GREATEST;
    }
    for (size_t at = from; at < graph->points; at = nearest(graph, distance, settled)) {
        settled[at] = true;
        for (size_t step = graph->first[at]; step != 0; step = graph->next[step]) {
            int64_t sum = distance[at] + graph->weight[step];
            if (sum < distance[graph->to[step]]) {
                distance[graph->to[step]] = sum;
            }
        }
    }
}

/* How much an event can be above another, at most: by steps that join them, or by the
 * bounds of both. */
static int64_t gap_between(const struct graph *graph, const int64_t *distance,
                           const int64_t *bounds, size_t x, size_t y)
{
    int64_t gap = distance[2 * y];
    if (gap != UTVPI_NO_GREATEST) {
        gap += graph->value[2 * x] - graph->value[2 * y];
    }
    if (bounds[2 * x + 1] != UTVPI_NO_GREATEST && bounds[2 * y] != UTVPI_NO_LEAST &&
        bounds[2 * x + 1] - bounds[2 * y] < gap) {
        gap = bounds[2 * x + 1] - bounds[2 * y];
    }
    return gap;
}

/* Finds for all events x and y, n of them, the greatest value of x - y, at n*x + y, from
 * the library's yes on the list. False where there is not enough memory. */
bool find_gaps(const struct list *list, const int32_t *model, const int64_t *bounds,
               int64_t *gaps)
{
    size_t n = (size_t)list->variables;
    int64_t distance[MOST_POINTS];
    struct graph *graph = malloc(sizeof *graph);
    if (graph == NULL) {
        return no_memory(list);
    }
    make_graph(graph, list, model);
    for (size_t x = 0; x < n; x++) {
        find_distances(graph, 2 * x, distance);
        for (size_t y = 0; y < n; y++) {
            gaps[n * x + y] = gap_between(graph, distance, bounds, x, y);
        }
    }
    free(graph);
    return true;
}
