/* The picture of a no: the rules that clash as a ring. Its stops are the events, and 0 where
 * a rule bounds one event; each rule leads along the ring from a stop to the next; what they
 * add up to stands in the middle. */
#include "list.h"

#include <string.h>

/* Up to so many stops are written beside each other; more of them around the ring. */
#define FEW_STOPS 14

/* Measures, in pixels. */
#define MARGIN 20.0
#define HEAD 40.0
#define LEAST_RADIUS 110.0
#define LEAST_WIDTH 560.0
#define ROUND_LETTER 15.0

/* The most characters of a rule that are drawn. */
#define MOST_DRAWN 60

/* Half a turn. */
#define HALF_TURN 3.14159265358979323846

/* The stops, and behind each the step that leads on; a stop may be 0. */
struct ring {
    FILE *to;
    const struct list *list;
    struct point stops[MOST_ARGUMENT];
    bool zero[MOST_ARGUMENT];
    uint32_t steps[MOST_ARGUMENT];
    size_t count;
    double x;
    double y;
    double radius;
};

/* The sine of an angle between minus and plus two turns, by its series. The library of
 * mathematics need not be linked. */
static double sine(double angle)
{
    double sum, term;
    while (angle > HALF_TURN) {
        angle -= 2 * HALF_TURN;
    }
    while (angle < -HALF_TURN) {
        angle += 2 * HALF_TURN;
    }
    sum = term = angle;
    for (int at = 1; at < 14; at++) {
        term *= -angle * angle / ((2 * at) * (2 * at + 1));
        sum += term;
    }
    return sum;
}

static double cosine(double angle)
{
    return sine(angle + HALF_TURN / 2);
}

static void add_stop(struct ring *ring, struct point stop, bool zero, uint32_t step)
{
    ring->stops[ring->count] = stop;
    ring->zero[ring->count] = zero;
    ring->steps[ring->count] = step;
    ring->count++;
}

static void add_chain(struct ring *ring, const uint32_t *steps, size_t count)
{
    for (size_t at = 0; at < count; at++) {
        add_stop(ring, step_of(ring->list, steps[at]).from, false, steps[at]);
    }
}

/* Puts an argument on the ring. A bounded chain begins and ends at 0; two halves lead from
 * a point to its opposite and back. */
static void make_ring(struct ring *ring, const struct argument *argument)
{
    static uint32_t numbers[MOST_ARGUMENT];
    ring->count = 0;
    if (argument->form == HALVED) {
        size_t count = refutation_of(ring->list, argument, numbers);
        add_chain(ring, numbers + 3, count - 3);
    } else if (argument->form == BOUNDED) {
        add_stop(ring, (struct point){0, 0}, true, argument->first);
        add_chain(ring, argument->chain.steps, argument->chain.count);
        add_stop(ring, opposite(step_of(ring->list, argument->last).to), false, argument->last);
    } else if (argument->form == ROUND) {
        add_chain(ring, argument->chain.steps, argument->chain.count);
    } else {
        add_stop(ring, (struct point){0, 0}, true, argument->chain.steps[0]);
    }
}

/* The angle of a place on the ring, in stops, clockwise from above. */
static double angle_of(const struct ring *ring, double at)
{
    return 2 * HALF_TURN * at / (double)ring->count - HALF_TURN / 2;
}

static double x_at(const struct ring *ring, double at, double radius)
{
    return ring->x + radius * cosine(angle_of(ring, at));
}

static double y_at(const struct ring *ring, double at, double radius)
{
    return ring->y + radius * sine(angle_of(ring, at));
}

/* What a stop is called. */
static struct text stop_name(const struct ring *ring, size_t at, struct writing *name)
{
    clear_writing(name);
    if (ring->zero[at]) {
        put_string(name, "0");
    } else {
        put_string(name, ring->stops[at].sign < 0 ? "-" : "");
        put_event(name, ring->list, ring->stops[at].variable);
    }
    return written(name);
}

/* The rule of a step, and where it stands. */
static struct text step_name(const struct ring *ring, size_t at, struct writing *name)
{
    const struct origin *origin = &ring->list->origins[ring->steps[at] / 2];
    struct text rule = without_identifier(origin->rule);
    clear_writing(name);
    put_text(name, (struct text){rule.at, rule.length < MOST_DRAWN ? rule.length : MOST_DRAWN});
    put_string(name, rule.length < MOST_DRAWN ? "" : "...");
    put_string(name, ring->list->source_count > 1 ? " (" : " (line ");
    if (ring->list->source_count > 1) {
        put_string(name, origin->file);
        put_string(name, ":");
    }
    put_number(name, (int64_t)origin->line);
    put_string(name, ")");
    return written(name);
}

/* Draws the ring from a stop to the next, with a tip in the middle. */
static void draw_arc(const struct ring *ring, size_t at)
{
    double from = (double)at, middle = from + 0.5, radius = ring->radius;
    double turn = angle_of(ring, middle) / HALF_TURN * 180 + 90;
    fprintf(ring->to,
            "<path class=\"ring\" d=\"M%.1f %.1fA%.1f %.1f 0 0 1 %.1f %.1fA%.1f %.1f 0 0 1"
            " %.1f %.1f\"/>\n",
            x_at(ring, from, radius), y_at(ring, from, radius), radius, radius,
            x_at(ring, middle, radius), y_at(ring, middle, radius), radius, radius,
            x_at(ring, from + 1, radius), y_at(ring, from + 1, radius));
    fprintf(ring->to,
            "<path class=\"tip\" d=\"M-5 -5l10 5l-10 5z\""
            " transform=\"translate(%.1f %.1f) rotate(%.1f)\"/>\n",
            x_at(ring, middle, radius), y_at(ring, middle, radius), turn);
}

/* Draws a stop as a plate with its name on the ring. */
static void draw_plate(const struct ring *ring, size_t at, struct text name)
{
    double x = x_at(ring, (double)at, ring->radius), y = y_at(ring, (double)at, ring->radius);
    double width = svg_width(name) + 20;
    fprintf(ring->to,
            "<g class=\"event\">\n<rect class=\"stop\" x=\"%.1f\" y=\"%.1f\" width=\"%.1f\""
            " height=\"26\" rx=\"13\"/>\n",
            x - width / 2, y - 13, width);
    svg_text(ring->to, x, y + 4, "name", "middle", name);
    fputs("</g>\n", ring->to);
}

/* Writes a rule beside the middle of its arc, outside the ring. */
static void write_beside(const struct ring *ring, size_t at, struct text name)
{
    double middle = (double)at + 0.5, across = cosine(angle_of(ring, middle));
    double x = x_at(ring, middle, ring->radius + 16), y = y_at(ring, middle, ring->radius + 18);
    const char *anchor = across > 0.2 ? "start" : across < -0.2 ? "end" : "middle";
    svg_text(ring->to, x, y + 4, "rule", anchor, name);
}

/* Writes a text outwards from a place on the ring. */
static void write_outwards(const struct ring *ring, double at, const char *kind, struct text name)
{
    double turn = angle_of(ring, at) / HALF_TURN * 180;
    bool left = cosine(angle_of(ring, at)) < 0;
    fprintf(ring->to,
            "<text class=\"%s\" text-anchor=\"%s\" transform=\"translate(%.1f %.1f)"
            " rotate(%.1f)\" dy=\"4\">",
            kind, left ? "end" : "start", x_at(ring, at, ring->radius + 14),
            y_at(ring, at, ring->radius + 14), left ? turn + 180 : turn);
    svg_escaped(ring->to, name);
    fputs("</text>\n", ring->to);
}

/* Draws a stop of many: a dot, and its name outwards. */
static void draw_dot(const struct ring *ring, size_t at, struct text name)
{
    fprintf(ring->to,
            "<g class=\"event\">\n<circle class=\"stop\" cx=\"%.1f\" cy=\"%.1f\" r=\"4\"/>\n",
            x_at(ring, (double)at, ring->radius), y_at(ring, (double)at, ring->radius));
    write_outwards(ring, (double)at, "name", name);
    fputs("</g>\n", ring->to);
}

/* Draws all arcs and rules, and the stops above them. */
static void draw_stops(const struct ring *ring)
{
    struct writing name = {NULL, 0, 0, false};
    bool few = ring->count <= FEW_STOPS;
    for (size_t at = 0; at < ring->count; at++) {
        draw_arc(ring, at);
        if (few) {
            write_beside(ring, at, step_name(ring, at, &name));
        } else {
            write_outwards(ring, (double)at + 0.5, "small", step_name(ring, at, &name));
        }
    }
    for (size_t at = 0; at < ring->count; at++) {
        if (few) {
            draw_plate(ring, at, stop_name(ring, at, &name));
        } else {
            draw_dot(ring, at, stop_name(ring, at, &name));
        }
    }
    free_writing(&name);
}

/* Writes what the rules add up to in the middle, larger in a larger ring. */
static void write_sum(const struct ring *ring, const struct argument *argument)
{
    char sum[48];
    double scale = ring->radius < 2 * LEAST_RADIUS ? 1 : ring->radius / (2 * LEAST_RADIUS);
    snprintf(sum, sizeof sum, "0 \xE2\x89\xA4 %" PRId64, argument->sum);
    fprintf(ring->to, "<g transform=\"translate(%.1f %.1f) scale(%.2f)\">\n", ring->x, ring->y,
            scale);
    svg_text(ring->to, 0, -4, "false", "middle", text_of(sum));
    svg_text(ring->to, 0, 18, "small", "middle",
             text_of(argument->form == ALONE    ? "it says,"
                     : argument->form == HALVED ? "halved and added up,"
                                                : "added up,"));
    svg_text(ring->to, 0, 34, "small", "middle", text_of("which is false"));
    fputs("</g>\n", ring->to);
}

/* Takes the measures: the radius, by the stops, and the room that the longest texts need
 * beside the ring, or around it. */
static void lay_out(struct ring *ring, double *width, double *height)
{
    struct writing name = {NULL, 0, 0, false};
    double longest = 0, plates = 0, count = (double)ring->count;
    for (size_t at = 0; at < ring->count; at++) {
        double rule = svg_width(step_name(ring, at, &name));
        double stop = svg_width(stop_name(ring, at, &name));
        longest = rule > longest ? rule : longest;
        longest = stop > longest ? stop : longest;
        plates = stop > plates ? stop : plates;
    }
    free_writing(&name);
    bool few = ring->count <= FEW_STOPS;
    double around = few ? count * (plates + 40) : 2 * count * ROUND_LETTER;
    double radius = around / (2 * HALF_TURN), least = LEAST_RADIUS + plates / 4;
    ring->radius = radius < least ? least : radius;
    double beside = longest + 30, above = few ? 40 : beside;
    ring->x = MARGIN + beside + ring->radius;
    ring->y = MARGIN + HEAD + above + ring->radius;
    ring->x = ring->x < LEAST_WIDTH / 2 ? LEAST_WIDTH / 2 : ring->x;
    *width = 2 * ring->x;
    *height = 2 * (ring->radius + above) + HEAD + 2 * MARGIN;
}

/* Draws an argument that was checked. */
void draw_ring(FILE *to, const struct list *list, const struct argument *argument)
{
    static struct ring ring;
    double width, height;
    ring.to = to;
    ring.list = list;
    make_ring(&ring, argument);
    lay_out(&ring, &width, &height);
    svg_begin(to, width, height, "No. No whole numbers meet all the rules.");
    svg_text(to, MARGIN, MARGIN + 10, "head", "start",
             text_of(argument->form == ALONE
                         ? "No. No whole numbers meet all the rules. One is false by itself:"
                         : "No. No whole numbers meet all the rules. These rules clash:"));
    draw_stops(&ring);
    write_sum(&ring, argument);
    svg_end(to);
}
