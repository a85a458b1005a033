/* Printing a clash: each rule of its argument once, as its file has it, then sentence by
 * sentence how they clash, and last what they add up to. Of the grounds of a line, the rules
 * and the sentences. */
#include "list.h"

/* What is known of a point: that it is at least a number, or at least another point and a
 * number. */
struct known {
    bool beside;
    struct point other;
    int64_t number;
};

/* The sentence that is made. */
static struct writing sentence;

/* Ends it, and gives it out. */
static void end_sentence(const char *end)
{
    put_string(&sentence, end);
    if (json_wanted) {
        json_text(NULL, written(&sentence));
    } else {
        fputs("  ", stdout);
        fwrite(written(&sentence).at, 1, written(&sentence).length, stdout);
        putchar('\n');
    }
    clear_writing(&sentence);
}

/* Sets what follows apart. */
static void separate(void)
{
    if (!json_wanted) {
        putchar('\n');
    }
}

/* Adds an event, perhaps with a minus, and a number, as a sum. */
static void put_sum(const struct list *list, int32_t sign, uint64_t variable, int64_t number)
{
    if (sign < 0 && number > 0) {
        put_number(&sentence, number);
        put_string(&sentence, " - ");
        put_event(&sentence, list, variable);
        return;
    }
    put_string(&sentence, sign < 0 ? "-" : "");
    put_event(&sentence, list, variable);
    if (number != 0) {
        put_string(&sentence, number < 0 ? " - " : " + ");
        put_number(&sentence, number < 0 ? -number : number);
    }
}

/* Adds what is known of a point as what it says of the event: at least, or of an opposite
 * at most. Numbers are readings here. */
static void put_known(const struct list *list, struct point point, struct known known)
{
    int64_t number = point.sign * known.number + list->offsets[point.variable];
    put_string(&sentence, point.sign < 0 ? "at most " : "at least ");
    if (known.beside) {
        int32_t sign = point.sign * known.other.sign;
        number -= sign * list->offsets[known.other.variable];
        put_sum(list, sign, known.other.variable, number);
    } else {
        put_number(&sentence, number);
    }
}

/* The rule of a step, in brackets. */
static void put_rule(const struct list *list, uint32_t step)
{
    const struct origin *origin = &list->origins[step / 2];
    const int32_t *line = line_of(list, step);
    bool doubled = line[2] != 0 && line[0] == line[2] && line[1] == line[3];
    put_string(&sentence, " (");
    if (list->source_count > 1) {
        put_string(&sentence, origin->file);
        put_string(&sentence, ":");
    } else {
        put_string(&sentence, "line ");
    }
    put_number(&sentence, (int64_t)origin->line);
    put_string(&sentence, !doubled              ? ")"
                          : line[BOUND] % 2 == 0 ? ", halved)"
                                                 : ", halved and rounded)");
}

/* "EVENT is at least ..., by this rule": begins a sentence. */
static void put_claim(const struct list *list, const char *before, struct point point,
                      struct known known, uint32_t step)
{
    put_string(&sentence, before);
    put_event(&sentence, list, point.variable);
    put_string(&sentence, " is ");
    put_known(list, point, known);
    put_rule(list, step);
}

static struct known at_least(int64_t number)
{
    return (struct known){false, {0, 0}, number};
}

static struct known beside(struct point other, int64_t number)
{
    return (struct known){true, other, number};
}

/* Says step by step what a chain says of the points that it leads to, up to so many steps,
 * from what is known of the point where it begins; where that is nothing but itself, the
 * first step needs no conclusion. The last sentence ends so. */
static void say_chain(const struct list *list, const struct chain *chain, size_t count,
                      struct known known, const char *end)
{
    for (size_t at = 0; at < count; at++) {
        struct step step = step_of(list, chain->steps[at]);
        int64_t weight = line_of(list, chain->steps[at])[BOUND];
        put_claim(list, "", step.to, beside(step.from, -weight), chain->steps[at]);
        known.number -= weight;
        if (at > 0 || !known.beside) {
            put_string(&sentence, ", so ");
            put_known(list, step.to, known);
        }
        end_sentence(at + 1 < count ? "," : end);
    }
}

/* Says what a step says that its first point is at most, beside where it leads. */
static void say_but(const struct list *list, const char *before, uint32_t number,
                    const char *end)
{
    struct step step = step_of(list, number);
    int64_t weight = line_of(list, number)[BOUND];
    put_claim(list, before, opposite(step.from), beside(opposite(step.to), -weight), number);
    end_sentence(end);
}

/* A chain of two or more steps on two events that leads round. */
static void say_round(const struct list *list, const struct chain *chain)
{
    size_t last = chain->count - 1;
    if (last > 0) {
        say_chain(list, chain, last, beside(step_of(list, chain->steps[0]).from, 0), ",");
    }
    say_but(list, last > 0 ? "but " : "", chain->steps[last], ".");
}

/* Says what a step on one event says: that the point where it leads is at least this. */
static struct known put_bound(const struct list *list, const char *before, uint32_t step,
                              struct point *point)
{
    struct known known = at_least(-bound_of_one(line_of(list, step)));
    *point = step_of(list, step).to;
    put_claim(list, before, *point, known, step);
    return known;
}

/* Two bounds that clash: on one event, or on both ends of a chain. */
static void say_bounded(const struct list *list, const struct argument *argument)
{
    struct point point;
    if (argument->chain.count == 0) {
        put_bound(list, "", argument->last, &point);
        put_string(&sentence, ", ");
        put_known(list, opposite(point), at_least(-bound_of_one(line_of(list, argument->first))));
        put_rule(list, argument->first);
        end_sentence(".");
        return;
    }
    struct known known = put_bound(list, "", argument->first, &point);
    end_sentence(",");
    say_chain(list, &argument->chain, argument->chain.count, known, ",");
    put_bound(list, "but ", argument->last, &point);
    end_sentence(".");
}

/* What a half says of the point where it begins, or, of the second, of its opposite: that
 * the point is at most so much. */
static void say_conclusion(const struct list *list, struct point start, int64_t bound)
{
    put_event(&sentence, list, start.variable);
    put_string(&sentence, " is ");
    put_known(list, opposite(start), at_least(-bound));
}

/* A chain that leads to the opposite of where it begins: twice an event has a bound. Says
 * what the point where it begins is at most, and gives that back. */
static int64_t say_twice(const struct list *list, const struct chain *chain)
{
    struct point start = step_of(list, chain->steps[0]).from;
    size_t last = chain->count - 1;
    int64_t sum = sum_of(list, chain);
    say_chain(list, chain, last, beside(start, 0), ",");
    say_but(list, "but ", chain->steps[last], ":");
    put_string(&sentence, "so twice ");
    put_event(&sentence, list, start.variable);
    put_string(&sentence, start.sign < 0 ? " is at least " : " is at most ");
    put_number(&sentence, start.sign * sum + 2 * list->offsets[start.variable]);
    put_string(&sentence, ", and ");
    say_conclusion(list, start, half(sum));
    end_sentence(sum % 2 == 0 ? "." : ", as it is whole.");
    return half(sum);
}

/* The way back of a half from what has a bound: where that is a step on one event, all of
 * it; else as many steps as its chain takes at its end by the rules of its beginning. What
 * lies between them leads from a point to its opposite, too. */
static struct chain way_back(const struct list *list, const struct half *from)
{
    const struct chain *chain = &from->chain;
    size_t count = from->bounded ? chain->count : 0;
    while (!from->bounded && 2 * count + 2 < chain->count &&
           chain->steps[count] == (chain->steps[chain->count - 1 - count] ^ 1)) {
        count++;
    }
    struct chain there = part_of(chain, 0, count);
    return mirrored(list, &there);
}

/* What lies between, of a half that ends with no step on one event. */
static struct chain between_ends(const struct half *from, size_t back)
{
    return part_of(&from->chain, back, from->chain.count - 2 * back);
}

/* A half: what has a bound is at most so much, and all on the way back too. */
static void say_half(const struct list *list, const struct half *from)
{
    struct point point;
    struct known known;
    struct chain back = way_back(list, from);
    if (from->bounded) {
        known = put_bound(list, "", from->step, &point);
        end_sentence(back.count > 0 ? "," : ".");
    } else {
        struct chain between = between_ends(from, back.count);
        known = at_least(-say_twice(list, &between));
    }
    say_chain(list, &back, back.count, known, ".");
}

/* Where the two halves leave exactly one number, and that is no whole one, says which. */
static void say_fraction(const struct list *list, const struct argument *argument)
{
    const struct half *there = &argument->halves[0], *back = &argument->halves[1];
    int64_t twice = sum_of(list, &there->chain);
    if (there->bounded || back->bounded || twice + sum_of(list, &back->chain) != 0) {
        return;
    }
    twice = twice + 2 * list->offsets[argument->start.variable];
    put_string(&sentence, "Only a fraction would do: ");
    put_event(&sentence, list, argument->start.variable);
    put_string(&sentence, twice < 0 ? " = -" : " = ");
    put_number(&sentence, (twice < 0 ? -twice : twice) / 2);
    end_sentence(".5.");
}

static void say_halved(const struct list *list, const struct argument *argument)
{
    say_half(list, &argument->halves[0]);
    separate();
    say_half(list, &argument->halves[1]);
    separate();
    say_conclusion(list, argument->start, argument->halves[0].bound);
    put_string(&sentence, ", ");
    put_known(list, argument->start, at_least(-argument->halves[1].bound));
    end_sentence(".");
    say_fraction(list, argument);
}

/* Says how the rules clash. One that is false alone needs no words. */
static void say_argument(const struct list *list, const struct argument *argument)
{
    if (argument->form == ROUND) {
        say_round(list, &argument->chain);
    } else if (argument->form == BOUNDED) {
        say_bounded(list, argument);
    } else if (argument->form == HALVED) {
        say_halved(list, argument);
    }
    free_writing(&sentence);
}

/* Says how rules force a line. One that is true by itself needs no words. */
void say_grounds(const struct list *list, const struct grounds *grounds)
{
    if (grounds->form == LINKED) {
        const struct chain *chain = &grounds->chain;
        say_chain(list, chain, chain->count, beside(step_of(list, chain->steps[0]).from, 0), ".");
    }
    for (size_t at = 0; grounds->form == EACH && at < grounds->count; at++) {
        if (at > 0) {
            separate();
        }
        say_half(list, &grounds->halves[at]);
    }
    free_writing(&sentence);
}

/* Adds a rule to those that are quoted, unless it is there: a rule with = has two lines. */
static size_t add_rule(const struct list *list, uint32_t *steps, size_t count, uint32_t step)
{
    for (size_t at = 0; at < count; at++) {
        if (same_rule(list->origins[steps[at] / 2], list->origins[step / 2])) {
            return count;
        }
    }
    steps[count] = step;
    return count + 1;
}

static size_t add_rules(const struct list *list, uint32_t *steps, size_t count,
                        const struct chain *chain)
{
    for (size_t at = 0; at < chain->count; at++) {
        count = add_rule(list, steps, count, chain->steps[at]);
    }
    return count;
}

/* Those of a half: from what has a bound on, as its words are. */
static size_t add_half_rules(const struct list *list, uint32_t *steps, size_t count,
                             const struct half *from)
{
    struct chain back = way_back(list, from);
    if (from->bounded) {
        count = add_rule(list, steps, count, from->step);
    } else {
        struct chain between = between_ends(from, back.count);
        count = add_rules(list, steps, count, &between);
    }
    return add_rules(list, steps, count, &back);
}

/* Adds the rules of grounds, in the order in which their words have them. */
size_t add_grounds(const struct list *list, const struct grounds *grounds, uint32_t *steps,
                   size_t count)
{
    if (grounds->form == LINKED) {
        count = add_rules(list, steps, count, &grounds->chain);
    }
    for (size_t at = 0; grounds->form == EACH && at < grounds->count; at++) {
        count = add_half_rules(list, steps, count, &grounds->halves[at]);
    }
    return count;
}

/* The rules of an argument, each once, in the order in which its words have them; of each
 * a step. Gives back how many they are. */
static size_t rules_of(const struct list *list, const struct argument *argument,
                       uint32_t steps[MOST_ARGUMENT])
{
    size_t count = 0;
    bool alone = argument->form == BOUNDED && argument->chain.count == 0;
    if (argument->form == BOUNDED) {
        count = add_rule(list, steps, count, alone ? argument->last : argument->first);
    }
    if (argument->form != HALVED) {
        count = add_rules(list, steps, count, &argument->chain);
    }
    if (argument->form == BOUNDED) {
        count = add_rule(list, steps, count, alone ? argument->first : argument->last);
    }
    for (size_t at = 0; argument->form == HALVED && at < 2; at++) {
        count = add_half_rules(list, steps, count, &argument->halves[at]);
    }
    return count;
}

/* Writes where a rule stands, the rule, its comment and its identifier, as members of an
 * object. */
void json_rule(const char *key, struct origin origin, uint32_t identifier)
{
    json_object(key);
    json_string("file", origin.file);
    json_integer("line", (int64_t)origin.line);
    json_text("rule", without_identifier(origin.rule));
    json_text_or_null("comment", origin.comment);
    json_bound("identifier", identifier != 0 ? (int64_t)identifier : UTVPI_NO_LEAST);
    json_close();
}

/* Writes the rules of these steps as the member rules. */
void json_rules(const struct list *list, const uint32_t *steps, size_t count)
{
    json_array("rules");
    for (size_t at = 0; at < count; at++) {
        json_rule(NULL, list->origins[steps[at] / 2], identifier_of(list, steps[at]));
    }
    json_close();
}

/* Writes an argument as the member clash. */
static void write_clash(const struct list *list, const struct argument *argument,
                        const uint32_t *steps, size_t count)
{
    json_object("clash");
    json_rules(list, steps, count);
    json_array("argument");
    say_argument(list, argument);
    json_close();
    json_integer("sum", argument->sum);
    json_close();
}

/* Prints the rules of these steps, each with its comment, and a blank line around them. */
void print_rules(const struct list *list, const uint32_t *steps, size_t count)
{
    struct layout layout = layout_of(list, steps, count);
    putchar('\n');
    for (size_t at = 0; at < count; at++) {
        struct text comment = list->origins[steps[at] / 2].comment;
        print_quoted(list, steps[at], layout, comment.length > 0);
        fputs(comment.length > 0 ? "  " : "", stdout);
        show_comment(stdout, comment);
        putchar('\n');
    }
    putchar('\n');
}

/* Prints an argument: its rules, its words and its sum. */
static void print_clash(const struct list *list, const struct argument *argument,
                        const uint32_t *steps, size_t count, const char *shown)
{
    printf("%s %s:\n", shown,
           argument->form == ALONE ? "One is false by itself" : "These rules clash");
    print_rules(list, steps, count);
    say_argument(list, argument);
    printf("  %s: 0 <= %" PRId64 ", which is false.\n",
           argument->form == ALONE ? "It says" : "Added up", argument->sum);
}

/* Makes the argument of a refutation that the checker has accepted, and has it checked,
 * too. */
bool take_argument(const struct list *list, const uint32_t *refutation,
                   struct argument *argument)
{
    static uint32_t numbers[MOST_ARGUMENT];
    make_argument(list, refutation, argument);
    return argument->form != NO_ARGUMENT &&
           refutation_holds(list, numbers, refutation_of(list, argument, numbers));
}

/* The rules of the argument that a refutation comes to, each once; of each a step. Gives
 * back how many they are, 0 where it can't be trusted. */
size_t argued_rules(const struct list *list, const uint32_t *refutation,
                    uint32_t steps[MOST_ARGUMENT])
{
    static struct argument argument;
    return take_argument(list, refutation, &argument) ? rules_of(list, &argument, steps) : 0;
}

/* Writes the numbers of a refutation, or of a showing, and the identifiers of its steps'
 * rules. */
void json_numbers(const struct list *list, const char *key, const uint32_t *refutation,
                  const uint32_t *identifiers)
{
    size_t steps = (size_t)refutation[1] + refutation[2];
    json_array(key);
    for (size_t at = 0; at < 3 + steps; at++) {
        json_integer(NULL, at < 3 ? refutation[at] : step_as_read(list, refutation[at]));
    }
    json_close();
    json_array("identifiers");
    for (size_t at = 0; at < steps; at++) {
        json_integer(NULL, identifiers[at]);
    }
    json_close();
}

/* Prints a refutation that the checker has accepted, with the identifiers of its steps,
 * after what it shows, as the argument that it comes to. In JSON it is members of an object
 * that is open, or else of one that begins here, for what begins with Yes or No. False, with
 * nothing printed, where the argument can't be trusted. */
bool print_no(const struct list *list, const uint32_t *refutation, const uint32_t *identifiers,
              const char *shown)
{
    static struct argument argument;
    static uint32_t steps[MOST_ARGUMENT];
    if (!take_argument(list, refutation, &argument)) {
        return false;
    }
    size_t count = rules_of(list, &argument, steps);
    if (!json_wanted) {
        print_clash(list, &argument, steps, count, shown);
        return true;
    }
    if (!json_is_open()) {
        json_begin(shown[0] == 'Y' ? "yes" : "no");
    }
    write_clash(list, &argument, steps, count);
    json_numbers(list, "refutation", refutation, identifiers);
    return true;
}
