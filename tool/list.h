/* What the parts of the tool share: the list that was read, with where each of
 * its lines stands in the file, a refutation that someone proposes, and the
 * functions that one part offers another. */
#ifndef LIST_H
#define LIST_H

#include "utvpi.h"

#include <inttypes.h>
#include <stdbool.h>
#include <stdio.h>

/* The longest rule and the longest name, in characters, and the largest file, in
 * units of 1,048,576 bytes. They keep every answer printable; no list within the
 * library's limits needs more. */
#define MOST_RULE 1000
#define MOST_NAME 64
#define MOST_MIB 16

/* How many eithers can stand inside each other: one takes two levels of the tree, itself
 * and its alternatives, between the root and the deepest rules. */
#define MOST_EITHERS 3
_Static_assert(MOST_EITHERS == (UTVPI_MOST_DEPTH - 2) / 2, "as many as the depth allows");

/* The largest number of a rule in words, and the largest origin: a bound and the origins
 * of two events can be added. */
#define MOST_NUMBER 4000000000000000000
#define MOST_ORIGIN 2000000000000000000

/* The most characters of an example of what to do. */
#define MOST_EXAMPLE (MOST_NAME + 64)

/* A limit in a text: AS_TEXT(MOST_NAME) is "64". */
#define AS_TEXT(limit) AS_WRITTEN(limit)
#define AS_WRITTEN(limit) #limit

/* The most names that are ever kept: reading ends with the line that passes the
 * library's limit, and a line has fewer names than characters. */
#define MOST_NAMES (UTVPI_MOST_VARIABLES + MOST_RULE)

/* Where a line's bound stands: after its two terms, each a coefficient and a
 * variable. Behind it stands the identifier of the line's message. */
#define BOUND 4
#define IDENTIFIER (BOUND + 1)

/* The most characters of a line as text: each number has eleven at most, and after
 * it a blank or the end. */
#define MOST_SHOWN_LINE (12 * UTVPI_LINE_NUMBERS)

/* The exit statuses. */
enum status { STATUS_YES = 0, STATUS_NO = 1, STATUS_BAD = 2, STATUS_DISAGREE = 3 };

/* A part of the input. No zero byte ends it. */
struct text {
    const char *at;
    size_t length;
};

/* Where a rule stands: its line, counted from 1, or 0 where it stands in none; the rule as
 * the file has it, and apart its comment, with the #; the file; and of records, of which
 * --text prints that line, one more than the byte where the record begins. */
struct origin {
    size_t line;
    struct text rule;
    struct text comment;
    const char *file;
    size_t record;
};

/* None of these. */
extern const struct origin nowhere;

/* Something that is wrong: where; the number and place of the library's refusal; the part
 * of the rule that begins the sentence on what it is; what to do, and an example behind
 * that. What is 0, NULL or empty is not there. */
struct problem {
    const char *file;
    struct origin origin;
    int number;
    size_t place;
    struct text part;
    const char *what;
    const char *advice;
    char example[MOST_EXAMPLE];
    size_t found;
};

/* A recorder's clock, of one of the library's forms, and the line of the file that has
 * it. */
struct clock {
    struct text name;
    uint32_t form;
    double rate;
    struct origin origin;
};

/* A node of the tree that rules with alternatives are: its parent, which of its parent's
 * children it is, counted from 0, the file and the line that began it, and its choices, up
 * to one too many. Of an any-of the child that is taken, and of every node whether it is in
 * the choice at hand; whether a refutation has rules in it, and whether it has some further
 * down. */
struct node {
    size_t parent;
    uint32_t ordinal;
    const char *file;
    size_t line;
    uint32_t choices;
    uint32_t branch;
    bool taken;
    bool named;
    bool named_below;
};

/* A block of rules in the file, all or either: whether something in it is wrong; the line
 * that opened it, or that began its last alternative, the block around it, the all-of that
 * its rules belong to, and how many children that had before them. */
struct block {
    bool either;
    bool faulty;
    struct origin origin;
    size_t around;
    size_t node;
    uint32_t before;
};

/* The tree, as the library takes it, two numbers for each node; the blocks that it was read
 * from, and the one that is open, counted from 1, or 0; the node of the first either, and
 * that of the one with which there are too many choices, 0 where there is none. */
struct tree {
    uint32_t *numbers;
    struct node *nodes;
    size_t count;
    size_t room;
    struct block *blocks;
    size_t block_count;
    size_t block_room;
    size_t open;
    size_t either;
    size_t too_many;
};

/* The reading from which events count: those of a recorder, NAME.rest, or the one event
 * NAME; and the line of the file that has it. */
struct base {
    struct text name;
    int64_t reading;
    struct origin origin;
};

/* The columns of numbers that a table of events has. */
enum column { VALUE, LEAST, GREATEST, COLUMNS };

/* How an answer is printed: in full, a no in numbers, a yes only as such, a yes as a table
 * of comma-separated values, or nothing of it, so that it is only checked. */
enum manner { IN_WORDS, IN_NUMBERS, IN_SHORT, IN_CSV, UNPRINTED };

/* The engines of the library: the one for all lists, the one for differences alone, or the
 * latter wherever it takes the list. */
enum engine { ENGINE_ALL, ENGINE_DIFFERENCES, ENGINE_FITTING };

/* The two forms of a text. Records are read as if they were one of numbers. */
enum form { FORM_OPEN, FORM_NUMBERS, FORM_NAMES };

/* A file that was read: how it is called, its bytes and, of records, the text that their
 * lines have none of. */
struct source {
    const char *file;
    struct text input;
    char (*shown)[MOST_SHOWN_LINE];
};

struct list {
    /* The file that is read, and all that were. */
    const char *file;
    struct source *sources;
    size_t source_count;

    /* The numbers and one origin for each line of the list. */
    int32_t *numbers;
    struct origin *origins;
    size_t count;
    size_t room;

    /* How many rules were read, and how many of them were left out as needless. Then the
     * lines that were kept stood at these places. */
    size_t rules;
    size_t left_out;
    size_t *places;

    /* The clocks, up to one too many. */
    struct clock clocks[UTVPI_MOST_RECORDERS + 1];
    size_t clock_count;

    struct tree tree;

    /* The readings from which events count, and of each event that has a name its own,
     * else 0: what the library decides is that much less. */
    struct base bases[UTVPI_MOST_VARIABLES];
    size_t base_count;
    int64_t offsets[MOST_NAMES];

    /* How many variables there are; the line of the file that says so, or that
     * has the greatest number or the newest name. */
    uint64_t variables;
    struct origin variables_from;
    bool declared;

    /* In a session the line of the input that is read now, and with --implies or --why the
     * rule that is asked about, in line 0; else line 0, and nothing. */
    struct origin at_hand;

    /* The engine that decides it. */
    enum engine engine;

    /* The form, where it was settled, and whether the file that is read breaks it. */
    enum form form;
    struct origin form_from;
    bool form_broken;

    /* The names of events; in numbers x0, x1 and so on. */
    struct text names[MOST_NAMES];
};

/* A refutation that someone proposes. Reading ends with the number that passes
 * the library's limit. */
struct proposal {
    const char *file;
    struct text input;
    uint32_t numbers[UTVPI_MOST_REFUTATION + 1];
    size_t count;

    /* The identifiers that it names, one for each step, and the line of the file
     * where; line 0 where it names none. */
    uint32_t named[UTVPI_MOST_REFUTATION];
    size_t named_count;
    size_t named_line;

    /* Those of its steps' rules. */
    uint32_t identifiers[UTVPI_MOST_REFUTATION];
};

/* Why a refutation breaks at a number: in the head, at a step number, or after
 * the last one. */
enum reason {
    NO_FAULT,
    TOO_FEW, BAD_KIND, BAD_COUNTS, BAD_LENGTH,
    NO_RULE, NO_SIDE, NO_STEPS, HAS_EVENTS, IS_TRUE, IS_ODD,
    NOT_JOINED, FIRST_ENDS_WRONG, LAST_ENDS_WRONG,
    NOT_LOW
};

/* The index of that number, counted from 0, and why. */
struct fault {
    size_t place;
    enum reason reason;
};

/* An event, with sign -1 its opposite, how many of these there can be, and a step from one
 * to another. */
#define MOST_POINTS (2 * UTVPI_MOST_VARIABLES)
struct point {
    int32_t sign;
    uint64_t variable;
};

struct step {
    struct point from;
    struct point to;
};

/* What a yes says of the events, in readings: as the library writes a model, bounds and
 * groups. */
struct table {
    int64_t values[UTVPI_MODEL_ROOM(UTVPI_MOST_VARIABLES)];
    int64_t bounds[UTVPI_BOUNDS_ROOM(UTVPI_MOST_VARIABLES)];
    uint32_t groups[UTVPI_GROUPS_ROOM(UTVPI_MOST_VARIABLES)];
};

/* The library's numbers for a yes. */
struct yes {
    const int32_t *model;
    const int64_t *bounds;
    const uint32_t *groups;
};

/* Steps, each from a point to the next, by the side of a rule. Of those that visit no
 * point twice there are as many as points, at most, and two chains may be joined. */
#define MOST_CHAIN (2 * MOST_POINTS)
struct chain {
    uint32_t steps[MOST_CHAIN];
    size_t count;
};

/* One half of an argument on twice an event: a chain from a point to its opposite, or, if
 * bounded, to one that has a bound by this step; and what the point is at most. */
struct half {
    struct chain chain;
    bool bounded;
    uint32_t step;
    int64_t bound;
};

/* How rules clash, see clash.c: their chain; of a bounded one, the step that bounds where
 * it begins and that which bounds where it ends; of two halves, the point from which the
 * first leads; and what the rules add up to, which is below 0. */
enum argument_form { NO_ARGUMENT, ALONE, ROUND, BOUNDED, HALVED };
struct argument {
    enum argument_form form;
    struct chain chain;
    uint32_t first;
    uint32_t last;
    struct point start;
    struct half halves[2];
    int64_t sum;
};

/* The most numbers of an argument as a refutation. */
#define MOST_ARGUMENT (2 * MOST_CHAIN + 8)

/* The lines of a rule that is asked about, and how many they are: two where it has =. */
struct asked {
    int32_t lines[2][UTVPI_LINE_NUMBERS];
    size_t count;
};

/* Why a line always holds, see grounds.c: its terms as points; the chain that links them; or
 * of so many of them, one where both are the same, what each is at most. */
enum grounds_form { EVIDENT, LINKED, EACH };
struct grounds {
    enum grounds_form form;
    struct point terms[2];
    struct chain chain;
    size_t count;
    struct half halves[2];
};

/* Why a choice fails: the lines that it picks; a refutation, with the identifiers of its
 * steps; the rules of the argument that it comes to, of each a step, and in how many
 * alternatives they stand. Whether that was told, with this argument or with another whose
 * rules the choice has, too. */
struct clash {
    bool picked[UTVPI_MOST_LINES];
    uint32_t refutation[UTVPI_REFUTATION_ROOM(UTVPI_MOST_VARIABLES)];
    uint32_t identifiers[UTVPI_IDENTIFIERS_ROOM(UTVPI_MOST_VARIABLES)];
    uint32_t steps[MOST_ARGUMENT];
    size_t count;
    size_t alternatives;
    bool told;
};

/* The choices that fail, in their order. */
struct clashes {
    struct clash *each;
    size_t count;
};

/* The widths of the columns of quoted rules: where they stand, the rules, and their
 * identifiers, 0 where none has one. */
struct layout {
    int place;
    int rule;
    int identifier;
};

/* A sentence that is made: its characters, how many there are and room for, and whether
 * some were lost. */
struct writing {
    char *at;
    size_t length;
    size_t room;
    bool lost;
};

/* help.c: what --help and --version print, and help in a session. */
extern const char help[];
extern const char version[];
extern const char help_of_session[];

/* text.c: the bytes of an input, showing parts of it, and its lines. */
bool load(FILE *from, const char *file, struct text *input);
bool load_line(FILE *from, const char *file, struct text *line);
struct text text_of(const char *string);
size_t character_length(struct text text);
void show(FILE *to, struct text text);
void show_comment(FILE *to, struct text comment);
bool is_blank(char c);
bool is_digit(char c);
bool is_letter(char c);
bool begins_with_word(struct text text, const char *word);
bool is_word(struct text text, const char *word);
size_t find_unquoted(struct text text, const char *characters);
bool has_relation(struct text text);
struct text trim(struct text text);
struct text skip_mark(struct text input);
bool next_line(const char *file, struct text *rest, struct origin *origin);

/* json.c: --json, in a session the line that is answered, and a writer. An object or array
 * is opened, its members are written and it is closed; a member of an array has NULL for a
 * key. The last writes all that is still open. */
extern bool json_wanted;
extern size_t json_line;
void json_begin(const char *answer);
bool json_is_open(void);
void json_begin_errors(const char *answer);
void json_object(const char *key);
void json_array(const char *key);
void json_close(void);
void json_pieces(const char *key, const struct text *pieces, size_t count);
void json_text(const char *key, struct text text);
void json_text_or_null(const char *key, struct text text);
void json_string(const char *key, const char *string);
void json_integer(const char *key, int64_t number);
void json_number(const char *key, const char *digits);
void json_null(const char *key);
void json_bound(const char *key, int64_t number);
void json_end(void);

/* report.c: what is wrong; of a file it is gathered first, and then told. */
int refuse_use(const char *wrong_use);
bool no_memory(const struct list *list);
bool report(struct problem problem);
void gather_problems(void);
bool tell_problems(void);
struct problem problem_at(const struct list *list, struct origin origin, struct text part,
                          const char *what, const char *advice);
bool wrong_in(const char *file, struct origin origin, struct text part, const char *what,
              const char *advice);
bool wrong(const struct list *list, struct origin origin, struct text part, const char *what,
           const char *advice);

/* input.c: the files of a list, all read and looked at. */
bool is_standard_input(const char *file);
const char *called(const char *file);
bool load_file(const char *file, struct text *input);
bool read_files(struct list *list, const char *const *files, size_t count);
void free_list(struct list *list);

/* names.c: names, plain or in quotes: what stands at the front of a text, the number of
 * one, and printing one; what is wrong with quotes. */
extern const char open_quote[];
extern const char quote_advice[];
size_t name_length(struct text text);
size_t scan_name(struct text text, struct text *name);
bool is_same(struct text one, struct text other);
bool find_name(const struct list *list, struct text name, uint64_t *variable);
void name_by_numbers(struct list *list);
void print_name(FILE *to, struct text name);
int name_width(struct text name);
bool is_right_name(const struct list *list, struct origin origin, struct text rest,
                   struct text name, size_t length);
bool belongs_to(struct text event, struct text recorder);
struct text take_off(struct text *rest, size_t length);
bool is_definition(struct text line, const char *word);
bool read_defined(const struct list *list, struct origin origin, const char *advice,
                  struct text *rest, struct text *name);

/* origins.c: the readings from which events count: reading one, that of a new event, the
 * bound of a line in readings, and what to do about one that is too large. */
bool is_origin(struct text line);
bool read_origin(struct list *list, struct origin origin);
int64_t offset_of(const struct list *list, struct text event);
int64_t bound_of(const struct list *list, const int32_t *line);
int64_t shifted(int64_t number, int64_t by);
int64_t with_offset(const struct list *list, uint64_t variable, int64_t number);
void advise_origin(struct problem *problem, struct text event, int64_t reading);

/* read.c: the lines of a text, or one rule. The list's file is set before. */
void read_list(struct list *list, struct text input);
bool read_rule(struct list *list, struct origin origin);
bool settle_form(struct list *list, struct origin origin, enum form form);
bool add_line(struct list *list, struct origin origin, const int32_t line[UTVPI_LINE_NUMBERS]);

/* blocks.c: a line of a file, which may open or close a block of rules; and the end of the
 * file, where none may be open, if all of it was read. */
bool is_block_word(struct text line);
bool read_in_block(struct list *list, struct origin origin);
bool add_leaves(struct list *list, size_t line);
void end_blocks(struct list *list, bool all_read);
struct origin origin_of_node(const struct tree *tree, size_t at);
void free_tree(struct tree *tree);

/* choices.c: the choices of a tree, one after the other, and the lines that the one at hand
 * picks; whether a node is an alternative. */
void first_choice(struct tree *tree);
bool next_choice(struct tree *tree);
void pick_lines(const struct tree *tree, bool *picked);
bool is_alternative(const struct tree *tree, size_t node);

/* numbers.c and words.c: one rule, in the one form and the other; what is wrong with
 * an identifier that is too large for 32 bits, and what to do about every one that is
 * out of range. */
extern const char identifier_range[];
extern const char identifier_advice[];
bool scan_magnitude(struct text *rest, int64_t *value);
bool scan_identifier(struct text *rest, int64_t *value);
struct text first_part(struct text rest);
bool skip_separator(struct text *rest);
bool read_numbers(struct list *list, struct origin origin);
bool read_variables(struct list *list, struct origin origin);
bool read_words(struct list *list, struct origin origin);

/* clocks.c: one clock, and the clock of an event. */
bool is_clock(struct text line);
bool read_clock(struct list *list, struct origin origin);
size_t clock_of(const struct list *list, uint64_t variable);

/* seconds.c: the library's look at the clocks; the seconds of a table of events, taken
 * first, and then printed beside its numbers. */
bool take_clocks(const struct list *list);
bool take_seconds(const struct list *list, enum column column, const int64_t *numbers,
                  size_t stride);
bool take_value_seconds(const struct list *list, const int32_t *values);
void print_seconds_head(const struct list *list, enum column column);
void print_seconds(const struct list *list, enum column column, uint64_t variable);
const char *seconds_text(enum column column, uint64_t variable);
void json_seconds(const struct list *list, uint64_t variable, int columns);

/* proposal.c: a proposed refutation's numbers. Its input and file are set before. */
bool read_proposal(struct proposal *proposal);

/* steps.c: the step with a number, its line, and where it leads. */
const int32_t *line_of(const struct list *list, uint32_t step);
uint32_t identifier_of(const struct list *list, uint32_t step);
int times(const int32_t *line);
int64_t weight_of(const int32_t *line);
struct step step_of(const struct list *list, uint32_t number);
struct point opposite(struct point point);
size_t number_of_point(struct point point);
bool same_point(struct point one, struct point other);

/* faults.c: where a proposed refutation breaks, and why; the identifiers of its steps'
 * rules, and the first that it names otherwise. */
struct fault first_fault(const struct list *list, const struct proposal *proposal);
void note_identifiers(const struct list *list, struct proposal *proposal);
bool is_misnamed(const struct proposal *proposal, size_t *place);

/* records.c: a list that is given as records. */
bool is_records(struct text input);
void read_records(struct list *list, struct source *source);

/* needless.c: the lines that say no more than another, marked, counted or left out. */
char *mark_needless(const struct list *list);
bool same_rule(struct origin one, struct origin other);
void count_rules(struct list *list, const char *marks);
bool leave_out(struct list *list);
size_t place_as_read(const struct list *list, size_t line);
uint32_t step_as_read(const struct list *list, uint32_t step);

/* notes.c: what may be wrong with a list, though it can be read; and what is said behind
 * an answer. */
bool find_dashed(struct text rule, struct text *word);
void find_notes(const struct list *list);
void print_rest(const struct list *list, enum manner manner, int status);

/* convert.c: the list's numbers for the library, and the list in another form:
 * records, by the library, where a file is named, else text. */
const int32_t *numbers_of(const struct list *list);
size_t length_of(const struct list *list);
size_t show_line(char shown[MOST_SHOWN_LINE], const int32_t line[UTVPI_LINE_NUMBERS]);
int convert(const struct list *list, const char *to);

/* answer.c: the library's answers, checked and printed; and what says that one can't be
 * trusted. */
int disagree(const char *what);
int disagree_on_seconds(void);
int disagree_on_argument(void);
bool within_limits(const struct list *list);
int64_t turned(int64_t number);
bool values_hold(const struct list *list, size_t n, const int32_t *values);
size_t work_room(uint64_t n);
bool refutation_holds(const struct list *list, const uint32_t *numbers, size_t count);
bool showing_holds(const struct list *list, const int32_t *line, const uint32_t *numbers,
                   size_t count);
int64_t *take_work_area(const char *file, uint64_t n);
int answer(const struct list *list, enum manner manner);
struct yes last_yes(void);
const uint32_t *last_refutation(void);
int64_t add_to_session(uint64_t n, int64_t *state, const int32_t line[UTVPI_LINE_NUMBERS],
                       int64_t *work);
int give_answer(const struct list *list, uint64_t n, int64_t result, enum manner manner);
utvpi_choice decide_choice(const struct list *list, uint64_t choice, int64_t *work);
bool is_last_model(const struct list *list, const int32_t *values);
uint32_t copy_last_no(uint32_t *to, uint32_t *identifiers_to);

/* session.c: rules from standard input, one at a time. */
int run_session(const char *file);

/* reasons.c: the choices that fail, and why. */
int take_clashes(struct list *list, int64_t *work, struct clashes *clashes);
int print_clashes(struct list *list, struct clashes *clashes);

/* trees.c: a file with alternatives, answered or, beside an option, refused; and the
 * alternatives that a yes takes. */
int answer_alternatives(struct list *list);
int refuse_alternatives(const struct list *list, const char *option);
void print_alternative(const struct tree *tree, size_t at);
void print_alternatives(const struct list *list);
void json_alternative(const struct tree *tree, size_t at);
void json_alternatives(const struct list *list);

/* questions.c: what the questions share that are about all the ways to meet the rules;
 * what is wrong with a name that no event has, and what to do about it. */
extern const char no_event[];
extern const char event_advice[];
int take_questions(const struct list *list);
bool find_event(const struct list *list, const char *name, uint64_t *variable);
bool is_answered(struct list *list, const int64_t line[UTVPI_LINE_NUMBERS], int expected);
int answer_unsolvable(const struct list *list);

/* between.c, implies.c and why.c: these questions; whether deciding agrees that a sum of two
 * points can be so large, or is at most so large; and what is asked about a rule. */
int answer_between(struct list *list, const char *const events[2]);
bool can_reach(struct list *list, struct point one, struct point other, int64_t value,
               int expected);
bool is_greatest(struct list *list, struct point one, struct point other, int64_t value);
bool read_asked(struct list *list, const char *option, const char *rule, struct asked *asked);
int ask_line(struct list *list, const char *option, const int32_t *line);
void json_line_said(const struct list *list, const int32_t *line);
int answer_implies(struct list *list, const char *rule);
int answer_why(struct list *list, const char *asked_about);

/* table.c: the table of a yes in readings, and for programs. */
void make_table(const struct list *list, const int32_t *model, const int64_t *bounds,
                const uint32_t *groups, struct table *table);
void json_event(const char *key, const struct list *list, uint64_t variable);
void json_events(const struct list *list, const int32_t *model, const int64_t *bounds,
                 const uint32_t *groups);
void json_values(const struct list *list, const int32_t *values);
void print_csv(const struct list *list, const int32_t *model, const int64_t *bounds,
               const uint32_t *groups);

/* gaps.c and order.c: how far any two events can be apart; the events in order, and which
 * orders are forced. */
bool find_gaps(const struct list *list, const int32_t *model, const int64_t *bounds,
               int64_t *gaps);
int answer_order(struct list *list);

/* svg.c, timeline.c and ring.c: pictures of answers, in which a letter is so wide. */
#define SVG_LETTER 7.3
void svg_escaped(FILE *to, struct text text);
double svg_width(struct text text);
void svg_begin(FILE *to, double width, double height, const char *title);
void svg_text(FILE *to, double x, double y, const char *kind, const char *anchor,
              struct text text);
void svg_end(FILE *to);
void draw_timeline(FILE *to, const struct list *list, struct yes yes);
void draw_ring(FILE *to, const struct list *list, const struct argument *argument);
int answer_drawn(struct list *list, const char *picture);

/* check.c: a refutation that someone proposes, read from this file. */
int run_check(struct list *list, const char *file);

/* writing.c: a sentence piece by piece. */
void put_text(struct writing *writing, struct text text);
void put_string(struct writing *writing, const char *string);
void put_number(struct writing *writing, int64_t number);
void put_name(struct writing *writing, struct text name);
void put_event(struct writing *writing, const struct list *list, uint64_t variable);
struct text written(const struct writing *writing);
void clear_writing(struct writing *writing);
void free_writing(struct writing *writing);

/* quote.c: rules as their files have them. */
struct text without_identifier(struct text rule);
struct layout layout_of(const struct list *list, const uint32_t *steps, size_t count);
void print_quoted(const struct list *list, uint32_t step, struct layout layout, bool followed);

/* clash.c and argument.c: the argument of a refutation, made and printed; and the words and
 * rules of the grounds of a line. */
bool is_bound(const int32_t *line);
int64_t bound_of_one(const int32_t *line);
bool turn(const struct list *list, struct chain *chain);
struct chain part_of(const struct chain *chain, size_t from, size_t count);
size_t add_steps(uint32_t *numbers, size_t count, const struct chain *chain);
size_t add_half(const struct list *list, uint32_t *numbers, size_t count,
                const struct half *from);
int64_t sum_of(const struct list *list, const struct chain *chain);
struct chain mirrored(const struct list *list, const struct chain *chain);
size_t refutation_of(const struct list *list, const struct argument *argument,
                     uint32_t numbers[MOST_ARGUMENT]);
void make_argument(const struct list *list, const uint32_t *refutation,
                   struct argument *argument);
bool take_argument(const struct list *list, const uint32_t *refutation,
                   struct argument *argument);
size_t argued_rules(const struct list *list, const uint32_t *refutation,
                    uint32_t steps[MOST_ARGUMENT]);
void say_grounds(const struct list *list, const struct grounds *grounds);
size_t add_grounds(const struct list *list, const struct grounds *grounds, uint32_t *steps,
                   size_t count);
void print_rules(const struct list *list, const uint32_t *steps, size_t count);
void json_rule(const char *key, struct origin origin, uint32_t identifier);
void json_rules(const struct list *list, const uint32_t *steps, size_t count);
void json_numbers(const struct list *list, const char *key, const uint32_t *refutation,
                  const uint32_t *identifiers);
bool print_no(const struct list *list, const uint32_t *refutation, const uint32_t *identifiers,
              const char *shown);

/* grounds.c: the grounds of a line, made of a showing, and as a showing. */
bool find_grounds(const struct list *list, const int32_t *line, const uint32_t *showing,
                  struct grounds *grounds);
size_t showing_of(const struct list *list, const int32_t *line, const struct grounds *grounds,
                  uint32_t numbers[MOST_ARGUMENT]);

/* yes.c, walks.c, broken.c and refusal.c: the answers in words. */
void print_event(FILE *to, const struct list *list, uint64_t variable);
void print_point(const struct list *list, struct point point);
int event_width(const struct list *list, uint64_t variable);
void print_values(const struct list *list, const int32_t *values);
void print_short(void);
void print_yes(const struct list *list, const int32_t *model, const int64_t *bounds,
               const uint32_t *groups);
void print_terms(const struct list *list, const int32_t *line, int count);
void print_rule(const struct list *list, uint32_t step);
int64_t half(int64_t number);
int64_t bound_together(const struct list *list, const uint32_t *refutation);
void print_walks(const struct list *list, const uint32_t *refutation);
void print_broken(const struct list *list, const struct proposal *proposal, struct fault fault);
void print_misnamed(const struct list *list, const struct proposal *proposal, size_t place);
void print_refusal(const struct list *list, const char *file, int number, size_t place);
void print_fault(const char *file, int number, size_t at);

#endif
