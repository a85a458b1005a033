/* A file with alternatives: the library finds the first choice of them that can be met, and
 * decides each choice up to it, or all where there is none. Every answer is checked, by the
 * library's checkers and by the choices as they are counted here, and then printed: the
 * alternatives that hold, or why each fails. */
#include "list.h"

#include <stdlib.h>

static const struct text nothing = {"", 0};

/* The values that the library finds with the first choice. */
static int32_t model[UTVPI_MODEL_ROOM(UTVPI_MOST_VARIABLES)];

/* Prints which alternative of its either a node is. */
void print_alternative(const struct tree *tree, size_t at)
{
    const struct node *node = &tree->nodes[at];
    printf("alternative %" PRIu32 " of %" PRIu32, node->ordinal + 1,
           tree->numbers[2 * node->parent + 1]);
}

/* How many alternatives a node stands in. */
static int level_of(const struct tree *tree, size_t node)
{
    int level = 0;
    for (size_t at = node; at > 0; at = tree->nodes[at].parent) {
        level += is_alternative(tree, at) ? 1 : 0;
    }
    return level;
}

/* Whether a yes names a node: one that is taken, and an alternative or the first line of a
 * rule in one. */
static bool is_named(const struct tree *tree, size_t at)
{
    const struct node *node = &tree->nodes[at];
    bool rule = tree->numbers[2 * at] == UTVPI_LEAF && node->parent > 0 &&
                tree->nodes[at - 1].line != node->line;
    return node->taken && (is_alternative(tree, at) || rule);
}

/* How many characters the file and the line of a node take. */
static int width_of(const struct node *node)
{
    return snprintf(NULL, 0, "%s:%zu", node->file, node->line);
}

/* Prints such a node: the line of the file, and it, further in the more alternatives it
 * stands in. */
static void print_taken(const struct list *list, size_t at, int widest)
{
    const struct tree *tree = &list->tree;
    const struct node *node = &tree->nodes[at];
    bool alternative = is_alternative(tree, at);
    int blanks = 2 * level_of(tree, at) - (alternative ? 2 : 0);
    printf("  %s:%zu: %*s", node->file, node->line, widest - width_of(node) + blanks, "");
    if (alternative) {
        print_alternative(tree, at);
    } else {
        show(stdout, list->origins[tree->numbers[2 * at + 1]].rule);
    }
    putchar('\n');
}

/* Prints the first sentence of a yes, with the alternatives of the choice at hand and their
 * rules, as the file has them. */
void print_alternatives(const struct list *list)
{
    const struct tree *tree = &list->tree;
    int widest = 0;
    for (size_t at = 1; at < tree->count; at++) {
        int width = is_named(tree, at) ? width_of(&tree->nodes[at]) : 0;
        widest = width > widest ? width : widest;
    }
    puts("Yes. Whole numbers meet all the rules with these alternatives, the first that can"
         " hold:\n");
    for (size_t at = 1; at < tree->count; at++) {
        if (is_named(tree, at)) {
            print_taken(list, at, widest);
        }
    }
    fputs(list->variables > 0 ? "\n" : "", stdout);
}

/* Writes which alternative of its either a node is, as members of an object. */
void json_alternative(const struct tree *tree, size_t at)
{
    const struct node *node = &tree->nodes[at];
    json_string("file", node->file);
    json_integer("line", (int64_t)node->line);
    json_integer("alternative", (int64_t)node->ordinal + 1);
    json_integer("of", tree->numbers[2 * node->parent + 1]);
}

/* Writes the rules of an alternative, those of eithers in it left out. */
static void write_rules(const struct list *list, size_t parent)
{
    const struct tree *tree = &list->tree;
    json_array("rules");
    for (size_t at = parent + 1; at < tree->count; at++) {
        bool rule = tree->numbers[2 * at] == UTVPI_LEAF && tree->nodes[at].parent == parent;
        if (rule && tree->nodes[at - 1].line != tree->nodes[at].line) {
            uint32_t line = tree->numbers[2 * at + 1];
            json_rule(NULL, list->origins[line], identifier_of(list, 2 * line));
        }
    }
    json_close();
}

/* Writes the alternatives of the choice at hand, where there are alternatives. */
void json_alternatives(const struct list *list)
{
    const struct tree *tree = &list->tree;
    if (tree->either == 0) {
        return;
    }
    json_array("alternatives");
    for (size_t at = 1; at < tree->count; at++) {
        if (tree->nodes[at].taken && is_alternative(tree, at)) {
            json_object(NULL);
            json_alternative(tree, at);
            write_rules(list, at);
            json_close();
        }
    }
    json_close();
}

/* Puts 0 <= 0 in the place of the lines that are not picked. Gives back the list's own
 * numbers, to be put back. */
static int32_t *mask_lines(struct list *list, const bool *picked)
{
    static int32_t numbers[UTVPI_LINE_NUMBERS * UTVPI_MOST_LINES];
    int32_t *whole = list->numbers;
    for (size_t at = 0; at < length_of(list); at++) {
        numbers[at] = picked[at / UTVPI_LINE_NUMBERS] ? whole[at] : 0;
    }
    list->numbers = numbers;
    return whole;
}

/* Prints a yes on the list of the choice at hand. */
static int give_yes(struct list *list)
{
    bool picked[UTVPI_MOST_LINES];
    pick_lines(&list->tree, picked);
    int32_t *whole = mask_lines(list, picked);
    int status = give_answer(list, list->variables, 0, IN_WORDS);
    list->numbers = whole;
    return status;
}

/* Prints a yes with the choice at hand, the first that does not fail. */
static int answer_yes(struct list *list, uint64_t choice, int64_t *work)
{
    utvpi_choice found = decide_choice(list, choice, work);
    if (!UTVPI_IS_YES(found.result) || found.choice != choice) {
        return disagree("the library found alternatives that can hold, and then that they can't");
    }
    return is_last_model(list, model)
               ? give_yes(list)
               : disagree("the library found two sets of values for the same alternatives");
}

/* Decides the rules that stand in no alternative, and prints nothing. */
static int decide_outside(struct list *list)
{
    const struct tree *tree = &list->tree;
    bool outside[UTVPI_MOST_LINES];
    for (size_t at = 1; at < tree->count; at++) {
        if (tree->numbers[2 * at] == UTVPI_LEAF) {
            outside[tree->numbers[2 * at + 1]] = tree->nodes[at].parent == 0;
        }
    }
    int32_t *whole = mask_lines(list, outside);
    int status = answer(list, UNPRINTED);
    list->numbers = whole;
    return status;
}

/* Prints a no, where these choices fail and the library knows no more: one reason for all,
 * where the rules clash that stand in no alternative, or one for each. */
static int answer_no(struct list *list, struct clashes *clashes, int64_t *work)
{
    struct clash outside;
    utvpi_choice beyond = decide_choice(list, clashes->count, work);
    if (!UTVPI_IS_REFUSAL(beyond.result) || beyond.refusal != UTVPI_NO_SUCH_CHOICE) {
        return disagree("the library has more choices of alternatives than this program finds");
    }
    int status = decide_outside(list);
    if (status == STATUS_NO) {
        copy_last_no(outside.refutation, outside.identifiers);
        return print_no(list, outside.refutation, outside.identifiers,
                        "No. No whole numbers meet all the rules, whichever alternatives are"
                        " taken.")
                   ? STATUS_NO
                   : disagree_on_argument();
    }
    return status == STATUS_YES ? print_clashes(list, clashes) : status;
}

/* Has the choices decided up to the first that can be met, or all, and prints the answer. */
static int give_first(struct list *list, utvpi_choice first, int64_t *work)
{
    bool yes = UTVPI_IS_YES(first.result);
    struct clashes clashes = {NULL, yes ? (size_t)first.choice : list->tree.nodes[0].choices};
    clashes.each = calloc(clashes.count + 1, sizeof *clashes.each);
    if (clashes.each == NULL) {
        wrong(list, origin_of_node(&list->tree, list->tree.either), nothing,
              "there is not enough memory for so many alternatives",
              "free memory, or decide a file for each alternative of one either");
        return STATUS_BAD;
    }
    int status = take_clashes(list, work, &clashes);
    if (status == STATUS_NO) {
        status = yes ? answer_yes(list, first.choice, work) : answer_no(list, &clashes, work);
    }
    free(clashes.each);
    return status;
}

/* Prints the library's answer on the first choice that can be met, if it is one: of no more
 * choices than there can be, or than there are. */
static int answer_first(struct list *list, utvpi_choice first, int64_t *work)
{
    size_t count = list->tree.nodes[0].choices;
    if (UTVPI_IS_REFUSAL(first.result)) {
        print_refusal(list, list->file, (int)first.refusal, (size_t)first.place);
        return STATUS_BAD;
    }
    if (!within_limits(list) || count > UTVPI_MOST_CHOICES) {
        return disagree("the library answered what is beyond its limits");
    }
    bool answered = UTVPI_IS_YES(first.result) || UTVPI_IS_NO(first.result);
    return answered && first.choice < count
               ? give_first(list, first, work)
               : disagree("the library gave a number that is no answer");
}

/* Answers a file with alternatives, unless the library refuses it. Gives back the exit
 * status. */
int answer_alternatives(struct list *list)
{
    int64_t *work = take_work_area(list->file, list->variables);
    if (work == NULL) {
        return STATUS_BAD;
    }
    utvpi_choice first = utvpi_tree_first(
        list->variables, numbers_of(list), length_of(list), list->tree.numbers,
        2 * list->tree.count, model, UTVPI_MODEL_ROOM(UTVPI_MOST_VARIABLES), work,
        work_room(list->variables));
    int status = answer_first(list, first, work);
    free(work);
    return status;
}

/* Says that a file with alternatives can't go with this option. Gives back a status. */
int refuse_alternatives(const struct list *list, const char *option)
{
    char what[80];
    snprintf(what, sizeof what, "here begin alternatives, which %s does not take", option);
    wrong(list, origin_of_node(&list->tree, list->tree.either), nothing, what,
          "decide the file without this option, or give it a file for each alternative");
    return STATUS_BAD;
}
