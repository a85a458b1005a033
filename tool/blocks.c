/* Blocks of rules: either, or and end around alternatives, all and end around rules that
 * belong together. What is read becomes a tree for the library: rules and eithers beside
 * each other are the children of an all-of, the alternatives of an either those of an
 * any-of, and each alternative is an all-of. An all adds no node: its rules are children of
 * the all-of around it. */
#include "list.h"

#include <stdlib.h>
#include <string.h>

static const struct text nothing = {"", 0};

static const char either_word[] = "either", or_word[] = "or", all_word[] = "all",
                  end_word[] = "end";
static const char *const words[] = {either_word, or_word, all_word, end_word};

/* Whether a line is one of the words of blocks. */
bool is_block_word(struct text line)
{
    bool found = false;
    for (size_t at = 0; at < sizeof words / sizeof words[0]; at++) {
        found = found || is_word(line, words[at]);
    }
    return found;
}

/* The word that a line begins with, where more stands behind it; else nothing. */
static struct text word_before(struct text line)
{
    for (size_t at = 0; at < sizeof words / sizeof words[0]; at++) {
        size_t length = strlen(words[at]);
        if (begins_with_word(line, words[at]) && line.length > length) {
            return (struct text){line.at, length};
        }
    }
    return nothing;
}

/* Whether a name or a number stands behind the word that a line begins with, so that it
 * can't be an event of that name in a rule. */
static bool is_crowded(struct text line, struct text word)
{
    struct text rest = {line.at + word.length, line.length - word.length};
    char next = word.length > 0 ? trim(rest).at[0] : '\0';
    return is_letter(next) || is_digit(next);
}

/* Where a line stands, without the line. */
static struct origin without_rule(struct origin origin)
{
    struct origin place = nowhere;
    place.line = origin.line;
    place.file = origin.file;
    return place;
}

/* Where a node begins. */
struct origin origin_of_node(const struct tree *tree, size_t at)
{
    struct origin place = nowhere;
    place.line = tree->nodes[at].line;
    place.file = tree->nodes[at].file;
    return place;
}

/* Adds a node behind the last, as the last child of its parent; the root is its own. */
static bool add_node(struct list *list, struct origin origin, uint32_t kind, size_t parent,
                     uint32_t number)
{
    struct tree *tree = &list->tree;
    if (tree->count == tree->room) {
        size_t longer = tree->room == 0 ? 64 : 2 * tree->room;
        uint32_t *numbers = realloc(tree->numbers, 2 * longer * sizeof *numbers);
        tree->numbers = numbers != NULL ? numbers : tree->numbers;
        struct node *nodes = realloc(tree->nodes, longer * sizeof *nodes);
        tree->nodes = nodes != NULL ? nodes : tree->nodes;
        if (numbers == NULL || nodes == NULL) {
            return no_memory(list);
        }
        tree->room = longer;
    }
    uint32_t ordinal = tree->count > 0 ? tree->numbers[2 * parent + 1]++ : 0;
    tree->numbers[2 * tree->count] = kind;
    tree->numbers[2 * tree->count + 1] = number;
    tree->nodes[tree->count] = (struct node){.parent = parent,
                                             .ordinal = ordinal,
                                             .file = origin.file,
                                             .line = origin.line,
                                             .choices = kind == UTVPI_ANY_OF ? 0 : 1};
    tree->count++;
    return true;
}

/* The all-of that the next rule belongs to: that of the open block, or the root. */
static size_t node_at_hand(const struct tree *tree)
{
    return tree->open > 0 ? tree->blocks[tree->open - 1].node : 0;
}

static uint32_t children(const struct tree *tree, size_t node)
{
    return tree->numbers[2 * node + 1];
}

/* Opens a block whose rules belong to this all-of. */
static bool open_block(struct list *list, struct origin origin, size_t node, bool either)
{
    struct tree *tree = &list->tree;
    if (tree->block_count == tree->block_room) {
        size_t longer = tree->block_room == 0 ? 16 : 2 * tree->block_room;
        struct block *blocks = realloc(tree->blocks, longer * sizeof *blocks);
        if (blocks == NULL) {
            return no_memory(list);
        }
        tree->blocks = blocks;
        tree->block_room = longer;
    }
    tree->blocks[tree->block_count] =
        (struct block){either, false, origin, tree->open, node, children(tree, node)};
    tree->block_count++;
    tree->open = tree->block_count;
    return true;
}

/* Opens an either, with its first alternative. */
static bool open_either(struct list *list, struct origin origin)
{
    struct tree *tree = &list->tree;
    size_t any_of = tree->count;
    if (tree->either == 0) {
        tree->either = any_of;
    }
    return add_node(list, origin, UTVPI_ANY_OF, node_at_hand(tree), 0) &&
           add_node(list, origin, UTVPI_ALL_OF, any_of, 0) &&
           open_block(list, origin, any_of + 1, true);
}

/* Counts more choices of a node, up to one too many: then notes the either. */
static void count_choices(struct tree *tree, size_t node, uint64_t choices, size_t either)
{
    bool too_many = choices > UTVPI_MOST_CHOICES;
    tree->nodes[node].choices = too_many ? UTVPI_MOST_CHOICES + 1 : (uint32_t)choices;
    if (too_many && tree->too_many == 0) {
        tree->too_many = either;
    }
}

/* Counts the choices of an alternative that ends: its either has so many more. */
static void end_alternative(struct tree *tree, size_t node)
{
    size_t any_of = tree->nodes[node].parent;
    count_choices(tree, any_of,
                  (uint64_t)tree->nodes[any_of].choices + tree->nodes[node].choices, any_of);
}

/* Counts those of an either that ends: what is around it has so many times as many. */
static void end_either(struct tree *tree, size_t any_of)
{
    size_t around = tree->nodes[any_of].parent;
    count_choices(tree, around,
                  (uint64_t)tree->nodes[around].choices * tree->nodes[any_of].choices, any_of);
}

/* Whether rules stand behind the word that opened a block, or its last alternative. Where
 * a line in it is wrong, that is said already. */
static bool has_rules(const struct list *list, const struct block *block)
{
    struct origin origin = without_rule(block->origin);
    return block->faulty || children(&list->tree, block->node) > block->before ||
           wrong(list, origin, block->origin.rule, "has no rule behind it",
                 block->either ? "write the rules of this alternative, or 0 <= 0 where it always"
                                 " holds"
                               : "write rules there, or leave it and its end out");
}

/* Begins another alternative of the open block, also where the one before it is wrong. */
static bool read_or(struct list *list, struct origin origin)
{
    struct tree *tree = &list->tree;
    struct block *block = tree->open > 0 ? &tree->blocks[tree->open - 1] : NULL;
    struct origin place = without_rule(origin);
    if (block == NULL) {
        return wrong(list, place, origin.rule, "stands outside of either",
                     "write either before the first alternative, and end behind the last");
    }
    if (!block->either) {
        struct problem problem = problem_at(list, place, origin.rule,
                                            "stands in an all that has no end yet",
                                            "write end behind the last rule of the all");
        snprintf(problem.example, sizeof problem.example, ", which began in line %zu",
                 block->origin.line);
        return report(problem);
    }
    bool right = has_rules(list, block);
    size_t any_of = tree->nodes[block->node].parent;
    end_alternative(tree, block->node);
    block->origin = origin;
    block->node = tree->count;
    block->before = 0;
    return add_node(list, origin, UTVPI_ALL_OF, any_of, 0) && right;
}

/* Whether an either that ends has alternatives. */
static bool has_or(const struct list *list, const struct block *block)
{
    return block->faulty || list->tree.nodes[block->node].ordinal > 0 ||
           wrong(list, without_rule(block->origin), block->origin.rule,
                 "has no or before its end",
                 "write or between its alternatives; where there is only one, leave out either"
                 " and end");
}

/* Notes that a line of the open block is wrong. */
static void mark_faulty(struct tree *tree)
{
    if (tree->open > 0) {
        tree->blocks[tree->open - 1].faulty = true;
    }
}

/* Closes the open block, also where something in it is wrong. */
static bool read_end(struct list *list, struct origin origin)
{
    struct tree *tree = &list->tree;
    struct origin place = without_rule(origin);
    if (tree->open == 0) {
        return wrong(list, place, origin.rule, "stands where no either and no all is open",
                     "leave it out, or write either or all before the rules that it ends");
    }
    const struct block *block = &tree->blocks[tree->open - 1];
    bool right = has_rules(list, block) && (!block->either || has_or(list, block));
    if (block->either) {
        end_alternative(tree, block->node);
        end_either(tree, tree->nodes[block->node].parent);
    }
    tree->open = block->around;
    if (block->faulty) {
        mark_faulty(tree);
    }
    return right;
}

/* Reads a line with one of the words. */
static bool read_word(struct list *list, struct origin origin)
{
    if (is_word(origin.rule, either_word)) {
        return open_either(list, origin);
    }
    if (is_word(origin.rule, or_word)) {
        return read_or(list, origin);
    }
    return is_word(origin.rule, all_word)
               ? open_block(list, origin, node_at_hand(&list->tree), false)
               : read_end(list, origin);
}

/* Says of a line that a word of blocks stands before something else. Where that can be no
 * rule, and the word can stand there, it is read. Gives back false. */
static bool refuse_crowded(struct list *list, struct origin origin, struct text word)
{
    wrong(list, without_rule(origin), origin.rule,
          "begins with a word that stands alone where there are alternatives",
          "write either, or, all and end each on a line of its own; in these blocks a rule"
          " can't begin with an event of that name");
    bool opens = is_word(word, either_word) || is_word(word, all_word);
    if (is_crowded(origin.rule, word) && (opens || list->tree.open > 0)) {
        origin.rule = word;
        read_word(list, origin);
    }
    return false;
}

/* Whether a line may stand in the open block, if there is one: a rule may. */
static bool suits_block(struct list *list, struct origin origin)
{
    struct text line = origin.rule, word = word_before(line);
    if (word.length > 0 && (list->tree.open > 0 || is_crowded(line, word))) {
        return refuse_crowded(list, origin, word);
    }
    origin.rule = nothing;
    bool is_rule = !is_clock(line) && !is_origin(line) &&
                   (has_relation(line) || !begins_with_word(line, "variables"));
    return list->tree.open == 0 || is_rule ||
           wrong(list, origin, line, "is no rule, and only rules stand in either and all",
                 "write it before them");
}

/* The tree has a root as soon as something is read. */
static bool has_root(struct list *list)
{
    return list->tree.count > 0 || add_node(list, nowhere, UTVPI_ALL_OF, 0, 0);
}

/* Adds the lines of the list from one on to the open block, or to the root. */
bool add_leaves(struct list *list, size_t line)
{
    bool added = has_root(list);
    while (added && line < list->count) {
        added = add_node(list, list->origins[line], UTVPI_LEAF, node_at_hand(&list->tree),
                         (uint32_t)line);
        line++;
    }
    return added;
}

/* Reads a line that is not empty: one of the words, or what read_rule takes, whose lines
 * belong to the open block. */
bool read_in_block(struct list *list, struct origin origin)
{
    struct tree *tree = &list->tree;
    if (!has_root(list)) {
        return false;
    }
    if (is_block_word(origin.rule)) {
        bool right = read_word(list, origin);
        if (!right) {
            mark_faulty(tree);
        }
        return right;
    }
    size_t line = list->count;
    if (!suits_block(list, origin) || !read_rule(list, origin)) {
        mark_faulty(tree);
        return false;
    }
    return add_leaves(list, line);
}

/* Looks whether all blocks are closed, at the end of a file that was read to its end. None
 * goes on in the next. */
void end_blocks(struct list *list, bool all_read)
{
    struct tree *tree = &list->tree;
    size_t open = tree->open;
    tree->open = 0;
    if (open == 0 || !all_read) {
        return;
    }
    const struct block *block = &tree->blocks[open - 1];
    struct origin origin = without_rule(block->origin);
    struct text word = text_of(all_word);
    if (block->either) {
        origin = origin_of_node(tree, tree->nodes[block->node].parent);
        word = text_of(either_word);
    }
    wrong(list, origin, word, "has no end",
          "write end on a line of its own behind the last rule");
}

void free_tree(struct tree *tree)
{
    free(tree->numbers);
    free(tree->nodes);
    free(tree->blocks);
}
