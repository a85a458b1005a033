/* The choices of a tree, in the order of their numbers: one after the other, as a row of
 * counters runs, of which the last one that can go on goes on and those behind it begin
 * again. The library finds a choice by its number; here are no numbers, so that the two can
 * be held to each other. */
#include "list.h"

/* Marks the nodes of the choice at hand: all children of an all-of, and of an any-of the
 * one that is taken. A parent stands before its children. */
static void mark_taken(struct tree *tree)
{
    for (size_t at = 0; at < tree->count; at++) {
        struct node *node = &tree->nodes[at];
        const struct node *parent = &tree->nodes[node->parent];
        bool of_any = tree->numbers[2 * node->parent] == UTVPI_ANY_OF;
        node->taken =
            at == 0 || (parent->taken && (!of_any || parent->branch == node->ordinal));
    }
}

/* Goes to the first choice: of each any-of its first child. */
void first_choice(struct tree *tree)
{
    for (size_t at = 0; at < tree->count; at++) {
        tree->nodes[at].branch = 0;
    }
    mark_taken(tree);
}

/* Goes to the next choice. False where there is none, and then to the first. */
bool next_choice(struct tree *tree)
{
    bool found = false;
    for (size_t at = tree->count; at > 0 && !found; at--) {
        struct node *node = &tree->nodes[at - 1];
        if (node->taken && tree->numbers[2 * (at - 1)] == UTVPI_ANY_OF) {
            found = node->branch + 1 < tree->numbers[2 * (at - 1) + 1];
            node->branch = found ? node->branch + 1 : 0;
        }
    }
    mark_taken(tree);
    return found;
}

/* Says of each line whether the choice at hand picks it. */
void pick_lines(const struct tree *tree, bool *picked)
{
    for (size_t at = 0; at < tree->count; at++) {
        if (tree->numbers[2 * at] == UTVPI_LEAF) {
            picked[tree->numbers[2 * at + 1]] = tree->nodes[at].taken;
        }
    }
}

/* Whether a node is an alternative: an all-of that is not the root. */
bool is_alternative(const struct tree *tree, size_t node)
{
    return node > 0 && tree->numbers[2 * node] == UTVPI_ALL_OF;
}
