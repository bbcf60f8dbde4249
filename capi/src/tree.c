/* The search tree of Arne Andersson, "Balanced search trees made simple" (1993): an AA tree.
 *
 * Each node has a level; the bottom, which stands for no node, has level 0. For each other node:
 *
 * 1. Keys of its left subtree are below its own, those of its right one above.
 * 2. The level of its left child is one less than its own.
 * 3. The level of its right child is its own or one less.
 * 4. The level of its right child's right child is less than its own.
 *
 * So a node of level n has below it, with itself, 2^n - 1 nodes at least, since both children have
 * level n - 1 or more; and a way down meets two nodes of each level at most, the second one to the
 * right of the first. So it meets 64 nodes at most of 2^32 - 1. In a tree of keys that came in
 * their order, the way along the right edge does so.
 *
 * A new node has level 1, and hangs where its key is looked for in vain. That may break rule 2 or
 * rule 4 above it, where a child's level is too high. From there up, skew restores the former and
 * then split the latter, by the turn of one link each:
 *
 *         top                left               top - right - beyond             right
 *        /   \      skew    /    \                 \                  split     /     \
 *     left    c    ----->  a     top               b                 ----->   top    beyond
 *     /  \                      /   \             under right                  \
 *    a    b                    b     c                                          b
 */
#include "tree.h"

#include <stdlib.h>

enum { BOTTOM = 0 };

/* ---- New nodes */

/* Turns a left child of the same level up; what stands on top then. */
static uint32_t skew(struct clsm_node *nodes, uint32_t top) {
    const uint32_t left = nodes[top].left;
    if (nodes[left].level != nodes[top].level) return top;
    nodes[top].left = nodes[left].right;
    nodes[left].right = top;
    return left;
}

/* Turns the right child up, and one level up, if its own right one has the same level, too. */
static uint32_t split(struct clsm_node *nodes, uint32_t top) {
    const uint32_t right = nodes[top].right;
    if (nodes[nodes[right].right].level != nodes[top].level) return top;
    nodes[top].right = nodes[right].left;
    nodes[right].left = top;
    nodes[right].level++;
    return right;
}

/* Hangs the node of a row into the tree, which has not its key. */
static void hang(struct clsm_tree *tree, uint32_t added) {
    uint32_t *links[CLSM_TREE_DEPTH], *link = &tree->root;
    struct clsm_node *nodes = tree->nodes;
    const uint64_t key = tree->rows[added - 1].key;
    size_t depth = 0;
    while (*link != BOTTOM) {
        struct clsm_node *node = &nodes[*link];
        links[depth++] = link;
        link = key < node->key ? &node->left : &node->right;
    }
    *link = added;
    nodes[added] = (struct clsm_node){.key = key, .level = 1};
    while (depth-- > 0) *links[depth] = split(nodes, skew(nodes, *links[depth]));
}

/* Has room for one more row, if there is memory. */
static bool has_room(struct clsm_tree *tree) {
    enum { FIRST_ROOM = 16 };
    if (tree->count < tree->room) return true;
    const size_t room = tree->room > 0 ? 2 * tree->room : FIRST_ROOM;
    if (room > UINT32_MAX) return false;
    clsm_row *rows = realloc(tree->rows, room * sizeof *rows);
    if (!rows) return false;
    tree->rows = rows;
    struct clsm_node *nodes = realloc(tree->nodes, (room + 1) * sizeof *nodes);
    if (!nodes) return false;
    nodes[BOTTOM] = (struct clsm_node){.level = 0};
    tree->nodes = nodes;
    tree->room = room;
    return true;
}

/* ---- Rows by key */

/* The node of the key, or the bottom. */
static uint32_t node_of(const struct clsm_tree *tree, uint64_t key) {
    uint32_t at = tree->root;
    while (at != BOTTOM && tree->nodes[at].key != key) {
        const struct clsm_node *node = &tree->nodes[at];
        at = key < node->key ? node->left : node->right;
    }
    return at;
}

const clsm_row *clsm_tree_find(const struct clsm_tree *tree, uint64_t key) {
    const uint32_t node = node_of(tree, key);
    return node == BOTTOM ? NULL : &tree->rows[node - 1];
}

int clsm_tree_set(struct clsm_tree *tree, uint64_t key, const clsm_value *value) {
    const uint32_t node = node_of(tree, key);
    if (node != BOTTOM) {
        tree->rows[node - 1].value = *value;
        return CLSM_OK;
    }
    if (!has_room(tree)) return CLSM_MEMORY;
    tree->rows[tree->count++] = (clsm_row){key, *value};
    hang(tree, (uint32_t)tree->count);
    return CLSM_OK;
}

void clsm_tree_cut(struct clsm_tree *tree, size_t count) {
    if (count == tree->count) return;
    tree->root = BOTTOM;
    tree->count = count;
    for (uint32_t node = 1; node <= count; node++) hang(tree, node);
}

void clsm_tree_free(struct clsm_tree *tree) {
    free(tree->rows);
    free(tree->nodes);
}

/* ---- In order */

struct clsm_tree_place clsm_tree_from(const struct clsm_tree *tree, uint64_t key, bool falls) {
    struct clsm_tree_place place = {.tree = tree, .falls = falls};
    uint32_t at = tree->root;
    while (at != BOTTOM) {
        const struct clsm_node *node = &tree->nodes[at];
        const bool is_coming = falls ? node->key <= key : node->key >= key;
        if (is_coming) place.coming[place.count++] = at;
        at = is_coming == falls ? node->right : node->left;
    }
    return place;
}

const clsm_row *clsm_tree_next(const struct clsm_tree_place *place) {
    if (place->count == 0) return NULL;
    return &place->tree->rows[place->coming[place->count - 1] - 1];
}

/* Behind a node come those of its right subtree, of which the leftmost is the next one; if keys
 * fall, those of its left subtree, of which the rightmost is. */
void clsm_tree_pass(struct clsm_tree_place *place) {
    const struct clsm_node *nodes = place->tree->nodes;
    const uint32_t passed = place->coming[--place->count];
    uint32_t at = place->falls ? nodes[passed].left : nodes[passed].right;
    while (at != BOTTOM) {
        place->coming[place->count++] = at;
        at = place->falls ? nodes[at].right : nodes[at].left;
    }
}
