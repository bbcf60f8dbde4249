/* Rows by key, each key once: in an array, in the order in which they came, and in a search tree
 * over that (tree.c). For one thread at a time. */
#ifndef CLSM_TREE_H
#define CLSM_TREE_H

#include "../clsm.h"

/* Of 2^32 - 1 rows the topmost node has this level at most, and a way down so many nodes. */
enum { CLSM_TREE_LEVELS = 32, CLSM_TREE_DEPTH = 2 * CLSM_TREE_LEVELS };

/* Children are numbers of nodes; 0 is the bottom, which stands where there is none. */
struct clsm_node {
    uint64_t key;
    uint32_t left, right, level;
};

/* All of it 0 is an empty one. */
struct clsm_tree {
    clsm_row *rows;
    struct clsm_node *nodes; /* the bottom, and at i + 1 that of row i */
    size_t count, room;      /* of rows */
    uint32_t root;
};

/* Writes the value into the row of the key, which comes last if it is a new one: OK; MEMORY, and
 * all is as before. */
int clsm_tree_set(struct clsm_tree *tree, uint64_t key, const clsm_value *value);

/* The row of the key, or null; it may move when another one comes. */
const clsm_row *clsm_tree_find(const struct clsm_tree *tree, uint64_t key);

/* Drops all rows but the first ones. Keeps the room. */
void clsm_tree_cut(struct clsm_tree *tree, size_t count);

/* Frees the room. */
void clsm_tree_free(struct clsm_tree *tree);

/* A place among the keys, by rising or by falling key, as long as no new one comes: the nodes that
 * are still to come and have the place in their left subtrees, or in their right ones if keys fall,
 * and the next one, which is the last of them. */
struct clsm_tree_place {
    const struct clsm_tree *tree;
    bool falls;
    uint32_t coming[CLSM_TREE_DEPTH];
    size_t count;
};

/* The place before the first key that is not below this one, or, if keys fall, not above it. */
struct clsm_tree_place clsm_tree_from(const struct clsm_tree *tree, uint64_t key, bool falls);
/* The row of the next key, or null. */
const clsm_row *clsm_tree_next(const struct clsm_tree_place *place);
/* Goes on behind that key, which there is. */
void clsm_tree_pass(struct clsm_tree_place *place);

#endif
