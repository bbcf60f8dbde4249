/* The search tree of a transaction, by itself: after each insertion it keeps its rules, and it has
 * what a plain sorted array has. */
#include "../src/tree.h"

#include "check.h"

#include <string.h>

/* So many keys that came by rising key are two nodes of each level on the right edge. */
enum { BOTTOM = 0, MANY = (1 << 18) - 2, SMALL = 7 };

static uint64_t state = 7;

static uint64_t draw(uint64_t below) {
    state = state * 6364136223846793005 + 1442695040888963407;
    return (state >> 33) % below;
}

static clsm_value one_word(uint64_t word) { return (clsm_value){1, {word}}; }

static void set(struct clsm_tree *tree, uint64_t key, uint64_t word) {
    const clsm_value value = one_word(word);
    OK(clsm_tree_set(tree, key, &value));
}

/* ---- The rules of tree.c */

static void check_node(const struct clsm_node *nodes, const struct clsm_node *node) {
    const struct clsm_node *left = &nodes[node->left], *right = &nodes[node->right];
    CHECK(node->level > 0 && left->level == node->level - 1);
    CHECK(right->level == node->level || right->level == node->level - 1);
    CHECK(nodes[right->right].level < node->level);
}

/* Keys rise, or fall, so those of subtrees stand on their sides; and each node is met once. */
static void check_order(const struct clsm_tree *tree, bool falls) {
    struct clsm_tree_place place = clsm_tree_from(tree, falls ? UINT64_MAX : 0, falls);
    size_t count = 0;
    uint64_t before = 0;
    for (const clsm_row *row; (row = clsm_tree_next(&place)); clsm_tree_pass(&place)) {
        const size_t node = (size_t)(row - tree->rows) + 1;
        CHECK(count == 0 || (falls ? before > row->key : before < row->key));
        CHECK(tree->nodes[node].key == row->key && place.count <= CLSM_TREE_DEPTH);
        check_node(tree->nodes, &tree->nodes[node]);
        before = row->key;
        count++;
    }
    CHECK(count == tree->count);
}

static void check_rules(const struct clsm_tree *tree) {
    if (tree->nodes) CHECK(memcmp(tree->nodes, &(struct clsm_node){0}, sizeof *tree->nodes) == 0);
    check_order(tree, false);
    check_order(tree, true);
}

/* How many nodes a look for the key meets. */
static unsigned depth_of(const struct clsm_tree *tree, uint64_t key) {
    unsigned depth = 0;
    for (uint32_t at = tree->root; at != BOTTOM; depth++) {
        const struct clsm_node *node = &tree->nodes[at];
        at = key == node->key ? BOTTOM : key < node->key ? node->left : node->right;
    }
    return depth;
}

/* ---- Orders of insertion */

/* All orders of a few keys: the numbers below their number's factorial stand for them. */
static void insert_in_order(unsigned order) {
    uint64_t left[SMALL];
    struct clsm_tree tree = {.count = 0};
    for (unsigned i = 0; i < SMALL; i++) left[i] = i;
    for (unsigned count = SMALL; count > 0; count--) {
        const unsigned at = order % count;
        set(&tree, left[at], left[at]);
        check_rules(&tree);
        memmove(&left[at], &left[at + 1], (count - 1 - at) * sizeof *left);
        order /= count;
    }
    clsm_tree_free(&tree);
}

static void insert_in_all_orders(void) {
    unsigned orders = 1;
    for (unsigned i = 1; i <= SMALL; i++) orders *= i;
    for (unsigned i = 0; i < orders; i++) insert_in_order(i);
}

static uint64_t rising(uint64_t i) { return i; }
static uint64_t falling(uint64_t i) { return UINT64_MAX - i; }
static uint64_t inwards(uint64_t i) { return i % 2 ? UINT64_MAX - i : i; }
static uint64_t scattered(uint64_t i) { return i * 0x9e3779b97f4a7c15; }

/* Twice as many keys take two nodes more to look for. */
static void insert_many(uint64_t (*key)(uint64_t)) {
    struct clsm_tree tree = {.count = 0};
    unsigned most = 0;
    for (uint64_t i = 0; i < MANY; i++) {
        if ((i & (i - 1)) == 0) {
            check_rules(&tree);
            most += 2;
        }
        set(&tree, key(i), i);
        CHECK(depth_of(&tree, key(i)) <= most);
    }
    check_rules(&tree);
    for (uint64_t i = 0; i < MANY; i++) {
        CHECK(clsm_tree_find(&tree, key(i)) == &tree.rows[i] && tree.rows[i].value.words[0] == i);
        CHECK(depth_of(&tree, key(i)) <= most);
    }
    clsm_tree_free(&tree);
}

/* ---- A plain sorted array, with the same rows */

enum { ROWS = 300, KEYS = 2 * ROWS };

static struct plain {
    clsm_row rows[ROWS];  /* by rising key */
    uint64_t order[ROWS]; /* their keys, in the order in which they came */
    size_t count;
} plain;

static size_t place_of(uint64_t key) {
    size_t at = 0;
    while (at < plain.count && plain.rows[at].key < key) at++;
    return at;
}

static void set_plain(uint64_t key, uint64_t word) {
    const size_t at = place_of(key);
    if (at == plain.count || plain.rows[at].key != key) {
        memmove(&plain.rows[at + 1], &plain.rows[at], (plain.count - at) * sizeof *plain.rows);
        plain.order[plain.count++] = key;
    }
    plain.rows[at] = (clsm_row){key, one_word(word)};
}

/* Drops all but the first ones that came. */
static void cut_plain(size_t count) {
    while (plain.count > count) {
        const size_t at = place_of(plain.order[--plain.count]);
        memmove(&plain.rows[at], &plain.rows[at + 1], (plain.count - at) * sizeof *plain.rows);
    }
}

static void compare_from(const struct clsm_tree *tree, uint64_t key) {
    struct clsm_tree_place place = clsm_tree_from(tree, key, false);
    for (size_t at = place_of(key); at < plain.count; at++) {
        const clsm_row *row = clsm_tree_next(&place);
        CHECK(row && memcmp(row, &plain.rows[at], sizeof *row) == 0);
        clsm_tree_pass(&place);
    }
    CHECK(!clsm_tree_next(&place));
}

static void compare_down_from(const struct clsm_tree *tree, uint64_t key) {
    struct clsm_tree_place place = clsm_tree_from(tree, key, true);
    for (size_t at = place_of(key + 1); at-- > 0;) {
        const clsm_row *row = clsm_tree_next(&place);
        CHECK(row && memcmp(row, &plain.rows[at], sizeof *row) == 0);
        clsm_tree_pass(&place);
    }
    CHECK(!clsm_tree_next(&place));
}

static void compare(const struct clsm_tree *tree) {
    const uint64_t key = draw(KEYS);
    const size_t at = place_of(key);
    const clsm_row *row = clsm_tree_find(tree, key);
    const bool is_there = at < plain.count && plain.rows[at].key == key;
    CHECK(tree->count == plain.count && is_there == (row != NULL));
    if (row) CHECK(memcmp(row, &plain.rows[at], sizeof *row) == 0);
    for (size_t i = 0; i < plain.count; i++) CHECK(tree->rows[i].key == plain.order[i]);
    compare_from(tree, key);
    compare_from(tree, 0);
    compare_down_from(tree, key);
    compare_down_from(tree, KEYS);
    check_rules(tree);
}

static void insert_at_random(void) {
    enum { STEPS = 20000, ONE_IN = 500 };
    struct clsm_tree tree = {.count = 0};
    compare(&tree);
    for (uint64_t i = 0; i < STEPS; i++) {
        const uint64_t key = draw(KEYS);
        if (draw(ONE_IN) == 0 || plain.count == ROWS) {
            const size_t count = (size_t)draw(plain.count + 1);
            clsm_tree_cut(&tree, count);
            cut_plain(count);
        } else {
            set(&tree, key, i);
            set_plain(key, i);
        }
        compare(&tree);
    }
    clsm_tree_free(&tree);
}

/* ---- The ends */

static void stand_at_ends(void) {
    struct clsm_tree tree = {.count = 0};
    clsm_tree_cut(&tree, 0);
    CHECK(!clsm_tree_find(&tree, 0));
    struct clsm_tree_place place = clsm_tree_from(&tree, 0, false);
    CHECK(!clsm_tree_next(&place));
    place = clsm_tree_from(&tree, UINT64_MAX, true);
    CHECK(!clsm_tree_next(&place));
    set(&tree, UINT64_MAX, 1);
    set(&tree, 0, 2);
    CHECK(clsm_tree_find(&tree, UINT64_MAX) == tree.rows && !clsm_tree_find(&tree, 1));
    for (int falls = 0; falls < 2; falls++) {
        place = clsm_tree_from(&tree, falls ? 0 : UINT64_MAX, falls);
        CHECK(clsm_tree_next(&place) == &tree.rows[falls]);
        clsm_tree_pass(&place);
        CHECK(!clsm_tree_next(&place));
    }
    clsm_tree_cut(&tree, 0);
    CHECK(!clsm_tree_find(&tree, 0) && tree.count == 0);
    clsm_tree_free(&tree);
}

int main(void) {
    stand_at_ends();
    insert_in_all_orders();
    insert_at_random();
    insert_many(rising);
    insert_many(falling);
    insert_many(inwards);
    insert_many(scattered);
    return passed("tree");
}
