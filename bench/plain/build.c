/* Building the first of the best synopses, and the least band for a number of terms.
 *
 * Both go by sets of values, as sorted windows, from the slots up to the root: the values that can come in
 * from above without a term more. A node's set is what is in both of its children's sets; where they do not
 * meet it is what is in either, and the node costs a term. A slot's window is its setpoint with its band less a margin on
 * either side. The greatest margin that so many terms can leave is found by halving.
 * A node with no slot below it accepts every value; of these only the first of each level is looked at.
 */
#include "parts.h"

#include <stdlib.h>
#include <string.h>

enum { HEIGHTS = 10 };

struct window {
    int16_t low;
    int16_t high;
};

/* The set of every node. A node of height h has room for 2^h windows, so each height fills one row. */
struct tree {
    struct window windows[HEIGHTS][MOST_SLOTS];
    uint16_t counts[MOST_NODES];
};

/* Writes what is in both of two sets; the answer is the number of its windows. */
static int meet(const struct window *left, int lefts, const struct window *right, int rights, struct window *both)
{
    int i = 0, j = 0, count = 0;
    while (i < lefts && j < rights) {
        int16_t low = left[i].low > right[j].low ? left[i].low : right[j].low;
        int16_t high = left[i].high < right[j].high ? left[i].high : right[j].high;
        if (low <= high) {
            both[count].low = low;
            both[count].high = high;
            count++;
        }
        if (left[i].high < right[j].high)
            i++;
        else
            j++;
    }
    return count;
}

/* Writes what is in either of two sets that do not meet. */
static int join(const struct window *left, int lefts, const struct window *right, int rights, struct window *either)
{
    int i = 0, j = 0, count = 0;
    while (i < lefts && j < rights)
        either[count++] = left[i].low < right[j].low ? left[i++] : right[j++];
    while (i < lefts)
        either[count++] = left[i++];
    while (j < rights)
        either[count++] = right[j++];
    return count;
}

static bool is_in(const struct window *windows, int count, int value)
{
    for (int i = 0; i < count; i++)
        if (value <= windows[i].high)
            return windows[i].low <= value;
    return false;
}

/* How many nodes of a height have slots below them: the first of their level. */
static int nodes_with_slots(const struct profile *profile, int height)
{
    return (profile->slots + (1 << height) - 1) >> height;
}

/* The node behind those with slots, where their level of `nodes` has one more. */
static void write_filler(struct tree *tree, int height, int nodes, int with_slots)
{
    if (with_slots == nodes)
        return;
    tree->windows[height][with_slots << height].low = -MOST_VALUE;
    tree->windows[height][with_slots << height].high = MOST_VALUE;
    tree->counts[nodes + with_slots] = 1;
}

static void write_leaves(const struct profile *profile, int margin, struct tree *tree)
{
    for (int slot = 0; slot < profile->slots; slot++) {
        int reach = profile->bands[slot] - margin;
        int low = profile->setpoints[slot] - reach;
        int high = profile->setpoints[slot] + reach;
        tree->windows[0][slot].low = (int16_t)(low < -MOST_VALUE ? -MOST_VALUE : low);
        tree->windows[0][slot].high = (int16_t)(high > MOST_VALUE ? MOST_VALUE : high);
        tree->counts[profile->leaves + slot] = 1;
    }
    write_filler(tree, 0, profile->leaves, profile->slots);
}

/* Finds every node's set for a margin that no band is below; the answer is the fewest terms that leave it. */
static int fewest_terms(const struct profile *profile, int margin, struct tree *tree)
{
    int terms = 0;
    int height = 0;
    write_leaves(profile, margin, tree);
    for (int nodes = profile->leaves / 2; nodes > 0; nodes /= 2) {
        int room = 1 << height;
        int with_slots = nodes_with_slots(profile, height + 1);
        for (int i = 0; i < with_slots; i++) {
            const struct window *left = &tree->windows[height][2 * i * room];
            const struct window *right = left + room;
            struct window *own = &tree->windows[height + 1][2 * i * room];
            int lefts = tree->counts[2 * (nodes + i)];
            int rights = tree->counts[2 * (nodes + i) + 1];
            int count = meet(left, lefts, right, rights, own);
            if (count == 0) {
                count = join(left, lefts, right, rights, own);
                terms++;
            }
            tree->counts[nodes + i] = (uint16_t)count;
        }
        height++;
        write_filler(tree, height, nodes, with_slots);
    }
    return is_in(tree->windows[height], tree->counts[1], profile->rest) ? terms : terms + 1;
}

/* The greatest margin up to `top` that `budget` terms can leave in every slot; they can leave 0. */
static int greatest_margin(const struct profile *profile, int budget, int top, struct tree *tree)
{
    int low = 0;
    int high = top;
    while (low < high) {
        int middle = (low + high + 1) / 2;
        if (fewest_terms(profile, middle, tree) <= budget)
            low = middle;
        else
            high = middle - 1;
    }
    return low;
}

/* Goes down the tree level by level: a term, of the least value of the node's set, where what comes in is not in the set.
 * So of several smallest synopses the first is written, compared term by term: the lower node first, then the lower value.
 * The answer is the greatest error of what reaches the slots. */
static int write_terms(const struct profile *profile, const struct tree *tree, struct synopsis *synopsis)
{
    int16_t incoming[MOST_NODES];
    int greatest = 0;
    int height = 0;
    synopsis->count = 0;
    while (1 << height < profile->leaves)
        height++;
    incoming[1] = (int16_t)profile->rest;
    for (int first = 1; first <= profile->leaves; first *= 2, height--) {
        int end = first + nodes_with_slots(profile, height);
        for (int node = first; node < end; node++) {
            const struct window *windows = &tree->windows[height][(node - first) << height];
            int16_t value = incoming[node];
            if (!is_in(windows, tree->counts[node], value)) {
                struct term *term = &synopsis->terms[synopsis->count++];
                value = windows[0].low;
                term->node = (uint16_t)node;
                term->value = value;
            }
            if (node < profile->leaves) {
                incoming[2 * node] = value;
                incoming[2 * node + 1] = value;
            } else {
                int error = abs(profile->setpoints[node - profile->leaves] - value);
                greatest = error > greatest ? error : greatest;
            }
        }
    }
    return greatest;
}

/* The least band that a slot goes by: no margin is greater. */
static int tightest(const struct profile *profile)
{
    int least = MOST_BAND;
    for (int slot = 0; slot < profile->slots; slot++)
        least = profile->bands[slot] < least ? profile->bands[slot] : least;
    return least;
}

int build(const struct profile *profile, struct synopsis *synopsis)
{
    struct tree tree;
    int budget = fewest_terms(profile, 0, &tree);
    int margin = greatest_margin(profile, budget, tightest(profile), &tree);
    fewest_terms(profile, margin, &tree);
    synopsis->slots = profile->slots;
    synopsis->leaves = profile->leaves;
    synopsis->band = profile->band;
    synopsis->rest = profile->rest;
    memcpy(synopsis->bands, profile->bands, sizeof synopsis->bands);
    return write_terms(profile, &tree, synopsis);
}

/* The band 400,00 takes in every value: no term is needed. */
int least_band(struct profile *profile, int budget)
{
    struct tree tree;
    for (int slot = 0; slot < profile->slots; slot++)
        profile->bands[slot] = MOST_BAND;
    return MOST_BAND - greatest_margin(profile, budget, MOST_BAND, &tree);
}
