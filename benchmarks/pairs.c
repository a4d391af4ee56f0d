/* A plain search for the best pair of cuts of a graph, and a check of its log: the yardstick for the speed of
   `rumtsafi pair`.

       pairs GRAPH INPUTS OUTPUTS BUDGET ROUNDS

   Eligible nodes are labelled from the last to the first: in the first set, in the second, or in none; what is told of
   a prefix of labels is kept up to date from one label to the next, for both sets in one state. It searches ROUNDS
   times, with the log in an array, and checks the log as often. It prints the line of `pair`; how many prefixes were
   opened, which is the need where the budget isn't spent, and the seconds of processor time for a search; and the
   number of the log's items and those for a check. GRAPH is what graphs.py writes. */
#include "cuts.h"

enum label { FIRST, SECOND, OUT, SETS = 2 };

/* What is labelled: both sets, the settled inputs of each, and whether a walk leads from it to the other one. */
struct pair {
    struct set sets[SETS];
    int settled[SETS];
    bool leads[SETS];
};

/* What the next label changes: the inputs of both sets, and of the one that grows its outputs, cycles and longest chain
   from the node, and whether a walk leads from it to the other. */
struct change {
    int inputs[SETS], outputs, path, cycles;
    bool leads;
};

static delays longest[SETS];

/* The best pair so far, or the one that is checked. */
static struct row best[SETS];

/* The settled inputs of a set once a node is out of it. */
static inline int settled_without(const struct pair *pair, int which, const struct node *node)
{
    return pair->settled[which] + (longest[which][node->number] >= 0);
}

static inline void inputs_with(struct change *change, const struct pair *pair, int which, const struct node *node)
{
    change->inputs[which] = settled_with(longest[which], node, pair->settled[which]);
    change->inputs[!which] = settled_without(pair, !which, node);
}

static inline bool is_above_inputs(const int *inputs)
{
    return inputs[FIRST] > most_inputs || inputs[SECOND] > most_inputs;
}

static inline bool leads_with(const struct pair *pair, int which, const struct node *node)
{
    return pair->leads[which] || meets(&node->below, &pair->sets[!which].members);
}

/* Whether the second set has the greatest node once one of them has a node more. */
static inline bool is_mirrored_with(const struct pair *pair, int which)
{
    return which == SECOND && pair->sets[FIRST].size == 0;
}

static inline void cycles_of(struct change *change, const struct pair *pair, int which, const struct node *node)
{
    change->path = path_of(longest[which], node);
    change->cycles = cycles_with(&pair->sets[which], change->path);
}

/* What no pair gains more than that goes on from these labels. The weights are those of the nodes not labelled out. */
static inline int bound_of(const struct pair *pair, const int *inputs, int weight)
{
    return weight - pair->sets[FIRST].charge - pair->sets[SECOND].charge - for_inputs(inputs[FIRST])
        - for_inputs(inputs[SECOND]);
}

static inline int bound_with(const struct pair *pair, int which, const struct change *change, int weight)
{
    return weight - charge(change->outputs, change->cycles) - pair->sets[!which].charge
        - for_inputs(change->inputs[FIRST]) - for_inputs(change->inputs[SECOND]);
}

static inline void grow(struct pair *next, const struct pair *pair, int which, const struct node *node,
                        const struct change *change)
{
    extend(&next->sets[which], &pair->sets[which], node, change->outputs, change->cycles);
    next->sets[!which] = pair->sets[!which];
    memcpy(next->settled, change->inputs, sizeof next->settled);
    next->leads[which] = change->leads;
    next->leads[!which] = pair->leads[!which];
}

/* Whether both sets keep the limits of a cut that a prefix doesn't have to keep. */
static inline bool are_cuts(const struct pair *pair)
{
    return is_a_cut(&pair->sets[FIRST], pair->settled[FIRST]) && is_a_cut(&pair->sets[SECOND], pair->settled[SECOND]);
}

static const struct pair *nothing(void)
{
    static struct pair pair;
    for (int which = FIRST; which < SETS; which++)
        pair.sets[which] = *empty(longest[which]);
    return &pair;
}

/* The search. */

static void complete(const struct pair *pair, int weight)
{
    *log_end++ = 'F';
    if (are_cuts(pair)) {
        reached = bound_of(pair, pair->settled, weight);
        best[FIRST] = pair->sets[FIRST].members, best[SECOND] = pair->sets[SECOND].members;
    }
}

/* The item that shows that no pair with this label of the node is better, or 0. */
static inline char pruning(const struct pair *pair, int which, const struct node *node, int weight,
                           struct change *change)
{
    change->outputs = outputs_with(&pair->sets[which], node);
    if (change->outputs > most_outputs)
        return 'O';
    if (meets(&node->below, &pair->sets[which].between))
        return 'C';
    inputs_with(change, pair, which, node);
    if (is_above_inputs(change->inputs))
        return 'I';
    change->leads = leads_with(pair, which, node);
    if (change->leads && pair->leads[!which])
        return 'X';
    if (is_mirrored_with(pair, which))
        return 'M';
    cycles_of(change, pair, which, node);
    return bound_with(pair, which, change, weight) <= reached ? 'G' : 0;
}

static void visit(int number, const struct pair *given, int weight);

/* Goes through the prefix that puts a node into one of the sets. */
static inline void visit_with(int number, const struct pair *pair, int which, int weight)
{
    const struct node *node = &levels[number];
    struct change change;
    char leaf = pruning(pair, which, node, weight, &change);
    if (leaf) {
        *log_end++ = leaf;
        return;
    }
    struct pair next;
    grow(&next, pair, which, node, &change);
    if (number + 1 == level_count) {
        complete(&next, weight);
        return;
    }
    int *chains = longest[which], first = chains[node->sources[0]], second = chains[node->sources[1]];
    chains[node->sources[0]] = first > change.path ? first : change.path;
    chains[node->sources[1]] = second > change.path ? second : change.path;
    visit(number + 1, &next, weight);
    chains[node->sources[0]] = first, chains[node->sources[1]] = second;
}

/* Goes through an open prefix in which a node is not labelled. */
static void visit(int number, const struct pair *given, int weight)
{
    struct pair pair = *given;
    for (;;) {
        const struct node *node = &levels[number];
        open_prefix();
        visit_with(number, &pair, FIRST, weight);
        visit_with(number, &pair, SECOND, weight);
        pair.settled[FIRST] = settled_without(&pair, FIRST, node);
        pair.settled[SECOND] = settled_without(&pair, SECOND, node);
        weight -= node->weight;
        if (is_above_inputs(pair.settled)) {
            *log_end++ = 'I';
            return;
        }
        if (bound_of(&pair, pair.settled, weight) <= reached) {
            *log_end++ = 'G';
            return;
        }
        if (++number == level_count) {
            complete(&pair, weight);
            return;
        }
    }
}

/* Whether the budget suffices. */
static bool search(void)
{
    const struct pair *pair = nothing();
    opened = 0, reached = 0, log_end = log_items;
    memset(best, 0, sizeof best);
    if (setjmp(spent))
        return false;
    if (bound_of(pair, pair->settled, all_weights) <= 0)
        *log_end++ = 'G';
    else if (level_count == 0)
        complete(pair, 0);
    else
        visit(0, pair, all_weights);
    return true;
}

/* The check. Of a prefix it knows also whether both sets are convex, and whether the second has the greatest node. */

struct station {
    struct pair pair;
    bool convex, mirrored;
    int weight;
    enum place place;
};

static inline enum place next_place(enum place place, const struct node *node, enum label label)
{
    enum label due = has(&best[FIRST], node->number) ? FIRST : has(&best[SECOND], node->number) ? SECOND : OUT;
    return place != SAME || due == label ? place : due < label ? AFTER : BEFORE;
}

static void choice(const struct station *at)
{
    const struct pair *pair = &at->pair;
    bool fit = at->convex && !at->mirrored && !(pair->leads[FIRST] && pair->leads[SECOND])
        && !is_above_inputs(pair->settled) && pair->sets[FIRST].outputs <= most_outputs
        && pair->sets[SECOND].outputs <= most_outputs && are_cuts(pair);
    int gain = bound_of(pair, pair->settled, at->weight);
    need(!fit || gain < best_gain || (gain == best_gain && at->place != BEFORE));
}

static void check_from(int number, const struct station *given);

/* Checks the items at and below the prefix that puts a node into one of the sets. */
static inline void check_with(int number, const struct station *at, int which)
{
    const struct node *node = &levels[number];
    const struct pair *pair = &at->pair;
    struct change change;
    enum place place = next_place(at->place, node, which);
    bool convex;
    switch (*item++) {
    case 'O':
        need(outputs_with(&pair->sets[which], node) > most_outputs || pair->sets[!which].outputs > most_outputs);
        return;
    case 'C':
        need(!at->convex || meets(&node->below, &pair->sets[which].between));
        return;
    case 'I':
        inputs_with(&change, pair, which, node);
        need(is_above_inputs(change.inputs));
        return;
    case 'X':
        need(leads_with(pair, which, node) && pair->leads[!which]);
        return;
    case 'M':
        need(at->mirrored || is_mirrored_with(pair, which));
        return;
    case 'G':
        change.outputs = outputs_with(&pair->sets[which], node);
        inputs_with(&change, pair, which, node);
        cycles_of(&change, pair, which, node);
        bound(bound_with(pair, which, &change, at->weight), place);
        return;
    default:
        need(item[-1] == 'F' ? number + 1 == level_count : item[-1] == 'B' && number + 1 < level_count);
        convex = at->convex && !meets(&node->below, &pair->sets[which].between);
        struct station next = { .convex = convex, .mirrored = at->mirrored || is_mirrored_with(pair, which),
                                .weight = at->weight, .place = place };
        change.outputs = outputs_with(&pair->sets[which], node);
        change.leads = leads_with(pair, which, node);
        inputs_with(&change, pair, which, node);
        cycles_of(&change, pair, which, node);
        grow(&next.pair, pair, which, node, &change);
        if (item[-1] == 'F') {
            choice(&next);
            return;
        }
        int *chains = longest[which], first = chains[node->sources[0]], second = chains[node->sources[1]];
        chains[node->sources[0]] = first > change.path ? first : change.path;
        chains[node->sources[1]] = second > change.path ? second : change.path;
        check_from(number + 1, &next);
        chains[node->sources[0]] = first, chains[node->sources[1]] = second;
    }
}

/* Checks a leaf, or a branch, at a prefix; the answer tells whether it branches. */
static inline bool check_item(int number, const struct station *at)
{
    const struct pair *pair = &at->pair;
    switch (*item++) {
    case 'O': need(pair->sets[FIRST].outputs > most_outputs || pair->sets[SECOND].outputs > most_outputs); return false;
    case 'C': need(!at->convex); return false;
    case 'I': need(is_above_inputs(pair->settled)); return false;
    case 'X': need(pair->leads[FIRST] && pair->leads[SECOND]); return false;
    case 'M': need(at->mirrored); return false;
    case 'G': bound(bound_of(pair, pair->settled, at->weight), at->place); return false;
    case 'F': need(number == level_count); choice(at); return false;
    default: need(item[-1] == 'B' && number < level_count); return true;
    }
}

/* Checks the items below a prefix that branches. */
static void check_from(int number, const struct station *given)
{
    struct station at = *given;
    do {
        const struct node *node = &levels[number];
        check_with(number, &at, FIRST);
        check_with(number, &at, SECOND);
        at.pair.settled[FIRST] = settled_without(&at.pair, FIRST, node);
        at.pair.settled[SECOND] = settled_without(&at.pair, SECOND, node);
        at.weight -= node->weight;
        at.place = next_place(at.place, node, OUT);
    } while (check_item(++number, &at));
}

/* Whether the log shows that a pair, or none, is the best. */
static bool check(void)
{
    struct station at = { *nothing(), true, false, all_weights, has_best ? SAME : AFTER };
    item = log_items;
    if (setjmp(refused))
        return false;
    if (check_item(0, &at))
        check_from(0, &at);
    return item == log_end;
}

static void print(void)
{
    printf("pair");
    show(&best[FIRST]);
    printf(" and");
    show(&best[SECOND]);
    printf(" gain %d\n", best_gain);
}

int main(int count, char **words)
{
    static const struct method method = { "pairs", "no pair", 3, search, check, print };
    return timed(&method, count, words);
}
