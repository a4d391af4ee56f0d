/* What the plain searches for cuts share: the graph, as graphs.py writes it; sets of members that grow node by node;
   and how a search and the check of its log are timed.

   GRAPH is what graphs.py writes: the number of nodes, the read latency and the pad; then for each node whether it is
   eligible, its latency, its delay, whether its value is live after the block, the number of its sources, the sources,
   which are nodes or 256 and the number of a register at entry, the number of nodes from which a walk leads to it, and
   those. It takes the graph as it is told: a wrong one may do anything here. */
#include <setjmp.h>
#include <stdbool.h>
#include <stdint.h>
#include <stdio.h>
#include <stdlib.h>
#include <string.h>
#include <time.h>

enum { WORDS = 4, NODES = 256, REGISTERS = 32, NOTHING = NODES + REGISTERS, PLACES, SOURCES = 2, CYCLE = 1000 };
/* The operands of a unit's own word; more of them take a further word. */
enum { OPERANDS = 3 };

struct row {
    uint64_t words[WORDS];
};

/* A node, with the nodes from which a walk leads to it, those to which one leads from it, and those that read it. A
   source that it hasn't is NOTHING. A source that can't become a member any more, once a member reads it, settles. */
struct node {
    struct row above, below, readers;
    int number, sources[SOURCES], settles[SOURCES], weight, delay;
    bool eligible, live;
};

/* A set of members: the nodes outside it that lead to it, how many it has and how many of them are outputs, its cycles,
   and what the formula of the gain takes off the members' weights by these. */
struct set {
    struct row members, between;
    int size, outputs, cycles, charge;
};

/* All nodes; the eligible ones in the order in which they are decided, and the sum of their weights, each of which is
   the latency without the pad. */
static struct node nodes[NODES], levels[NODES];
static int node_count, level_count, all_weights, read_latency, pad, most_inputs, most_outputs;

/* For each node and register at entry, the longest delay from a member that reads it on; -1 where none reads it. */
typedef int delays[PLACES];

/* Rows. */

static inline bool meets(const struct row *left, const struct row *right)
{
    uint64_t common = 0;
    for (int i = 0; i < WORDS; i++)
        common |= left->words[i] & right->words[i];
    return common;
}

static inline bool is_within(const struct row *inner, const struct row *outer)
{
    uint64_t rest = 0;
    for (int i = 0; i < WORDS; i++)
        rest |= inner->words[i] & ~outer->words[i];
    return !rest;
}

static inline bool has(const struct row *row, int number)
{
    return row->words[number / 64] >> number % 64 & 1;
}

static inline void insert(struct row *row, int number)
{
    row->words[number / 64] |= 1ull << number % 64;
}

/* Sets of members. */

/* What the gain loses by the cycles and by the outputs after the first. The pad of each member is in its weight. */
static inline int charge(int outputs, int cycles)
{
    return cycles - pad + (outputs > 1 ? outputs - 1 : 0) * (read_latency - pad);
}

/* What more it loses where there are more inputs than operands. */
static inline int for_inputs(int settled)
{
    return settled > OPERANDS ? read_latency - pad : 0;
}

static inline int outputs_with(const struct set *set, const struct node *node)
{
    return set->outputs + (node->live || !is_within(&node->readers, &set->members));
}

/* The settled inputs once a node is taken in. */
static inline int settled_with(const int *longest, const struct node *node, int settled)
{
    return settled + (longest[node->sources[0]] < 0 ? node->settles[0] : 0)
        + (longest[node->sources[1]] < 0 ? node->settles[1] : 0);
}

/* The delay from a node that is taken in. */
static inline int path_of(const int *longest, const struct node *node)
{
    int behind = longest[node->number];
    return node->delay + (behind > 0 ? behind : 0);
}

static inline int cycles_with(const struct set *set, int path)
{
    return path > set->cycles * CYCLE ? (path + CYCLE - 1) / CYCLE : set->cycles;
}

/* A set with one more member, which lies before all of its members. */
static inline void extend(struct set *next, const struct set *set, const struct node *node, int outputs, int cycles)
{
    next->members = set->members;
    insert(&next->members, node->number);
    for (int i = 0; i < WORDS; i++)
        next->between.words[i] = set->between.words[i] | node->above.words[i];
    next->between.words[node->number / 64] &= ~(1ull << node->number % 64);
    next->size = set->size + 1;
    next->outputs = outputs;
    next->cycles = cycles;
    next->charge = charge(outputs, cycles);
}

/* Whether a set with so many inputs keeps the limits of a cut that a prefix doesn't have to keep: it has an output, and
   a member for each word. */
static inline bool is_a_cut(const struct set *set, int inputs)
{
    return set->outputs >= 1 && set->size >= set->outputs + (inputs > OPERANDS);
}

/* The empty set, and the delays beside it. */
static const struct set *empty(int *longest)
{
    static struct set set;
    set.cycles = 1;
    set.charge = charge(0, 1);
    memset(longest, -1, sizeof(delays));
    return &set;
}

/* The search, of which the log and its number of prefixes are kept here. */

static char *log_items, *log_end;
static uint32_t opened, budget;
static int reached;
static jmp_buf spent;

/* Opens a prefix, which branches. */
static inline void open_prefix(void)
{
    if (opened == budget)
        longjmp(spent, 1);
    opened++;
    *log_end++ = 'B';
}

/* The check. A prefix is the beginning of the best, or comes before or after it. */

enum place { BEFORE = -1, SAME, AFTER };

static const char *item;
static int best_gain;
static bool has_best;
static jmp_buf refused;

/* Refuses the item that was read last where a condition doesn't hold. */
static inline void need(bool condition)
{
    if (!condition)
        longjmp(refused, 1);
}

static inline void bound(int value, enum place place)
{
    need(value < best_gain || (value == best_gain && place == AFTER));
}

/* The graph. */

static int number_from(FILE *file)
{
    int number;
    if (fscanf(file, "%d", &number) != 1) {
        fprintf(stderr, "a number of the graph is missing\n");
        exit(2);
    }
    return number;
}

static void read_graph(FILE *file)
{
    node_count = number_from(file), read_latency = number_from(file), pad = number_from(file);
    for (int i = 0; i < node_count; i++) {
        struct node *node = &nodes[i];
        node->number = i, node->eligible = number_from(file), node->weight = number_from(file) - pad;
        node->delay = number_from(file), node->live = number_from(file);
        node->sources[0] = node->sources[1] = NOTHING;
        for (int k = 0, count = number_from(file); k < count; k++) {
            int source = number_from(file);
            if (source < NODES)
                insert(&nodes[source].readers, i);
            if (k < SOURCES)
                node->sources[k] = source, node->settles[k] = source >= NODES || !nodes[source].eligible;
        }
        for (int count = number_from(file); count > 0; count--) {
            int before = number_from(file);
            insert(&node->above, before), insert(&nodes[before].below, i);
        }
    }
    for (int i = node_count; i-- > 0;)
        if (nodes[i].eligible)
            levels[level_count++] = nodes[i], all_weights += nodes[i].weight;
}

static void show(const struct row *members)
{
    for (int i = 0; i < node_count; i++)
        if (has(members, i))
            printf(" %d", i);
}

/* A search that tells whether the budget suffices, for a log that has one item and so many more for each prefix opened;
   a check that tells whether the log shows that the best, or none, is the best; and what prints it. */
struct method {
    const char *name, *none;
    int more_items;
    bool (*search)(void), (*check)(void);
    void (*print)(void);
};

/* Does what the words of the command line say, and gives the status. */
static int timed(const struct method *method, int count, char **words)
{
    FILE *file = count == 6 ? fopen(words[1], "r") : NULL;
    if (!file) {
        fprintf(stderr, "use: %s GRAPH INPUTS OUTPUTS BUDGET ROUNDS\n", method->name);
        return 2;
    }
    read_graph(file);
    most_inputs = atoi(words[2]), most_outputs = atoi(words[3]), budget = (uint32_t)atoll(words[4]);
    int rounds = atoi(words[5]);
    bool suffices = true, accepted = true;
    log_items = malloc(method->more_items * (size_t)budget + 1 + NODES);
    clock_t begin = clock();
    for (int i = 0; i < rounds; i++)
        suffices &= method->search();
    clock_t searched = clock();
    has_best = reached > 0, best_gain = reached;
    for (int i = 0; i < rounds && suffices; i++)
        accepted &= method->check();
    clock_t checked = clock();
    if (!suffices)
        printf("skipped budget %u\n", budget);
    else if (!has_best)
        printf("%s\n", method->none);
    else
        method->print();
    printf("opened %u in %.9f\n", opened, (double)(searched - begin) / CLOCKS_PER_SEC / rounds);
    if (suffices)
        printf("items %td in %.9f\n", log_end - log_items, (double)(checked - searched) / CLOCKS_PER_SEC / rounds);
    return accepted ? 0 : 1;
}
