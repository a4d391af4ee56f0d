/* A plain search for the best set of pieces under an area limit, and a check of its log: the yardstick for the speed of
   `rumtsafi area`.

       areas PIECES LIMIT BUDGET ROUNDS

   Pieces are decided from the last to the first. What those taken in need and gain is kept from one decision to the
   next, and what the undecided ones gain beyond their price at each rate stands in a table. It searches ROUNDS times,
   with the log in an array, and checks the log as often. It prints the line of `area`; how many prefixes were opened,
   which is the need where the budget isn't spent, and the seconds of processor time for a search; and the number of the
   log's items and those for a check. PIECES has their number, and of each its area and its gain. */
#include <stdbool.h>
#include <stdint.h>
#include <stdio.h>
#include <stdlib.h>
#include <time.h>

enum { PIECES = 32, RATES = PIECES + 1 };

typedef unsigned __int128 wide;

struct piece {
    uint64_t area, gain;
};

struct item {
    char kind;
    uint64_t num, den;
};

/* What is decided: what the pieces taken in have together, their numbers as bits, and how many are undecided. */
struct prefix {
    uint64_t area, gain;
    uint64_t set;
    int left;
};

static struct piece pieces[PIECES];
static int piece_count, rate_count;
static uint64_t limit;

/* The rates, each a gain for an area; and for each what the pieces below a number gain beyond their price, times the
   area. */
static struct piece rates[RATES];
static wide beyond[RATES][PIECES + 1];

static struct item *items, *items_end;
static const struct item *next_item;
static uint32_t opened, budget;
static uint64_t best_set, best_gain;

static wide beyond_price(const struct piece *piece, const struct piece *rate)
{
    wide gained = (wide)rate->area * piece->gain, price = (wide)rate->gain * piece->area;
    return gained > price ? gained - price : 0;
}

static void put_rates(void)
{
    rates[rate_count++] = (struct piece){ .area = 1, .gain = 0 };
    for (int k = 0; k < piece_count; k++)
        if (pieces[k].area > 0)
            rates[rate_count++] = pieces[k];
    for (int rate = 0; rate < rate_count; rate++)
        for (int k = 0; k < piece_count; k++)
            beyond[rate][k + 1] = beyond[rate][k] + beyond_price(&pieces[k], &rates[rate]);
}

/* The greedy set: each piece once, those first that gain most for their area, of equal ones the least number. */
static void take_greedy(void)
{
    uint64_t tried = 0;
    uint64_t area = 0;
    best_set = 0, best_gain = 0;
    for (int round = 0; round < piece_count; round++) {
        int first = -1;
        for (int k = 0; k < piece_count; k++)
            if (!(tried >> k & 1) && (first < 0 || (wide)pieces[first].gain * pieces[k].area
                                                       < (wide)pieces[k].gain * pieces[first].area))
                first = k;
        tried |= 1ull << first;
        if (area + pieces[first].area <= limit)
            area += pieces[first].area, best_gain += pieces[first].gain, best_set |= 1ull << first;
    }
}

/* Whether a prefix comes after the best: where they differ first, the best takes the piece in. */
static inline bool comes_after_best(const struct prefix *prefix)
{
    return best_set >> prefix->left > prefix->set >> prefix->left;
}

/* Whether by a rate no set that goes on from the prefix is better than the best. */
static inline bool gains_too_little(const struct prefix *prefix, const struct piece *rate, wide rest)
{
    wide bound = (wide)rate->area * prefix->gain + (wide)rate->gain * (limit - prefix->area) + rest;
    wide needed = (wide)rate->area * best_gain;
    return bound < needed || (bound - needed < rate->area && comes_after_best(prefix));
}

/* The item that shows that no set that goes on from the prefix is better, if there is one. */
static inline bool prune(const struct prefix *prefix)
{
    if (prefix->area > limit) {
        *items_end++ = (struct item){ .kind = 'A' };
        return true;
    }
    for (int rate = 0; rate < rate_count; rate++)
        if (gains_too_little(prefix, &rates[rate], beyond[rate][prefix->left])) {
            *items_end++ = (struct item){ .kind = 'G', .num = rates[rate].gain, .den = rates[rate].area };
            return true;
        }
    return false;
}

static inline struct prefix with_piece(const struct prefix *prefix)
{
    const struct piece *piece = &pieces[prefix->left - 1];
    return (struct prefix){ .area = prefix->area + piece->area, .gain = prefix->gain + piece->gain,
                            .set = prefix->set | 1ull << (prefix->left - 1), .left = prefix->left - 1 };
}

static inline bool is_better(const struct prefix *prefix)
{
    return prefix->area <= limit
        && (prefix->gain > best_gain || (prefix->gain == best_gain && prefix->set > best_set));
}

/* Goes through the sets that go on from a prefix; whether the budget suffices. */
static bool search_from(struct prefix prefix)
{
    for (; prefix.left > 0; prefix.left--) {
        if (prune(&prefix))
            return true;
        if (opened == budget)
            return false;
        opened++;
        *items_end++ = (struct item){ .kind = 'B' };
        if (!search_from(with_piece(&prefix)))
            return false;
    }
    *items_end++ = (struct item){ .kind = 'F' };
    if (is_better(&prefix))
        best_set = prefix.set, best_gain = prefix.gain;
    return true;
}

static bool search(void)
{
    opened = 0, items_end = items;
    take_greedy();
    return search_from((struct prefix){ .left = piece_count });
}

static bool is_right(const struct item *item, const struct prefix *prefix)
{
    struct piece rate = { .area = item->den, .gain = item->num };
    wide rest = 0;
    switch (item->kind) {
    case 'A':
        return prefix->area > limit;
    case 'G':
        if (rate.area == 0 || rate.area >> 63 || rate.gain >> 63 || prefix->area > limit)
            return false;
        for (int k = 0; k < prefix->left; k++)
            rest += beyond_price(&pieces[k], &rate);
        return gains_too_little(prefix, &rate, rest);
    case 'F':
        return prefix->left == 0 && !is_better(prefix);
    default:
        return prefix->left > 0;
    }
}

/* Checks the items of the sets that go on from a prefix. */
static bool check_from(struct prefix prefix)
{
    for (;; prefix.left--) {
        const struct item *item = next_item++;
        if (!is_right(item, &prefix))
            return false;
        if (item->kind != 'B')
            return true;
        if (!check_from(with_piece(&prefix)))
            return false;
    }
}

static bool check(void)
{
    next_item = items;
    return check_from((struct prefix){ .left = piece_count }) && next_item == items_end;
}

static void read_pieces(FILE *file)
{
    bool is_read = fscanf(file, "%d", &piece_count) == 1 && piece_count <= PIECES;
    for (int k = 0; is_read && k < piece_count; k++)
        is_read = fscanf(file, "%lu %lu", &pieces[k].area, &pieces[k].gain) == 2;
    if (!is_read) {
        fprintf(stderr, "a number of the pieces is missing\n");
        exit(2);
    }
}

static void print(void)
{
    uint64_t area = 0;
    for (int k = 0; k < piece_count; k++)
        area += best_set >> k & 1 ? pieces[k].area : 0;
    printf("area %lu gain %lu units", area, best_gain);
    for (int k = 0; k < piece_count; k++)
        if (best_set >> k & 1)
            printf(" %d", k);
    printf("\n");
}

int main(int count, char **words)
{
    FILE *file = count == 5 ? fopen(words[1], "r") : NULL;
    if (!file) {
        fprintf(stderr, "use: areas PIECES LIMIT BUDGET ROUNDS\n");
        return 2;
    }
    read_pieces(file);
    put_rates();
    limit = strtoull(words[2], NULL, 10), budget = (uint32_t)atoll(words[3]);
    int rounds = atoi(words[4]);
    bool suffices = true, accepted = true;
    items = malloc((2 * (size_t)budget + 1 + PIECES) * sizeof *items);
    clock_t begin = clock();
    for (int i = 0; i < rounds; i++)
        suffices &= search();
    clock_t searched = clock();
    for (int i = 0; i < rounds && suffices; i++)
        accepted &= check();
    clock_t checked = clock();
    if (suffices)
        print();
    else
        printf("skipped budget %u\n", budget);
    printf("opened %u in %.9f\n", opened, (double)(searched - begin) / CLOCKS_PER_SEC / rounds);
    if (suffices)
        printf("items %td in %.9f\n", items_end - items, (double)(checked - searched) / CLOCKS_PER_SEC / rounds);
    return accepted ? 0 : 1;
}
