/* A plain search for the best cut of a graph, and a check of its log: the yardstick for the speed of `rumtsafi best`.

       search GRAPH INPUTS OUTPUTS BUDGET ROUNDS

   Eligible nodes are decided from the last to the first, in before out; what is told of a prefix is kept up to date
   from one decision to the next, in rows of 256 bits. It searches ROUNDS times, with the log in an array, and checks
   the log as often. It prints the line of `best`; how many prefixes were opened, which is the need where the budget
   isn't spent, and the seconds of processor time for a search; and the number of the log's items and those for a check.
   GRAPH is what graphs.py writes. */
#include "cuts.h"

static delays longest;

/* The search. */

static struct row best;

static void complete(const struct set *set, int inputs, int weight)
{
    *log_end++ = 'F';
    if (is_a_cut(set, inputs)) {
        reached = weight - set->charge - for_inputs(inputs);
        best = set->members;
    }
}

/* Goes through an open prefix in which a node is undecided. The weights are those of the nodes not left out. */
static void visit(int number, const struct set *set, int settled, int weight)
{
    for (;;) {
        const struct node *node = &levels[number];
        open_prefix();
        if (meets(&node->below, &set->between)) {
            *log_end++ = 'C';
        } else {
            int outputs = outputs_with(set, node), inputs = settled_with(longest, node, settled);
            int path = path_of(longest, node), cycles = cycles_with(set, path);
            if (outputs > most_outputs) {
                *log_end++ = 'O';
            } else if (inputs > most_inputs) {
                *log_end++ = 'I';
            } else if (weight - charge(outputs, cycles) - for_inputs(inputs) <= reached) {
                *log_end++ = 'G';
            } else {
                int first = longest[node->sources[0]], second = longest[node->sources[1]];
                struct set next;
                extend(&next, set, node, outputs, cycles);
                if (number + 1 == level_count) {
                    complete(&next, inputs, weight);
                } else {
                    longest[node->sources[0]] = first > path ? first : path;
                    longest[node->sources[1]] = second > path ? second : path;
                    visit(number + 1, &next, inputs, weight);
                    longest[node->sources[0]] = first, longest[node->sources[1]] = second;
                }
            }
        }
        settled += longest[node->number] >= 0;
        weight -= node->weight;
        if (settled > most_inputs) {
            *log_end++ = 'I';
            return;
        }
        if (weight - set->charge - for_inputs(settled) <= reached) {
            *log_end++ = 'G';
            return;
        }
        if (++number == level_count) {
            complete(set, settled, weight);
            return;
        }
    }
}

/* Whether the budget suffices. */
static bool search(void)
{
    const struct set *set = empty(longest);
    opened = 0, reached = 0, log_end = log_items;
    memset(&best, 0, sizeof best);
    if (setjmp(spent))
        return false;
    if (all_weights - set->charge <= 0)
        *log_end++ = 'G';
    else if (level_count == 0)
        complete(set, 0, 0);
    else
        visit(0, set, 0, all_weights);
    return true;
}

/* The check. */

static inline enum place next_place(enum place place, const struct node *node, bool taken)
{
    bool due = has(&best, node->number);
    return place != SAME || due == taken ? place : due ? AFTER : BEFORE;
}

static void choice(const struct set *set, bool convex, int settled, int weight, enum place place)
{
    int gain = weight - set->charge - for_inputs(settled);
    bool fits = convex && settled <= most_inputs && set->outputs <= most_outputs && is_a_cut(set, settled);
    need(!fits || gain < best_gain || (gain == best_gain && place != BEFORE));
}

/* Checks the items at a prefix, of which the first is B, and below it. */
static void check_from(int number, const struct set *set, bool convex, int settled, int weight, enum place place)
{
    for (;;) {
        const struct node *node = &levels[number];
        enum place inside = next_place(place, node, true);
        switch (*item++) {
        case 'C': need(!convex || meets(&node->below, &set->between)); break;
        case 'O': need(outputs_with(set, node) > most_outputs); break;
        case 'I': need(settled_with(longest, node, settled) > most_inputs); break;
        case 'G':
            bound(weight - charge(outputs_with(set, node), cycles_with(set, path_of(longest, node)))
                  - for_inputs(settled_with(longest, node, settled)), inside);
            break;
        default: {
            bool is_convex = convex && !meets(&node->below, &set->between);
            int path = path_of(longest, node), inputs = settled_with(longest, node, settled);
            int first = longest[node->sources[0]], second = longest[node->sources[1]];
            struct set next;
            extend(&next, set, node, outputs_with(set, node), cycles_with(set, path));
            if (item[-1] == 'F') {
                need(number + 1 == level_count);
                choice(&next, is_convex, inputs, weight, inside);
                break;
            }
            need(item[-1] == 'B' && number + 1 < level_count);
            longest[node->sources[0]] = first > path ? first : path;
            longest[node->sources[1]] = second > path ? second : path;
            check_from(number + 1, &next, is_convex, inputs, weight, inside);
            longest[node->sources[0]] = first, longest[node->sources[1]] = second;
        }
        }
        settled += longest[node->number] >= 0;
        weight -= node->weight;
        place = next_place(place, node, false);
        number++;
        switch (*item++) {
        case 'C': need(!convex); return;
        case 'O': need(set->outputs > most_outputs); return;
        case 'I': need(settled > most_inputs); return;
        case 'G': bound(weight - set->charge - for_inputs(settled), place); return;
        case 'F': need(number == level_count); choice(set, convex, settled, weight, place); return;
        default: need(item[-1] == 'B' && number < level_count);
        }
    }
}

/* Whether the log shows that a cut, or none, is the best. */
static bool check(void)
{
    const struct set *set = empty(longest);
    enum place place = has_best ? SAME : AFTER;
    item = log_items;
    if (setjmp(refused))
        return false;
    switch (*item++) {
    case 'B': need(level_count > 0); check_from(0, set, true, 0, all_weights, place); break;
    case 'G': bound(all_weights - set->charge, place); break;
    case 'F': need(level_count == 0); choice(set, true, 0, 0, place); break;
    default: need(false);
    }
    return item == log_end;
}

static void print(void)
{
    printf("cut");
    show(&best);
    printf(" gain %d\n", best_gain);
}

int main(int count, char **words)
{
    static const struct method method = { "search", "no cut", 2, search, check, print };
    return timed(&method, count, words);
}
