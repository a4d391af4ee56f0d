/* The lengths of the shortest ways from a point of a sparse graph to all others: by a heap of the points that are near
   (Dijkstra), and by a queue of the points whose lengths fell (Moore), which have to agree. */
#include "../guest.h"

enum { POINTS = 4096, ROADS = 4, TIMES = 14, NONE = -1 };

static const word FAR = 0xffffffff;

static int starts[POINTS + 1], ends[2 * POINTS * ROADS], froms[POINTS * ROADS], tos[POINTS * ROADS];
static word costs[POINTS * ROADS], lengths[2 * POINTS * ROADS], nearest[POINTS], others[POINTS];
static int heap[POINTS], places[POINTS], queue[POINTS], many;
static byte waits[POINTS];

/* Roads between points whose numbers are mostly close, each both ways, in one row for each point. */
static void lay_roads(void)
{
    for (int i = 0; i <= POINTS; i++)
        starts[i] = 0;
    for (int i = 0; i < POINTS * ROADS; i++) {
        froms[i] = i / ROADS;
        tos[i] = i % ROADS ? (froms[i] + 1 + (int)(next() % 64)) % POINTS : (int)(next() % POINTS);
        costs[i] = 1 + next() % 1000;
        starts[froms[i]]++, starts[tos[i]]++;
    }
    for (int i = 0; i < POINTS; i++)
        starts[i + 1] += starts[i];
    for (int i = 0; i < POINTS * ROADS; i++) {
        int there = --starts[froms[i]], back = --starts[tos[i]];
        ends[there] = tos[i], ends[back] = froms[i];
        lengths[there] = lengths[back] = costs[i];
    }
}

static void put(int place, int point)
{
    heap[place] = point;
    places[point] = place;
}

static void rise(int point)
{
    int place = places[point];
    while (place > 0 && nearest[heap[(place - 1) / 2]] > nearest[point]) {
        put(place, heap[(place - 1) / 2]);
        place = (place - 1) / 2;
    }
    put(place, point);
}

static int take_first(void)
{
    int first = heap[0], point = heap[--many], place = 0;
    for (int child = 1; child < many; child = 2 * place + 1) {
        if (child + 1 < many && nearest[heap[child + 1]] < nearest[heap[child]])
            child++;
        if (nearest[heap[child]] >= nearest[point])
            break;
        put(place, heap[child]);
        place = child;
    }
    put(place, point);
    return first;
}

static void by_heap(int from)
{
    for (int i = 0; i < POINTS; i++)
        nearest[i] = FAR, places[i] = NONE;
    nearest[from] = 0;
    put(0, from);
    many = 1;
    while (many > 0) {
        int point = take_first();
        for (int road = starts[point]; road < starts[point + 1]; road++) {
            int end = ends[road];
            word length = nearest[point] + lengths[road];
            if (length >= nearest[end])
                continue;
            if (places[end] == NONE)
                places[end] = many++;
            nearest[end] = length;
            rise(end);
        }
    }
}

static void by_queue(int from)
{
    int first = 0, waiting = 1;
    for (int i = 0; i < POINTS; i++)
        others[i] = FAR;
    others[from] = 0;
    queue[0] = from;
    while (waiting > 0) {
        int point = queue[first];
        first = (first + 1) % POINTS, waiting--;
        waits[point] = 0;
        for (int road = starts[point]; road < starts[point + 1]; road++) {
            int end = ends[road];
            if (others[point] + lengths[road] >= others[end])
                continue;
            others[end] = others[point] + lengths[road];
            if (!waits[end])
                queue[(first + waiting++) % POINTS] = end;
            waits[end] = 1;
        }
    }
}

void run(void)
{
    word sum = 0;
    for (int time = 0; time < TIMES; time++) {
        int from = (int)(next() % POINTS);
        lay_roads();
        by_heap(from);
        by_queue(from);
        for (int i = 0; i < POINTS; i++) {
            if (nearest[i] != others[i])
                leave(1);
            sum = sum * 31 + nearest[i];
        }
    }
    finish(sum);
}
