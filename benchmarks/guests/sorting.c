/* Sorts numbers by partition, by a heap, by merging and by their digits. All four have to give the same order. */
#include "../guest.h"

enum { LENGTH = 16384, TIMES = 6, SHORT = 8 };

static word given[LENGTH], numbers[LENGTH], others[LENGTH];

static void insert(word *from, int count)
{
    for (int i = 1; i < count; i++) {
        word value = from[i];
        int place = i;
        for (; place > 0 && from[place - 1] > value; place--)
            from[place] = from[place - 1];
        from[place] = value;
    }
}

static void partition(word *from, int count)
{
    while (count > SHORT) {
        word pivot = from[count / 2];
        int low = -1, high = count;
        for (;;) {
            do low++; while (from[low] < pivot);
            do high--; while (from[high] > pivot);
            if (low >= high)
                break;
            word value = from[low];
            from[low] = from[high], from[high] = value;
        }
        partition(from + high + 1, count - high - 1);
        count = high + 1;
    }
    insert(from, count);
}

static void sink(word *from, int place, int count)
{
    word value = from[place];
    for (int child = 2 * place + 1; child < count; child = 2 * place + 1) {
        if (child + 1 < count && from[child + 1] > from[child])
            child++;
        if (from[child] <= value)
            break;
        from[place] = from[child];
        place = child;
    }
    from[place] = value;
}

static void sort_by_heap(word *from, int count)
{
    for (int i = count / 2; i-- > 0;)
        sink(from, i, count);
    while (count-- > 1) {
        word value = from[count];
        from[count] = from[0], from[0] = value;
        sink(from, 0, count);
    }
}

static void merge(word *from, int count)
{
    if (count <= SHORT) {
        insert(from, count);
        return;
    }
    int half = count / 2, left = 0, right = half;
    merge(from, half);
    merge(from + half, count - half);
    for (int i = 0; i < half; i++)
        others[i] = from[i];
    for (int i = 0; left < half; i++)
        from[i] = right == count || others[left] <= from[right] ? others[left++] : from[right++];
}

static void sort_by_digits(word *from, word *to, int count)
{
    for (int shift = 0; shift < 32; shift += 8) {
        int starts[257];
        for (int i = 0; i <= 256; i++)
            starts[i] = 0;
        for (int i = 0; i < count; i++)
            starts[(from[i] >> shift & 255) + 1]++;
        for (int i = 0; i < 256; i++)
            starts[i + 1] += starts[i];
        for (int i = 0; i < count; i++)
            to[starts[from[i] >> shift & 255]++] = from[i];
        word *swapped = from;
        from = to, to = swapped;
    }
}

/* A checksum of the order, which has to rise. */
static word sum_of_order(void)
{
    word sum = 0;
    for (int i = 0; i < LENGTH; i++) {
        if (i > 0 && numbers[i - 1] > numbers[i])
            leave(1);
        sum = sum * 31 + numbers[i];
    }
    return sum;
}

static word sorted(int way)
{
    for (int i = 0; i < LENGTH; i++)
        numbers[i] = given[i];
    switch (way) {
    case 0: partition(numbers, LENGTH); break;
    case 1: sort_by_heap(numbers, LENGTH); break;
    case 2: merge(numbers, LENGTH); break;
    default: sort_by_digits(numbers, others, LENGTH);
    }
    return sum_of_order();
}

void run(void)
{
    word sum = 0;
    for (int time = 0; time < TIMES; time++) {
        for (int i = 0; i < LENGTH; i++)
            given[i] = next() >> time;
        word first = sorted(0);
        for (int way = 1; way < 4; way++)
            if (sorted(way) != first)
                leave(2);
        sum = sum * 31 + first;
    }
    finish(sum);
}
