/* One list of numbers, sorted by insertion, by a heap, and by the library, and searched. */
#include <stdio.h>
#include <stdlib.h>
#include <string.h>

enum { COUNT = 400 };

static short numbers[COUNT];

static void insertion_sort(short *values, int count)
{
    for (int i = 1; i < count; i++) {
        short value = values[i];
        int j = i;
        for (; j > 0 && values[j - 1] > value; j--)
            values[j] = values[j - 1];
        values[j] = value;
    }
}

static void sink(short *values, int place, int count)
{
    short value = values[place];
    for (int child; (child = 2 * place + 1) < count; place = child) {
        if (child + 1 < count && values[child + 1] > values[child])
            child++;
        if (values[child] <= value)
            break;
        values[place] = values[child];
    }
    values[place] = value;
}

static void heap_sort(short *values, int count)
{
    for (int i = count / 2; i-- > 0;)
        sink(values, i, count);
    while (--count > 0) {
        short greatest = values[0];
        values[0] = values[count];
        values[count] = greatest;
        sink(values, 0, count);
    }
}

static int compare(const void *left, const void *right)
{
    return *(const short *)left - *(const short *)right;
}

int main(void)
{
    short first[COUNT], second[COUNT], third[COUNT];
    unsigned seed = 12345;
    for (int i = 0; i < COUNT; i++) {
        seed = seed * 1664525 + 1013904223;
        numbers[i] = (short)(seed >> 16);
    }
    memcpy(first, numbers, sizeof numbers);
    memcpy(second, numbers, sizeof numbers);
    memcpy(third, numbers, sizeof numbers);
    insertion_sort(first, COUNT);
    heap_sort(second, COUNT);
    qsort(third, COUNT, sizeof *third, compare);
    for (int i = 0; i < COUNT; i++)
        printf("%d%c", first[i], i % 20 == 19 ? '\n' : ' ');
    int found = 0;
    for (int i = 0; i < COUNT; i++)
        found += bsearch(&numbers[i], second, COUNT, sizeof *second, compare) != 0;
    printf("%d %d %d\n", memcmp(first, second, sizeof first), memcmp(first, third, sizeof first), found);
    return 3;
}
