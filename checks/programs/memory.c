/* `malloc` through the break: a tree of words, a list that grows, and what the break itself answers. */
#include <stdio.h>
#include <stdlib.h>
#include <string.h>
#include "../../samples/system.h"

struct tree {
    struct tree *children[2];
    int key, count;
};

static void add(struct tree **place, int key)
{
    while (*place && (*place)->key != key)
        place = &(*place)->children[key > (*place)->key];
    if (!*place) {
        *place = calloc(1, sizeof **place);
        (*place)->key = key;
    }
    (*place)->count++;
}

static int print(const struct tree *tree, int place)
{
    if (!tree)
        return place;
    place = print(tree->children[0], place);
    printf("%d:%d%c", tree->key, tree->count, place % 16 == 15 ? '\n' : ' ');
    return print(tree->children[1], place + 1);
}

static void release(struct tree *tree)
{
    if (tree) {
        release(tree->children[0]);
        release(tree->children[1]);
        free(tree);
    }
}

/* The break goes up, down and up again: new bytes are zero each time. */
static void move_break(void)
{
    int heap = environment_call(CALL_BRK, 0, 0, 0);
    int sum = 0;
    for (int round = 0; round < 3; round++) {
        int size = 10000 >> round;
        sum += environment_call(CALL_BRK, heap + size, 0, 0) == heap + size;
        for (int i = 0; i < size; i++)
            sum += ((unsigned char *)heap)[i];
        memset((void *)heap, 0x55, size);
        sum += environment_call(CALL_BRK, heap, 0, 0) == heap;
    }
    printf("%d %d\n", sum, environment_call(CALL_BRK, 16, 0, 0) == heap);
}

int main(void)
{
    struct tree *tree = 0;
    unsigned seed = 7, count = 0, *list = 0;
    for (int i = 0; i < 300; i++) {
        seed = seed * 1664525 + 1013904223;
        add(&tree, (int)(seed >> 25));
        if (i % 10 == 0)
            list = realloc(list, (i + 10) * sizeof *list);
        list[count++] = seed;
    }
    print(tree, 0);
    release(tree);
    unsigned sum = 0;
    for (unsigned i = 0; i < count; i++)
        sum = sum * 5 + list[i];
    free(list);
    printf("\n%u\n", sum);
    move_break();
    return 0;
}
