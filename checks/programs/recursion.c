/* Functions that call themselves: Ackermann's, the towers of Hanoi, the queens, and permutations. */
#include <stdio.h>

static int ackermann(int m, int n)
{
    return m == 0 ? n + 1 : n == 0 ? ackermann(m - 1, 1) : ackermann(m - 1, ackermann(m, n - 1));
}

static int move(int disks, int from, int to, unsigned *trace)
{
    if (disks == 0)
        return 0;
    int moves = move(disks - 1, from, 6 - from - to, trace);
    *trace = *trace * 31 + from * 4 + to;
    return moves + 1 + move(disks - 1, 6 - from - to, to, trace);
}

static int queens(unsigned columns, unsigned left, unsigned right, unsigned all)
{
    int found = columns == all;
    for (unsigned open = all & ~(columns | left | right); open; open &= open - 1) {
        unsigned place = open & -open;
        found += queens(columns | place, (left | place) << 1, (right | place) >> 1, all);
    }
    return found;
}

static void permute(char *letters, int from)
{
    if (!letters[from])
        printf("%s ", letters);
    for (int i = from; letters[i]; i++) {
        char letter = letters[i];
        letters[i] = letters[from], letters[from] = letter;
        permute(letters, from + 1);
        letters[from] = letters[i], letters[i] = letter;
    }
}

int main(void)
{
    char letters[] = "abcd";
    unsigned trace = 0;
    printf("%d\n", ackermann(2, 9));
    printf("%d ", move(10, 1, 3, &trace));
    printf("%u\n", trace);
    for (int size = 1; size <= 7; size++)
        printf("%d ", queens(0, 0, 0, (1u << size) - 1));
    permute(letters, 0);
    printf("\n");
    return ackermann(2, 100);
}
