/* The number of ways to place as many queens on a board as it has rows, so that none attacks another: with sets of bits
   and by calls, and by a list of columns without one, which have to agree. */
#include "../guest.h"

enum { LARGE = 12, SMALL = 8 };

static word ways(word free, word columns, word down, word up)
{
    word count = 0, places = free & ~(columns | down | up);
    if (columns == free)
        return 1;
    while (places) {
        word place = places & -places;
        places ^= place;
        count += ways(free, columns | place, (down | place) << 1, (up | place) >> 1);
    }
    return count;
}

static int attacks(const int *columns, int row)
{
    for (int other = 0; other < row; other++) {
        int apart = columns[row] - columns[other];
        if (apart == 0 || apart == row - other || apart == other - row)
            return 1;
    }
    return 0;
}

static word ways_by_list(int size)
{
    int columns[LARGE], row = 0;
    word count = 0;
    columns[0] = -1;
    while (row >= 0) {
        columns[row]++;
        if (columns[row] == size) {
            row--;
        } else if (!attacks(columns, row)) {
            if (row == size - 1)
                count++;
            else
                columns[++row] = -1;
        }
    }
    return count;
}

void run(void)
{
    word sum = 0;
    /* OEIS A000170. */
    if (ways((1 << SMALL) - 1, 0, 0, 0) != 92 || ways_by_list(SMALL) != 92)
        leave(1);
    for (int size = SMALL; size <= LARGE; size++)
        sum = sum * 31 + ways((1u << size) - 1, 0, 0, 0);
    for (int size = SMALL; size < LARGE - 1; size++)
        sum = sum * 31 + ways_by_list(size);
    finish(sum);
}
