/* Products of matrices of words, in the plain order and by tiles, which have to agree. */
#include "../guest.h"

enum { SIZE = 64, TILE = 8, PRODUCTS = 16 };

static word left[SIZE][SIZE], right[SIZE][SIZE], plain[SIZE][SIZE], tiled[SIZE][SIZE];

static void multiply_plainly(void)
{
    for (int i = 0; i < SIZE; i++)
        for (int j = 0; j < SIZE; j++) {
            word sum = 0;
            for (int k = 0; k < SIZE; k++)
                sum += left[i][k] * right[k][j];
            plain[i][j] = sum;
        }
}

static void multiply_tile(int row, int column, int inner)
{
    for (int i = row; i < row + TILE; i++)
        for (int k = inner; k < inner + TILE; k++) {
            word factor = left[i][k];
            for (int j = column; j < column + TILE; j++)
                tiled[i][j] += factor * right[k][j];
        }
}

static void multiply_by_tiles(void)
{
    for (int i = 0; i < SIZE; i++)
        for (int j = 0; j < SIZE; j++)
            tiled[i][j] = 0;
    for (int i = 0; i < SIZE; i += TILE)
        for (int k = 0; k < SIZE; k += TILE)
            for (int j = 0; j < SIZE; j += TILE)
                multiply_tile(i, j, k);
}

void run(void)
{
    word sum = 0;
    for (int i = 0; i < SIZE; i++)
        for (int j = 0; j < SIZE; j++)
            left[i][j] = next(), right[i][j] = next();
    for (int product = 0; product < PRODUCTS; product++) {
        multiply_plainly();
        multiply_by_tiles();
        for (int i = 0; i < SIZE; i++)
            for (int j = 0; j < SIZE; j++) {
                if (plain[i][j] != tiled[i][j])
                    leave(1);
                sum = sum * 31 + plain[i][j];
                left[i][j] = plain[i][j] ^ (word)product;
            }
    }
    finish(sum);
}
