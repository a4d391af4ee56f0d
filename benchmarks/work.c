/* A long run of mixed work for the benchmark: hashes, sorting, a table walk, a product of matrices and divisions.
   It prints a checksum of it all. */
#include "../samples/sha256.h"
#include "guest.h"

enum { HASHES = 12000, SORTS = 60, LENGTH = 4096, WALKS = 60, SIZE = 48, PRODUCTS = 40, DIVISIONS = 600000 };

static word numbers[LENGTH], matrices[3][SIZE][SIZE];
static unsigned char bytes[65536];

static word hash(void)
{
    word state[8];
    unsigned char block[64];
    for (int i = 0; i < 8; i++)
        state[i] = sha256_start[i];
    for (int i = 0; i < 64; i++)
        block[i] = (unsigned char)next();
    for (int round = 0; round < HASHES; round++) {
        block[round % 64] ^= (unsigned char)state[round % 8];
        sha256_block(state, block);
    }
    return state[0];
}

static word sort(void)
{
    for (int i = 0; i < LENGTH; i++)
        numbers[i] = next();
    for (int gap = LENGTH / 2; gap > 0; gap = gap == 2 ? 1 : gap * 5 / 11) {
        for (int i = gap; i < LENGTH; i++) {
            word value = numbers[i];
            int j = i;
            for (; j >= gap && numbers[j - gap] > value; j -= gap)
                numbers[j] = numbers[j - gap];
            numbers[j] = value;
        }
    }
    return numbers[LENGTH / 2];
}

static word walk(void)
{
    word place = 0, sum = 0;
    for (word i = 0; i < sizeof bytes; i++) {
        bytes[i] = (unsigned char)(i * 73 ^ i >> 8);
        sum += bytes[place];
        place = (place * 5 + sum + i) % sizeof bytes;
    }
    return sum;
}

static word multiply(void)
{
    word trace = 0;
    for (int i = 0; i < SIZE; i++)
        for (int j = 0; j < SIZE; j++)
            matrices[0][i][j] = next(), matrices[1][i][j] = next();
    for (int i = 0; i < SIZE; i++) {
        for (int j = 0; j < SIZE; j++) {
            word sum = 0;
            for (int k = 0; k < SIZE; k++)
                sum += matrices[0][i][k] * matrices[1][k][j];
            matrices[2][i][j] = sum;
        }
        trace += matrices[2][i][i];
    }
    return trace;
}

static word divide(void)
{
    word sum = 0;
    for (int i = 0; i < DIVISIONS; i++) {
        word value = next();
        sum += value / (i + 1) + value % (i + 3);
    }
    return sum;
}

void run(void)
{
    word sum = hash();
    for (int i = 0; i < SORTS; i++)
        sum = sum * 31 + sort();
    for (int i = 0; i < WALKS; i++)
        sum = sum * 31 + walk();
    for (int i = 0; i < PRODUCTS; i++)
        sum = sum * 31 + multiply();
    sum = sum * 31 + divide();
    finish(sum);
}
