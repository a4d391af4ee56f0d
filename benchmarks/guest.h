/* What the long programs of the benchmarks share: a stream of numbers that looks random, and the line at the end, which
   is a checksum of all that a program found. On the machine that makes them they end alike by its own library. */
#ifndef GUEST_H
#define GUEST_H

#ifdef __riscv
#include "../samples/start.h"
#else
#include <stdio.h>
#include <stdlib.h>

static void write_bytes(const void *bytes, int count)
{
    fwrite(bytes, 1, (size_t)count, stdout);
}

__attribute__((noreturn)) static void leave(int code)
{
    exit(code);
}

void run(void);

int main(void)
{
    run();
}
#endif

typedef unsigned int word;
typedef unsigned char byte;

static word seed = 1;

/* Xorshift (Marsaglia 2003, with shifts 13, 17 and 5). */
static inline word next(void)
{
    seed ^= seed << 13;
    seed ^= seed >> 17;
    seed ^= seed << 5;
    return seed;
}

/* Prints a checksum and ends the program. */
__attribute__((noreturn)) static void finish(word sum)
{
    static const char digits[] = "0123456789abcdef";
    char line[9];
    for (int i = 0; i < 8; i++)
        line[i] = digits[sum >> (28 - 4 * i) & 15];
    line[8] = '\n';
    write_bytes(line, sizeof line);
    leave(0);
}

#endif
