/* The four divisions, the special cases among them, as instructions and as GCC writes them. */
#include <stdint.h>
#include <stdio.h>
#include "instruction.h"

INSTRUCTION(div)
INSTRUCTION(divu)
INSTRUCTION(rem)
INSTRUCTION(remu)

static const uint32_t values[] = { 0, 1, 2, 3, 7, 10, 0x7fffffff, 0x80000000, 0x80000001, 0xfffffff9, 0xffffffff };
enum { COUNT = sizeof values / sizeof *values };

static unsigned long gcd(unsigned long left, unsigned long right)
{
    return right ? gcd(right, left % right) : left;
}

int main(void)
{
    for (int i = 0; i < COUNT; i++)
        for (int j = 0; j < COUNT; j++)
            printf("%08lx %08lx: %08lx %08lx %08lx %08lx\n", (unsigned long)values[i], (unsigned long)values[j],
                   (unsigned long)div(values[i], values[j]), (unsigned long)divu(values[i], values[j]),
                   (unsigned long)rem(values[i], values[j]), (unsigned long)remu(values[i], values[j]));
    for (int i = 0; i < COUNT; i++) {
        int value = (int)values[i];
        printf("%d %d %d %u %u\n", value / 10, value % 7, value / -3, values[i] / 10, values[i] % 1000);
    }
    volatile int64_t wide = -1234567890123456789;
    volatile int64_t small = 1000003;
    printf("%lld %lld %llu\n", (long long)(wide / small), (long long)(wide % small), (uint64_t)wide / small);
    return (int)gcd(1071 * 3, 462 * 3);
}
