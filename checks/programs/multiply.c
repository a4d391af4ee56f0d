/* The four multiplications with the signs that matter, as instructions and in products of many words. */
#include <stdint.h>
#include <stdio.h>
#include "instruction.h"

INSTRUCTION(mul)
INSTRUCTION(mulh)
INSTRUCTION(mulhsu)
INSTRUCTION(mulhu)

static const uint32_t values[] = { 0, 1, 2, 0x10001, 0x7fffffff, 0x80000000, 0x80000001, 0xdeadbeef, 0xffffffff };
enum { COUNT = sizeof values / sizeof *values, WORDS = 18 };

/* The factorial of a number, as decimal digits by repeated division. */
static void factorial(unsigned number)
{
    static uint32_t words[WORDS];
    static char digits[180];
    int first = sizeof digits - 1, left = 1;
    words[0] = 1;
    for (unsigned factor = 2; factor <= number; factor++) {
        uint64_t carry = 0;
        for (int i = 0; i < WORDS; i++) {
            carry += (uint64_t)words[i] * factor;
            words[i] = (uint32_t)carry;
            carry >>= 32;
        }
    }
    while (left && first > 0) {
        uint64_t rest = 0;
        left = 0;
        for (int i = WORDS; i-- > 0;) {
            rest = rest << 32 | words[i];
            words[i] = (uint32_t)(rest / 10);
            rest %= 10;
            left |= words[i] != 0;
        }
        digits[--first] = (char)('0' + rest);
    }
    printf("%u! = %s\n", number, digits + first);
}

int main(void)
{
    for (int i = 0; i < COUNT; i++)
        for (int j = 0; j < COUNT; j++)
            printf("%08lx %08lx: %08lx %08lx %08lx %08lx\n", (unsigned long)values[i], (unsigned long)values[j],
                   (unsigned long)mul(values[i], values[j]), (unsigned long)mulh(values[i], values[j]),
                   (unsigned long)mulhsu(values[i], values[j]), (unsigned long)mulhu(values[i], values[j]));
    factorial(99);
    return 17;
}
