/* Compresses its input, expands that again, and prints the lengths, whether all came back, and a sum of the bytes. */
#include <stdlib.h>
#include <string.h>
#include "bzlib.h"
#include "input.h"

void bz_internal_error(int code)
{
    printf("internal error %d\n", code);
    exit(1);
}

int main(void)
{
    static char packed[LONGEST + LONGEST / 64], back[LONGEST];
    unsigned count = read_input(), packed_count = sizeof packed, back_count = sizeof back, sum = 0;
    int failed = BZ2_bzBuffToBuffCompress(packed, &packed_count, input, count, 1, 0, 0);
    failed |= BZ2_bzBuffToBuffDecompress(back, &back_count, packed, packed_count, 0, 0);
    failed |= back_count != count || memcmp(back, input, count);
    for (unsigned i = 0; i < packed_count; i++)
        sum = sum * 31 + (unsigned char)packed[i];
    printf("%u %u failed %d sum %08x\n", count, packed_count, failed, sum);
}
