/* Compresses its input, expands that again, and prints the lengths, whether all came back, and the CRC-32. */
#include <string.h>
#include "zlib.h"
#include "input.h"

int main(void)
{
    static unsigned char packed[LONGEST + LONGEST / 64], back[LONGEST];
    uLongf count = read_input(), packed_count = sizeof packed, back_count = sizeof back;
    int failed = compress(packed, &packed_count, (unsigned char *)input, count);
    failed |= uncompress(back, &back_count, packed, packed_count);
    failed |= back_count != count || memcmp(back, input, count);
    printf("%lu %lu failed %d crc %08lx\n", count, packed_count, failed, crc32(0, packed, packed_count));
}
