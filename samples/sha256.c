/* Prints the SHA-256 of the three bytes `abc`, which is the example of FIPS 180-4. */
#include "sha256.h"
#include "start.h"

static const char digits[] = "0123456789abcdef";

void run(void)
{
    /* The padded message: its bytes, a one bit, zeros, and its length in bits. */
    unsigned char block[64] = { 'a', 'b', 'c', 0x80 };
    word state[8];
    char line[65];
    block[63] = 24;
    for (int i = 0; i < 8; i++)
        state[i] = sha256_start[i];
    sha256_block(state, block);
    for (int i = 0; i < 64; i++)
        line[i] = digits[state[i / 8] >> (28 - 4 * (i % 8)) & 15];
    line[64] = '\n';
    write_bytes(line, sizeof line);
    leave(0);
}
