/* ChaCha20 (RFC 8439): the key stream of its section 2.3.2, and a text there and back. */
#include <stdint.h>
#include <stdio.h>
#include <string.h>

static uint32_t rotate(uint32_t value, int amount)
{
    return value << amount | value >> (32 - amount);
}

static void quarter(uint32_t *s, int a, int b, int c, int d)
{
    s[a] += s[b], s[d] = rotate(s[d] ^ s[a], 16);
    s[c] += s[d], s[b] = rotate(s[b] ^ s[c], 12);
    s[a] += s[b], s[d] = rotate(s[d] ^ s[a], 8);
    s[c] += s[d], s[b] = rotate(s[b] ^ s[c], 7);
}

static void block(const uint32_t *start, uint32_t *out)
{
    memcpy(out, start, 64);
    for (int round = 0; round < 10; round++) {
        for (int i = 0; i < 4; i++)
            quarter(out, i, i + 4, i + 8, i + 12);
        for (int i = 0; i < 4; i++)
            quarter(out, i, (i + 1) % 4 + 4, (i + 2) % 4 + 8, (i + 3) % 4 + 12);
    }
    for (int i = 0; i < 16; i++)
        out[i] += start[i];
}

static void encrypt(uint32_t *state, unsigned char *bytes, int length)
{
    uint32_t stream[16];
    for (int i = 0; i < length; i++) {
        if (i % 64 == 0) {
            block(state, stream);
            state[12]++;
        }
        bytes[i] ^= stream[i % 64 / 4] >> 8 * (i % 4);
    }
}

int main(void)
{
    uint32_t state[16] = { 0x61707865, 0x3320646e, 0x79622d32, 0x6b206574 }, out[16];
    unsigned char text[] = "A text that is longer than one block of the key stream: the counter counts on.";
    for (uint32_t i = 0; i < 8; i++)
        state[4 + i] = 0x03020100 + 0x04040404 * i;
    state[12] = 1, state[13] = 0x09000000, state[14] = 0x4a000000;
    block(state, out);
    for (int i = 0; i < 16; i++)
        printf("%08lx%c", (unsigned long)out[i], i % 4 == 3 ? '\n' : ' ');
    encrypt(state, text, sizeof text - 1);
    for (unsigned i = 0; i < sizeof text - 1; i++)
        printf("%02x", text[i]);
    state[12] = 1;
    encrypt(state, text, sizeof text - 1);
    printf("\n%s\n", text);
    return out[0] == 0xe4e7f110 ? 0 : 1;
}
