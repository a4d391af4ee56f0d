/* AES with a key of 128 bits (FIPS 197) byte by byte, with tables that are computed first: blocks in counter mode. The
   example of FIPS 197, appendix B, has to come out. */
#include "../guest.h"

enum { BLOCKS = 12000, ROUNDS = 10, KEYS = 16 * (ROUNDS + 1) };

static byte box[256], keys[KEYS];

static byte twice(byte value)
{
    return (byte)(value << 1 ^ (value >> 7) * 0x1b);
}

/* The S-box, by the powers of the generator 3 and those of its inverse. */
static void fill_box(void)
{
    byte power = 1, inverse = 1;
    do {
        power ^= twice(power);
        inverse ^= inverse << 1, inverse ^= inverse << 2, inverse ^= inverse << 4;
        inverse ^= (inverse >> 7) * 0x09;
        word wide = inverse * 0x101u;
        box[power] = (byte)(inverse ^ wide >> 7 ^ wide >> 6 ^ wide >> 5 ^ wide >> 4 ^ 0x63);
    } while (power != 1);
    box[0] = 0x63;
}

static void expand(const byte *key)
{
    byte constant = 1;
    for (int i = 0; i < 16; i++)
        keys[i] = key[i];
    for (int i = 16; i < KEYS; i += 4) {
        for (int k = 0; k < 4; k++)
            keys[i + k] = keys[i + k - 16] ^ (i % 16 ? keys[i + k - 4] : box[keys[i - 4 + (k + 1) % 4]]);
        if (i % 16 == 0) {
            keys[i] ^= constant;
            constant = twice(constant);
        }
    }
}

static void mix(byte *column)
{
    byte first = column[0], all = column[0] ^ column[1] ^ column[2] ^ column[3];
    for (int i = 0; i < 4; i++) {
        byte other = i < 3 ? column[i + 1] : first;
        column[i] ^= all ^ twice(column[i] ^ other);
    }
}

static void encrypt(byte *state)
{
    byte moved[16];
    for (int i = 0; i < 16; i++)
        state[i] ^= keys[i];
    for (int round = 1; round <= ROUNDS; round++) {
        for (int i = 0; i < 16; i++)
            moved[i] = box[state[(i + i % 4 * 4) % 16]];
        if (round < ROUNDS)
            for (int i = 0; i < 16; i += 4)
                mix(moved + i);
        for (int i = 0; i < 16; i++)
            state[i] = moved[i] ^ keys[16 * round + i];
    }
}

static word word_of(const byte *from)
{
    return (word)from[0] << 24 | from[1] << 16 | from[2] << 8 | from[3];
}

void run(void)
{
    static const byte key[16] = {
        0x2b, 0x7e, 0x15, 0x16, 0x28, 0xae, 0xd2, 0xa6, 0xab, 0xf7, 0x15, 0x88, 0x09, 0xcf, 0x4f, 0x3c,
    };
    byte state[16] = {
        0x32, 0x43, 0xf6, 0xa8, 0x88, 0x5a, 0x30, 0x8d, 0x31, 0x31, 0x98, 0xa2, 0xe0, 0x37, 0x07, 0x34,
    };
    word sum = 0;
    fill_box();
    expand(key);
    encrypt(state);
    if (word_of(state) != 0x3925841d || word_of(state + 12) != 0x196a0b32)
        leave(1);
    for (int i = 0; i < BLOCKS; i++) {
        for (int k = 0; k < 16; k++)
            state[k] = k < 12 ? (byte)k : (byte)(i >> 8 * (15 - k));
        encrypt(state);
        for (int k = 0; k < 16; k += 4)
            sum = sum * 31 + word_of(state + k);
    }
    finish(sum);
}
