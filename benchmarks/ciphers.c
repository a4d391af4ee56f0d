/* Ciphers and hashes, as their standards write them, for the blocks that GCC makes of them. The exit code is the number
   of those that don't give the answer that is due. */
#include "../samples/sha256.h"
#include "../samples/start.h"

typedef unsigned char byte;
typedef unsigned long long wide;

/* No function takes in another one of these, and none is made for some arguments alone. */
#define KEPT __attribute__((noipa))

/* GCC has to put so many rounds of a loop into one block. */
#define UNROLLED _Pragma("GCC unroll 8")
#define ALL _Pragma("GCC unroll 25")

static inline word rotate_left(word value, int amount)
{
    return value << amount | value >> (32 - amount);
}

static inline wide rotate_right_wide(wide value, int amount)
{
    return value >> amount | value << (64 - amount);
}

/* SHA-256 (FIPS 180-4). */
KEPT void sha256(word *state, const byte *bytes)
{
    sha256_block(state, bytes);
}

/* SHA-1 (FIPS 180-4), of one block of sixteen words. */
static inline void sha1_round(word *v, word mixed)
{
    word first = rotate_left(v[0], 5) + v[4] + mixed;
    v[4] = v[3], v[3] = v[2], v[2] = rotate_left(v[1], 30), v[1] = v[0], v[0] = first;
}

KEPT void sha1(word *state, const word *block)
{
    word schedule[80], v[5];
    for (int i = 0; i < 16; i++)
        schedule[i] = block[i];
    UNROLLED for (int i = 16; i < 80; i++)
        schedule[i] = rotate_left(schedule[i - 3] ^ schedule[i - 8] ^ schedule[i - 14] ^ schedule[i - 16], 1);
    for (int i = 0; i < 5; i++)
        v[i] = state[i];
    UNROLLED for (int i = 0; i < 20; i++)
        sha1_round(v, (v[3] ^ (v[1] & (v[2] ^ v[3]))) + schedule[i] + 0x5a827999);
    UNROLLED for (int i = 20; i < 40; i++)
        sha1_round(v, (v[1] ^ v[2] ^ v[3]) + schedule[i] + 0x6ed9eba1);
    UNROLLED for (int i = 40; i < 60; i++)
        sha1_round(v, ((v[1] & v[2]) | (v[3] & (v[1] | v[2]))) + schedule[i] + 0x8f1bbcdc);
    UNROLLED for (int i = 60; i < 80; i++)
        sha1_round(v, (v[1] ^ v[2] ^ v[3]) + schedule[i] + 0xca62c1d6);
    for (int i = 0; i < 5; i++)
        state[i] += v[i];
}

/* ChaCha20 (RFC 8439), without the sum with the start. */
static inline void quarter_round(word *s, int a, int b, int c, int d)
{
    s[a] += s[b], s[d] = rotate_left(s[d] ^ s[a], 16);
    s[c] += s[d], s[b] = rotate_left(s[b] ^ s[c], 12);
    s[a] += s[b], s[d] = rotate_left(s[d] ^ s[a], 8);
    s[c] += s[d], s[b] = rotate_left(s[b] ^ s[c], 7);
}

KEPT void chacha20(word *state)
{
    for (int round = 0; round < 10; round++) {
        for (int i = 0; i < 4; i++)
            quarter_round(state, i, i + 4, i + 8, i + 12);
        for (int i = 0; i < 4; i++)
            quarter_round(state, i, (i + 1) % 4 + 4, (i + 2) % 4 + 8, (i + 3) % 4 + 12);
    }
}

/* BLAKE2s (RFC 7693), of a last block that ends behind `length` bytes. */
static const byte blake2s_orders[10][16] = {
    { 0, 1, 2, 3, 4, 5, 6, 7, 8, 9, 10, 11, 12, 13, 14, 15 },
    { 14, 10, 4, 8, 9, 15, 13, 6, 1, 12, 0, 2, 11, 7, 5, 3 },
    { 11, 8, 12, 0, 5, 2, 15, 13, 10, 14, 3, 6, 7, 1, 9, 4 },
    { 7, 9, 3, 1, 13, 12, 11, 14, 2, 6, 5, 10, 4, 0, 15, 8 },
    { 9, 0, 5, 7, 2, 4, 10, 15, 14, 1, 11, 12, 6, 8, 3, 13 },
    { 2, 12, 6, 10, 0, 11, 8, 3, 4, 13, 7, 5, 15, 14, 1, 9 },
    { 12, 5, 1, 15, 14, 13, 4, 10, 0, 7, 6, 3, 9, 2, 8, 11 },
    { 13, 11, 7, 14, 12, 1, 3, 9, 5, 0, 15, 4, 8, 6, 2, 10 },
    { 6, 15, 14, 9, 11, 3, 0, 8, 12, 2, 13, 7, 1, 4, 10, 5 },
    { 10, 2, 8, 4, 7, 6, 1, 5, 15, 11, 9, 14, 3, 12, 13, 0 },
};

static inline void blake2s_mix(word *v, int a, int b, int c, int d, word first, word second)
{
    v[a] += v[b] + first, v[d] = rotate_right(v[d] ^ v[a], 16);
    v[c] += v[d], v[b] = rotate_right(v[b] ^ v[c], 12);
    v[a] += v[b] + second, v[d] = rotate_right(v[d] ^ v[a], 8);
    v[c] += v[d], v[b] = rotate_right(v[b] ^ v[c], 7);
}

KEPT void blake2s(word *state, const word *block, word length)
{
    word v[16];
    for (int i = 0; i < 8; i++)
        v[i] = state[i], v[8 + i] = sha256_start[i];
    v[12] ^= length, v[14] = ~v[14];
    for (int round = 0; round < 10; round++) {
        const byte *order = blake2s_orders[round];
        for (int i = 0; i < 4; i++)
            blake2s_mix(v, i, i + 4, i + 8, i + 12, block[order[2 * i]], block[order[2 * i + 1]]);
        for (int i = 0; i < 4; i++)
            blake2s_mix(v, i, (i + 1) % 4 + 4, (i + 2) % 4 + 8, (i + 3) % 4 + 12, block[order[8 + 2 * i]],
                        block[order[9 + 2 * i]]);
    }
    for (int i = 0; i < 8; i++)
        state[i] ^= v[i] ^ v[8 + i];
}

/* Speck of 64 bits with a key of 128 bits (Beaulieu et al. 2013), the round keys made on the way. */
KEPT void speck(word *text, const word *key)
{
    word left = text[0], right = text[1], first = key[3], second = key[2], third = key[1], last = key[0];
    UNROLLED for (word round = 0; round < 27; round++) {
        left = (rotate_right(left, 8) + right) ^ first;
        right = rotate_left(right, 3) ^ left;
        word mixed = (rotate_right(second, 8) + first) ^ round;
        first = rotate_left(first, 3) ^ mixed;
        second = third, third = last, last = mixed;
    }
    text[0] = left, text[1] = right;
}

/* The permutation of Ascon (version 1.2), twelve rounds. */
KEPT void ascon(wide *state)
{
    wide a = state[0], b = state[1], c = state[2], d = state[3], e = state[4];
    for (int round = 0; round < 12; round++) {
        c ^= 0xf0 - 15 * round;
        a ^= e, e ^= d, c ^= b;
        wide p = a ^ (~b & c), q = b ^ (~c & d), r = c ^ (~d & e), s = d ^ (~e & a), t = e ^ (~a & b);
        q ^= p, p ^= t, s ^= r, r = ~r;
        a = p ^ rotate_right_wide(p, 19) ^ rotate_right_wide(p, 28);
        b = q ^ rotate_right_wide(q, 61) ^ rotate_right_wide(q, 39);
        c = r ^ rotate_right_wide(r, 1) ^ rotate_right_wide(r, 6);
        d = s ^ rotate_right_wide(s, 10) ^ rotate_right_wide(s, 17);
        e = t ^ rotate_right_wide(t, 7) ^ rotate_right_wide(t, 41);
    }
    state[0] = a, state[1] = b, state[2] = c, state[3] = d, state[4] = e;
}

/* Keccak-f[800] (FIPS 202, section 3, with lanes of 32 bits). */
static const byte keccak_amounts[25] = {
    0, 1, 30, 28, 27, 4, 12, 6, 23, 20, 3, 10, 11, 25, 7, 9, 13, 15, 21, 8, 18, 2, 29, 24, 14,
};

static const word keccak_constants[22] = {
    0x00000001, 0x00008082, 0x0000808a, 0x80008000, 0x0000808b, 0x80000001, 0x80008081, 0x00008009,
    0x0000008a, 0x00000088, 0x80008009, 0x8000000a, 0x8000808b, 0x0000008b, 0x00008089, 0x00008003,
    0x00008002, 0x00000080, 0x0000800a, 0x8000000a, 0x80008081, 0x00008080,
};

KEPT void keccak(word *state)
{
    word sums[5], moved[25];
    for (int round = 0; round < 22; round++) {
        for (int x = 0; x < 5; x++)
            sums[x] = state[x] ^ state[5 + x] ^ state[10 + x] ^ state[15 + x] ^ state[20 + x];
        ALL for (int i = 0; i < 25; i++) {
            word lane = state[i] ^ sums[(i + 4) % 5] ^ rotate_left(sums[(i + 1) % 5], 1);
            moved[i / 5 + (2 * (i % 5) + 3 * (i / 5)) % 5 * 5] = lane << keccak_amounts[i]
                | lane >> (32 - keccak_amounts[i]) % 32;
        }
        ALL for (int i = 0; i < 25; i++)
            state[i] = moved[i] ^ (~moved[i / 5 * 5 + (i + 1) % 5] & moved[i / 5 * 5 + (i + 2) % 5]);
        state[0] ^= keccak_constants[round];
    }
}

/* AES with a key of 128 bits (FIPS 197) without tables: a word has four elements of the field, one a byte. */
static inline word double_each(word value)
{
    return (value & 0x7f7f7f7f) << 1 ^ (value >> 7 & 0x01010101) * 0x1b;
}

static inline word multiply_each(word left, word right)
{
    word product = 0;
    for (int i = 0; i < 8; i++) {
        product ^= left & (right >> i & 0x01010101) * 255;
        left = double_each(left);
    }
    return product;
}

static inline word rotate_each(word value, int amount)
{
    word low = (0xff >> amount) * 0x01010101;
    return (value & low) << amount | (value & ~low) >> (8 - amount);
}

/* The S-box of each byte: its power 254, which is its inverse, and the affine map. */
KEPT word substitute(word value)
{
    word power = value;
    for (int i = 0; i < 6; i++)
        power = multiply_each(multiply_each(power, power), value);
    power = multiply_each(power, power);
    return power ^ rotate_each(power, 1) ^ rotate_each(power, 2) ^ rotate_each(power, 3) ^ rotate_each(power, 4)
        ^ 0x63636363;
}

KEPT void shift_rows(word *state)
{
    word moved[4];
    for (int i = 0; i < 4; i++)
        moved[i] = (state[i] & 0xff) | (state[(i + 1) % 4] & 0xff00) | (state[(i + 2) % 4] & 0xff0000)
            | (state[(i + 3) % 4] & 0xff000000);
    for (int i = 0; i < 4; i++)
        state[i] = moved[i];
}

KEPT void mix_columns(word *state)
{
    for (int i = 0; i < 4; i++) {
        word next = rotate_right(state[i], 8);
        state[i] = double_each(state[i] ^ next) ^ next ^ rotate_right(state[i], 16) ^ rotate_right(state[i], 24);
    }
}

KEPT void aes(word *state, word *key)
{
    word constant = 1;
    for (int i = 0; i < 4; i++)
        state[i] ^= key[i];
    for (int round = 0; round < 10; round++) {
        for (int i = 0; i < 4; i++)
            state[i] = substitute(state[i]);
        shift_rows(state);
        if (round < 9)
            mix_columns(state);
        key[0] ^= substitute(rotate_right(key[3], 8)) ^ constant;
        for (int i = 1; i < 4; i++)
            key[i] ^= key[i - 1];
        constant = double_each(constant);
        for (int i = 0; i < 4; i++)
            state[i] ^= key[i];
    }
}

/* Whether the first words of an answer are others than these four. */
static int differs(const word *answer, word first, word second, word third, word fourth)
{
    return answer[0] != first || answer[1] != second || answer[2] != third || answer[3] != fourth;
}

static int wrong_hashes(void)
{
    byte bytes[64] = { 'a', 'b', 'c', 0x80 };
    word big[16] = { 0x61626380 }, little[16] = { 0x00636261 }, state[8];
    bytes[63] = 24, big[15] = 24;
    for (int i = 0; i < 8; i++)
        state[i] = sha256_start[i];
    sha256(state, bytes);
    int wrong = differs(state, 0xba7816bf, 0x8f01cfea, 0x414140de, 0x5dae2223);
    word sha1_state[5] = { 0x67452301, 0xefcdab89, 0x98badcfe, 0x10325476, 0xc3d2e1f0 };
    sha1(sha1_state, big);
    wrong += differs(sha1_state, 0xa9993e36, 0x4706816a, 0xba3e2571, 0x7850c26c);
    for (int i = 0; i < 8; i++)
        state[i] = sha256_start[i];
    state[0] ^= 0x01010020;
    blake2s(state, little, 3);
    return wrong + differs(state, 0x8c5e8c50, 0xe2147c32, 0xa32ba7e1, 0x2f45eb4e);
}

static int wrong_ciphers(void)
{
    word stream[16] = { 0x61707865, 0x3320646e, 0x79622d32, 0x6b206574 };
    for (word i = 0; i < 8; i++)
        stream[4 + i] = 0x03020100 + 0x04040404 * i;
    stream[12] = 1, stream[13] = 0x09000000, stream[14] = 0x4a000000;
    chacha20(stream);
    int wrong = differs(stream, 0x837778ab, 0xe238d763, 0xa67ae21e, 0x5950bb2f);
    word text[4] = { 0x3b726574, 0x7475432d }, key[4] = { 0x1b1a1918, 0x13121110, 0x0b0a0908, 0x03020100 };
    speck(text, key);
    wrong += differs(text, 0x8c6fa548, 0x454e028b, 0, 0);
    word state[4] = { 0xa8f64332, 0x8d305a88, 0xa2983131, 0x340737e0 };
    word aes_key[4] = { 0x16157e2b, 0xa6d2ae28, 0x8815f7ab, 0x3c4fcf09 };
    aes(state, aes_key);
    return wrong + differs(state, 0x1d842539, 0xfb09dc02, 0x978511dc, 0x320b6a19);
}

static int wrong_permutations(void)
{
    wide five[5] = { 0x00400c0000000100 };
    word lanes[25];
    ascon(five);
    int wrong = five[0] != 0xee9398aadb67f03d || five[4] != 0x348fa5c9d525e140;
    for (int i = 0; i < 25; i++)
        lanes[i] = 0;
    keccak(lanes);
    return wrong + differs(lanes, 0xe531d45d, 0xf404c6fb, 0x23a0bf99, 0xf1f8452f);
}

void run(void)
{
    leave(wrong_hashes() + wrong_ciphers() + wrong_permutations());
}
