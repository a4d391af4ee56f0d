/* CRC-32 (ISO 3309, reversed, polynomial edb88320), by a table of 256 words and bit by bit, of a stream of bytes. The
   check value of "123456789" has to be cbf43926. */
#include "../guest.h"

enum { LENGTH = 4096, BY_TABLE = 1200, BY_BITS = 100 };

static word table[256];
static byte bytes[LENGTH];

static word step(word sum)
{
    return sum & 1 ? sum >> 1 ^ 0xedb88320 : sum >> 1;
}

static word by_bits(word sum, const byte *from, int count)
{
    for (int i = 0; i < count; i++) {
        sum ^= from[i];
        for (int bit = 0; bit < 8; bit++)
            sum = step(sum);
    }
    return sum;
}

static word by_table(word sum, const byte *from, int count)
{
    for (int i = 0; i < count; i++)
        sum = sum >> 8 ^ table[(sum ^ from[i]) & 255];
    return sum;
}

void run(void)
{
    word sum = 0xffffffff;
    for (int i = 0; i < 256; i++) {
        byte value = (byte)i;
        table[i] = by_bits(0, &value, 1);
    }
    if (by_table(0xffffffff, (const byte *)"123456789", 9) != ~0xcbf43926u)
        leave(1);
    for (int i = 0; i < LENGTH; i++)
        bytes[i] = (byte)next();
    for (int i = 0; i < BY_TABLE; i++)
        sum = by_table(sum, bytes, LENGTH);
    for (int i = 0; i < BY_BITS; i++)
        sum = by_bits(sum, bytes, LENGTH);
    finish(~sum);
}
