/* Reads all its input, and prints the CRC-32 (IEEE 802.3) and the number of its bytes. */
#include "start.h"

typedef unsigned int word;

static word table[256];
static const char digits[] = "0123456789abcdef";

static void make_table(void)
{
    for (word i = 0; i < 256; i++) {
        word value = i;
        for (int bit = 0; bit < 8; bit++)
            value = value & 1 ? value >> 1 ^ 0xedb88320 : value >> 1;
        table[i] = value;
    }
}

static word update(word sum, const unsigned char *bytes, int count)
{
    for (int i = 0; i < count; i++)
        sum = table[(sum ^ bytes[i]) & 255] ^ sum >> 8;
    return sum;
}

static void print(word sum, word length)
{
    char line[32];
    int first = sizeof line - 1;
    line[first] = '\n';
    do {
        line[--first] = digits[length % 10];
        length /= 10;
    } while (length);
    line[--first] = ' ';
    for (int i = 0; i < 8; i++, sum >>= 4)
        line[--first] = digits[sum & 15];
    write_bytes(line + first, sizeof line - first);
}

void run(void)
{
    static unsigned char bytes[512];
    word sum = ~0u, length = 0;
    int count;
    make_table();
    while ((count = read_bytes(bytes, sizeof bytes)) > 0) {
        sum = update(sum, bytes, count);
        length += count;
    }
    print(~sum, length);
    leave(0);
}
