/* Hashes of texts of each length: FNV-1a of 32 and 64 bits, and MurmurHash3 of 32 bits. */
#include <stdint.h>
#include <stdio.h>
#include <string.h>

static uint32_t fnv32(const char *bytes, int length)
{
    uint32_t hash = 0x811c9dc5;
    for (int i = 0; i < length; i++)
        hash = (hash ^ (unsigned char)bytes[i]) * 0x01000193;
    return hash;
}

static uint64_t fnv64(const char *bytes, int length)
{
    uint64_t hash = 0xcbf29ce484222325;
    for (int i = 0; i < length; i++)
        hash = (hash ^ (unsigned char)bytes[i]) * 0x100000001b3;
    return hash;
}

static uint32_t scramble(uint32_t value)
{
    value *= 0xcc9e2d51;
    return (value << 15 | value >> 17) * 0x1b873593;
}

static uint32_t murmur3(const char *bytes, int length, uint32_t hash)
{
    uint32_t last = 0;
    int i = 0;
    for (; i + 4 <= length; i += 4) {
        uint32_t value;
        memcpy(&value, bytes + i, 4);
        hash ^= scramble(value);
        hash = (hash << 13 | hash >> 19) * 5 + 0xe6546b64;
    }
    for (int j = length - 1; j >= i; j--)
        last = last << 8 | (unsigned char)bytes[j];
    hash ^= scramble(last) ^ length;
    hash = (hash ^ hash >> 16) * 0x85ebca6b;
    hash = (hash ^ hash >> 13) * 0xc2b2ae35;
    return hash ^ hash >> 16;
}

int main(void)
{
    static const char text[] = "The quick brown fox jumps over the lazy dog";
    for (int length = 0; length < (int)sizeof text; length += 3)
        printf("%2d %08lx %016llx %08lx\n", length, (unsigned long)fnv32(text, length),
               (unsigned long long)fnv64(text, length), (unsigned long)murmur3(text, length, 0x9747b28c));
    return murmur3(text, sizeof text - 1, 0x9747b28c) & 255;
}
