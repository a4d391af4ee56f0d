/* A program for objdump.py: it is compiled and linked, and never run. Floating point and 64-bit arithmetic
   bring the routines of libgcc into it, so that its text has some thousands of words. */
typedef unsigned int word;
typedef unsigned long long wide;

static word table[256];
static double samples[64];
volatile word sink;
volatile double real_sink;
volatile wide wide_sink;

static word rotate(word value, int amount)
{
    return (value << amount) | (value >> (32 - amount));
}

word checksum(const unsigned char *bytes, int length)
{
    word sum = ~0u;
    for (int i = 0; i < length; i++)
        sum = table[(sum ^ bytes[i]) & 255] ^ (sum >> 8);
    return ~sum;
}

int choose(int kind, int a, int b)
{
    switch (kind) {
    case 0: return a + b;
    case 1: return a - b;
    case 2: return a * b;
    case 3: return b ? a / b : 0;
    case 4: return b ? a % b : 0;
    case 5: return a < b;
    case 6: return (unsigned)a < (unsigned)b;
    case 7: return a >> (b & 31);
    case 8: return (unsigned)a >> (b & 31);
    case 9: return (int)(((long long)a * b) >> 32);
    default: return a ^ b;
    }
}

void sort(short *values, int count)
{
    for (int i = 1; i < count; i++) {
        short value = values[i];
        int j = i;
        while (j > 0 && values[j - 1] > value) {
            values[j] = values[j - 1];
            j--;
        }
        values[j] = value;
    }
}

void _start(void)
{
    static unsigned char bytes[64];
    static short values[32];
    for (int i = 0; i < 256; i++)
        table[i] = rotate(i * 2654435761u, i & 31);
    for (int i = 0; i < 64; i++)
        samples[i] = i / 3.0 + (float)i;
    sink = checksum(bytes, 64);
    sort(values, 32);
    for (int kind = 0; kind < 12; kind++)
        sink = choose(kind, (int)sink, values[kind]);
    wide_sink = wide_sink / 1000003u + wide_sink % 977u;
    for (int i = 0; i < 64; i++)
        real_sink = real_sink * samples[i] - samples[63 - i] / (real_sink + 1.5);
    __sync_synchronize();
    __asm__ volatile("ecall");
    __builtin_trap();
}
