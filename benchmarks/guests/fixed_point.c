/* Fractions of words: sines by rotations, a filter, square roots, and the Mandelbrot set. The sine of 30 degrees has to
   be a half, and each square root the greatest that isn't too large. */
#include "../guest.h"

enum { STEPS = 24, ANGLES = 30000, TAPS = 32, SAMPLES = 20000, ROOTS = 20000, SIDE = 128, MOST = 256 };

/* In units of 2 to the power -28. */
enum { ONE = 1 << 28, SHRUNK = 163008218, THIRTY_DEGREES = 140552476 };

/* The angles whose tangents are powers of a half, in radians. */
static const int angles[STEPS] = {
    210828714, 124459457, 65760959, 33381290, 16755422, 8385879, 4193963, 2097109, 1048571, 524287, 262144, 131072,
    65536, 32768, 16384, 8192, 4096, 2048, 1024, 512, 256, 128, 64, 32,
};

static short taps[TAPS], samples[TAPS];

/* CORDIC (Volder 1959). */
static int sine(int angle)
{
    int x = SHRUNK, y = 0;
    for (int i = 0; i < STEPS; i++) {
        int across = x >> i, up = y >> i;
        if (angle >= 0)
            x -= up, y += across, angle -= angles[i];
        else
            x += up, y -= across, angle += angles[i];
    }
    return y;
}

static int filtered(short sample, int place)
{
    int sum = 0;
    samples[place % TAPS] = sample;
    for (int i = 0; i < TAPS; i++)
        sum += taps[i] * samples[(place - i) & (TAPS - 1)];
    return sum >> 15;
}

static word root(word value)
{
    word found = 0;
    for (word bit = 1u << 30; bit; bit >>= 2) {
        if (value >= found + bit) {
            value -= found + bit;
            found = (found >> 1) + bit;
        } else {
            found >>= 1;
        }
    }
    return found;
}

static int product(int left, int right)
{
    return (int)((long long)left * right >> 24);
}

static word escape(int across, int up)
{
    int x = 0, y = 0;
    for (word i = 0; i < MOST; i++) {
        int x2 = product(x, x), y2 = product(y, y);
        if (x2 + y2 > 4 << 24)
            return i;
        y = 2 * product(x, y) + up;
        x = x2 - y2 + across;
    }
    return MOST;
}

void run(void)
{
    word sum = 0;
    int half = sine(THIRTY_DEGREES) - ONE / 2;
    if (half > 64 || half < -64)
        leave(1);
    for (int i = 0; i < ANGLES; i++)
        sum = sum * 31 + (word)sine((int)(next() % (2 * ONE)) - ONE);
    for (int i = 0; i < TAPS; i++)
        taps[i] = (short)(sine(i * (ONE / TAPS)) >> 13);
    for (int i = 0; i < SAMPLES; i++)
        sum = sum * 31 + (word)filtered((short)next(), i);
    for (int i = 0; i < ROOTS; i++) {
        word value = next(), found = root(value);
        if (found * found > value || (found < 65535 && (found + 1) * (found + 1) <= value))
            leave(2);
        sum = sum * 31 + found;
    }
    for (int i = 0; i < SIDE; i++)
        for (int k = 0; k < SIDE; k++)
            sum = sum * 31 + escape(k * ((3 << 24) / SIDE) - (2 << 24), i * ((2 << 24) / SIDE) - (1 << 24));
    finish(sum);
}
