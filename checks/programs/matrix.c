/* Products of matrices of bytes, words, double words and floating-point numbers. */
#include <stdint.h>
#include <stdio.h>

enum { SIZE = 12 };

#define PRODUCT(name, in, out) \
    static out name(in left[SIZE][SIZE], in right[SIZE][SIZE], out product[SIZE][SIZE]) \
    { \
        out trace = 0; \
        for (int i = 0; i < SIZE; i++) { \
            for (int j = 0; j < SIZE; j++) { \
                out sum = 0; \
                for (int k = 0; k < SIZE; k++) \
                    sum += (out)left[i][k] * right[k][j]; \
                product[i][j] = sum; \
            } \
            trace += product[i][i]; \
        } \
        return trace; \
    }

PRODUCT(of_bytes, signed char, short)
PRODUCT(of_words, int, int)
PRODUCT(of_wides, int, int64_t)
PRODUCT(of_reals, float, double)

static signed char bytes[SIZE][SIZE];
static int words[SIZE][SIZE];
static float reals[SIZE][SIZE];

int main(void)
{
    static short short_product[SIZE][SIZE];
    static int product[SIZE][SIZE];
    static int64_t wide_product[SIZE][SIZE];
    static double real_product[SIZE][SIZE];
    unsigned seed = 99;
    for (int i = 0; i < SIZE; i++) {
        for (int j = 0; j < SIZE; j++) {
            seed = seed * 1664525 + 1013904223;
            bytes[i][j] = (signed char)(seed >> 24);
            words[i][j] = (int)seed;
            reals[i][j] = (int)seed / 65536.0f;
        }
    }
    printf("%d\n", of_bytes(bytes, bytes, short_product));
    printf("%d\n", of_words(words, words, product));
    printf("%lld\n", (long long)of_wides(words, words, wide_product));
    printf("%.6e\n", of_reals(reals, reals, real_product));
    for (int i = 0; i < SIZE; i++)
        printf("%d %d %lld %.3f\n", short_product[i][1], product[i][2], (long long)wide_product[i][3],
               real_product[i][4]);
    return (int)(unsigned char)product[5][6];
}
