/* Formatted printing and scanning of numbers and texts. */
#include <limits.h>
#include <stdio.h>
#include <stdlib.h>
#include <string.h>

static void print_whole(void)
{
    static const int values[] = { 0, 1, -1, 42, -12345, INT_MAX, INT_MIN };
    for (unsigned i = 0; i < sizeof values / sizeof *values; i++)
        printf("[%d|%8d|%-8d|%+d|%u|%o|%x|%#X|%08x]\n", values[i], values[i], values[i], values[i], values[i],
               values[i], values[i], values[i], values[i]);
    printf("[%lld|%llu|%llx]\n", LLONG_MIN, ULLONG_MAX, 0x0123456789abcdefull);
    printf("[%hd|%hhd|%c|%5s|%-5s|%.2s|%%]\n", (short)40000, (signed char)200, 'x', "ab", "cd", "efgh");
}

static void print_reals(void)
{
    static const double values[] = { 0.0, 1.0, -2.5, 3.141592653589793, 1e10, 1.5e-7, -123456.789 };
    for (unsigned i = 0; i < sizeof values / sizeof *values; i++)
        printf("[%f|%10.3f|%e|%g]\n", values[i], values[i], values[i], values[i]);
}

static void scan(void)
{
    char word[16], line[40];
    int number = 0, items = sscanf("  -17 words 0x1f", "%d %15s", &number, word);
    printf("%d %d %s\n", items, number, word);
    printf("%ld %lu %ld %.4f\n", strtol("-2147483649", 0, 10), strtoul("ffffffff", 0, 16), strtol("0755x", 0, 0),
           strtod("-6.25e2", 0));
    int length = snprintf(line, sizeof line, "%s-%s-%d", "a text that is too long for its place", "cut off", 5);
    printf("%d %u %s\n", length, (unsigned)strlen(line), line);
}

int main(void)
{
    print_whole();
    print_reals();
    scan();
    fprintf(stderr, "the end\n");
    return 255;
}
