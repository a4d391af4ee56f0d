/* The input of a program, up to LONGEST bytes, with a 0 behind it. */
#include <stdio.h>

enum { LONGEST = 1 << 18 };

static char input[LONGEST + 1];

static unsigned read_input(void)
{
    return fread(input, 1, LONGEST, stdin);
}
