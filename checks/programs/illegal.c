/* Ends at a word that is no instruction. */
#include <stdio.h>

int main(void)
{
    printf("before the word\n\n");
    fflush(stdout);
    __asm__ volatile(".word 0x0000300b");
    return 1;
}
