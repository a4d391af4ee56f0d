/* Ends by EBREAK, behind a line. */
#include <stdio.h>

int main(void)
{
    printf("before the break\n");
    fflush(stdout);
    __asm__ volatile("ebreak");
    return 1;
}
