/* Ends by a load from address 0, which is not mapped. */
#include <stdio.h>

int main(void)
{
    int value;
    printf("before the load");
    fflush(stdout);
    __asm__ volatile("lw %0, 0(zero)" : "=r"(value));
    return value;
}
