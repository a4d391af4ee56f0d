/* The entry of a program without a library. It goes on at `run`, which ends by `leave`. Only the text below calls
   `run`, so it is marked as used for the sake of link-time optimization.
   The address of the small data is set without the linker's relaxation, which would set it from itself. */
#ifndef START_H
#define START_H

#include "system.h"

#ifdef __cplusplus
extern "C"
#endif
__attribute__((used)) void run(void);

__asm__(".section .text.start, \"ax\", @progbits\n"
        ".globl _start\n"
        ".type _start, @function\n"
        "_start:\n"
        ".option push\n"
        ".option norelax\n"
        "lla gp, __global_pointer$\n"
        ".option pop\n"
        "tail run\n"
        ".size _start, . - _start\n"
        ".text\n");

#endif
