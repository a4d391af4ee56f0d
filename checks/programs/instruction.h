/* A function that is one instruction with two operands, of the instruction's name. */
#ifndef INSTRUCTION_H
#define INSTRUCTION_H

#include <stdint.h>

#define INSTRUCTION(name) \
    static uint32_t name(uint32_t left, uint32_t right) \
    { \
        uint32_t result; \
        __asm__ volatile(#name " %0, %1, %2" : "=r"(result) : "r"(left), "r"(right)); \
        return result; \
    }

#endif
