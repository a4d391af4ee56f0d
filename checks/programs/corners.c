/* Instructions and environment calls at their corners: each as its own instruction, with operands that tell. */
#include <stdint.h>
#include <stdio.h>
#include "../../samples/system.h"

static const uint32_t values[] = { 0, 1, 31, 32, 0x7ff, 0x7fffffff, 0x80000000, 0xfffff800, 0xffffffff };
enum { COUNT = sizeof values / sizeof *values };

#define IMMEDIATE(text) \
    for (int i = 0; i < COUNT; i++) { \
        __asm__ volatile(text : "=r"(result) : "r"(values[i])); \
        printf(" %08lx", (unsigned long)result); \
    } \
    printf(" %s\n", text)

#define REGISTER(text) \
    for (int i = 0; i < COUNT; i++) \
        for (int j = 0; j < COUNT; j++) { \
            __asm__ volatile(text : "=r"(result) : "r"(values[i]), "r"(values[j])); \
            sum = sum * 31 + result; \
        } \
    printf("%08lx %s\n", (unsigned long)sum, text)

#define BRANCH(text) \
    for (int i = 0; i < COUNT; i++) \
        for (int j = 0; j < COUNT; j++) { \
            __asm__ volatile("li %0, 1\n" text " %1, %2, 1f\nli %0, 0\n1:" \
                             : "=&r"(result) : "r"(values[i]), "r"(values[j])); \
            printf("%lu", (unsigned long)result); \
        } \
    printf(" %s\n", text)

static void immediates(void)
{
    uint32_t result;
    IMMEDIATE("addi %0, %1, -2048");
    IMMEDIATE("slti %0, %1, -1");
    IMMEDIATE("sltiu %0, %1, -1");
    IMMEDIATE("xori %0, %1, -1");
    IMMEDIATE("ori %0, %1, 2047");
    IMMEDIATE("andi %0, %1, -2048");
    IMMEDIATE("slli %0, %1, 31");
    IMMEDIATE("srli %0, %1, 31");
    IMMEDIATE("srai %0, %1, 31");
    IMMEDIATE("lui %0, 0xfffff");
    IMMEDIATE("auipc %0, 0");
}

static void registers(void)
{
    uint32_t result, sum = 1;
    REGISTER("add %0, %1, %2");
    REGISTER("sub %0, %1, %2");
    REGISTER("sll %0, %1, %2");
    REGISTER("slt %0, %1, %2");
    REGISTER("sltu %0, %1, %2");
    REGISTER("xor %0, %1, %2");
    REGISTER("srl %0, %1, %2");
    REGISTER("sra %0, %1, %2");
    REGISTER("or %0, %1, %2");
    REGISTER("and %0, %1, %2");
}

static void branches(void)
{
    uint32_t result;
    BRANCH("beq");
    BRANCH("bne");
    BRANCH("blt");
    BRANCH("bge");
    BRANCH("bltu");
    BRANCH("bgeu");
}

/* Loads and stores of each width at each offset, also where it isn't a multiple of the width. */
static void accesses(void)
{
    static unsigned char bytes[16] __attribute__((aligned(16)));
    for (int i = 0; i < 8; i++) {
        uint32_t loaded[5];
        for (int j = 0; j < 16; j++)
            bytes[j] = 0x71 + 15 * j;
        unsigned char *place = bytes + i;
        __asm__ volatile("lb %0, 0(%1)" : "=r"(loaded[0]) : "r"(place) : "memory");
        __asm__ volatile("lbu %0, 0(%1)" : "=r"(loaded[1]) : "r"(place) : "memory");
        __asm__ volatile("lh %0, 0(%1)" : "=r"(loaded[2]) : "r"(place) : "memory");
        __asm__ volatile("lhu %0, 0(%1)" : "=r"(loaded[3]) : "r"(place) : "memory");
        __asm__ volatile("lw %0, 0(%1)" : "=r"(loaded[4]) : "r"(place) : "memory");
        __asm__ volatile("sw %0, 1(%1)\nsh %2, 3(%1)\nsb %2, 8(%1)" : : "r"(loaded[4]), "r"(place), "r"(~i) : "memory");
        for (int j = 0; j < 5; j++)
            printf("%08lx ", (unsigned long)loaded[j]);
        for (int j = 0; j < 16; j++)
            printf("%02x", bytes[j]);
        printf("\n");
    }
}

/* A write to x0, a fence, and a jump whose target has its lowest bit set. */
static void others(void)
{
    uint32_t result;
    __asm__ volatile("fence\nfence r, w\naddi x0, x0, 5\nmv %0, x0" : "=r"(result));
    printf("%lu\n", (unsigned long)result);
    __asm__ volatile("la t0, 1f\nli %0, 1\njalr t1, 1(t0)\nli %0, 2\n1:" : "=&r"(result) : : "t0", "t1");
    printf("%lu\n", (unsigned long)result);
}

/* What environment calls answer that ask for nothing, or for what isn't there. */
static void calls(void)
{
    char byte = 'x';
    int here = (int)&byte;
    printf("%d ", environment_call(CALL_READ, 0, here, 0));
    printf("%d ", environment_call(CALL_READ, 77, here, 1));
    printf("%d ", environment_call(CALL_WRITE, 77, here, 1));
    printf("%d ", environment_call(CALL_WRITE, 1, here, 0));
    printf("%d ", environment_call(CALL_WRITE, 1, 16, 1));
    printf("%d ", environment_call(CALL_WRITE, 1, -8, 100));
    printf("%d\n", environment_call(9999, 1, 2, 3));
    fflush(stdout);
    environment_call(CALL_WRITE, 1, here, 1);
    environment_call(CALL_WRITE, 2, here, 1);
}

int main(void)
{
    immediates();
    registers();
    branches();
    accesses();
    others();
    calls();
    return 128;
}
