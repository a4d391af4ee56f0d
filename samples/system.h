/* The environment calls of `rumtsafi run`. Their numbers and answers are those of Linux for RV32, so that qemu-riscv32
   runs the same files. */
#ifndef SYSTEM_H
#define SYSTEM_H

enum { CALL_READ = 63, CALL_WRITE = 64, CALL_EXIT = 93, CALL_BRK = 214 };

static inline int environment_call(int number, int first, int second, int third)
{
    register int answer __asm__("a0") = first;
    register int a1 __asm__("a1") = second;
    register int a2 __asm__("a2") = third;
    register int a7 __asm__("a7") = number;
    __asm__ volatile("ecall" : "+r"(answer) : "r"(a1), "r"(a2), "r"(a7) : "memory");
    return answer;
}

static inline int read_bytes(void *bytes, int count)
{
    return environment_call(CALL_READ, 0, (int)bytes, count);
}

static inline int write_bytes(const void *bytes, int count)
{
    return environment_call(CALL_WRITE, 1, (int)bytes, count);
}

__attribute__((noreturn)) static inline void leave(int code)
{
    environment_call(CALL_EXIT, code, 0, 0);
    __builtin_unreachable();
}

#endif
