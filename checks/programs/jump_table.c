/* A small stack machine whose dispatch is a jump table, and calls through a table of functions. */
#include <stdio.h>

enum { PUSH, ADD, SUB, MUL, DIV, MOD, DUP, SWAP, OVER, LESS, JUMP, JUMP_ZERO, DROP, PRINT, CALL, HALT };

static int square(int value) { return value * value; }
static int negate(int value) { return -value; }
static int bits(int value) { return __builtin_popcount((unsigned)value); }
static int reverse(int value)
{
    unsigned result = 0;
    for (int i = 0; i < 32; i++)
        result |= ((unsigned)value >> i & 1) << (31 - i);
    return (int)result;
}
static int (*const functions[])(int) = { square, negate, bits, reverse };

static int execute(const signed char *code)
{
    int stack[32], top = -1, steps = 0, held;
    for (int pc = 0;; steps++) {
        switch (code[pc++]) {
        case PUSH: stack[++top] = code[pc++]; break;
        case ADD: top--, stack[top] += stack[top + 1]; break;
        case SUB: top--, stack[top] -= stack[top + 1]; break;
        case MUL: top--, stack[top] *= stack[top + 1]; break;
        case DIV: top--, stack[top] /= stack[top + 1]; break;
        case MOD: top--, stack[top] %= stack[top + 1]; break;
        case DUP: top++, stack[top] = stack[top - 1]; break;
        case SWAP: held = stack[top], stack[top] = stack[top - 1], stack[top - 1] = held; break;
        case OVER: top++, stack[top] = stack[top - 2]; break;
        case LESS: top--, stack[top] = stack[top] < stack[top + 1]; break;
        case JUMP: pc = code[pc]; break;
        case JUMP_ZERO: pc = stack[top--] ? pc + 1 : code[pc]; break;
        case DROP: top--; break;
        case PRINT: printf("%d ", stack[top]); break;
        case CALL: stack[top] = functions[(int)code[pc++]](stack[top]); break;
        default: return steps;
        }
    }
}

/* From 27 by halves of even numbers and by 3 n + 1 of odd ones down to 1. */
static const signed char halves[] = {
    PUSH, 27, PRINT, DUP, PUSH, 2, MOD, JUMP_ZERO, 17, PUSH, 3, MUL, PUSH, 1, ADD, JUMP, 20, PUSH, 2, DIV,
    DUP, PUSH, 1, SUB, JUMP_ZERO, 28, JUMP, 2, HALT,
};

static const signed char calls[] = {
    PUSH, 20, PRINT, DUP, CALL, 0, PRINT, CALL, 1, PRINT, CALL, 2, PRINT, CALL, 3, PRINT, DROP,
    PUSH, 1, SUB, DUP, JUMP_ZERO, 25, JUMP, 2, HALT,
};

static const signed char orders[] = {
    PUSH, 3, PUSH, 9, OVER, PRINT, LESS, PRINT, PUSH, 5, SWAP, PRINT, LESS, PRINT, HALT,
};

int main(void)
{
    int steps = execute(halves) + execute(calls) + execute(orders);
    printf("\n%d\n", steps);
    return steps & 255;
}
