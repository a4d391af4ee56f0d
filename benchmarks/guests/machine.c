/* A virtual machine with registers, whose switch leads by a table of addresses: it counts primes with a sieve, some
   times over. There have to be 1028 below 8192. */
#include "../guest.h"

enum { LENGTH = 8192, EXPECTED = 1028, TIMES = 20 };

enum code { CONSTANT, COPY, ADD, LESS, LOAD, STORE, JUMP, IF, UNLESS, END };

enum { ZERO, ONE, LIMIT, CANDIDATE, MULTIPLE, PRIMES, FLAG, REGISTERS };

struct instruction {
    int code, first, second, third;
};

static const struct instruction program[] = {
    [0] = { CONSTANT, ONE, 1, 0 },
    [1] = { CONSTANT, LIMIT, LENGTH, 0 },
    [2] = { CONSTANT, CANDIDATE, 2, 0 },
    [3] = { COPY, PRIMES, ZERO, 0 },
    [4] = { LOAD, FLAG, CANDIDATE, 0 },
    [5] = { IF, FLAG, 13, 0 },
    [6] = { ADD, PRIMES, PRIMES, ONE },
    [7] = { ADD, MULTIPLE, CANDIDATE, CANDIDATE },
    [8] = { LESS, FLAG, MULTIPLE, LIMIT },
    [9] = { UNLESS, FLAG, 13, 0 },
    [10] = { STORE, MULTIPLE, ONE, 0 },
    [11] = { ADD, MULTIPLE, MULTIPLE, CANDIDATE },
    [12] = { JUMP, 0, 8, 0 },
    [13] = { ADD, CANDIDATE, CANDIDATE, ONE },
    [14] = { LESS, FLAG, CANDIDATE, LIMIT },
    [15] = { IF, FLAG, 4, 0 },
    [16] = { END, 0, 0, 0 },
};

static int registers[REGISTERS], data[LENGTH];
static word executed;

static void execute(void)
{
    const struct instruction *at = program;
    for (;; executed++) {
        int *target = &registers[at->first];
        switch (at->code) {
        case CONSTANT: *target = at->second; break;
        case COPY: *target = registers[at->second]; break;
        case ADD: *target = registers[at->second] + registers[at->third]; break;
        case LESS: *target = registers[at->second] < registers[at->third]; break;
        case LOAD: *target = data[registers[at->second]]; break;
        case STORE: data[*target] = registers[at->second]; break;
        case JUMP: at = program + at->second; continue;
        case IF:
            if (*target) {
                at = program + at->second;
                continue;
            }
            break;
        case UNLESS:
            if (!*target) {
                at = program + at->second;
                continue;
            }
            break;
        default: return;
        }
        at++;
    }
}

void run(void)
{
    word sum = 0;
    for (int i = 0; i < TIMES; i++) {
        for (int k = 0; k < LENGTH; k++)
            data[k] = 0;
        execute();
        if (registers[PRIMES] != EXPECTED)
            leave(1);
        sum = sum * 31 + executed;
    }
    finish(sum);
}
