"""The program of a seed, from its description alone: a plain reading to compare the product with.

`generated.py SEED FILE` writes the file of the seed's program; without FILE it prints its words.
"""

import sys

from readers import executable

GROUPS = 1800
OPERATIONS = 8


def draws(seed):
    """The numbers that the generator gives, without end."""
    state = seed
    while True:
        state = (state * 1664525 + 1013904223) % 2**32
        yield state // 65536


def register_word(funct7, funct3, rd, rs1, rs2):
    return funct7 << 25 | rs2 << 20 | rs1 << 15 | funct3 << 12 | rd << 7 | 0x33


def constant_word(funct3, rd, rs1, constant):
    return constant << 20 | rs1 << 15 | funct3 << 12 | rd << 7 | 0x13


def operation(numbers):
    """The word of one operation, of four draws."""
    kind = next(numbers) % 8
    rd, rs1, last = (5 + next(numbers) % 8 for _ in range(3))
    if kind < 5:
        funct7, funct3 = [(0, 0), (0x20, 0), (0, 4), (0, 6), (0, 7)][kind]
        return register_word(funct7, funct3, rd, rs1, last)
    return constant_word([1, 5, 0][kind - 5], rd, rs1, last)


ENDING = [
    0x00020E37,  # lui x28, 0x20
    0x005E2023,  # sw x5, 0(x28)
    0x000E0593,  # addi x11, x28, 0
    0x00100513,  # addi x10, x0, 1
    0x00400613,  # addi x12, x0, 4
    0x04000893,  # addi x17, x0, 64
    0x00000073,  # ecall
    0x00000513,  # addi x10, x0, 0
    0x05D00893,  # addi x17, x0, 93
    0x00000073,  # ecall
]


def text(seed):
    """The words of the text."""
    numbers = draws(seed)
    words = []
    for _ in range(GROUPS):
        words += [operation(numbers) for _ in range(OPERATIONS)]
        words.append(0x0040006F)  # jal x0, 4
    return words + ENDING


def program(seed):
    """The bytes of the file."""
    return executable.frame(text(seed), values=[0])


def main():
    seed = int(sys.argv[1])
    if len(sys.argv) > 2:
        with open(sys.argv[2], "wb") as file:
            file.write(program(seed))
    else:
        for word in text(seed):
            print(f"{word:08x}")


if __name__ == "__main__":
    main()
