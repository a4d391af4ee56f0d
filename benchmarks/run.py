"""Times `rumtsafi run` and a plain interpreter in C on long runs.

    python3 -m benchmarks.run [PROGRAM]

PROGRAM is bin/rumtsafi if left out. Both run the executables that GCC makes of work.c and of the programs in guests/,
tens of millions of steps each, in one go, the interpreter by decoding at each step and by decoding each word once. They
run in turn, ROUNDS times; the least processor time of each counts. All have to print the same, with the line before the
end that the programs are known to print. The same sources, compiled for this machine, have to print that line too.

A line for each program has the millions of steps a second of the three, and the ratios of `rumtsafi run` to the other
two; the last line has the geometric means of the ratios.

It ends with status 0 where all print the same, and where the tools are missing, with a line that says so.
"""
import math
import os
import re
import sys
import tempfile

from benchmarks.common import (
    CROSS, HOST, bare_executable, least_times, missing, native, processor_time, program)

ROUNDS = 3
STEPS = ("--steps", "4294967296")
# Programs by their checksums. That of crc.c is the CRC-32 by zlib; for the others qemu-riscv32 prints the same.
# Of these, `books.py`, `pairs.py` and `areas.py` take blocks and choices.
SEARCHED = {
    "work.c": "a5a517ca", "guests/crc.c": "7c83c0b1", "guests/aes.c": "764c7d22", "guests/matrices.c": "8de9d288",
    "guests/queens.c": "91b0c600", "guests/machine.c": "fe246956", "guests/sorting.c": "cd44bc68",
    "guests/fixed_point.c": "c9adfe9a",
}
GUESTS = {
    **SEARCHED, "guests/big_numbers.c": "479f3ad0", "guests/words.c": "bdc57718", "guests/roads.c": "736be6c3",
    "guests/packing.c": "be064865",
}


def hold_by_host(name, checksum, folder):
    """Ends where a program prints something else when it is compiled for this machine."""
    file = os.path.join(folder, "host")
    native(name, file)
    output, _ = processor_time(file)
    if output.decode() != f"{checksum}\n":
        sys.exit(f"{name}: {checksum} is due, and this machine makes {output!r} of it")


def compare(name, checksum, folder, interpreter):
    """The ratios of a program's speeds; prints its line."""
    file = os.path.join(folder, "guest.elf")
    hold_by_host(name, checksum, folder)
    bare_executable(name, file, "-O2")
    words = ("run", file, *STEPS)
    found = least_times(ROUNDS, (program(), *words), (interpreter, *words), (interpreter, *words, "--predecode"))
    outputs = {output.decode() for output, _ in found}
    due = re.compile(rf"{checksum}\nend exit 00000000 steps (\d+) cost \d+\n")
    if len(outputs) != 1 or not due.fullmatch(min(outputs)):
        sys.exit(f"{name}: {checksum} is due, not {sorted(outputs)}")
    steps = int(due.fullmatch(min(outputs)).group(1))
    ours, decoding, predecoding = (steps / seconds / 1e6 for _, seconds in found)
    ratios = ours / decoding, ours / predecoding
    print(f"{name:22} {steps / 1e6:7.1f} {ours:10.1f} {decoding:10.1f} {predecoding:10.1f} "
          f"{ratios[0]:8.2f} {ratios[1]:8.2f}", flush=True)
    return ratios


def table():
    """Prints the lines of all programs."""
    with tempfile.TemporaryDirectory() as folder:
        interpreter = os.path.join(folder, "interpreter")
        native("interpreter.c", interpreter)
        print(f"{'program':22} {'Msteps':>7} {'run, M/s':>10} {'decoding':>10} {'predecod.':>10} {'ratio':>8} "
              f"{'ratio':>8}")
        rows = [compare(name, checksum, folder, interpreter) for name, checksum in GUESTS.items()]
    means = (math.prod(column) ** (1 / len(rows)) for column in zip(*rows))
    print(f"{'mean ratios':62} {' '.join(f'{mean:8.2f}' for mean in means)}", flush=True)


def main():
    absent = missing(CROSS, HOST)
    if absent:
        print(absent)
        return 0
    table()
    return 0


if __name__ == "__main__":
    sys.exit(main())
