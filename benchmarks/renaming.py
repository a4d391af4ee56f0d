"""Prints what renaming does for a choice, and how long it takes.

    python3 -m benchmarks.renaming SOURCES [PROGRAM]

SOURCES is the folder of packages.py, whose programs are compiled as there, and PROGRAM is bin/rumtsafi if left out.
`rename` renames each of these programs and the samples by its run on its first input, and `find` chooses cuts of it as
it is and of the renamed one, by default and with the greatest ports. All four programs have to print the same on both
inputs in as many steps, and each new one has to cost less by the gain that `find` printed.

A line for each program and choice of ports has the values that were renamed and the blocks in which some were; the
millions of cycles of the first run; the cuts, the units, the searches that were given up and how much less the new
program costs, in percent, as it is and renamed; and the milliseconds of processor time of `rename`, less those of a run
of one step by it, the least of ROUNDS.

Then it times `rename` on texts of WORDS words: blocks of 256 instructions in which as many values move as there are
free registers, or none is free. Each may take SECONDS of processor time.

It ends with status 0 where all of that holds, and where the tools are missing, with a line that says so; else with
status 1, also where sources are missing.
"""
import argparse
import os
import re
import sys
import tempfile

from benchmarks import packages
from benchmarks.common import least_times, port_name, port_words, processor_time, program, write
from checks.tools import compiled
from readers import executable

ROUNDS, PORTS = 3, ((3, 2), (5, 3))
WORDS, LONGEST, SECONDS = 74_000, 256, 0.2
RENAMED = re.compile(r"renamed (\d+) blocks (\d+)\n")
ADD, NO_OPERATION, BREAK = 0x33, 0x13, 0x00100073


def renamed(old, new, given):
    """Renames an executable: the numbers of the line."""
    output, _ = processor_time(program(), "rename", old, new, "--input", given, *packages.STEPS)
    return tuple(map(int, RENAMED.fullmatch(output.decode()).groups()))


def milliseconds(old, new):
    """How long a renaming takes, where the run has one step."""
    (_, seconds), = least_times(ROUNDS, (program(), "rename", old, new, "--steps", "1"))
    return 1000 * seconds


def choice(name, out, file, inputs, ports):
    """The cuts, the units and the searches that were given up of a choice for a file, the cost of its first run, and
    how much less the new program costs."""
    new, units, logs, report = (os.path.join(out, part) for part in ("new", "units", "logs", "report"))
    found, _ = processor_time(program(), "find", file, new, units, logs, report, "--input", inputs[0], *packages.STEPS,
                              *port_words(ports))
    cuts, kinds, skipped, gain = map(int, packages.FOUND.fullmatch(found.decode()).groups())
    told = [packages.run(file, "--input", given) for given in inputs]
    ours = [packages.run(new, "--units", units, "--input", given) for given in inputs]
    if [run[:2] for run in told] != [run[:2] for run in ours] or told[0][2] - ours[0][2] != gain:
        sys.exit(f"{name}: the new program prints something else, or costs other than told")
    return told, (cuts, kinds, skipped, 100 * gain / told[0][2])


def try_out(name, out, old, inputs):
    """Prints the lines of a program."""
    new = os.path.join(out, "renamed")
    values, blocks = renamed(old, new, inputs[0])
    spent = milliseconds(old, os.path.join(out, "scratch"))
    for ports in PORTS:
        (before, plain), (after, better) = (choice(name, out, file, inputs, ports) for file in (old, new))
        if before != after:
            sys.exit(f"{name}: the renamed program prints something else, or makes other steps")
        print(f"{name:12} {port_name(ports):>5} {values:>6} {blocks:>6} {before[0][2] / 1e6:>8.2f} "
              + " ".join(f"{cuts:>5} {units:>5} {skipped:>8} {saved:>6.2f}" for cuts, units, skipped, saved in
                         (plain, better)) + f" {spent:>6.1f}", flush=True)


def few_registers(place):
    """A block over two registers, of which none is live at its end: as many values move as there are others."""
    return NO_OPERATION | 5 << 7 if place == 0 else ADD | 5 << 7 | 5 << 15 | 6 << 20


def all_registers(place):
    """A block over all registers: no value moves."""
    return NO_OPERATION | place + 1 << 7 if place < 31 else (
        ADD | place % 31 + 1 << 7 | (place + 7) % 31 + 1 << 15 | (place + 17) % 31 + 1 << 20)


def write_text(name, word):
    words = [word(place % LONGEST) for place in range(WORDS - 1)]
    with open(name, "wb") as file:
        file.write(executable.frame([*words, BREAK]))


def is_fast(out, word):
    """Whether a text is renamed in time; prints its line."""
    file = os.path.join(out, "text")
    write(write_text, file, word)
    (output, seconds), (_, others) = least_times(
        ROUNDS, (program(), "rename", file, os.path.join(out, "renamed"), "--steps", "1"), (program(), "blocks", file))
    fast = seconds <= SECONDS
    print(f"{WORDS} words, {word.__name__}: {output.decode().strip()}, {seconds:.3f} s, of which blocks take "
          f"{others:.3f}{'' if fast else '  TOO SLOW'}")
    return fast


def main():
    reader = argparse.ArgumentParser(description=__doc__.split("\n\n", maxsplit=1)[0])
    reader.add_argument("sources")
    reader.add_argument("program", nargs="?")
    read = reader.parse_args()
    sys.argv[1:] = [read.program] if read.program else []
    absent = compiled.missing()
    if absent:
        print(absent)
        return 0
    sides = f"{'cuts':>5} {'units':>5} {'given up':>8} {'saved':>6}"
    print(f"{'program':12} {'ports':>5} {'values':>6} {'blocks':>6} {'Mcycles':>8} {sides} {sides} {'ms':>6}")
    with tempfile.TemporaryDirectory() as out:
        for name, path in compiled.samples():
            try_out(name, out, path, [os.devnull])
        for package in packages.PACKAGES:
            sources, old = packages.sources_of(package, read.sources), os.path.join(out, "old")
            packages.compile_to(old, package, sources)
            try_out(package.name, out, old, [packages.input_of(name, sources) for name in package.inputs])
        fast = [is_fast(out, word) for word in (few_registers, all_registers)]
    return 0 if all(fast) else 1


if __name__ == "__main__":
    sys.exit(main())
