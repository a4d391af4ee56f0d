"""Times `rumtsafi run` with and without --units.

    python3 -m benchmarks.machines [PROGRAM]

PROGRAM is bin/rumtsafi if left out. First come programs that have no unit words: those of checks/programs, with -O2 and
with -Os, the executables of samples/, and work.c, of more than 200 million steps. Each runs by the plain machine and by
the extended one without modules, in turn, ROUNDS times (work.c LONG_ROUNDS times); the least time of each counts. What
both print has to be the same. A line each has the seconds of the short programs together, and of the long one; the
extended machine may take LIMIT times those of the plain one.

Then come the programs of run.py, in which `find` folds cuts. The program as it was and the new one with its units run
in turn, UNITS_ROUNDS times; the median of the processor times of each counts. Both have to print the same in as many
steps. A line for each program has the millions of steps and of uses of units, the seconds of the old program and of the
new one, and their ratio, which may be UNITS_LIMIT.

It ends with status 0 where all of that holds, and where the tools are missing, with a line that says so.
"""
import os
import re
import sys
import tempfile

from benchmarks.common import CROSS, bare_executable, measure, median_times, missing, processor_time, program
from benchmarks.run import GUESTS
from checks.common import read
from checks.tools import compiled

ROUNDS, LONG_ROUNDS, LIMIT = 15, 7, 1.05
UNITS_ROUNDS, UNITS_LIMIT = 11, 1.5
STEPS = ("--steps", "4294967296")
INPUT = os.path.join(compiled.PROGRAMS, "count.c")
END = re.compile(r"(.*)^end exit 00000000 steps (\d+) cost \d+\n", re.M | re.S)
# The line of a report that says how often the unit word of a cut is met.
CUT = re.compile(r"^cut .* entries (\d+) ", re.M)


def least(file, rounds, units):
    """The least seconds of a program by the plain machine and by the extended one."""
    best, answers = [float("inf")] * 2, set()
    for _ in range(rounds):
        for place, words in enumerate(((), ("--units", units))):
            output, status, seconds, _ = measure(program(), "run", file, "--input", INPUT, *STEPS, *words)
            answers.add((status, output))
            best[place] = min(best[place], seconds)
    if len(answers) != 1 or min(answers)[0] != 0:
        sys.exit(f"{file}: {sorted((status, output[-80:]) for status, output in answers)}")
    return best


def outcome(name, output):
    """What a run prints before its end line, and its steps."""
    ended = END.fullmatch(output.decode())
    if not ended:
        sys.exit(f"{name}: {output[-80:]!r}")
    return ended[1], int(ended[2])


def fold(name, folder):
    """Prints the line of a program of run.py, as it was and with unit words; whether it is fast enough with these."""
    old, new, units, logs, report = (os.path.join(folder, part) for part in ("old", "new", "units", "logs", "report"))
    bare_executable(name, old, "-O2")
    processor_time(program(), "find", old, new, units, logs, report, *STEPS)
    (before, plain), (after, extended) = median_times(
        UNITS_ROUNDS, (program(), "run", old, *STEPS), (program(), "run", new, "--units", units, *STEPS))
    if outcome(name, before) != outcome(name, after):
        sys.exit(f"{name}: the new program prints something else, or makes other steps")
    uses = sum(map(int, CUT.findall(read(report).decode())))
    print(f"{name:22} {outcome(name, before)[1] / 1e6:7.1f} {uses / 1e6:7.1f} {plain:8.2f} {extended:8.2f} "
          f"{extended / plain:6.2f}", flush=True)
    return extended <= UNITS_LIMIT * plain


def compare(folder):
    """Prints the lines of programs without unit words; whether the extended machine is fast enough on them."""
    units, work = os.path.join(folder, "none.v"), os.path.join(folder, "work.elf")
    with open(units, "wb"):
        pass
    bare_executable("work.c", work, "-O2")
    short = [least(file, ROUNDS, units) for _, file in compiled.executables(folder)]
    rows = ((f"{len(short)} short programs", [sum(times) for times in zip(*short)]),
            ("work.c", least(work, LONG_ROUNDS, units)))
    for name, (plain, extended) in rows:
        print(f"{name:18} plain {plain:7.3f} s, extended {extended:7.3f} s, ratio {extended / plain:.3f} "
              f"(limit {LIMIT})", flush=True)
    return all(extended <= LIMIT * plain for _, (plain, extended) in rows)


def main():
    absent = missing(CROSS) or compiled.missing()
    if absent:
        print(absent)
        return 0
    with tempfile.TemporaryDirectory() as folder:
        is_fast = compare(folder)
        print(f"{'program':22} {'Msteps':>7} {'Muses':>7} {'old, s':>8} {'new, s':>8} {'ratio':>6}", flush=True)
        folded = [fold(name, folder) for name in GUESTS]
    return 0 if is_fast and all(folded) else 1


sys.exit(main())
