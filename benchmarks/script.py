"""Prints how much longer a use of the script `rumtsafi` takes than the program that it runs.

    python3 -m benchmarks.script

Both list the instructions of a sample, in turn, ROUNDS times, with standard error where no terminal is. A line for each
has the least and the median milliseconds of the clock and of processor time, and a last one the differences. It ends
with status 0 where both print the same and the median processor time of the script comes within its limit: the clock
shows also how long each of its processes waits for a processor.
"""
import os
import statistics
import sys
import tempfile
import time

from checks.common import SAMPLES, SHIPPED, TOP

# The milliseconds of processor time that the script may take beside the program.
ROUNDS, LIMIT = 200, 8.0
SCRIPT, BUILT = os.path.join(TOP, "rumtsafi"), os.path.join(TOP, "out", "rumtsafi")
FILE = os.path.join(SAMPLES, "crc32.elf")


def program():
    """The one that the script runs: the younger of the two."""
    if os.path.exists(BUILT) and os.path.getmtime(BUILT) > os.path.getmtime(SHIPPED):
        return BUILT
    return SHIPPED


def use(name):
    """What a use prints, and its milliseconds of the clock and of processor time."""
    with tempfile.TemporaryFile() as output, open(os.devnull, "wb") as error:
        begin = time.perf_counter()
        child = os.posix_spawn(name, [name, "dis", FILE], os.environ, file_actions=[
            (os.POSIX_SPAWN_DUP2, output.fileno(), 1), (os.POSIX_SPAWN_DUP2, error.fileno(), 2)])
        _, ended, usage = os.wait4(child, 0)
        seconds = time.perf_counter() - begin
        if ended != 0:
            sys.exit(f"{name}: status {os.waitstatus_to_exitcode(ended)}")
        output.seek(0)
        return output.read(), 1000 * seconds, 1000 * (usage.ru_utime + usage.ru_stime)


def figures(uses):
    """The least and the median of the clock and of processor time."""
    _, clock, processor = zip(*uses)
    return min(clock), statistics.median(clock), min(processor), statistics.median(processor)


def main():
    names = program(), SCRIPT
    uses = [[], []]
    for _ in range(ROUNDS):
        for place, name in enumerate(names):
            uses[place].append(use(name))
    if len({output for some in uses for output, *_ in some}) != 1:
        sys.exit("the script and the program don't print the same")
    bare, script = map(figures, uses)
    more = [with_script - without for without, with_script in zip(bare, script)]
    print(f"{'milliseconds':12} {'clock: least':>14} {'median':>8} {'processor: least':>18} {'median':>8}")
    for title, row in ("program", bare), ("script", script), ("more", more):
        print(f"{title:12} {row[0]:14.2f} {row[1]:8.2f} {row[2]:18.2f} {row[3]:8.2f}")
    right = more[3] <= LIMIT
    print(f"{more[3]:.2f} of {LIMIT:.1f} ms{'' if right else '  TOO SLOW'}")
    return 0 if right else 1


sys.exit(main())
