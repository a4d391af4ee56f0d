"""Prints how long log books of ten programs are in both versions, and how fast `rumtsafi relog` makes one of the other.

    python3 -m benchmarks.books [PROGRAM]

PROGRAM is bin/rumtsafi if left out. The books are those that `find` writes, by the greatest budget, of the SEARCHED
programs of run.py, of what GCC makes of ciphers.c with loops unrolled, and of a sample; and one of all their searches,
again and again, which has LONG bytes at least. Each goes by `relog` to version 2, from there to version 2 once more, and back,
and is then what it was. A line has the bytes in each version and their ratio, and of books of LEAST bytes or more, for
each way, the millions of bytes of version 1 in a second of processor time, by the least of ROUNDS, without what a call
on an empty book takes. Of the long book it also has the greatest resident memory of each way, in bytes for each item of
the logs: a text of version 1 has a byte for each by itself.

The long book has to go at SPEED at least, each way, and to take MEMORY at most.

It ends with status 0 where it does and all books come back, and where the tools are missing, with a line that says so.
"""
import os
import re
import sys
import tempfile

from benchmarks.common import CROSS, bare_executable, measure, missing, processor_time, program, write
from benchmarks.run import SEARCHED, STEPS
from checks.common import SAMPLES, read

ROUNDS, LEAST, LONG = 5, 2 ** 20, 2 ** 27
SPEED, MEMORY = 200, (2.1, 2, 2.1)
EMPTY = b"ci-log 1\nend none\n"
CIPHERS, SAMPLE = "ciphers.c", "sha256.elf"
SEARCHES = re.compile(rb"^block (?:.* spent .*|.*\n[BOCIGF]+)\n", re.M)
WAYS = ("one", "two", 2), ("two", "again", 2), ("two", "back", 1)


def book_of(name, folder):
    """Writes the log book of a program."""
    old = os.path.join(folder, "old")
    if name == SAMPLE:
        old = os.path.join(SAMPLES, name)
    else:
        bare_executable(name, old, "-O2", *(["-funroll-loops"] if name == CIPHERS else []))
    files = [os.path.join(folder, file) for file in ("new", "units", "one", "report")]
    processor_time(program(), "find", old, *files, "--budget", "4194304", *STEPS)


def long_book(searches, file):
    """Writes a book of these searches, again and again."""
    with open(file, "wb") as output:
        output.write(EMPTY[:9])
        output.writelines([searches] * -(-LONG // len(searches)))
        output.write(EMPTY[9:])


def relog(folder, name, out, version):
    """The seconds of processor time, and the greatest resident memory in bytes, of a call. The memory is this script's
    own where the program takes less."""
    words = program(), "relog", os.path.join(folder, name), os.path.join(folder, out), "--log", str(version)
    length = len(f"relog version {version} bytes ")
    least = min(processor_time(*words)[1] for _ in range(ROUNDS))
    output, status, _, memory = measure(*words)
    written = os.path.getsize(os.path.join(folder, out))
    if status != 0 or int(output[length:]) != written:
        sys.exit(f"{' '.join(words)}: status {status}, {output!r}, and {written} bytes")
    return least, memory * 2 ** 20


def items_in(file):
    """Writes how many items the logs of a book have."""
    with open(f"{file}.items", "w", encoding="ascii") as output:
        output.write(str(sum(len(line) - 1 for line in open(file, "rb") if line[:1] in b"BOCIGF")))


def same(folder):
    """Writes whether the book that came back is the one that went, and that of version 2 stays as it is."""
    one, back, two, again = (read(os.path.join(folder, file)) for file in ("one", "back", "two", "again"))
    with open(os.path.join(folder, "same"), "w", encoding="ascii") as output:
        output.write("yes" * (one == back and two == again))


def report(name, folder, idle):
    """Whether a book comes back, fast enough and in little memory if it is the long one; prints its line. A call on an
    empty book takes the seconds `idle`."""
    seconds, memories = zip(*(relog(folder, *way) for way in WAYS))
    write(items_in, os.path.join(folder, "one"))
    write(same, folder)
    one, two = (os.path.getsize(os.path.join(folder, file)) for file in ("one", "two"))
    items = int(read(os.path.join(folder, "one.items")))
    speeds = [one / 1e6 / (spent - idle) for spent in seconds]
    marks = "" if read(os.path.join(folder, "same")) else "  WRONG"
    figures = "".join(f"{speed:8.0f}" for speed in speeds) if one >= LEAST else ""
    if one >= LONG:
        shares = [memory / items for memory in memories]
        figures += "".join(f"{share:8.2f}" for share in shares)
        is_large = any(share > most for share, most in zip(shares, MEMORY))
        marks += "  TOO SLOW" * (min(speeds) < SPEED) + "  TOO MUCH MEMORY" * is_large
    print(f"{name:22} {one:>11,} {two:>11,} {two / one:6.3f}{figures}{marks}", flush=True)
    return not marks


def main():
    absent = missing(CROSS)
    if absent:
        print(absent)
        return 0
    passed, searches = [], b""
    print(f"{'program':22} {'version 1':>11} {'version 2':>11} {'ratio':>6}{'1 to 2':>8}{'2 to 2':>8}{'2 to 1':>8}"
          f"{'B/item':>8}{'':8}{'':8}")
    with tempfile.TemporaryDirectory() as folder:
        one = os.path.join(folder, "one")
        with open(one, "wb") as output:
            output.write(EMPTY)
        idle = min(relog(folder, *way)[0] for way in WAYS)
        for name in (*SEARCHED, CIPHERS, SAMPLE):
            book_of(name, folder)
            searches += b"".join(SEARCHES.findall(read(one)))
            passed.append(report(name, folder, idle))
        write(long_book, searches, one)
        passed.append(report("all, again and again", folder, idle))
    print(f"{sum(passed)} of {len(passed)} came back in time")
    return 0 if all(passed) else 1


if __name__ == "__main__":
    sys.exit(main())
