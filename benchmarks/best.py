"""Times `rumtsafi best` on long blocks.

    python3 -m benchmarks.best [PROGRAM]

PROGRAM is bin/rumtsafi if left out. The blocks are
chains of one `xor`, each of which reads the one before it, and those of LEAST to LONGEST instructions in what GCC makes
of ciphers.c, each at the default budget, with each of PORTS. A line for each has the seconds of the faster of two runs,
the greatest resident memory (which is this script's own where the program takes less), the beginning of the answer, and
what misses its limit.

The largest budget has to be there within 128 MiB of memory. The last lines tell the need of a chain, the least budget
that isn't spent, and how many nodes of the log a second the program writes with a budget that is spent by one branch,
and writes and checks with one that suffices. A log with n branches has 2 n + 1 nodes.

It ends with status 0 where all is within its limits. The ciphers are left out where GCC for RISC-V is missing, with a
line that says so.
"""
import os
import shutil
import struct
import sys
import tempfile

from benchmarks.common import CROSS, bare_executable, faster, measure, missing, port_name, port_words, program

XOR = 0x00A2C2B3
LEAST, LONGEST, SMALL = 100, 256, 64
SECONDS, SMALL_SECONDS, MEBIBYTES = 5.0, 0.1, 60
# The slots of the largest budget are reserved at once, so the limit is on what the program may ask for.
LARGEST_BUDGET, RESERVED_BYTES = 4_194_304, 128 * 2 ** 20
LEVELS = ("-O2", "-O3")
ONE_OUTPUT = (3, 1)
# The inputs and outputs that hold if left out, one output, and as many of both as a unit may have.
PORTS = ((3, 2), ONE_OUTPUT, (5, 3))


def write_chain(folder, length):
    """A file of so many words `xor x5, x5, x10`."""
    file = os.path.join(folder, f"chain{length}")
    with open(file, "wb") as output:
        output.write(struct.pack("<I", XOR) * length)
    return file


def beginning(answer):
    """The first words of an answer, and the gain at its end."""
    words = answer.split()
    return " ".join(words if len(words) <= 9 else words[:6] + [".."] + words[-2:])


def report(name, length, limit, ports, *words, wanted=None):
    """Whether the answer for a block comes within its limits, and is the wanted one; prints its line."""
    output, seconds, memory = faster("best", *words, *port_words(ports))
    answer = output.decode()
    marks = "  WRONG" * (wanted not in (None, answer)) + "  TOO SLOW" * (seconds > limit)
    marks += "  TOO MUCH MEMORY" * (memory > MEBIBYTES)
    print(f"{name:18} {length:4} {port_name(ports)} {seconds:7.3f} s {memory:6.1f} MiB  {beginning(answer)}{marks}",
          flush=True)
    return not marks


def chains(folder):
    """Whether the chains are within their limits."""
    whole = " ".join(("cut", *map(str, range(SMALL)), "gain 57\n"))
    passed = [report("chain", SMALL, SMALL_SECONDS, ONE_OUTPUT, write_chain(folder, SMALL), wanted=whole)]
    return passed + [report("chain", LONGEST, SECONDS, ports, write_chain(folder, LONGEST)) for ports in PORTS]


def long_blocks(file):
    """The addresses and lengths of the blocks that are timed."""
    for line in faster("blocks", file)[0].decode().splitlines():
        _, address, _, length, *_ = line.split()
        if LEAST <= int(length) <= LONGEST:
            yield f"0x{address}", int(length)


def ciphers(folder):
    """Whether the blocks of the ciphers are within their limits."""
    passed = []
    for level in LEVELS:
        file = os.path.join(folder, f"ciphers{level}")
        bare_executable("ciphers.c", file, level, "-funroll-loops")
        if not faster("run", file)[0].startswith(b"end exit 00000000 "):
            sys.exit(f"ciphers.c {level} has wrong answers")
        for address, length in long_blocks(file):
            for ports in PORTS:
                passed.append(report(f"ciphers {level} {address[-5:]}", length, SECONDS, ports, file, "--at", address))
    return passed


def is_spent(budget, *words):
    return faster("best", *words, "--budget", str(budget))[0].startswith(b"skipped")


def need(*words):
    """The least budget that isn't spent."""
    enough = 1
    while is_spent(enough, *words):
        if enough == LARGEST_BUDGET:
            sys.exit("the need is greater than the largest budget")
        enough *= 2
    spent = enough // 2
    while enough - spent > 1:
        middle = (spent + enough) // 2
        if is_spent(middle, *words):
            spent = middle
        else:
            enough = middle
    return enough


def reserves_little(*words):
    """Whether the largest budget asks for no more memory than it may; prints its line."""
    output, status, seconds, _ = measure(shutil.which("prlimit"), f"--as={RESERVED_BYTES}", program(), "best", *words,
                                         "--budget", str(LARGEST_BUDGET))
    passed = status == 0 and output.startswith(b"cut ")
    print(f"the largest budget within {RESERVED_BYTES >> 20} MiB: {beginning(output.decode())}, {seconds:.3f} s"
          f"{'' if passed else '  TOO MUCH MEMORY'}")
    return passed


def rates(*words):
    """Prints the need of a block, and how many nodes of its log a second are written, and written and checked."""
    branches = need(*words)
    start, spent, enough = (faster("best", *words, "--budget", str(budget))[1]
                            for budget in (1, branches - 1, branches))
    print(f"need {branches}")
    print(f"spent by one branch: {2 * (branches - 1) / (spent - start):9.0f} nodes/s, in {spent - start:.3f} s")
    print(f"enough:              {(2 * branches + 1) / (enough - start):9.0f} nodes/s, in {enough - start:.3f} s")


def main():
    with tempfile.TemporaryDirectory() as folder:
        passed, absent = chains(folder), missing(CROSS)
        if absent:
            print(absent)
        else:
            passed += ciphers(folder)
        passed.append(reserves_little(write_chain(folder, LONGEST), *port_words(ONE_OUTPUT)))
        print(f"{sum(passed)} of {len(passed)} within their limits")
        rates(write_chain(folder, LONGEST), *port_words(ONE_OUTPUT))
    return 0 if all(passed) else 1


if __name__ == "__main__":
    sys.exit(main())
