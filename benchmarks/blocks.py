"""Times `rumtsafi blocks` on executables with as much text as may be, and `rumtsafi best --at` on the longest block.

    python3 -m benchmarks.blocks [PROGRAM]

PROGRAM is bin/rumtsafi if left out. Each shape of
text is made with WORDS words and with a quarter of them. A line for each file has the seconds of the faster of two
runs, the greatest resident memory and the number of blocks; behind that of the longer text stand how many times longer
it took, and what misses its limit. `best --at` and `blocks` on a block of 256 instructions, the fastest of RUNS runs
each, differ by the time for the block's graph, the slots for the log, and the search and the check of that, which are
short where few operations may join. It ends with status 0 where all is within its limits.
"""
import os
import struct
import sys
import tempfile

from benchmarks.common import faster, measure, program, write
from readers import executable
from readers.instructions import with_offset

WORDS, BASE = 262_144, 0x10000
SECONDS, MEBIBYTES, TIMES = 2.0, 300, 5
GRAPH_SECONDS, RUNS = 0.001, 100
# Odd, so that its multiples modulo a power of two are all numbers below it, in an order that no walk in place follows.
STRIDE = 32_771
NO_OP, BREAK, RETURN, JUMP, BRANCH = 0x13, 0x00100073, 0x00008067, 0x6F, 0x00000063
LONGEST = 256
# Its walks outgrow the processor's caches, so it is held to its seconds and its memory alone.
FAR = "the same, to a block far away"


def store(base, value):
    """`sw value, 0(base)`, which reads two registers and writes none."""
    return value << 20 | base << 15 | 0x2023


def load(base, value):
    """`lw value, 0(base)`."""
    return base << 15 | 0x2003 | value << 7


def add(left, right, result):
    """`add result, left, right`."""
    return right << 20 | left << 15 | result << 7 | 0x33


def reader(number, count):
    """The first instruction of a block: 31 of the blocks, far from one another, read one register each."""
    place, rest = divmod(number * 31, count)
    return store(0, place + 1) if rest < 31 else NO_OP


def jumps(count, stride=1):
    """A jump at every second word, from each block to the one that lies `stride` blocks on, through all of them."""
    blocks = count // 2
    for block in range(blocks):
        yield reader(block, blocks)
        yield with_offset(JUMP, ((block + stride) % blocks - block) * 8 - 4)


def far_jumps(count):
    """The same, from each block to one far away."""
    return jumps(count, STRIDE)


def chain(count):
    """Blocks of which each leads to the one before it. The first ones read all registers."""
    for block in range(count // 2):
        yield store(2 * block + 1, (2 * block + 2) % 32) if block < 16 else NO_OP
        yield with_offset(JUMP, -12) if block else BREAK


def returns(count):
    """A JALR at every fourth word."""
    for word in range(count):
        yield RETURN if word % 4 == 3 else reader(word, count)


def straight(count):
    """One instruction behind the other, and no jump."""
    for word in range(count):
        yield add(word % 31 + 1, (word + 7) % 31 + 1, (word + 17) % 31 + 1)


def branches(count):
    """A branch at each word, as far back as may be or forth."""
    for word in range(count):
        way = -min(word, 1_000) if word % 2 else min(count - 1 - word, 999)
        yield with_offset(BRANCH | word % 31 + 1 << 15, 4 * way)


def everywhere(count):
    """The addresses of all words."""
    return range(BASE, BASE + 4 * count, 4)


def nowhere(_):
    """No data."""
    return ()


# A name, the words of the text, the words of the data, and how many of the words are leaders.
SHAPES = (
    ("a jump at every second word", jumps, nowhere, 2),
    (FAR, far_jumps, nowhere, 2),
    ("each block to the one before", chain, nowhere, 2),
    ("JALR, and all words listed", returns, everywhere, 1),
    ("straight code", straight, nowhere, LONGEST),
    ("a branch at each word", branches, nowhere, 1),
)


def longest_block(eligible):
    """A block of 256 instructions, most of them loads and stores, with so many operations among them."""
    for place in range(LONGEST):
        if place % 20 == 0 and place < 20 * eligible:
            yield add(5, 6, 5 + place // 20)
        elif place % 2:
            yield store(10 + place % 3, 5 + place % 14)
        else:
            yield load(10 + place % 3, 5 + place % 14)


def write_executable(name, text, data):
    """An executable of one segment with this text, where its run begins, and this data behind it."""
    words = struct.pack(f"<{len(text) + len(data)}I", *text, *data)
    size = 4 * len(text)
    start = 52 + 32 + 40
    with open(name, "wb") as file:
        file.write(executable.header(BASE, (52, 1), (84, 1))
                   + executable.load(start, BASE, len(words), len(words))
                   + executable.section(executable.PROGBITS, executable.ALLOC_AND_EXECUTE, BASE, start, size) + words)


def write_shape(name, text, data, count):
    write_executable(name, list(text(count)), data(count))


def write_block(name, eligible):
    write_executable(name, list(longest_block(eligible)), ())


def compare(shape, file):
    """Whether a shape of text is within its limits; prints its two lines."""
    name, text, data, length = shape
    times, marks = [], ""
    for count in (WORDS // 4, WORDS):
        write(write_shape, file, text, data, count)
        output, seconds, memory = faster("blocks", file)
        blocks = output.count(b"\n")
        times.append(seconds)
        if blocks != (count + length - 1) // length:
            marks += "  WRONG"
        end = ""
        if count == WORDS:
            marks += "  TOO SLOW" * (seconds > SECONDS) + "  TOO MUCH MEMORY" * (memory > MEBIBYTES)
            marks += "  GROWS TOO FAST" * (seconds > TIMES * times[0] and name != FAR)
            end = f"  times {seconds / times[0]:.1f}{marks}"
        print(f"{name:30} {count:7} words {seconds:7.3f} s {memory:7.1f} MiB {blocks:7} blocks{end}", flush=True)
    return not marks


def graph_in_time(file):
    """Whether `best --at` takes little longer than `blocks` on a block of 256 instructions of which one may join, where
    the difference is the block's graph and the slots for the log, since the search ends where it begins: one operation
    gains nothing. Prints that, and the same for twelve."""
    passed = True
    for eligible in (1, 12):
        write(write_block, file, eligible)
        blocks, best = (min(measure(program(), *words)[2] for _ in range(RUNS))
                        for words in (("blocks", file), ("best", file, "--at", f"0x{BASE:x}")))
        slow = eligible == 1 and best - blocks > GRAPH_SECONDS
        passed = passed and not slow
        print(f"a block of {LONGEST}, {eligible:2} may join: blocks {1000 * blocks:.2f} ms, best {1000 * best:.2f} ms, "
              f"difference {1000 * (best - blocks):.2f} ms{'  TOO SLOW' * slow}", flush=True)
    return passed


def main():
    with tempfile.TemporaryDirectory() as folder:
        file = os.path.join(folder, "file")
        passed = [compare(shape, file) for shape in SHAPES]
        in_time = graph_in_time(file)
    print(f"{sum(passed)} of {len(passed)} shapes within {SECONDS} s, {MEBIBYTES} MiB and {TIMES} times; the graph of "
          f"{LONGEST} instructions {'with' if in_time else 'not with'}in {1000 * GRAPH_SECONDS:.0f} ms")
    return 0 if all(passed) and in_time else 1


sys.exit(main())
