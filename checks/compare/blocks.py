"""Compares `rumtsafi blocks` with a naive reading of what leaders, blocks and live registers are.

The executables are those of samples/; each C program of checks/programs, compiled for RV32IM by GCC with -O2 and with
-Os and linked with picolibc; and some that are made up, always in the same way, with words of the text between data,
several segments and odd symbols. Of each, `blocks` has to print the lines that the sets below give, without and with
`--leader`. Those of GCC are left out where its tools are missing, with a line that says so.
"""
import bisect
import random
import sys

from checks.common import main
from checks.generators.executables import MADE, executables
from checks.oracles.blocks import LONGEST, Text, live_sets
from readers import executable
from readers.instructions import ends_block

# With how many lists of leaders each executable is compared.
LISTS = 3


def obeys(text, blocks):
    """Whether the words that are no marks are leaders where they follow a full block: the nearest leader below lies 256
    words before, in the same range, and no instruction from there on ends a block. And whether the last instruction of
    a block alone ends it."""
    marks, leaders = text.marks(), sorted(blocks)
    for start, past in text.image.ranges:
        for address in range(start, past, 4):
            below = leaders[bisect.bisect_left(leaders, address) - 1] if leaders[0] < address else None
            full = (below is not None and start <= below and address - below == 4 * LONGEST
                    and not any(ends_block(text.words[place]) for place in range(below, address, 4)))
            if (address in blocks) != (address in marks or full):
                return False
    return not any(ends_block(text.words[place]) for block in blocks.values() for place in block[:-1])


def expected(image, named):
    """What `blocks` prints, its status, and the number of blocks."""
    text = Text(image, named)
    custom = text.custom()
    if custom is not None:
        return f"fault 7 unsupported {custom:08x} {text.words[custom]:08x}\n", 7, 0
    blocks = text.blocks()
    if not obeys(text, blocks):
        sys.exit("the leaders here don't obey their own definition")
    live, _ = live_sets(text, blocks)
    lines = [" ".join((f"block {leader:08x} length {len(block)} live", *map(str, sorted(live[leader]))))
             for leader, block in sorted(blocks.items())]
    return "".join(line + "\n" for line in lines), 0, len(blocks)


def first_difference(ours, wanted):
    """The first line of each of two texts in which they differ."""
    for pair in zip(ours.split("\n") + [None], wanted.split("\n") + [None]):
        if pair[0] != pair[1]:
            return f"{pair[0]!r} against {pair[1]!r}"
    return "nothing"


def lists_of_leaders(image, source):
    """No leaders, and lists of some in and around the text."""
    yield []
    for _ in range(LISTS - 1):
        near = [source.choice(image.ranges)[source.randrange(2)] + source.randrange(-400, 400)
                for _ in range(source.randrange(1, 6))]
        yield [address % 2 ** 32 for address in near + [near[0], source.randrange(2 ** 32)]]


def compare(check, name, data, source):
    """Compares an executable. Gives the numbers of its words and of its blocks, 0 where it is refused."""
    check.write("file", data)
    image, count = executable.Image(data), 0
    for named in lists_of_leaders(image, source):
        options = [word for address in named
                   for word in source.choice(((f"--leader=0x{address:x}",), ("--leader", f"0x{address:08X}")))]
        done = check.call("blocks", *options, "file", text=True, errors="replace")
        wanted, status, blocks = expected(image, named)
        count = count or blocks
        check.need((done.returncode, done.stdout) == (status, wanted), f"{' '.join((name, *options))}: status "
                   f"{done.returncode} against {status}, {first_difference(done.stdout, wanted)}")
    return sum(past - start for start, past in image.ranges) // 4 if count else 0, count


def look(check):
    source, words, blocks, refused = random.Random(1), 0, 0, 0
    found, missing = executables(check.folder, source)
    if missing:
        print(missing)
    for name, data in found:
        counts = compare(check, name, data, source)
        words, blocks, refused = words + counts[0], blocks + counts[1], refused + (counts[1] == 0)
    return (f"{len(found)} executables compared, {MADE} of them made up, {refused} refused for a custom word, the "
            f"others with {words} words and {blocks} blocks")


main(__doc__, look)
