"""Compares folded blocks with a plain reading of what one is, word for word, and their runs with those of the blocks.

FOLDS is the program of the crate `ci_folds`: it writes the folded block of each line that it is given. The blocks are
those of the executables of samples/ and of checks/programs, which GCC builds with picolibc. Each is folded by its best
cut, which `best --at` of PROGRAM tells, once by the usual limits on inputs and outputs and once by the greatest, and by
some other cuts; and the folded blocks, in which units stand now, are folded again by some cuts. What takes a tool that
is missing is skipped, with a line that says so.

Blocks that are made up, always in the same way, are folded too, with uses of units, accesses that fail and ends of all
kinds in them; each up to ten times, and after about half of these the folded block takes the place of the block. Of
each of these folds, the block and what the program made of it run beside each other on plain machines in Python, where
units are the operations of their cuts, from random states that agree on what the block needs. They have to be alike in
their ends, memory outside the text, heap end, input left and output, and where they pass in pc and live registers, too.
One in four runs with another target of its unit word, too, and so many of these have to be found.
"""
import collections
import random

from checks.common import FOLDS, called, main, read
from checks.generators.folds import BlockMaker, some_live
from checks.oracles.block_runs import ENDED, PASSED, REFUSED, WILD, Both, last_words, unit_of
from checks.oracles.blocks import Text, live_sets
from checks.tools import compiled
from readers import executable
from readers.folds import Block, is_cput, is_cread, is_unit

# How many blocks are taken of an executable; how many cuts are tried of a block, and how many of them are folded.
EACH, TRIES, SOME = 20, 12, 2
# How many folds have to be compared of each kind, by what is asked of the words by which the unit is used.
LEAST = 100
KINDS = {"that pass hidden operands": is_cput, "with a second output": is_cread,
         "with a third output": lambda word: is_cread(word) and word >> 20 == 1}
WITH_UNITS = "of blocks with units"
# How many blocks are made up, how many folds of each are tried, and how many have to run: in all, by how they end, and
# of each kind.
MADE, FOLDED = 400, 10
LEAST_RUNS, LEAST_ENDS, LEAST_KINDS = 1620, 293, 100
# One of so many runs is made with a wrong word, too, and how many of these have to be found.
PLANTED, FOUND, LEAST_FOUND = 4, "that are found with another target of the unit word", 200
# Limits on inputs and outputs.
USUAL, GREATEST = ("3", "2"), ("5", "3")
NUMBERS = 32
# Blocks, the members of a cut, and the folded block by unit 0, worked by hand: five inputs, and three outputs.
ROWS = (((0x00B542B3, 0x00C2C2B3, 0x00D2C2B3, 0x00E2C2B3), {0, 1, 2, 3},
         (0x00E6902B, 0x60B5028B, 0x00000013, 0x00000013)),
        ((0x00B542B3, 0x00C2C333, 0x00A343B3, 0x00B3C3B3, 0x00C3C3B3), {0, 1, 2, 3, 4},
         (0x60B5028B, 0x0000032B, 0x001003AB, 0x00000013, 0x00000013)))
ALL_REGISTERS = set(range(1, 32))
# Blocks behind which all registers are live, whose operations make the units that made-up blocks use. The first two
# take three inputs, and the last one five.
UNITS = [Block(words, ALL_REGISTERS) for words in (
    [0x00B542B3, 0x00C28333],  # xor x5, x10, x11; add x6, x5, x12
    [0x00B542B3, 0x00C28333, 0x40C283B3],  # the same; sub x7, x5, x12
    [0x00B542B3, 0x00C282B3, 0x40E68333, 0x0062C3B3])]  # xor and add of x5; sub x6, x13, x14; xor x7, x5, x6
# A fold that is to be run: the number of its line, the block, what is live behind it, the units by their numbers, and
# what tells of the fold, in words.
Run = collections.namedtuple("Run", "line words live units kinds")


class Folds:
    """The lines that the program is given, what it has to write of them, and the folds that are to be run."""

    def __init__(self):
        self.lines, self.wanted, self.runs, self.counts = [], [], [], collections.Counter()

    def add(self, block, live, cut, number=None):
        """A fold of a block, by the number that is next if none is given. Gives the words of the folded block."""
        number = len(self.lines) % NUMBERS if number is None else number
        words = block.folded(cut, number)
        self.put(block, live, cut, number, words)
        return words

    def put(self, block, live, cut, number, words):
        """A fold of a block, and the words that are due."""
        parts = (f"{word:08x}" for word in block.words), sorted(cut), [number], sorted(live)
        self.lines.append(" | ".join(" ".join(map(str, part)) for part in parts))
        self.wanted.append(" ".join(f"{word:08x}" for word in words))
        self.counts.update(kinds_of(block, cut))


def kinds_of(block, cut):
    """The kinds of the fold of a block by a cut."""
    use = block.use(cut, 0)
    return [*(kind for kind, is_kind in KINDS.items() if any(map(is_kind, use))),
            *[WITH_UNITS] * any(map(is_unit, block.words))]


def best_cut(check, path, leader, limits):
    """The best cut of the block at a leader, or None where there is none or the search for it is too long."""
    inputs, outputs = limits
    done = check.call("best", path, "--at", f"0x{leader:x}", "--in", inputs, "--out", outputs, text=True, timeout=120)
    check.same(f"the status of best --at 0x{leader:x}", done.returncode, 0)
    kind, *words = done.stdout.split()
    return set(map(int, words[:-2])) if kind == "cut" else None


def some_cuts(source, block):
    """Cuts that fit: of most of those that may join among nodes that stand together."""
    found = []
    for _ in range(TRIES):
        begin, size = source.choice(block.nodes), source.randrange(1, 13)
        cut = {node for node in block.nodes[begin:begin + size] if block.joins(node) and source.randrange(6)}
        if cut and cut not in found and block.fits(cut):
            found.append(cut)
    return found[:SOME]


def fold_block(source, folds, words, live, best):
    """Folds a block by its best cuts and by others, and the folded blocks again."""
    block = Block(words, live)
    for cut in some_cuts(source, block) + best:
        again = Block(folds.add(block, live, cut), live)
        for other in some_cuts(source, again):
            folds.add(again, live, other)


def fold_rows(check, folds):
    """Folds the worked blocks, also by the plain reading."""
    for words, cut, due in ROWS:
        block = Block(list(words), ALL_REGISTERS)
        folds.put(block, ALL_REGISTERS, cut, 0, list(due))
        check.same(f"the plain reading of {words}, folded", block.folded(cut, 0), list(due))


def fold_made(source, folds):
    """Folds a block that is made up, and some of the folded blocks again, each time by another number."""
    numbers, live = source.sample(range(NUMBERS), NUMBERS), some_live(source)
    units = {numbers.pop(): unit_of(block, set(block.nodes)) for block in UNITS}
    *narrow, wide = units
    block = Block(BlockMaker(source, narrow, [wide]).block(), live)
    for _ in range(FOLDED):
        cut = max(some_cuts(source, block), key=len, default=None)
        if cut is None:
            continue
        number = numbers.pop()
        folded = folds.add(block, live, cut, number)
        units = {**units, number: unit_of(block, cut)}
        folds.runs.append(Run(len(folds.lines) - 1, block.words, live, units, kinds_of(block, cut)))
        if source.randrange(2):
            block = Block(folded, live)


def with_another_target(words):
    """The words of a folded block, of which the last unit word writes the register beside its own."""
    place = max(place for place, word in enumerate(words) if is_unit(word))
    return [*words[:place], words[place] ^ 1 << 7, *words[place + 1:]]


def run_folds(check, source, folds, ours):
    """Runs what the program made of each of these folds beside its block, and counts them by their kinds."""
    counts = collections.Counter()
    for number, run in enumerate(folds.runs):
        folded = [int(word, 16) for word in ours[run.line].split()]
        end, what = Both(source, run.words, folded, run.live, run.units).run()
        check.need(what is None, f"{folds.lines[run.line]}, as {ours[run.line]}: {what}")
        counts.update([end, *run.kinds, *["with a last word that ends the block"] * bool(last_words(run.words))])
        if number % PLANTED == 0:
            wrong = Both(random.Random(number), run.words, with_another_target(folded), run.live, run.units)
            counts[FOUND] += wrong.run()[1] is not None
    check.same("runs that touch the text", counts[WILD], 0)
    check.least({"runs": len(folds.runs)}, LEAST_RUNS)
    check.least({f"runs {end}": counts[end] for end in (PASSED, ENDED, REFUSED)}, LEAST_ENDS)
    check.least({f"runs {kind}": counts[kind] for kind in (*KINDS, WITH_UNITS)}, LEAST_KINDS)
    check.least({f"runs {FOUND}": counts[FOUND]}, LEAST_FOUND)
    return counts


def fold_executable(source, folds, check, path):
    """Folds some blocks of an executable without custom words. Gives how many best cuts they have."""
    text = Text(executable.Image(read(path)), [])
    if text.custom() is not None:
        return 0
    blocks = text.blocks()
    _, after = live_sets(text, blocks)
    long = [leader for leader, block in blocks.items() if len(block) > 1]
    count = 0
    for leader in source.sample(long, min(EACH, len(long))):
        found = [best_cut(check, path, leader, limits) for limits in (USUAL, GREATEST)]
        best = [cut for number, cut in enumerate(found) if cut and cut not in found[:number]]
        count += len(best)
        fold_block(source, folds, [text.words[address] for address in blocks[leader]], after[leader], best)
    return count


def listed(counts):
    """Counts by their kinds, in words."""
    return ", ".join(f"{count} {kind}" for kind, count in sorted(counts.items()))


def look(check):
    source, folds, missing = random.Random(1), Folds(), compiled.missing()
    if missing:
        print(missing)
    fold_rows(check, folds)
    paths = [path for _, path in (compiled.samples() if missing else compiled.executables(check.folder))]
    best = sum(fold_executable(source, folds, check, path) for path in paths)
    # Drawn anew, so that these blocks are the same whatever tools are there.
    source = random.Random(1)
    for _ in range(MADE):
        fold_made(source, folds)
    done = called([check.given.folds], 120, input="".join(f"{line}\n" for line in folds.lines), text=True)
    ours = done.stdout.splitlines()
    for line, our, wanted in zip(folds.lines, ours, folds.wanted):
        check.same(line, our, wanted)
    check.same("the status and the number of lines", (done.returncode, len(ours)), (0, len(folds.lines)))
    check.least({"by best cuts": best, **{kind: folds.counts[kind] for kind in (*KINDS, WITH_UNITS)}},
                1 if missing else LEAST)
    runs = run_folds(check, source, folds, ours) if len(ours) == len(folds.lines) else {}
    return (f"{len(folds.lines)} folds of blocks of {len(paths)} executables and of {MADE} made-up blocks compared, "
            f"{best} by best cuts, {listed(folds.counts)}; and {len(folds.runs)} of them run, {listed(runs)}")


main(__doc__, look, folds=FOLDS)
