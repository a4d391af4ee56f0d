"""Compares `rumtsafi best --at` with a naive reading of what a best cut is.

The executables are those of the comparison of blocks, and some more that are made up, always in the same way, of blocks
full of loads, stores and registers that are written again. Of each, blocks are taken in which up to 11 instructions may
join a cut, so that all sets of them can be tried. For each block, with limits on inputs and outputs and often with a
latency table of its own, `best` has to print the best cut, or that there is none, where the budget is just what the
search takes, and that it is skipped where the budget is one less. An address that begins no block has to be refused, as
has a text with a word of a custom opcode. Of two small blocks the lines are worked ones. And of a block of 256 words
all of them have to be found to be the best cut, in half a second. Lines of all kinds have to be due.
"""
import collections
import resource
import struct

from checks.common import main
from checks.compare.lines import Lines
from checks.generators.blocks import some_word
from checks.generators.executables import executables, of_blocks
from checks.oracles.blocks import Text, live_sets
from checks.oracles.cuts import Graph, Search, Table
from readers import executable
from readers.latencies import may_join

# The most instructions of a block that may join; and how many blocks of each number of them are taken of an executable.
JOINING, EACH = 11, 1
# How many executables are made of dense blocks, and of how many.
DENSE, BLOCKS = 70, 8
# A block of the greatest length whose words are all `xor x5, x5, x10`: as one cut of two inputs it takes 26 cycles.
# What `best` prints of it by the greatest budget, and in less than how many seconds of a processor.
CHAIN = struct.pack("<I", 0x00A2C2B3) * 256
OPTIONS, WHOLE, SOON = ("--out", "1", "--budget", "4194304"), f"cut {' '.join(map(str, range(256)))} gain 230\n", 0.5

# Blocks, limits on inputs and outputs, and what `best` prints. xor x5, x10, x11; xor x5, x5, x12; xor x5, x5, x13; xor
# x5, x5, x14 has five inputs, of which the last two take one word more. xor x5, x10, x11; xor x6, x5, x12; xor x7, x6,
# x10; xor x7, x7, x11; xor x7, x7, x12 has three outputs, of which the last two take a word more each.
FIVE_INPUTS = 0x00B542B3, 0x00C2C2B3, 0x00D2C2B3, 0x00E2C2B3
THREE_OUTPUTS = 0x00B542B3, 0x00C2C333, 0x00A343B3, 0x00B3C3B3, 0x00C3C3B3
ROWS = ((FIVE_INPUTS, (5, 1), "cut 0 1 2 3 gain 2\n"), (FIVE_INPUTS, (4, 1), "cut 1 2 3 gain 1\n"),
        (FIVE_INPUTS, (3, 1), "cut 2 3 gain 1\n"), (THREE_OUTPUTS, (3, 3), "cut 0 1 2 3 4 gain 2\n"),
        (THREE_OUTPUTS, (3, 2), "cut 3 4 gain 1\n"))
ALL_REGISTERS = set(range(1, 32))


def dense_block(source, registers):
    """Words of which up to 11 may join a cut, and often an end."""
    block, wanted = [], source.randrange(1, JOINING + 1)
    while sum(map(may_join, block)) < wanted or source.random() < 0.5:
        word = some_word(source, registers)
        if sum(map(may_join, block + [word])) <= JOINING:
            block.append(word)
    return block + [None] * source.randrange(2)


def some_blocks(source, text, blocks):
    """Of the blocks with each number of instructions that may join, from 1 to 11, a few, by their leaders."""
    rows = collections.defaultdict(list)
    for leader, block in blocks.items():
        rows[sum(may_join(text.words[address]) for address in block)].append(leader)
    return [leader for count in range(1, JOINING + 1)
            for leader in source.sample(rows[count], min(EACH, len(rows[count])))]


def seconds_of_calls():
    """The processor time of all calls so far."""
    used = resource.getrusage(resource.RUSAGE_CHILDREN)
    return used.ru_utime + used.ru_stime


class Comparison(Lines):
    """What was compared, in counts."""
    command, kinds = "best", ("cut", "no cut", "skipped", "fault")

    def rows(self):
        """Compares the lines of small blocks, by the program and by the naive reading, with worked ones."""
        for words, (inputs, outputs), wanted in ROWS:
            self.write("file", struct.pack(f"<{len(words)}I", *words))
            name, options = f"the block {words}", ("--in", f"{inputs}", "--out", f"{outputs}")
            self.same_line(name, options, wanted)
            naive = Search(Graph(words, ALL_REGISTERS, Table()), inputs, outputs).best()
            self.same(f"{name}, {' '.join(options)}, by the naive reading", naive, wanted)

    def chain(self):
        """Compares the line of a block of the greatest length, and the time that it takes."""
        self.write("file", CHAIN)
        before = seconds_of_calls()
        self.same_line("the chain", OPTIONS, WHOLE)
        taken = seconds_of_calls() - before
        self.need(taken < SOON, f"the chain takes {taken:.1f} seconds")

    def block(self, name, address, words, live):
        """Compares the best line of a block, by the budget that the search takes and by one less."""
        table, inputs, outputs, options = self.some_settings()
        search = Search(Graph(words, live, table), inputs, outputs)
        need = search.need()
        self.counts["blocks"] += 1
        self.line(name, address, {**options, "budget": max(need, 1)}, search.best())
        if need > 1:
            self.line(name, address, {**options, "budget": need - 1}, f"skipped budget {need - 1}\n")

    def executable(self, name, data):
        """Compares some blocks of an executable, and how an address that begins no block is refused."""
        self.write("file", data)
        image = executable.Image(data)
        text = Text(image, [])
        custom = text.custom()
        if custom is not None:
            wanted = f"fault 7 unsupported {custom:08x} {text.words[custom]:08x}\n"
            self.line(name, image.entry, {}, wanted, 7)
            return
        blocks = text.blocks()
        _, after = live_sets(text, blocks)
        for leader in some_blocks(self.source, text, blocks):
            self.block(name, leader, [text.words[address] for address in blocks[leader]], after[leader])
        inner = min(text.words.keys() - blocks.keys(), default=image.entry + 2)
        self.line(name, inner, {}, f"fault 7 unsupported {inner:08x} 00000000\n", 7)


def look(comparison):
    found, missing = executables(comparison.folder, comparison.source)
    if missing:
        print(missing)
    found += [(f"dense, number {number}", of_blocks(comparison.source, BLOCKS, dense_block)) for number in range(DENSE)]
    for name, data in found:
        comparison.executable(name, data)
    comparison.rows()
    comparison.chain()
    counts = comparison.counts
    comparison.least_lines(1)
    return (f"{counts['blocks']} blocks of {len(found)} executables compared: {counts['cut']} with a cut, "
            f"{counts['no cut']} without one, {counts['skipped']} skipped by a budget of one less, and "
            f"{counts['fault']} addresses refused")


main(__doc__, look, Comparison)
