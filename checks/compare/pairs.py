"""Compares `rumtsafi pair` with a naive reading of what a best pair of cuts is.

The blocks are those of executables that are made up, always in the same way: of up to 8 words each, and some of up to
256 words of which up to 7 may join a cut, so that all pairs of sets of them can be tried. For each block, with limits
on inputs and outputs and often with a latency table of its own, `pair` has to print the best pair, or that there is
none, where the budget is at least what the search takes: this is counted for blocks of up to 5 words, and for others no
search takes more than there are prefixes of labels. By a smaller budget it may print this line, or that the block is
skipped. An address that begins no block has to be refused, as has a text with a word of a custom opcode. Of some small
blocks the lines are worked ones. Lines of all kinds have to be due.
"""
import struct

from checks.common import main
from checks.compare.lines import Lines
from checks.generators.blocks import LOADS, STORES, some_word
from checks.generators.executables import of_blocks
from checks.oracles.blocks import CUSTOM_OPCODES, LONGEST, Text, live_sets
from checks.oracles.cuts import Graph, Table
from checks.oracles.pairs import Pairs
from readers import executable
from readers.latencies import may_join

# How many executables are made of small blocks; of how many blocks, of up to how many words each; and up to how many
# words the need of a block is counted.
SMALL, BLOCKS, WORDS, COUNTED = 80, 25, 8, 5
# How many long blocks there are, in one executable, and how many of their words may join.
LONG, JOINING = 2, 7
# How many blocks there have to be.
LEAST = 2000
ALL_REGISTERS = set(range(1, 32))

# Blocks, limits on inputs and outputs, a budget, and what `pair` prints. add x5, x10, x11; add x5, x5, x12; add x6,
# x13, x14; add x6, x6, x15 has two cuts, the first of which alone is no pair; beside sub x6, x13, x14, which saves
# nothing by itself, it is one. xor x5, x10, x11; xor x5, x5, x12; xor x5, x5, x13; xor x5, x5, x14 is one cut or two.
# Of xor x5, x5, x6; xor x8, x5, x13; add x6, x13, x7; add x5, x5, x13; xor x8, x8, x6; add x7, x6, x8 the sets 1 4 5
# and 2 3 would gain as much as 1 4 5 and 3, and come first, but 4 reads x6 of 2, and 3 overwrites x5 that 1 reads.
TWO_SUMS = 0x00B502B3, 0x00C282B3, 0x00E68333, 0x00F30333
ONE_SUM = (*TWO_SUMS[:2], 0x40E68333)
FOUR_INPUTS = 0x00B542B3, 0x00C2C2B3, 0x00D2C2B3, 0x00E2C2B3
CROSSED = 0x0062C2B3, 0x00D2C433, 0x00768333, 0x00D282B3, 0x00644433, 0x008303B3
USUAL = 65536
ROWS = ((TWO_SUMS, (3, 1), USUAL, "pair 2 3 and 0 1 gain 2\n"), (TWO_SUMS, (3, 1), 1, "skipped budget 1\n"),
        (TWO_SUMS[:2], (3, 1), USUAL, "no pair\n"), (ONE_SUM, (3, 1), USUAL, "pair 2 and 0 1 gain 1\n"),
        (FOUR_INPUTS, (3, 1), USUAL, "pair 2 3 and 0 1 gain 2\n"),
        (FOUR_INPUTS, (5, 1), USUAL, "pair 2 3 and 0 1 gain 2\n"),
        (CROSSED, (3, 2), USUAL, "pair 1 4 5 and 3 gain 1\n"))


def small_block(source, registers):
    """Up to 8 words, most of which may join a cut, and often an end."""
    block, wanted = [], source.randrange(1, WORDS + 1)
    while len(block) < wanted:
        word = some_word(source, registers)
        if may_join(word) or source.random() < 0.2:
            block.append(word)
    return block[:-1] + [source.choice((None, block[-1], block[-1]))]


def long_block(source, registers):
    """As many words as a block may have, of which a few may join, anywhere among loads and stores."""
    block = [source.choice(LOADS + STORES) | 5 << 15 for _ in range(LONGEST)]
    for place in source.sample(range(LONGEST), JOINING):
        block[place] = some_word(source, registers)
    return block


class Comparison(Lines):
    """What was compared, in counts; and how often a budget of one less than the need sufficed."""
    command, kinds, spared = "pair", ("pair", "no pair", "skipped", "fault"), 0

    def rows(self):
        """Compares the lines of small blocks, by the program and by the naive reading, with worked ones."""
        for words, (inputs, outputs), budget, wanted in ROWS:
            self.write("file", struct.pack(f"<{len(words)}I", *words))
            name, options = f"the block {words}", ["--in", f"{inputs}", "--out", f"{outputs}"]
            options += [] if budget == USUAL else ["--budget", f"{budget}"]
            self.same_line(name, options, wanted)
            pairs = Pairs(Graph(words, ALL_REGISTERS, Table()), inputs, outputs)
            naive = f"skipped budget {budget}\n" if budget < pairs.need() else pairs.best()
            self.same(f"{name}, {' '.join(options)}, by the naive reading", naive, wanted)

    def block(self, name, address, words, live):
        """Compares the best line of a block by a budget that the search doesn't go past, and by a smaller one."""
        table, inputs, outputs, options = self.some_settings()
        pairs = Pairs(Graph(words, live, table), inputs, outputs)
        is_counted, best = len(words) <= COUNTED, pairs.best()
        enough = max(pairs.need() if is_counted else pairs.most(), 1)
        self.counts["blocks"] += 1
        self.counts["counted"] += is_counted
        self.line(name, address, {**options, "budget": enough}, best)
        if enough > 1:
            less = enough - 1 if is_counted else self.source.randrange(1, enough)
            self.with_less(name, self.words(address, {**options, "budget": less}), is_counted, best, less)

    def with_less(self, name, words, is_counted, best, budget):
        """Compares the line by a budget that may be too small."""
        skipped, told = f"skipped budget {budget}\n", self.told(words)
        due = (0, skipped), (0, best)
        self.need(told in due, f"{name}, {' '.join(words)}: {told!r}, and none of {due!r}")
        if told[1] == skipped:
            self.count(skipped)
        elif is_counted:
            self.spared += 1

    def executable(self, name, data):
        """Compares the blocks of an executable, and gives an address in it that begins no block."""
        self.write("file", data)
        text = Text(executable.Image(data), [])
        blocks = text.blocks()
        _, after = live_sets(text, blocks)
        for leader, block in blocks.items():
            self.block(name, leader, [text.words[address] for address in block], after[leader])
        return min(text.words.keys() - blocks.keys())

    def refusals(self, inner):
        """Compares how an address inside a block of the file in hand is refused, and a text with a custom word."""
        self.line("an address inside a block", inner, {}, f"fault 7 unsupported {inner:08x} 00000000\n", 7)
        word = CUSTOM_OPCODES[0]
        self.write("file", executable.frame([word], values=[]))
        entry = executable.Image(self.read("file")).entry
        self.line("a custom word", entry, {}, f"fault 7 unsupported {entry:08x} {word:08x}\n", 7)


def look(comparison):
    made = [(f"small, number {number}", of_blocks(comparison.source, BLOCKS, small_block)) for number in range(SMALL)]
    for name, data in [("long", of_blocks(comparison.source, LONG, long_block)), *made]:
        inner = comparison.executable(name, data)
    comparison.refusals(inner)
    comparison.rows()
    counts = comparison.counts
    comparison.least({"blocks": counts["blocks"]}, LEAST)
    comparison.least_lines(1)
    return (f"{counts['blocks']} blocks compared: {counts['pair']} with a pair, {counts['no pair']} without one, and "
            f"{counts['fault']} addresses refused; {counts['skipped']} lines skipped by less, and {comparison.spared} "
            f"of those of {counts['counted']} blocks whose need is counted not skipped by one less")


main(__doc__, look, Comparison)
