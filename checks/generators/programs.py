"""Small programs that are made up: blocks of operations with loads and stores between them, joined by branches, jumps,
calls and jumps through a table of addresses, until a counter is spent; and such programs with unit words."""
import random

from checks.oracles.operations import WORDS, with_registers
from readers import executable
from readers.folds import cput_word, cread_word, unit_word
from readers.instructions import with_offset
from readers.latencies import NO_OPERATION

TEXT, DATA = 0x10074, 0x20000
# Registers that keep their meaning: the address of the data, and how many blocks are left to be entered.
BASE, LEFT = 8, 9
WORK = (5, 6, 7, 10, 11, 12, 13, 14, 15, 17)
# The data has a table of addresses, and then what is loaded and stored.
TABLE, SIZE = 8, 256
BUFFER = 4 * TABLE
ACCESSES = 0x2003, 0x1003, 0x0003, 0x4003, 0x5003, 0x2023, 0x1023, 0x0023
READ, WRITE, EXIT, MOVE_HEAP = 63, 64, 93, 214
# All operations, and those more often of which each operand tells.
OPERATIONS = [*sorted(WORDS), *["add", "sub", "xor", "addi", "xori", "mul"] * 3]
DIVISIONS = 0x02004033, 0x02005033, 0x02006033, 0x02007033


def with_table(word, target, first, offset):
    """A load or a store of a register, at an address from another one."""
    if word & 0x7F == 0x03:
        return word | target << 7 | first << 15 | offset << 20
    return word | (offset & 31) << 7 | first << 15 | target << 20 | offset >> 5 << 25


class Maker:
    """Makes a program; `labels` are the places of words by names, and `jumps` those of words that lead to a name."""

    def __init__(self, source):
        self.source, self.words, self.labels, self.jumps = source, [], {}, {}
        self.blocks = source.randrange(4, 9)
        self.is_perilous, self.is_odd = source.random() < 0.25, source.random() < 0.3
        self.recent = list(WORK)

    def add(self, *words):
        self.words += words

    def operate(self, name, target, first, second):
        self.add(with_registers(name, target, first, second))

    def lead(self, word, label):
        """A branch or a jump to a label."""
        self.jumps[len(self.words)] = label
        self.add(word)

    def some(self):
        """A register, most often one that was written lately."""
        return self.source.choice(self.recent[-3:] if self.source.random() < 0.7 else WORK)

    def target(self):
        self.recent.append(self.source.choice(WORK))
        return self.recent[-1]

    def call(self, number, *arguments):
        """A call, whose arguments are numbers, or None for the address of what is loaded and stored."""
        for register, argument in zip((10, 11, 12), arguments):
            self.operate("addi", register, BASE if argument is None else 0, BUFFER if argument is None else argument)
        self.operate("addi", 17, 0, number)
        self.add(0x73)

    def operation(self):
        name = self.source.choice(OPERATIONS)
        second = self.source.getrandbits(5) if name in ("slli", "srli", "srai") else self.source.getrandbits(12)
        first = self.recent[-1] if self.source.random() < 0.6 else self.some()
        second = second if WORDS[name] & 0x7F == 0x13 else self.some()
        self.operate(name, self.target(), first, second)

    def access(self):
        """A load or a store at a fixed place, or at one that operations find: in a perilous program perhaps one that
        isn't there, and in an odd one perhaps one in the text."""
        word, first, place = self.source.choice(ACCESSES), BASE, 4 * self.source.randrange(TABLE, SIZE // 4)
        if self.source.random() < 0.5:
            first, place = self.source.choice(WORK), BUFFER
            shift = 26 if self.is_perilous and self.source.random() < 0.3 else 0
            if self.is_odd and self.source.random() < 0.1:
                shift, place = 16, 4 * self.source.randrange(TABLE, SIZE // 4)
            self.operate("andi", first, self.some(), self.source.choice((1, 2)) if shift else 0x7C)
            if shift:
                self.operate("slli", first, first, shift)
            self.operate("sub" if shift == 16 else "add", first, BASE, first)
        register = self.target() if word & 0x7F == 0x03 else self.some()
        self.add(with_table(word, register, first, place))

    def body(self):
        for _ in range(self.source.randrange(3, 22)):
            kind = self.source.random()
            if kind < 0.8:
                self.operation()
            elif kind < 0.96:
                self.access()
            elif kind < 0.98:
                self.add(self.source.choice(DIVISIONS) | self.target() << 7 | self.some() << 15 | self.some() << 20)
            else:
                self.add(0x37 | self.target() << 7 | self.source.getrandbits(20) << 12)

    def through_table(self):
        """A jump to one of the addresses of the table; in an odd program perhaps to a word soon behind it."""
        self.operate("andi", 6, self.some(), TABLE - 1)
        self.operate("slli", 6, 6, 2)
        self.operate("add", 6, 6, BASE)
        self.add(with_table(0x2003, 7, 6, 0))
        if self.is_odd:
            self.operate("andi", 13, self.some(), self.source.choice((4, 8, 12)))
            self.operate("add", 7, 7, 13)
            self.recent.append(13)
        self.add(0x67 | 7 << 15 | self.source.choice((0, 1)) << 7)

    def way_on(self):
        """How a block ends, behind which the next one stands."""
        to = f"block {self.source.randrange(self.blocks)}"
        kind = self.source.randrange(8)
        if kind < 3:
            self.lead(self.source.choice((0x63, 0x1063, 0x4063, 0x5063, 0x6063, 0x7063))
                      | self.some() << 15 | self.some() << 20, to)
        elif kind < 5:
            self.through_table()
        elif kind == 5:
            self.lead(0x6F | self.source.choice((0, 1)) << 7, to)
        elif kind == 6:
            self.call(*self.source.choice(((READ, 0, None, self.source.randrange(9)),
                                           (WRITE, 1, None, self.source.randrange(9)), (WRITE, 7, None, 1),
                                           (MOVE_HEAP, 0), (1,))))
        else:
            self.add(self.source.choice((0x0FF0000F, 0x17 | self.target() << 7)))

    def leave(self):
        """How the program ends."""
        self.labels["leave"] = len(self.words)
        self.body()
        self.operate("xor", 13, self.some(), self.some())
        self.add(with_table(0x2023, 13, BASE, BUFFER))
        self.call(WRITE, 2, None, SIZE - BUFFER)
        kind = self.source.randrange(8)
        if kind < 4:
            self.operate("add", 10, 13, 0)
            self.operate("addi", 17, 0, EXIT)
        self.add({4: 0x00100073, 5: 0x0000007F, 6: 0x00000067, 7: 0x00200067}.get(kind, 0x73))

    def program(self):
        """The bytes of an executable."""
        self.add(0x37 | BASE << 7 | DATA)
        self.operate("addi", LEFT, 0, self.source.randrange(3, 40))
        self.call(READ, 0, None, 32)
        for register in WORK:
            self.add(with_table(0x2003, register, BASE, 4 * self.source.randrange(TABLE, SIZE // 4)))
        for number in range(self.blocks):
            self.labels[f"block {number}"] = len(self.words)
            self.body()
            self.operate("addi", LEFT, LEFT, 0xFFF)
            self.lead(0x63 | LEFT << 15, "leave")
            self.body()
            self.way_on()
        self.lead(0x6F, "block 0")
        self.leave()
        for place, label in self.jumps.items():
            self.words[place] = with_offset(self.words[place], 4 * (self.labels[label] - place))
        table = [TEXT + 4 * self.labels[f"block {self.source.randrange(self.blocks)}"] for _ in range(TABLE)]
        return executable.frame(self.words, (), table + [self.source.getrandbits(32) for _ in range(SIZE // 4 - TABLE)])


def long_text(length=600):
    """The bytes of an executable that reads a number, and goes to the word of this number of so many without a jump
    among them; and the address of the first of these. Some are pairs of operations, and the others no-ops."""
    maker = Maker(random.Random(0))
    maker.add(0x37 | BASE << 7 | DATA)
    maker.call(READ, 0, None, 4)
    maker.add(with_table(0x2003, 6, BASE, BUFFER))
    maker.operate("slli", 6, 6, 2)
    maker.add(0x17 | 7 << 7)
    maker.operate("add", 7, 7, 6)
    maker.add(0x67 | 7 << 15 | 12 << 20)
    first = len(maker.words)
    maker.add(*[NO_OPERATION] * length)
    pair = with_registers("add", 5, 5, 10), with_registers("xor", 5, 5, 11)
    for place in (100, 156, 256, 356, 512):
        maker.words[first + place - 1:first + place + 1] = pair
    maker.operate("addi", 10, 5, 0)
    maker.operate("addi", 17, 0, EXIT)
    maker.add(0x73)
    return executable.frame(maker.words, (), [0] * (SIZE // 4)), TEXT + 4 * first


class UnitMaker(Maker):
    """Makes a program with words of so many units, and with those that pass their operands and read their results."""

    def __init__(self, source, count):
        super().__init__(source)
        self.count = count

    def operation(self):
        if self.source.random() < 0.8:
            super().operation()
        else:
            self.bundle()

    def bundle(self):
        """A unit word, with the words before and behind it, and mostly stores of what they write. Each of these may be
        left out, or write x0; now and then there is no such unit, or a word that is nearly a `cread`."""
        source = self.source
        if source.random() < 0.7:
            self.add(cput_word(self.some(), self.some()))
        if source.random() < 0.9:
            number = self.count if source.random() < 0.01 else source.randrange(self.count)
            self.add(unit_word(number, self.written(), [self.some() for _ in "abc"]))
        for index in source.choice(((0, 1), (0, 1), (1, 0), (0,), (1,), ())):
            self.add(cread_word(self.written(), index))
        for register in self.recent[-3:]:
            if source.random() < 0.5:
                self.add(with_table(0x2023, register, BASE, 4 * source.randrange(TABLE, SIZE // 4)))
        if source.random() < 0.01:
            self.add(cread_word(self.written()) | 1 << source.choice((13, 15, 21, 25)))

    def written(self):
        return 0 if self.source.random() < 0.05 else self.target()


def program(source):
    """The bytes of some executable."""
    return Maker(source).program()


def program_of_units(source, count):
    """The bytes of some executable with words of so many units."""
    return UnitMaker(source, count).program()
