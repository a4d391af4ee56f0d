"""Blocks that are made up to be folded and run: operations over a few registers, so that most depend on each other,
with loads, stores and uses of units between them, and mostly with an instruction that ends the block."""
from checks.generators.blocks import LOADS, OPERATIONS, STORES
from checks.generators.programs import with_table
from checks.oracles.operations import IMMEDIATE, SHIFTS, with_registers
from readers.folds import cput_word, cread_word, unit_word
from readers.instructions import with_offset

# The registers that hold addresses, x8 twice as often as the others, and those that operations are over.
BASES = 2, 8, 8, 9
WORK = sorted({*range(1, 32)} - {*BASES})
# What ends a block: branches, JAL, JALR, AUIPC, and words that are taken as they are, of which the last one is no
# instruction.
BRANCHES = [funct3 << 12 | 0x63 for funct3 in (0, 1, 4, 5, 6, 7)]
JUMP, JUMP_TO_REGISTER, PLACE = 0x6F, 0x67, 0x17
OTHERS = 0x00000073, 0x00100073, 0x0FF0000F, 0x0000007F
UPPER = 0x37


class BlockMaker:
    """Makes a block. `narrow` are the numbers of units that take three inputs, and `wide` those of others."""

    def __init__(self, source, narrow, wide):
        self.source, self.narrow, self.wide = source, narrow, wide
        self.registers = source.sample(WORK, source.randrange(3, 9))

    def some(self):
        """A register of operations, now and then x0."""
        return self.source.choice(self.registers) if self.source.randrange(16) else 0

    def base(self):
        """A register of addresses, now and then any one."""
        return self.source.choice(BASES) if self.source.randrange(32) else self.some()

    def immediate(self):
        return self.source.getrandbits(self.source.choice((4, 12)))

    def operation(self):
        return self.source.choice(OPERATIONS) | self.some() << 7 | self.some() << 15 | self.some() << 20

    def with_immediate(self):
        name = self.source.choice(sorted(IMMEDIATE))
        amount = self.source.getrandbits(5) if name in SHIFTS else self.immediate()
        return with_registers(name, self.some(), self.some(), amount)

    def moved_base(self):
        """A register of an address is moved by a few bytes."""
        base = self.source.choice(BASES)
        return with_registers("addi", base, base, self.source.randrange(8))

    def access(self, words):
        """A load or a store, mostly a few bytes behind an address."""
        offset = self.source.getrandbits(6 if self.source.randrange(32) else 12)
        return with_table(self.source.choice(words), self.some(), self.base(), offset)

    def use(self):
        """The words of a use: a `cput` where the unit is wide, and now and then where it isn't, and mostly a `cread`
        behind it or two."""
        is_wide = self.source.randrange(2) == 0
        number = self.source.choice(self.wide if is_wide else self.narrow)
        words = [unit_word(number, self.some(), [self.some() for _ in "abc"])]
        if is_wide or self.source.randrange(4) == 0:
            words.insert(0, cput_word(self.some(), self.some()))
        return words + [cread_word(self.some(), index) for index in range(self.source.choice((0, 1, 2, 2)))]

    def action(self):
        """Words that don't end a block."""
        kind = self.source.randrange(16)
        if kind == 0:
            return self.use()
        if kind == 1:
            return [UPPER | self.some() << 7 | self.source.getrandbits(20) << 12]
        if kind == 2:
            return [self.moved_base()]
        if kind < 7:
            return [self.access(LOADS if kind < 5 else STORES)]
        return [self.with_immediate() if kind < 11 else self.operation()]

    def end(self):
        """A word that ends a block."""
        kind, way = self.source.randrange(9), self.source.choice((0, 2, 8, -8))
        if kind < 2:
            word = self.source.choice(BRANCHES) | self.some() << 15 | self.some() << 20
            return with_offset(word, way)
        if kind == 2:
            return with_offset(JUMP | self.some() << 7, way)
        if kind == 3:
            return JUMP_TO_REGISTER | self.some() << 7 | self.some() << 15 | self.immediate() << 20
        if kind == 4:
            return PLACE | self.some() << 7 | self.source.getrandbits(20) << 12
        return self.source.choice(OTHERS)

    def block(self):
        """The words of a block."""
        words = [word for _ in range(self.source.randrange(2, 24)) for word in self.action()]
        return words + [self.end()] * (self.source.randrange(3) > 0)


def some_live(source):
    """Some set of registers."""
    share = source.choice((2, 4))
    return {register for register in range(1, 32) if source.randrange(share) == 0}
