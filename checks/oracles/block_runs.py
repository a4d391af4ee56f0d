"""Runs of a block and of its folded block beside each other, from states that agree on what the block needs: its
registers, memory outside the text, heap end, input left and output. What has to be alike then is what the law on folded
blocks says (`FoldingKeepsAgreement` and `KeepsRuns` of `ci_rewrite`)."""
from checks.oracles import operations
from checks.oracles.cuts import Table
from checks.oracles.emulator import REGISTERS, Machine, Program
from readers import executable
from readers.folds import HIDDEN, UNIT, operands, writes
from readers.instructions import ends_block

# Where the values of a frame stand and how many words they have, and how many bytes of the stack get values.
DATA, DATA_WORDS, STACK_BYTES = 0x20000, 64, 256
BOUNDS = 0, 1, 31, 0x7FFFFFFF, 0x80000000, 0xFFFFFFFF
# The numbers of environment calls, and one that is none.
CALLS = 63, 64, 93, 214, 1000
# How two runs end that are alike: both pass, both end by the block's last word or by the same access, or nothing is
# said, since the block touches the text.
PASSED, ENDED, REFUSED, WILD = "that pass", "that end by the last word", "that end by an access", "that touch the text"


def unit_of(block, cut):
    """The unit of a cut of a block, by its operations; what a use takes isn't told."""
    places = {node: place for place, node in enumerate(sorted(cut))}
    return operations.Unit(operations.operations_of(block.words, cut), [],
                           [places[node] for node in block.outputs(cut)], 1)


class BlockProgram(Program):
    """An executable of one block, with units of operations by their numbers."""

    def __init__(self, words, values, units):
        super().__init__(executable.frame(words, (), values), Table(), units)
        self.numbers = units.keys()

    def evaluated(self, module, values):
        return operations.outputs(module, values)


def last_words(words):
    """The word that ends a block, in a list, or none."""
    last = words[-1:]
    return last if last and ends_block(last[0]) and last[0] & 0x7F not in (UNIT, HIDDEN) else []


def needed(words, live):
    """The registers that words read before they write them, and those that are live behind and not written."""
    found = set(live)
    for word in reversed(words):
        found = found - writes(word) | set(operands(word))
    return found - {0}


def some_value(source):
    """Some word: any, a small one, or one at a bound."""
    kind = source.randrange(4)
    if kind < 2:
        return source.randrange(40) if kind else source.choice(BOUNDS)
    return source.getrandbits(32)


def some_registers(source):
    """Values of all registers, the hidden ones too. Those of addresses lead to the stack and to the data, and those of
    an environment call mostly make one that isn't refused."""
    x = [some_value(source) for _ in range(REGISTERS)]
    x[0], x[2], x[8], x[9] = 0, executable.STACK[1] - STACK_BYTES // 2, DATA + 64, DATA + 4 * DATA_WORDS - 64
    x[17] = source.choice(CALLS)
    if source.randrange(4):
        x[10], x[11], x[12] = source.randrange(3), DATA + source.randrange(128), source.randrange(16)
    return x


class Both:
    """A block and its folded block, behind which some registers are live, in such states."""

    def __init__(self, source, words, folded, live, units):
        self.words, self.live = words, live
        values = [source.getrandbits(32) for _ in range(DATA_WORDS)]
        stack, given = source.randbytes(STACK_BYTES), source.randbytes(8)
        self.old, self.new = (Machine(BlockProgram(part, values, units), given) for part in (words, folded))
        self.old.x, same = some_registers(source), needed(words, live)
        self.new.x = [value if register in same or register == 0 else some_value(source)
                      for register, value in enumerate(self.old.x)]
        for machine in (self.old, self.new):
            machine.write(executable.STACK[1] - STACK_BYTES, stack)

    def run(self):
        """Runs both up to the word that ends the block, and then with it. Gives how both end, and in what they differ,
        in words, or None."""
        last = last_words(self.words)
        actions = len(self.words) - len(last)
        what = self.difference(actions, needed(last, self.live))
        if self.old.wild:
            return WILD, None
        if self.old.end and not what:
            is_access = self.old.end.startswith("access")
            return REFUSED, None if is_access else f"both end by {self.old.end} before the last word"
        if not what:
            what = self.difference(len(self.words), self.live)
        return WILD if self.old.wild else ENDED if self.old.end else PASSED, what

    def difference(self, steps, registers):
        """Makes steps, as many in all, and gives in what the runs differ, where these registers have to be alike."""
        old, new = self.old, self.new
        old.run(steps)
        new.run(steps)
        if old.wild:
            return None
        if new.wild:
            return "the folded block touches the text"
        if old.end != new.end:
            return f"the folded block ends by {new.end}, and the block by {old.end}"
        for name, mine, due in (("heap end", new.heap, old.heap), ("input", new.input, old.input),
                                ("output", new.output, old.output)):
            if mine != due:
                return f"{name} is {mine!r} and not {due!r}"
        for address in sorted((old.written | new.written) - old.program.text - new.program.text):
            if old.memory.get(address, 0) != new.memory.get(address, 0):
                return f"the byte at {address:08x}"
        return None if old.end else self.difference_in_registers(registers)

    def difference_in_registers(self, registers):
        old, new = self.old, self.new
        for name, mine, due in (("pc", new.pc, old.pc), *((f"x{k}", new.x[k], old.x[k]) for k in sorted(registers))):
            if mine != due:
                return f"{name} is {mine:08x} and not {due:08x}"
        return None
