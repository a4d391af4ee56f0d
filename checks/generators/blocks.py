"""Words of blocks, and latency tables, that are made up for the checks on cuts."""
from checks.oracles.cuts import Table

# The words of operations by their fields funct7 and funct3: divisions are in the last eight.
OPERATIONS = [funct7 << 25 | funct3 << 12 | 0x33 for funct7, places in ((0, range(8)), (0x20, (0, 5)), (1, range(8)))
              for funct3 in places]
# The words of immediate forms, with an immediate or a shift amount of 1.
IMMEDIATES = [1 << 20 | funct3 << 12 | 0x13 for funct3 in range(8)] + [0x40105013]
LOADS = [funct3 << 12 | 0x03 for funct3 in (0, 1, 2, 4, 5)]
STORES = [funct3 << 12 | 0x23 for funct3 in (0, 1, 2)]
NO_OPERATION = 0x13
# Limits on inputs and outputs.
LIMITS = [(inputs, outputs) for outputs in (1, 2, 3) for inputs in (1, 2, 3, 4, 5)]


def some_registers(source):
    """A few registers, which may be x0."""
    registers = source.sample(range(1, 32), source.randrange(3, 9))
    return registers + source.choice(([], [0], [0, 10]))


def some_word(source, registers):
    """Some word that doesn't end a block, over some registers."""
    rows = source.choices((OPERATIONS, IMMEDIATES, LOADS, STORES, (0x37,), (NO_OPERATION,)), (8, 6, 5, 4, 2, 1))[0]
    word, second = source.choice(rows), source.choice(registers)
    if word == NO_OPERATION:
        return word
    word |= source.choice(registers) << 7 if rows is not STORES else 0
    return word | source.choice(registers) << 15 | (second << 20 if rows in (OPERATIONS, STORES) else 0)


def some_table(source):
    """The usual table, or another one."""
    table = Table()
    if source.random() < 0.4:
        table.pad = source.randrange(3)
        table.read = source.randrange(max(1, table.pad), 4)
        table.latencies = {key: source.randrange(max(1, table.pad), 5) for key in table.latencies}
        table.delays = {key: source.choice((0, 999, 1000, 1001, source.randrange(2500))) for key in table.delays}
    return table


def costly(**latencies):
    """A table in which no-ops cost something, delays are longer, and so are some latencies."""
    table = Table()
    table.read, table.pad = 2, 1
    table.latencies.update(add=2, mul=7, **latencies)
    table.delays.update(shift_const=150, logic=430)
    return table
