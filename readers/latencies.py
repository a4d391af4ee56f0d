"""The latency table of the guide: its classes of instructions, which instructions may join a cut, and the figures that
a table gives. It shares nothing with the program, so that the checks can compare the two."""
from collections import namedtuple

from readers.instructions import LOADS, STORES, mnemonic, writes

# A class: its key, its instructions, their usual latency in cycles, and their usual delay in thousandths of a cycle,
# which only those have that may join a cut.
Row = namedtuple("Row", "key names latency delay")
ROWS = (Row("add", "add sub addi", 1, 400), Row("logic", "and or xor andi ori xori", 1, 100),
        Row("shift", "sll srl sra", 1, 300), Row("shift_const", "slli srli srai", 1, 0),
        Row("compare", "slt sltu slti sltiu", 1, 400), Row("lui", "lui", 1, 0), Row("mul", "mul", 3, 2100),
        Row("mulh", "mulh mulhu mulhsu", 3, 2200))
OTHERS = (Row("load", " ".join(LOADS.values()), 2, None), Row("store", " ".join(STORES.values()), 1, None),
          Row("branch", "beq bne blt bltu bge bgeu", 1, None), Row("jump", "jal jalr", 2, None),
          Row("auipc", "auipc", 1, None), Row("div", "div divu rem remu", 32, None), Row("fence", "fence", 1, None),
          Row("system", "ecall ebreak", 1, None))
# The keys of the instructions that may join, and of all.
KEYS = {name: row.key for row in ROWS for name in row.names.split()}
ALL_KEYS = {name: row.key for row in (*ROWS, *OTHERS) for name in row.names.split()}
MEMORY = {*LOADS.values(), *STORES.values()}
NO_OPERATION = 0x00000013


def may_join(word):
    """Whether an instruction may be a member of a cut."""
    return mnemonic(word) in KEYS and writes(word) != set()


class Latencies:
    """What an instruction takes, in software and in hardware, by a latency table or as usual."""

    def __init__(self, path=None):
        self.software = {row.key: row.latency for row in (*ROWS, *OTHERS)}
        self.hardware = {row.key: row.delay for row in ROWS}
        self.read, self.pad = 1, 0
        if path:
            import tomllib  # Python has it from 3.11 on, and the checks need no more than 3.9.
            with open(path, "rb") as file:
                table = tomllib.load(file)
            self.software.update(table.get("software", {}))
            self.hardware.update(table.get("hardware", {}))
            self.read, self.pad = table.get("read", 1), table.get("pad", 0)

    def latency(self, word):
        """The cycles of an instruction of RV32IM."""
        return self.pad if word == NO_OPERATION else self.software[ALL_KEYS[mnemonic(word)]]

    def delay(self, word):
        """The delay of an operation that may join, in thousandths of a cycle."""
        return self.hardware[KEYS[mnemonic(word)]]
