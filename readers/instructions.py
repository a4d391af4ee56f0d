"""The instructions of RV32IM by the tables of the standard (RISC-V Unprivileged ISA 20191213, chapter 24): their names,
registers and offsets. It shares nothing with the program, so that the checks can compare the two."""
import functools

BRANCHES = {0: "beq", 1: "bne", 4: "blt", 5: "bge", 6: "bltu", 7: "bgeu"}
LOADS = {0: "lb", 1: "lh", 2: "lw", 4: "lbu", 5: "lhu"}
STORES = {0: "sb", 1: "sh", 2: "sw"}
IMMEDIATES = {0: "addi", 1: "slli", 2: "slti", 3: "sltiu", 4: "xori", 5: "srli", 6: "ori", 7: "andi"}
OPERATIONS = {0: ("add", "sll", "slt", "sltu", "xor", "srl", "or", "and"),
              1: ("mul", "mulh", "mulhsu", "mulhu", "div", "divu", "rem", "remu")}
SPECIAL = {0x00000073: "ecall", 0x00100073: "ebreak"}
ALL = {"lui", "auipc", "jal", "jalr", "fence", "srai", "sub", "sra", *SPECIAL.values(), *BRANCHES.values(),
       *LOADS.values(), *STORES.values(), *IMMEDIATES.values(), *OPERATIONS[0], *OPERATIONS[1]}
# The instructions that read two registers.
TWO_OPERANDS = {"sub", "sra", *BRANCHES.values(), *STORES.values(), *OPERATIONS[0], *OPERATIONS[1]}
# The names of what ends a basic block; a word that is no instruction has none.
ENDS = {None, "jal", "jalr", "ecall", "ebreak", "fence", "auipc", *BRANCHES.values()}


@functools.lru_cache(maxsize=65536)
def mnemonic(word):
    """The name of an instruction of RV32IM, by the tables of the standard's chapter 24; None for another word."""
    opcode, funct3, funct7 = word & 0x7F, word >> 12 & 7, word >> 25
    if opcode in (0x37, 0x17, 0x6F):
        return {0x37: "lui", 0x17: "auipc", 0x6F: "jal"}[opcode]
    if opcode in (0x67, 0x0F):
        return {0x67: "jalr", 0x0F: "fence"}[opcode] if funct3 == 0 else None
    if opcode == 0x13:
        if funct3 == 5 and funct7 == 0x20:
            return "srai"
        return IMMEDIATES[funct3] if funct3 not in (1, 5) or funct7 == 0 else None
    if opcode == 0x33 and funct7 == 0x20:
        return {0: "sub", 5: "sra"}.get(funct3)
    if opcode == 0x33:
        return OPERATIONS[funct7][funct3] if funct7 in OPERATIONS else None
    if opcode == 0x73:
        return SPECIAL.get(word)
    return {0x63: BRANCHES, 0x03: LOADS, 0x23: STORES}.get(opcode, {}).get(funct3)


def reads(word):
    """The registers that an instruction reads. An environment call reads those that the calls of `run` take."""
    name, first, second = mnemonic(word), word >> 15 & 31, word >> 20 & 31
    if name == "ecall":
        return {10, 11, 12, 17}
    if name in (None, "lui", "auipc", "jal", "fence", "ebreak"):
        return set()
    if name in TWO_OPERANDS:
        return {first, second} - {0}
    return {first} - {0}


def writes(word):
    """The registers that an instruction writes."""
    name = mnemonic(word)
    if name == "ecall":
        return {10}
    if name in (None, "fence", "ebreak") or name in BRANCHES.values() or name in STORES.values():
        return set()
    return {word >> 7 & 31} - {0}


def ends_block(word):
    """Whether an instruction ends a basic block, as a word that is no instruction does."""
    return mnemonic(word) in ENDS


def offset_fields(word):
    """The fields of a jump's or a branch's offset (section 2.3 of the standard): the lowest bit of the offset that one
    holds, and the lowest and the highest bit of the word where it stands. The first one is the sign."""
    if word & 0x7F == 0x6F:
        return (20, 31, 31), (12, 12, 19), (11, 20, 20), (1, 21, 30)
    return (12, 31, 31), (11, 7, 7), (5, 25, 30), (1, 8, 11)


def offset(word):
    """The offset of a jump or branch."""
    fields = offset_fields(word)
    value = sum((word >> low) % 2 ** (high - low + 1) << place for place, low, high in fields)
    sign = 1 << fields[0][0]
    return value - 2 * (value & sign)


def with_offset(word, value):
    """A jump or branch without an offset, given one."""
    return word | sum((value >> place) % 2 ** (high - low + 1) << low for place, low, high in offset_fields(word))


def ways(address, word):
    """Where the instruction at an address may lead, but for a JALR, which may lead to any leader."""
    name = mnemonic(word)
    if name == "jal":
        return {address + offset(word)}
    if name in (None, "ebreak", "jalr"):
        return set()
    if name in BRANCHES.values():
        return {address + offset(word), address + 4}
    return {address + 4}
