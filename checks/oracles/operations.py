"""What the operations of RV32IM that may join a cut compute (RISC-V Unprivileged ISA 20191213, sections 2.4 and 7.1),
and a naive reading of what the unit of a cut is. It shares nothing with the program, so that the checks can compare the
two."""
from collections import namedtuple

from readers.folds import writes
from readers.instructions import mnemonic, reads
from readers.latencies import KEYS

WORD = 2 ** 32


def signed(word):
    return word - WORD if word >> 31 else word


# By words, the results modulo the size of a word.
ALU = {
    "add": lambda a, b: a + b, "sub": lambda a, b: a - b, "and": lambda a, b: a & b, "or": lambda a, b: a | b,
    "xor": lambda a, b: a ^ b, "sll": lambda a, b: a << b % 32, "srl": lambda a, b: a >> b % 32,
    "sra": lambda a, b: signed(a) >> b % 32, "slt": lambda a, b: int(signed(a) < signed(b)),
    "sltu": lambda a, b: int(a < b), "mul": lambda a, b: a * b, "mulh": lambda a, b: signed(a) * signed(b) >> 32,
    "mulhsu": lambda a, b: signed(a) * b >> 32, "mulhu": lambda a, b: a * b >> 32}
# The operations of the forms with an immediate.
IMMEDIATE = {"addi": "add", "slti": "slt", "sltiu": "sltu", "xori": "xor", "ori": "or", "andi": "and", "slli": "sll",
             "srli": "srl", "srai": "sra"}
# The words of both forms by their names, with x0 and 0 in their fields.
WORDS = {mnemonic(word): word for opcode in (0x13, 0x33) for funct7 in (0x20, 1, 0) for funct3 in range(8)
         for word in [funct7 << 25 | funct3 << 12 | opcode] if mnemonic(word) in {*ALU, *IMMEDIATE}}
SHIFTS = "slli", "srli", "srai"

# The operations, each a name with two arguments, as in generators/units.py; the keys of the latency table of their
# instructions; the numbers of the outputs; and the cycles of a use.
Unit = namedtuple("Unit", "operations keys outputs cycles")


def with_registers(name, target, first, second):
    """The word of an operation on registers, or with an immediate in the place of the second one."""
    return WORDS[name] | target << 7 | first << 15 | (second << 20) % WORD


def immediate(word):
    """The immediate of a form with one, as a word."""
    name = mnemonic(word)
    if name in SHIFTS:
        return word >> 20 & 31
    return (signed(word) >> 20) % WORD


def operations_of(words, cut):
    """The operations of the members of a cut of the block of these words."""
    places = {node: place for place, node in enumerate(sorted(cut))}
    inputs, writers, operations = [], {}, []

    def argument(register):
        if register == 0:
            return "constant", 0
        node = writers.get(register)
        if node in cut:
            return "earlier", places[node]
        source = (register, node)
        if source not in inputs:
            inputs.append(source)
        return "input", inputs.index(source)

    for node, word in enumerate(words):
        name = mnemonic(word)
        if node in cut:
            first = argument(word >> 15 & 31) if name != "lui" else ("constant", word & 0xFFFFF000)
            second = argument(word >> 20 & 31) if name in ALU else ("constant", immediate(word) if name != "lui" else 0)
            operations.append((IMMEDIATE.get(name, "add" if name == "lui" else name), first, second))
        writers.update((register, node) for register in writes(word))
    return operations


def unit_of(graph, words, cut):
    """The unit of a cut of the block of these words."""
    operations, places = operations_of(words, cut), {node: place for place, node in enumerate(sorted(cut))}
    outputs = [places[node] for node in sorted(cut) if node in graph.live or not graph.readers[node] <= cut]
    return Unit(operations, [KEYS[mnemonic(words[node])] for node in sorted(cut)], outputs, graph.cycles(cut))


def outputs(unit, inputs):
    """What a unit makes of five words: its first output, and its second and its third or 0."""
    results = []
    for name, *arguments in unit.operations:
        values = [number if kind == "constant" else (inputs if kind == "input" else results)[number]
                  for kind, number in arguments]
        results.append(ALU[name](*values) % WORD)
    return tuple([results[place] for place in unit.outputs] + [0, 0])[:3]


assert all(reads(word) == set() for word in WORDS.values())
