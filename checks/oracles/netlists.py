"""A plain reading of what a text of netlists is, where it is bad first, and what its gates compute; a writer of such
texts; and how many gates a module has by the table of operators. It shares nothing with the program, so that the checks
can compare the two.

A text is read byte by byte, and is bad at the first byte with which no such text goes on, or at its end. The values are
those at many inputs at once: what a bit is in each of them is one number, of which digit n is the bit's at input n.
"""
import re
from collections import namedtuple

from checks.oracles import units

MOST_NETLISTS, MOST_GATES = 32, 4_194_304
INPUTS, RESULTS = "abcde", "yzx"
OPERATORS = {b"and": lambda left, right: left & right, b"or": lambda left, right: left | right,
             b"xor": lambda left, right: left ^ right}
BIT = rb"([01]|[a-e](?:[12]?[0-9]|3[01])|g(?:0|[1-9][0-9]{0,6}))"
GATE = re.compile(rb"(and|or|xor) " + BIT + b" " + BIT + b"\n")
# How many gates an operator takes, by the widths of its left and of its right operand.
OPERATOR_GATES = {
    "&": lambda width, _: width, "|": lambda width, _: width, "^": lambda width, _: width,
    "+": lambda width, _: 5 * width, "-": lambda width, _: 6 * width, "<": lambda width, _: 6 * width + 1,
    "*": lambda width, _: 3 * width * (width + 1),
    "<<": lambda width, amount: 3 * width * amount, ">>": lambda width, amount: 3 * width * amount}

# Gates, each a word and two bits, and the 96 bits of the results, all as the text spells them.
Netlist = namedtuple("Netlist", "gates outputs")


class Fault(Exception):
    """The offset at which a text is bad."""


class Reader:
    """A text, and how far it was read."""

    def __init__(self, text):
        self.text, self.at = text, 0

    def need(self, allowed):
        """The next byte, which is one of these."""
        byte = self.text[self.at:self.at + 1]
        if not byte or byte not in allowed:
            raise Fault(self.at)
        self.at += 1
        return byte

    def word(self, word):
        for place in range(len(word)):
            self.need(word[place:place + 1])

    def number(self, most, behind):
        """A number that is no greater than this, and the byte behind it."""
        digits = b""
        while True:
            more = bytes(digit for digit in b"0123456789" if digits != b"0" and int(digits + bytes([digit])) <= most)
            byte = self.need(more + (behind if digits else b""))
            if byte == behind:
                return int(digits)
            digits += byte

    def bit(self, made, behind):
        """A bit that names a gate before this one at most, and the byte behind it."""
        letter = self.need(INPUTS.encode() + b"01" + (b"g" if made else b""))
        if letter in b"01":
            self.need(behind)
            return letter
        return letter + b"%d" % self.number(made - 1 if letter == b"g" else 31, behind)

    def gate(self, made):
        found = GATE.match(self.text, self.at)
        if found and all(bit[:1] != b"g" or int(bit[1:]) < made for bit in found.groups()[1:]):
            self.at = found.end()
            return found.groups()
        letter = self.need(b"".join(word[:1] for word in OPERATORS))
        name = next(word for word in OPERATORS if word.startswith(letter))
        self.word(name[1:] + b" ")
        return name, self.bit(made, b" "), self.bit(made, b"\n")

    def netlist(self, number):
        self.word(b"netlist %d gates " % number)
        count = self.number(MOST_GATES, b"\n")
        gates, outputs = [self.gate(made) for made in range(count)], []
        for letter in RESULTS:
            self.word(letter.encode() + b" ")
            outputs += [self.bit(count, b" ") for _ in range(31)] + [self.bit(count, b"\n")]
        return Netlist(gates, outputs)

    def netlists(self):
        found = []
        while self.at < len(self.text):
            if len(found) == MOST_NETLISTS:
                raise Fault(self.at)
            found.append(self.netlist(len(found)))
        return found


def read(text):
    """The netlists of a text, and None; or None, and the offset at which it is bad."""
    try:
        return Reader(text).netlists(), None
    except Fault as fault:
        return None, fault.args[0]


def written(nets):
    """The text of netlists."""
    lines = []
    for number, net in enumerate(nets):
        lines.append(b"netlist %d gates %d" % (number, len(net.gates)))
        lines += map(b" ".join, net.gates)
        lines += (b" ".join([letter.encode(), *net.outputs[32 * place:32 * place + 32]])
                  for place, letter in enumerate(RESULTS))
    return b"".join(line + b"\n" for line in lines)


def inputs(vectors):
    """What the constants and the bits of the inputs are where a to e are these words."""
    held = {b"0": 0, b"1": 2 ** len(vectors) - 1}
    for letter, words in zip(INPUTS, zip(*vectors)):
        for place in range(32):
            held[b"%s%d" % (letter.encode(), place)] = int("".join("01"[word >> place & 1] for word in words[::-1]), 2)
    return held


def values(net, vectors, known=None):
    """The values of y, z and x at each of some words for a to e. What `inputs` gives of these may be known already."""
    held = dict(known or inputs(vectors))
    for place, (name, left, right) in enumerate(net.gates):
        held[b"g%d" % place] = OPERATORS[name](held[left], held[right])
    words = []
    for first in range(0, 96, 32):
        digits = (f"{held[bit]:0{len(vectors)}b}" for bit in net.outputs[first:first + 32][::-1])
        words.append([int("".join(bits), 2) for bits in zip(*digits)][::-1])
    return list(zip(*words))


def width(term):
    """The width of a term."""
    if isinstance(term, units.Number):
        return term.width
    if isinstance(term, units.Bits):
        return term.high - term.low + 1
    return term.count * width(term.part) if isinstance(term, units.Repeat) else sum(map(width, term))


def gates_of(expression):
    """How many gates an expression takes."""
    if isinstance(expression, units.Choose):
        return 3 * width(expression.yes)
    if isinstance(expression, units.Two):
        return OPERATOR_GATES[expression.operator](width(expression.left), width(expression.right))
    return 0


def count(module):
    """How many gates a module has: those of its wires and results together."""
    return sum(map(gates_of, (*(wire.value for wire in module.wires), module.y, module.z, module.x)))
