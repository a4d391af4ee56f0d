"""A plain reading of what a text of units is, where it breaks a rule first, and what its modules compute. It shares
nothing with the program, so that the checks can compare the two.

A text is read token by token, one token ahead. A fault stands at the first token that breaks a rule, and has the least
kind of those that the token breaks:

1  a byte that begins no token
2  a token that isn't allowed there, or the end of the text
3  a name that no assigned wire or input has
4  the name of a wire that the module has already
5  ends an operand, a branch or a right side of the wrong width; or a constant that doesn't fit into its width
6  a width, index, count or range out of bounds; or makes a concatenation wider than 64 bits
7  another target of `assign` than the wire just declared
8  the name of a wire past the 2,048th
9  another name of a module than the due one, or that of a module past the 32nd
"""
import re
from collections import namedtuple

LONGEST_NAME, MOST_DIGITS, MOST_HEX_DIGITS = 32, 7, 16
WIDEST, MOST_WIRES, MOST_MODULES = 64, 2048, 32
INPUTS = "a", "b", "c"
# The further inputs of a wide module, and what is a word there and a name elsewhere.
FURTHER, WIDE_WORDS = ("d", "e"), ("d", "e", "x")
RESERVED = {*INPUTS, "y", "z", "module", "input", "output", "wire", "assign", "endmodule"}
# The operators of two operands; a shift's amount may have any width.
OPERATORS = {
    "+": lambda left, right: left + right, "-": lambda left, right: left - right,
    "*": lambda left, right: left * right, "&": lambda left, right: left & right,
    "|": lambda left, right: left | right, "^": lambda left, right: left ^ right,
    "<<": lambda left, right: left << min(right, WIDEST), ">>": lambda left, right: left >> min(right, WIDEST),
    "<": lambda left, right: int(left < right)}
SHIFTS = "<<", ">>"
TOKEN = re.compile(r"""(?P<mark>//\ cycles\ (?:0|[1-9][0-9]{0,6})\n) | (?P<name>[A-Za-z][A-Za-z0-9_]*)
    | (?P<constant>[0-9]+'h[0-9A-Fa-f]+) | (?P<number>[0-9]+) | (?P<sign><<|>>|[-()\[\]{}:;,=+*&|^<?])""", re.VERBOSE)
BLANKS = re.compile(r"[ \t\n]*")

# Of the kinds mark, word, name, number, constant and sign; or long, which is allowed nowhere, bad and end.
Token = namedtuple("Token", "kind text offset")
Wire = namedtuple("Wire", "name width value")
Module = namedtuple("Module", "number cycles wide wires y z x")
# Expressions: one term, two of them around an operator, or a choice.
One = namedtuple("One", "term")
Two = namedtuple("Two", "operator left right")
Choose = namedtuple("Choose", "condition yes no")
# Terms: a list of items stands for their concatenation, of which the first item is the highest.
Repeat = namedtuple("Repeat", "count part")
Bits = namedtuple("Bits", "name high low")
Number = namedtuple("Number", "width value")


class Fault(Exception):
    """The first fault of a text: its kind, and the offset of the byte at which its token begins."""

    def __init__(self, kind, offset):
        super().__init__(kind, offset)
        self.kind, self.offset = kind, offset


def is_plain(number):
    """Whether digits are a number: few enough, without a leading zero."""
    return len(number) <= MOST_DIGITS and (number == "0" or number[0] != "0")


def is_long(kind, text):
    """Whether a token is one of those that are allowed nowhere."""
    if kind == "constant":
        width, digits = text.split("'h")
        return not is_plain(width) or len(digits) > MOST_HEX_DIGITS
    return kind == "name" and len(text) > LONGEST_NAME or kind == "number" and not is_plain(text)


def tokens(text):
    """The tokens of a text up to the first byte that begins none, which stands for a token too, as the end does."""
    offset = BLANKS.match(text).end()
    while offset < len(text):
        found = TOKEN.match(text, offset)
        if found is None:
            yield Token("bad", text[offset], offset)
            return
        kind, spelt = found.lastgroup, found[0]
        if is_long(kind, spelt):
            kind = "long"
        elif spelt in RESERVED:
            kind = "word"
        yield Token(kind, spelt, offset)
        offset = BLANKS.match(text, found.end()).end()
    yield Token("end", "", len(text))


class Reader:
    """Reads a text; `token` is the one that is due, `last` the one before it."""

    def __init__(self, data):
        # As many letters as bytes; those past ASCII begin no token.
        self.tokens = tokens(data.decode("latin-1"))
        self.token, self.last = next(self.tokens), None
        self.wide, self.widths = False, {}

    def refuse(self):
        """The due token isn't allowed."""
        raise Fault(1 if self.token.kind == "bad" else 2, self.token.offset)

    def take(self, kind):
        if self.token.kind != kind:
            self.refuse()
        self.last, self.token = self.token, next(self.tokens, None)
        return self.last.text

    def due(self, *texts):
        for text in texts:
            if self.token.text != text or self.token.kind not in ("word", "sign", "number", "name"):
                self.refuse()
            self.take(self.token.kind)

    def name(self, but=()):
        """A name, which in a wide module is none of its words, but for these."""
        if self.wide and self.token.text in WIDE_WORDS and self.token.text not in but:
            self.refuse()
        return self.take("name")

    def number(self, most, least=0):
        """A number within bounds."""
        number = int(self.take("number"))
        self.need(least <= number <= most, 6)
        return number

    def need(self, holds, kind):
        """The token that was read last breaks a rule unless this holds."""
        if not holds:
            raise Fault(kind, self.last.offset)

    def is_sign(self, *texts):
        return self.token.kind == "sign" and self.token.text in texts

    def file(self):
        modules = []
        while self.token.kind != "end":
            modules.append(self.unit(len(modules)))
        return modules

    def unit(self, number):
        cycles = int(self.take("mark").split()[2])
        self.due("module")
        name = self.take("name")
        self.need(name == f"ci_{number}" and number < MOST_MODULES, 9)
        self.due("(")
        for port in INPUTS:
            self.due("input", "[", "31", ":", "0", "]", port, ",")
        self.wide = self.token.kind == "word" and self.token.text == "input"
        for port in FURTHER if self.wide else ():
            self.due("input", "[", "31", ":", "0", "]", port, ",")
        targets = "yzx" if self.wide else "yz"
        for port in targets:
            self.due("output", "[", "31", ":", "0", "]", port, ")" if port == targets[-1] else ",")
        self.due(";")
        self.widths, wires = dict.fromkeys((*INPUTS, *FURTHER) if self.wide else INPUTS, 32), []
        most = len(self.widths) + MOST_WIRES
        while self.token.text == "wire":
            wires.append(self.wire(most))
            self.widths[wires[-1].name] = wires[-1].width
        results = []
        for target in targets:
            self.due("assign", target, "=")
            results.append(self.expression(32))
            self.due(";")
        self.due("endmodule")
        wide, self.wide = self.wide, False
        return Module(number, cycles, wide, wires, *results[:2], results[2] if wide else One(Number(32, 0)))

    def wire(self, most):
        self.due("wire", "[")
        width = self.number(WIDEST - 1) + 1
        self.due(":", "0", "]")
        name = self.name()
        self.need(name not in self.widths, 4)
        self.need(len(self.widths) < most, 8)
        self.due(";", "assign")
        self.need(self.name() == name, 7)
        self.due("=")
        value = self.expression(width)
        self.due(";")
        return Wire(name, width, value)

    def expression(self, width):
        """A right side of a width. Where it ends, its last token is the one that was read last."""
        first, have = self.term()
        if self.is_sign("?"):
            self.need(have == 1, 5)
            return self.choice(first, width)
        if self.is_sign(*OPERATORS):
            self.need_bounds(first)
            return self.two(first, have, width)
        if self.token.kind == "end":
            self.need_bounds(first)
            self.refuse()
        self.need(have == width, 5)
        return One(first)

    def two(self, left, have, width):
        self.take("sign")
        operator = self.last.text
        right, second = self.term()
        self.need(operator in SHIFTS or second == have, 5)
        self.need((1 if operator == "<" else have) == width, 5)
        self.need_bounds(right)
        return Two(operator, left, right)

    def choice(self, condition, width):
        self.due("?")
        yes, have = self.term()
        self.need_bounds(yes)
        self.due(":")
        no, second = self.term()
        self.need(have == second == width, 5)
        return Choose(condition, yes, no)

    def term(self):
        """A term and its width. That of a constant may be out of bounds."""
        if not self.is_sign("{"):
            return self.simple()
        self.due("{")
        if self.token.kind == "number":
            return self.repetition(0)
        items, width = [], 0
        while not items or self.is_sign(","):
            if items:
                self.due(",")
            item, width = self.item(width)
            items.append(item)
        self.due("}")
        return items, width

    def item(self, before):
        """An item of a concatenation, and the width with what stands before it."""
        if self.is_sign("{"):
            self.due("{")
            return self.repetition(before)
        part, width = self.simple()
        self.need_bounds(part)
        self.need(before + width <= WIDEST, 6)
        return part, before + width

    def repetition(self, before):
        """A repetition, whose first bracket is read, and the width with what stands before it."""
        count = self.number(WIDEST, 1)
        self.due("{")
        part, width = self.simple()
        self.need_bounds(part)
        self.need(before + count * width <= WIDEST, 6)
        self.due("}", "}")
        return Repeat(count, part), before + count * width

    def simple(self):
        """A name, some bits of it, or a constant; and its width."""
        if self.token.kind == "constant":
            width, digits = self.take("constant").split("'h")
            number = Number(int(width), int(digits, 16))
            self.need(number.value < 2 ** number.width, 5)
            return number, number.width
        name = self.take("word") if self.token.text in INPUTS else self.name(FURTHER)
        self.need(name in self.widths, 3)
        width = self.widths[name]
        if self.token.kind == "end":
            # Whether the name stands alone isn't seen.
            self.refuse()
        if not self.is_sign("["):
            return Bits(name, width - 1, 0), width
        self.due("[")
        high = low = self.number(width - 1)
        if self.is_sign(":"):
            self.due(":")
            low = self.number(high)
        self.due("]")
        return Bits(name, high, low), high - low + 1

    def need_bounds(self, term):
        """The constant that was read last has a width within bounds."""
        self.need(not isinstance(term, Number) or 1 <= term.width <= WIDEST, 6)


def read(data):
    """The modules of a text; a Fault is raised where it breaks a rule."""
    return Reader(data).file()


def term_value(term, values):
    """The value of a term and its width, by the values and widths of names."""
    if isinstance(term, Number):
        return term.value, term.width
    if isinstance(term, Bits):
        width = term.high - term.low + 1
        return values[term.name][0] >> term.low & 2 ** width - 1, width
    parts = [term_value(term.part, values)] * term.count if isinstance(term, Repeat) else [
        term_value(item, values) for item in term]
    value, total = 0, 0
    for part, width in parts:
        value, total = value << width | part, total + width
    return value, total


def value(expression, values):
    """The value of an expression, by the values and widths of names."""
    if isinstance(expression, One):
        return term_value(expression.term, values)[0]
    if isinstance(expression, Choose):
        chosen = expression.yes if term_value(expression.condition, values)[0] else expression.no
        return term_value(chosen, values)[0]
    (left, width), (right, _) = term_value(expression.left, values), term_value(expression.right, values)
    return OPERATORS[expression.operator](left, right) % 2 ** width


def evaluate(module, a, b, c, d=0, e=0):
    """The values of y, z and x, which is 0 where the module isn't wide."""
    inputs = zip((*INPUTS, *FURTHER), (a, b, c, d, e) if module.wide else (a, b, c))
    values = {name: (number, 32) for name, number in inputs}
    for wire in module.wires:
        values[wire.name] = value(wire.value, values), wire.width
    return value(module.y, values), value(module.z, values), value(module.x, values)


def results_line(module, *operands):
    """The line of the results: y and z, and x too where the module is wide."""
    results = evaluate(module, *operands)
    return " ".join(f"{result:08x}" for result in (results if module.wide else results[:2])) + "\n"


def operand_words(operands, source):
    """The words by which `eval` is given a, b, c, d and e: those of d and e stand anywhere, and may be left out where
    they are 0."""
    words = [[f"0x{operand:x}"] for operand in operands[:3]]
    for name, operand in zip(FURTHER, operands[3:]):
        if operand or source.randrange(2):
            words.insert(source.randrange(4), source.choice(([f"--{name}", f"0x{operand:x}"],
                                                             [f"--{name}=0x{operand:x}"])))
    return [word for part in words for word in part]
