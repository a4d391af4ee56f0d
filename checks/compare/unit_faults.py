"""Compares how `rumtsafi eval` takes texts of units with a plain reading of them.

There are texts of which each shows one rule, and texts that are valid, made up always in the same way, in which then
one or two places are changed: bytes and tokens are dropped, doubled or changed, numbers, widths and constants go to
their bounds or just past them, and texts end too early. So many have modules of all kinds, and so many wide ones alone.
With none of these texts may `eval` print another fault than the first one by the plain reading, or other values than
the module has. Faults of each kind have to be due.
"""
import collections
import random

from checks.common import Check, main
from checks.generators.unit_rows import NAME, rows
from checks.generators.units import Maker, some_unit, spell
from checks.oracles import units
from readers.templates import unit_text

COUNT = 2000
# How many texts are left as they are, in addition, and how many of a kind of fault are due at least.
WHOLE, LEAST = 100, 20
# Shapes of modules by the number of their wires; of 0 narrow ones are templates.
SHAPES = (0, 1, 2, 3, 6, 12)
BYTES = b" \n\t\r01238abcdeyzwtpqnAFhxX_'\"/@#.$>~!%\x00\x7f\xc3\xff(){}[]:;,=+-*&|^<?"
TOKENS = ("0", "1", "5", "00", "01", "31", "32", "63", "64", "65", "9999999", "10000000", "2047", "a", "b", "c", "y",
          "z", "d", "e", "x", "t0", "p0", "ci_0", "ci_1", "cycles", "module", "input", "output", "wire", "assign",
          "endmodule", NAME + "x", NAME + "xx", "(", ")", "[", "]", "{", "}", ":", ";", ",", "=", "+", "-", "*", "&",
          "|", "^", "<<", ">>", "<", "?", "// cycles 1\n", "// cycles 01\n", "// cycles 10000000\n", "// cycles 1",
          "1'h0", "1'h1", "1'h2", "0'h0", "0'h1", "4'hf", "4'h10", "32'h0", "32'hFFFFFFFF", "32'h100000000",
          "64'hffffffffffffffff", "64'h0ffffffffffffffff", "65'h0", "9999999'h0", "10000000'h0", "032'h0", "8'", "8'h",
          "8'd1", "{2{a}}", "{3{a}}", "{64{1'h1}}", "{65{1'h1}}", "{0{a}}", "{a, b, c}", "a[31]", "a[32]", "a[4:5]",
          "a[4:4]", "+ a", "? a : b", "[0]")


def some_tokens(source, all_wide):
    """The tokens of a valid text of one of the shapes, of modules that are all wide, or not."""
    shape, maker, tokens = source.choice(SHAPES), Maker(source), []
    for number in range(source.choice((1, 1, 1, 2, 3))):
        if all_wide:
            tokens += maker.module(number, shape, True)
        elif shape == 0:
            tokens += split(unit_text(number, some_unit(source, source.randrange(1, 4))))
        else:
            tokens += maker.module(number, shape, source.randrange(2) == 0)
    return tokens


def split(text):
    """The tokens of a valid text."""
    return [token.text for token in units.tokens(text)][:-1]


def kind_of(token):
    """Which tokens one may mostly stand for: a name, a number, a constant, or another word or a sign."""
    kind = next(units.tokens(token)).kind
    return "name" if token in units.INPUTS else kind


def near(source, token, tokens):
    """A token like another one: another name, or a number or constant that is a little different."""
    kind, (width, quote, digits) = kind_of(token), token.partition("'h")
    if kind not in ("name", "number", "constant") or source.randrange(2):
        return source.choice([other for other in tokens if kind_of(other) == kind])
    if kind == "name":
        return token + source.choice("01_x")
    if kind == "number" or source.randrange(2):
        return str(max(0, int(width) + source.choice((-1, 1)))) + quote + digits
    number = int(digits, 16)
    return f"{width}'h{source.choice((number + 1, number * 2, number * 16, 2 ** min(int(width), 64))):x}"


def change_tokens(source, tokens):
    place, other = source.randrange(len(tokens)), source.randrange(len(tokens))
    way = source.randrange(5)
    if way == 0:
        del tokens[place]
    elif way == 1:
        tokens.insert(place, source.choice((tokens[place], *TOKENS)))
    elif way == 2:
        tokens[place], tokens[other] = tokens[other], tokens[place]
    elif way == 3:
        tokens[place] = source.choice(TOKENS)
    else:
        tokens[place] = near(source, tokens[place], tokens)


def change_meaning(source, tokens):
    """A change by which mostly another thing is named or counted, behind the header."""
    header = tokens.index(";") if ";" in tokens else 0
    places = [place for place in range(header + 1, len(tokens))
              if kind_of(tokens[place]) in ("name", "number", "constant")]
    if not places:
        change_tokens(source, tokens)
        return
    declared = [place for place in places if tokens[place + 1:place + 3] == [";", "assign"]]
    place = source.choice(declared if declared and source.randrange(6) == 0 else places)
    name = tokens[place]
    tokens[place] = near(source, name, tokens)
    if source.randrange(2) and tokens[place + 1:place + 4] == [";", "assign", name]:
        tokens[place + 3] = tokens[place]


def change_bytes(source, data):
    place, way = source.randrange(len(data)), source.randrange(5)
    if way == 0:
        del data[place]
    elif way == 1:
        data.insert(place, data[place])
    elif way == 2:
        data[place] = source.choice(BYTES)
    elif way == 3:
        data.insert(place, source.choice(BYTES))
    else:
        data[place] = source.randrange(256)


def changed(source, all_wide):
    """A text that was valid before one or two places were changed."""
    tokens = some_tokens(source, all_wide)
    ways = source.choices((change_meaning, change_tokens, change_bytes), (4, 2, 1), k=source.choice((1, 1, 2)))
    for way in ways:
        if way is not change_bytes:
            way(source, tokens)
    blanks = source.choice((("", "", " "), ("", " ", "\n"), ("", " ", "\t\n ")))
    data = bytearray(spell(source, tokens, blanks).encode())
    for way in ways:
        if way is change_bytes:
            way(source, data)
    if source.randrange(8) == 0:
        del data[source.randrange(len(data)):]
    return bytes(data)


def first_fault(data):
    """The first fault of a text, or None and its modules."""
    try:
        return None, units.read(data)
    except units.Fault as fault:
        return (fault.kind, fault.offset), []


def answer(fault, modules, number, operands):
    """What `eval` has to print, and its status."""
    if fault is not None:
        return "fault 9 units {} {}\n".format(*fault), 9
    if number >= len(modules):
        return f"fault 7 unsupported {number:08x} 00000000\n", 7
    return units.results_line(modules[number], *operands), 0


class Comparison(Check):
    """What was compared, in counts by kind of fault."""

    def __init__(self, given, folder):
        super().__init__(given, folder)
        self.source, self.kinds = random.Random(1), collections.Counter()

    def text(self, data):
        """Compares what the program makes of a text, and gives its first fault."""
        fault, modules = first_fault(data)
        self.kinds[fault and fault[0]] += 1
        self.eval(data, fault, modules)
        return fault

    def eval(self, data, fault, modules):
        operands = [self.source.choice((0, 1, 2 ** 31, 2 ** 32 - 1, self.source.getrandbits(32))) for _ in "abcde"]
        number = self.source.choice((0, max(0, len(modules) - 1), len(modules) % 32))
        self.write("units", data)
        words = [str(number), *units.operand_words(operands, self.source)]
        done = self.call("eval", "units", *words, text=True, errors="replace")
        self.same(f"{' '.join(words)} of {data[-300:]!r}", (done.stdout, done.returncode),
                  answer(fault, modules, number, operands))


def look(comparison):
    count, source = 0, comparison.source
    for count, (data, due) in enumerate(rows(), 1):
        comparison.same(f"the plain reading of {data[-200:]!r}", comparison.text(data), due)
    for all_wide in (False, True):
        for _ in range(WHOLE):
            data = spell(source, some_tokens(source, all_wide)).encode()
            comparison.same(f"the plain reading of {data!r}", comparison.text(data), None)
        for _ in range(COUNT):
            comparison.text(changed(source, all_wide))
    kinds = comparison.kinds
    comparison.least({f"faults of kind {kind}": kinds[kind] for kind in range(1, 8)}, LEAST)
    return (f"{count} rows, {2 * WHOLE} texts made up, {COUNT} changed, and {COUNT} wide ones changed compared: "
            f"{kinds[None]} valid, " + ", ".join(f"{kinds[kind]} of kind {kind}" for kind in range(1, 10)))


main(__doc__, look, Comparison)
