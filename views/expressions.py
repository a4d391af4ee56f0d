"""What a unit computes, as expressions: read from its module as `find` writes it."""
import re

import beside  # noqa: F401 (readers/ is found from here on)
from readers.templates import LINES, unit_text

HEADER = re.compile(r"// cycles (\d+)\nmodule ci_(\d+)\(")
WIRE = re.compile(r"^wire \[(\d+):0\] ([a-z])(\d+);\nassign \2\3 = (.*);$", re.M)
TERM = re.compile(r"([a-e])|t(\d+)|32'h([0-9a-f]{8})")
NAMES = {tuple((letter, width - 1, value) for letter, width, value in lines): name for name, lines in LINES.items()}
# The operations with an operator, and those operators that may follow one another without brackets.
SIGNS = {"mul": "*", "add": "+", "sub": "-", "sll": "<<", "srl": ">>", "sltu": "<", "and": "&", "xor": "^", "or": "|"}
ASSOCIATIVE = {"*", "+", "&", "^", "|"}
WORD = 2 ** 32


def operations(module):
    """The operations of a module, each a name and two arguments: ('input', letter), ('earlier', operation) or
    ('constant', word); and the numbers of the operations whose results are y, z and x."""
    lines = {}
    for width, letter, number, value in WIRE.findall(module):
        lines.setdefault(int(number), []).append((letter, int(width), value))
    found = []
    for number in sorted(lines):
        (_, _, first), (_, _, second), *others = lines[number]
        name = NAMES[tuple((letter, width, re.sub(rf"\b([pqtuvw]){number}\b", r"\1#", value))
                           for letter, width, value in others)]
        found.append((name, argument(first), argument(second)))
    return found, [int(number) for number in re.findall(r"^assign [yzx] = t(\d+);$", module, re.M)]


def read_unit(module):
    """The operations of a module, and the numbers of those whose results are its outputs; a ValueError where it isn't
    what `find` writes of them."""
    try:
        found, outputs = operations(module)
        cycles, number = HEADER.match(module).groups()
    except (KeyError, AttributeError) as error:
        raise ValueError("no unit of operations") from error
    placed = [(name, *((kind, "abcde".index(value) if kind == "input" else value) for kind, value in arguments))
              for name, *arguments in found]
    if unit_text(number, (placed, outputs, cycles)) != module:
        raise ValueError("no unit of operations")
    return found, outputs


def argument(text):
    """An argument by its text."""
    letter, earlier, digits = TERM.fullmatch(text).groups()
    if letter:
        return "input", letter
    return ("earlier", int(earlier)) if earlier else ("constant", int(digits, 16))


def folded(found):
    """Operations in which sums of constants are constants, with these by their numbers."""
    constants, left = {}, []
    for place, (name, *arguments) in enumerate(found):
        arguments = [("constant", constants[number]) if kind == "earlier" and number in constants else (kind, number)
                     for kind, number in arguments]
        if name == "add" and all(kind == "constant" for kind, _ in arguments):
            constants[place] = sum(number for _, number in arguments) % WORD
        left.append((name, *arguments))
    return left, constants


class Unit:
    """The expressions of a unit. What is read more than once gets a name of its own."""

    def __init__(self, module):
        found, self.outputs = read_unit(module)
        self.operations, self.constants = folded(found)
        self.rotations = dict(self.find_rotations())
        needed = self.needed()
        reads = [number for place in needed for number in self.arguments_of(place)]
        self.named = [place for place in needed if place not in self.constants
                      and reads.count(place) + self.outputs.count(place) > 1]

    def find_rotations(self):
        """The operations that join two shifts of one value to a rotation, with the value and the amount."""
        for place, (name, first, second) in enumerate(self.operations):
            shifts = [self.operations[number] for kind, number in (first, second) if kind == "earlier"]
            if name not in ("or", "add", "xor") or len(shifts) < 2:
                continue
            amounts = {shift: amount for shift, _, (kind, amount) in shifts if kind == "constant"}
            if (amounts.keys() == {"srl", "sll"} and shifts[0][1] == shifts[1][1]
                    and sum(amounts.values()) == 32 and 0 < amounts["srl"] < 32):
                yield place, (shifts[0][1], amounts["srl"])

    def arguments_of(self, place):
        """The operations that an operation's expression reads."""
        arguments = [self.rotations[place][0]] if place in self.rotations else self.operations[place][1:]
        return [number for kind, number in arguments if kind == "earlier"]

    def needed(self):
        """The operations that stand in an expression: a rotation takes the place of its shifts."""
        found, waiting = set(), list(self.outputs)
        while waiting:
            place = waiting.pop()
            if place not in found:
                found.add(place)
                waiting += self.arguments_of(place)
        return sorted(found)

    def spelt(self, argument, sign=None):
        """An argument of an operator, or one that stands alone; in brackets where another operator joins its parts."""
        kind, number = argument
        if kind == "input":
            return number
        if kind == "constant":
            return str(number) if number < 4096 else f"0x{number:08x}"
        if number in self.named:
            return f"t{number}"
        text, own = self.expression(number)
        return f"({text})" if sign and own and not (own == sign and sign in ASSOCIATIVE) else text

    def expression(self, place):
        """The expression of an operation, and the operator that joins its parts, if one does."""
        if place in self.constants:
            return self.spelt(("constant", self.constants[place])), None
        if place in self.rotations:
            value, amount = self.rotations[place]
            return f"ror({self.spelt(value)}, {amount})", None
        name, first, second = self.operations[place]
        if name == "xor" and second == ("constant", WORD - 1):
            return f"~{self.spelt(first, '~')}", None
        if name == "add" and ("constant", 0) in (first, second):
            other = first if second == ("constant", 0) else second
            is_plain = other[0] != "earlier" or other[1] in self.named
            return (self.spelt(other), None) if is_plain else self.expression(other[1])
        if name == "add" and second[0] == "constant" and second[1] >= WORD - 4096:
            return f"{self.spelt(first, '-')} - {WORD - second[1]}", "-"
        if name == "sra":
            return f"signed({self.spelt(first)}) >> {self.amount(second)}", ">>"
        if name == "slt":
            return f"signed({self.spelt(first)}) < signed({self.spelt(second)})", "<"
        if name.startswith("mulh"):
            # A product of 64 bits is no part of one of 32, so each operand with an operator stands in brackets.
            left = self.spelt(first, "high") if name == "mulhu" else f"signed({self.spelt(first)})"
            right = f"signed({self.spelt(second)})" if name == "mulh" else self.spelt(second, "high")
            return f"high({left} * {right})", None
        sign = SIGNS[name]
        right = self.amount(second) if name in ("sll", "srl") else self.spelt(second, sign)
        return f"{self.spelt(first, sign)} {sign} {right}", sign

    def amount(self, argument):
        """The amount of a shift: the lowest five bits."""
        kind, number = argument
        if kind == "constant":
            return str(number % 32)
        text = self.spelt(argument)
        return f"{text}[4:0]" if text.isalnum() else f"({text})[4:0]"

    def lines(self):
        """Each expression with its name, in the order in which they are computed; y, z and x last."""
        found = [(f"t{place}", self.expression(place)[0]) for place in self.named]
        for letter, place in zip("yzx", self.outputs):
            found.append((letter, self.spelt(("earlier", place))))
        return found
