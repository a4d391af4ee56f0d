"""Texts of units that are made up, and modules of all forms that the grammar has."""
from checks.oracles.units import FURTHER, INPUTS, OPERATORS, SHIFTS, WIDEST, WIDE_WORDS
from readers.templates import HEADER, LINES, WIDE_HEADER


def some_unit(source, size):
    """A unit of so many operations, of all kinds."""
    operations, inputs = [], source.choice((3, 5))
    for place in range(size):
        earlier = [("earlier", source.randrange(place)) for _ in range(2 if place else 0)]
        arguments = [source.choice((("input", source.randrange(inputs)), ("constant", source.getrandbits(32)),
                                    *earlier)) for _ in "pq"]
        operations.append((source.choice(sorted(LINES)), *arguments))
    outputs = sorted(source.sample(range(size), min(size, source.choice((1, 2, 3)))))
    return operations, outputs, source.choice((1, 2, 9_999_999))


class Maker:
    """Makes modules of all forms, each as a list of tokens."""

    def __init__(self, source):
        self.source, self.wide, self.widths = source, False, {}

    def module(self, number, wires, wide=False):
        header = WIDE_HEADER if wide else HEADER
        found = header.format(cycles=self.source.choice((0, 1, 7, 9_999_999)), number=number)
        mark, header = found.split("\n", 1)
        tokens = [mark + "\n", *header_tokens(header)]
        self.wide, self.widths = wide, dict.fromkeys((*INPUTS, *FURTHER) if wide else INPUTS, 32)
        for _ in range(wires):
            tokens += self.wire()
        for target in "yzx" if wide else "yz":
            tokens += ["assign", target, "=", *self.expression(32), ";"]
        return tokens + ["endmodule"]

    def wire(self):
        width = self.width()
        while True:
            name = self.source.choice("depqtuvwxXM") + self.source.choice(
                ("", str(self.source.randrange(60)), "_" * 31))
            if name not in self.widths and not (self.wide and name in WIDE_WORDS):
                break
        tokens = ["wire", "[", str(width - 1), ":", "0", "]", name, ";", "assign", name, "=", *self.expression(width),
                  ";"]
        self.widths[name] = width
        return tokens

    def width(self):
        return self.source.choice((1, 1, 32, 32, WIDEST, self.source.randrange(1, WIDEST + 1)))

    def expression(self, width):
        form = self.source.randrange(8)
        if form == 0:
            return self.term(width)
        if form == 1:
            return [*self.term(1), "?", *self.term(width), ":", *self.term(width)]
        operator = self.source.choice(sorted(OPERATORS))
        if operator in SHIFTS:
            return [*self.term(width), operator, *self.term(self.source.choice((1, 5, 6, self.width())))]
        if operator != "<":
            return [*self.term(width), operator, *self.term(width)]
        if width != 1:
            return self.term(width)
        compared = self.width()
        return [*self.term(compared), "<", *self.term(compared)]

    def term(self, width):
        form = self.source.randrange(4)
        if form == 0:
            return self.repetition(width)
        if form == 1:
            return self.join(width)
        return self.simple(width)

    def join(self, width):
        items, left = [], width
        while left:
            taken = self.source.choice((left, self.source.randrange(1, left + 1)))
            items += ["," if items else "{", *self.source.choice((self.simple, self.simple, self.repetition))(taken)]
            left -= taken
        return [*items, "}"]

    def repetition(self, width):
        count = self.source.choice([count for count in range(1, width + 1) if width % count == 0])
        return ["{", str(count), "{", *self.simple(width // count), "}", "}"]

    def simple(self, width):
        names = [name for name in self.widths if self.widths[name] >= width]
        if not names or self.source.randrange(4) == 0:
            return [self.constant(width)]
        name = self.source.choice(names)
        if self.widths[name] == width and self.source.randrange(4):
            return [name]
        low = self.source.choice((0, self.widths[name] - width, self.source.randrange(self.widths[name] - width + 1)))
        if width == 1 and self.source.randrange(2):
            return [name, "[", str(low), "]"]
        return [name, "[", str(low + width - 1), ":", str(low), "]"]

    def constant(self, width):
        number = self.source.choice((0, 1, 2 ** width - 1, 2 ** (width - 1), self.source.getrandbits(width)))
        digits = f"{number:0{self.source.choice((1, 1, 8, 16))}x}"
        return f"{width}'h{self.source.choice((digits, digits.upper()))}"


def header_tokens(text):
    """The tokens of a text without operators and constants."""
    for sign in "()[],:;":
        text = text.replace(sign, f" {sign} ")
    return text.split()


def would_join(left, right):
    """Whether two tokens are one, or two others, where nothing stands between them."""
    if left.isdigit():
        return right[0].isdigit()
    is_word = [letter.isalnum() or letter == "_" for letter in (left[-1], right[0])]
    return all(is_word) or left == "<" and right[0] == "<"


def spell(source, tokens, blanks=("", "", " ")):
    """A text of tokens, with blanks between them, at least where two of them would join."""
    text = [source.choice(blanks)]
    for token, following in zip(tokens, [*tokens[1:], "("]):
        blank = source.choice(blanks)
        text += [token, blank or (" " if would_join(token, following) else "")]
    return "".join(text)


def many_wires(count):
    """A module of so many wires."""
    wires = "".join(f"wire [31:0] n{number};\nassign n{number} = {f'n{number - 1} + b' if number else 'a'};\n"
                    for number in range(count))
    return HEADER.format(cycles=1, number=0) + wires + f"assign y = n{count - 1};\nassign z = c;\nendmodule\n"


def many_modules(count):
    """So many small modules."""
    return "".join(HEADER.format(cycles=1, number=number) + f"assign y = 32'h{number:x};\nassign z = a;\nendmodule\n"
                   for number in range(count))
