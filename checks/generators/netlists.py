"""Texts of netlists that are made up, changed or each of one fault, and texts of modules with very many gates."""
import re

from checks.oracles.netlists import INPUTS, OPERATORS, Netlist, written
from readers.templates import HEADER

MARK = "~"
# Tokens that are put in the place of others.
TOKENS = (b"", b"0", b"1", b"2", b"00", b"01", b"9", b"10", b"31", b"32", b"33", b"a0", b"a9", b"b00", b"b01", b"c30",
          b"c31", b"d32", b"d40", b"e31", b"e310", b"e-1", b"f0", b"y", b"z", b"x", b"A1", b"g", b"g0", b"g00", b"g1",
          b"g01", b"g2", b"g9", b"g10", b"g11", b"g19", b"g100", b"g4194303", b"4194303", b"4194304", b"4194305",
          b"41943040", b"and", b"or", b"xor", b"not", b"nor", b"xorr", b"netlist", b"gates", b" ", b"\n", b"\t",
          b"\r\n", b"#")
NAMES = sorted(OPERATORS)
ZEROS, MANY = " 0" * 31 + "\n", "and 1 0\n" * 11
REST = f"y 0{ZEROS}z 0{ZEROS}x 0{ZEROS}"


def some_bit(source, made):
    """A bit that names a gate before this one at most."""
    forms = [b"%d" % source.randrange(2), b"%s%d" % (source.choice(INPUTS).encode(), source.randrange(32))]
    return source.choice(forms + [b"g%d" % place for place in (0, made - 1, source.randrange(made)) if made > place]
                         if made else forms)


def some_netlist(source):
    """A netlist of a few gates."""
    gates = [(source.choice(NAMES), some_bit(source, place), some_bit(source, place))
             for place in range(source.choice((0, 1, 2, 3, 11, source.randrange(120))))]
    return Netlist(gates, [some_bit(source, len(gates)) for _ in range(96)])


def some_netlists(source):
    return [some_netlist(source) for _ in range(source.choice((0, 1, 1, 1, 2, 3, 11)))]


def near(source, token):
    """A token like another one: a number in it is a little greater or less, or of another length."""
    letters, number = re.fullmatch(rb"(.*?)(\d*)", token, re.S).groups()
    if not number:
        return token + source.choice((b"0", b"1", b" ", letters))
    return letters + source.choice((b"%d" % (int(number) + 1), b"%d" % max(int(number) - 1, 0), b"0" + number,
                                    number + b"0", b"", b"%d" % (2 * int(number))))


def change_token(source, text):
    """A text in which a token is another one, stands twice, is left out or is exchanged with another one; or a line."""
    parts = re.split(rb"( |\n)", text) if source.randrange(5) else re.split(rb"(\n)", text)
    place, other, way = source.randrange(len(parts)), source.randrange(len(parts)), source.randrange(8)
    if way == 0:
        parts[place] = b""
    elif way == 1:
        parts[place:place] = parts[place:place + 2]
    elif way == 2:
        parts[place], parts[other] = parts[other], parts[place]
    elif way in (3, 4):
        parts[place] = source.choice(TOKENS)
    else:
        parts[place] = near(source, parts[place])
    return b"".join(parts)


def change_byte(source, text):
    """A text in which a byte is another one, stands twice or is left out, or that ends there."""
    place = source.randrange(len(text) + 1)
    byte = bytes([source.choice(b" \n0123459abcdegorxyz\r\t\x00\xff")])
    return source.choice((text[:place] + text[place + 1:], text[:place] + byte + text[place:], text[:place],
                          text[:place] + byte + text[place + 1:], text[:place] + text[place:place + 1] + text[place:]))


def changed(source):
    """A text of netlists that was changed in one place or two."""
    text = written(some_netlists(source))
    for _ in range(source.choice((1, 1, 2))):
        text = source.choice((change_token, change_token, change_byte))(source, text)
    return text


def netlists(first, past):
    """The text of the smallest netlists with numbers from one to before another one."""
    return "".join(f"netlist {number} gates 0\n{REST}" for number in range(first, past))


def rows():
    """Texts that each show one rule, with where they are bad; None where they aren't."""
    head = "netlist 0 gates"
    one, two, twelve = f"{head} 1\nand ", f"{head} 2\nand 1 0\n", f"{head} 12\n{MANY}"
    good = ("", f"{head} 0\n{REST}", netlists(0, 32),
            f"{twelve}or g10 g0\ny g11{ZEROS}z e31{ZEROS}x d10{ZEROS}")
    bad = (
        # Numbers of netlists and of gates.
        "~q", "~ ", "~\n", "n~", "n~q", "netlist ~1", "netlist ~-0", "netlist 0~0", f"{head}~\n", f"{head} ~\n",
        f"{head} ~-1", f"{head} 0~1", f"{head} 1~x", f"{head} 999999~9", f"{head} 419430~5", f"{head} 4194304~0",
        f"{head} 4194304~", f"{head} 4194304\n~y", f"{head} 0~\r\n", f"{head} 0~", f"{head} 0\n~and",
        netlists(0, 10) + "netlist 1~1", netlists(0, 11) + "netlist 11~", netlists(0, 11) + "netlist 1~0",
        netlists(0, 32) + "~netlist 32", netlists(0, 32) + "~\n",
        # Gates.
        f"{one}a3~2", f"{one}a0~0", f"{one}~f0", f"{one}~g0", f"{one}a3~\n", f"{one}a3 ~ ", f"{one}1 0~ ", f"{one}~2",
        f"{one}1~1", f"{one}~ ", f"{one}e31 e30~", f"{one}e31 e31\n~", f"{one}e31 e31\n~and", f"{one}1 a~",
        f"{head} 1\n~AND", f"{two}~nor", f"{two}~y", f"{two}or g~1", f"{two}or g0~0", f"{two}or g~ 0",
        f"{twelve}or g10 g1~1", f"{twelve}or g9 g10~ ",
        # Results, and what stands behind them.
        f"{head} 0\ny ~g", f"{twelve}or 0 1\ny g11 g1~2", f"{head} 0\ny 0{ZEROS[:-3]}~\n",
        f"{head} 0\ny 0{ZEROS[:-1]}~ 0\n", f"{head} 0\ny 0{ZEROS}~x", f"{head} 0\n{REST[:-1]}~",
        f"{head} 0\n{REST}~\n", f"{head} 0\n{REST}~y", f"{head} 0\n{REST}n~", f"{head} 0\n{REST}netlist ~0",
        f"{head} 0\n{REST}~\0")
    yield from ((text.encode(), None) for text in good)
    yield from ((text.replace(MARK, "").encode(), text.index(MARK)) for text in bad)


def products(number, count, others=0):
    """A module of so many products of 64 bits, each of 12,480 gates, and with so many gates besides."""
    wires = [f"wire [63:0] p{place};\nassign p{place} = {{a, b}} * {{c, {f'p{place - 1}[40:9]' if place else 'b'}}};\n"
             for place in range(count)]
    for place, first in enumerate(range(0, others, 64)):
        size = min(64, others - first)
        wires.append(f"wire [{size - 1}:0] q{place};\nassign q{place} = {size}'h1 ^ {{{size}{{c[{place % 32}]}}}};\n")
    last = f"p{count - 1}[63:32]" if count else "b"
    return HEADER.format(cycles=1, number=number) + "".join(wires) + f"assign y = {last};\nassign z = a;\nendmodule\n"
