"""Executables that are made up, with words of the text between data, several segments and odd symbols; and the
executables with which the checks on blocks compare."""
import struct
import sys

from checks.common import read
from checks.generators.blocks import some_registers
from checks.oracles.blocks import CUSTOM_OPCODES
from checks.tools import compiled
from readers import executable
from readers.instructions import with_offset

# How many executables are made up.
MADE = 150
# Where the text of an executable of blocks begins.
BASE = 0x10000
SYSTEM_CALL, BREAK, FENCE = 0x73, 0x00100073, 0x0FF0000F


def instruction(source, address, around):
    """Some word for the text; jumps and branches go to or near one of the addresses around."""
    kind, word = source.randrange(20), source.getrandbits(32)
    near = source.choice(around) + source.choice((0, 0, 0, 2, -4)) - address
    if kind < 7:
        return word & 0x01FFF000 & ~(1 << 25) | source.choice((0x13, 0x33)) | source.randrange(32) << 7
    if kind < 11:
        return word & 0xFFFF8F80 | source.choice((0x03, 0x23, 0x37, 0x17)) | 0x2000
    if kind < 14:
        fits = -4096 <= near < 4096
        return with_offset(word & 0x01FFF000 & ~0x2000 | 0x4000 | 0x63, near if fits else 8)
    if kind < 16:
        return with_offset(word & 0xF80 | 0x6F, near if abs(near) < 2 ** 20 else -4)
    if kind < 17:
        return word & 0xFFF8FF80 & ~0x7000 | 0x67
    # Also an address, which is no instruction, and no data word where it stands in the text.
    return source.choice((0x73, 0x00100073, 0x0FF0000F, 0, word | 0x7F, source.choice(around), 0x13, 0x13))


def straight(source, address, around):
    """Some word for text in which few blocks end."""
    if source.random() < 0.004:
        return instruction(source, address, around)
    return source.getrandbits(32) & 0xFFF00F80 & ~0x7000 | source.randrange(32) << 15 | 0x13


def made(source):
    """An executable of three segments, of which the first two adjoin. The first one has up to five text sections, which
    meet or lie apart, whole words or not, with pointers into the text around them, as in the other segments."""
    base = source.choice((0, 0x10000, 0x10000, 0x7FE00000, 0xFFFE0000)) + source.randrange(4)
    parts, at = [], base + 4 * source.randrange(3)
    long = source.random() < 0.3
    for _ in range(source.randrange(1, 6)):
        at += source.choice((0, 0, 4, source.randrange(12)))
        size = source.randrange(8, 3000 if long else 120) & source.choice((~3, ~0))
        parts.append((at, size))
        at += size
    starts = [(at + 3) // 4 * 4 for at, _ in parts]
    past = at + source.randrange(40)
    around = [start + 4 * place for start, (_, size) in zip(starts, parts) for place in range(size // 4 + 1)]
    text = {address for at, size in parts for address in range((at + 3) // 4 * 4, (at + size) // 4 * 4, 4)}
    word = straight if long else instruction
    odd = source.choice(sorted(text)) if text and source.random() < 0.1 else None
    memory = b"".join(struct.pack("<I", source.getrandbits(25) << 7 | source.choice(CUSTOM_OPCODES) if address == odd
                                  else word(source, address, around) & 0xFFFFFFFF if address in text
                                  else source.choice(around) + source.choice((0, 0, 1, 2)))
                      for address in range(base // 4 * 4, past + 200, 4))[base % 4:]
    code, loaded = past - base, past - base + source.randrange(90)
    symbols = [source.choice(around) + source.choice((0, 0, 2, 0x1000)) for _ in range(source.randrange(6))]
    pointers = struct.pack("<10I", *(source.choice(around) + source.choice((0, 0, 0, 2)) for _ in range(10)))
    headers, sections = 52, 52 + 32 * 3
    begin = sections + 40 * (len(parts) + 1)
    rows = [executable.section(executable.PROGBITS, executable.ALLOC_AND_EXECUTE, at, begin + at - base, size)
            for at, size in parts]
    rows.append(executable.section(executable.SYMBOLS, 0, 0, begin + loaded + 40, 16 * len(symbols), 16))
    source.shuffle(rows)
    entry = source.choice([start for start in starts if start in text] or [0])
    return (executable.header(entry, (headers, 3), (sections, len(rows)))
            + executable.load(begin + code, past, loaded - code, loaded - code + source.randrange(8))
            + executable.load(begin, base, code, code)
            + executable.load(begin + loaded, past + 0x1000 + source.randrange(4), 40, 44)
            + b"".join(rows) + memory[:loaded] + pointers
            + b"".join(struct.pack("<4I", 0, value, 0, 0) for value in symbols))


def some_end(source, registers, way):
    """Some word that ends a block; a jump or branch goes this way."""
    first, second = source.choice(registers), source.choice(registers)
    return source.choice((
        with_offset(first << 15 | second << 20 | 0x63, way), with_offset(0x6F, way), with_offset(0xEF, way),
        first << 15 | 0x67, first << 7 | 0x17, SYSTEM_CALL, BREAK, FENCE, 0))


def of_blocks(source, count, some_block):
    """An executable of so many blocks, each of some words over some registers; None stands for a word that ends it in
    some way. Else it falls through to the next one. The symbols are the leaders."""
    registers = some_registers(source)
    blocks = [some_block(source, registers) for _ in range(count)]
    starts = [BASE + 4 * sum(map(len, blocks[:number])) for number in range(count)]
    words = [word for block in blocks for word in block]
    for place, word in enumerate(words):
        if word is None:
            words[place] = some_end(source, registers, source.choice(starts) - BASE - 4 * place)
    text, begin = struct.pack(f"<{len(words)}I", *words), 52 + 32 + 40 * 2
    return (executable.header(BASE, (52, 1), (84, 2)) + executable.load(begin, BASE, len(text), len(text))
            + executable.section(executable.PROGBITS, executable.ALLOC_AND_EXECUTE, BASE, begin, len(text))
            + executable.section(executable.SYMBOLS, 0, 0, begin + len(text), 16 * count, 16) + text
            + b"".join(struct.pack("<4I", 0, start, 0, 0) for start in starts))


def executables(folder, source):
    """Each executable with a name and its bytes, and a line on those that are missing."""
    missing = compiled.missing()
    found = [(name, read(path)) for name, path in (compiled.samples() if missing else compiled.executables(folder))]
    for number in range(MADE):
        data = made(source)
        if executable.fault(data) is not None:
            sys.exit(f"what is made up, number {number}, is no executable")
        found.append((f"made up, number {number}", data))
    return found, missing
