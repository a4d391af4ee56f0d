"""Compares what `rumtsafi run` says of executables with a plain reader of them.

The executables of samples/, and one with several segments and text sections, are changed at one to three fields of
their headers, or cut, always in the same way. Of each, the program has to run a step, or to name the rule that is
broken with its two figures, exactly as readers/executable.py does. All rules have to be among those that are broken.
"""
import collections
import os
import random
import struct

from checks.common import SAMPLES, main, read
from readers import executable

COUNT = 1200
# Offset and size of each field: of the file header, of a program header, and of a section header.
FILE_FIELDS = ((0, 1), (4, 1), (5, 1), (6, 1), (16, 2), (18, 2), (20, 4), (24, 4), (28, 4), (32, 4), (36, 4), (42, 2),
               (44, 2), (46, 2), (48, 2))
SEGMENT_FIELDS = tuple((offset, 4) for offset in (0, 4, 8, 16, 20))
SECTION_FIELDS = tuple((offset, 4) for offset in (4, 8, 12, 16, 20, 36))
VALUES = (0, 1, 2, 3, 4, 6, 16, 31, 0x7FEFFFFF, 0x7FF00000, 0x80000000, 0xFFFEFFFF, 0xFFFF0000, 0xFFFFFFFF,
          executable.MEMORY_LIMIT)
STEPS = (-16, -4, -1, 0, 0, 1, 2, 4, 16)


def several(size=0x1000):
    """Three segments, the last of them with `size` bytes of memory; three text sections and two symbol tables."""
    text = struct.pack("<6I", 0x13, 0x13, 0x05D00893, 0x00000073, 0x13, 0x13)
    headers, sections = 52, 52 + 32 * 4
    at = sections + 40 * 6
    symbols = at + len(text)
    end = symbols + 48
    data = b"\x7fELF\x01\x01\x01" + bytes(9) + struct.pack(
        "<HHIIIIIHHHHHH", 2, 243, 1, 0x10008, headers, sections, 0, 52, 32, 4, 40, 6, 0)
    for row in ((4, 0, 0, 0, 16, 16, 4, 4), (1, at, 0x10000, 0, 16, 16, 5, 4), (1, at + 16, 0x20000, 0, 8, 0x800, 5, 4),
                (1, end, 0x30000, 0, 16, size, 6, 4)):
        data += struct.pack("<8I", *row)
    for kind, flags, address, offset, size, entry in (
            (1, 6, 0x10000, at, 8, 0), (1, 6, 0x10008, at + 8, 8, 0), (2, 0, 0, symbols, 32, 16),
            (1, 6, 0x20000, at + 16, 8, 0), (2, 0, 0, symbols + 32, 16, 16), (1, 3, 0x30000, end, 16, 0)):
        data += struct.pack("<10I", 0, kind, flags, address, offset, size, 0, 0, 4, entry)
    return data + text + bytes(48 + 16)


def long_text(words):
    """One segment and one text section of as many words."""
    size = 4 * words
    return (b"\x7fELF\x01\x01\x01" + bytes(9)
            + struct.pack("<HHIIIIIHHHHHH", 2, 243, 1, 0x1007C, 52, 84, 0, 52, 32, 1, 40, 1, 0)
            + struct.pack("<8I", 1, 0, 0x10000, 0x10000, 124 + size, 124 + size, 5, 4)
            + struct.pack("<10I", 0, 1, 6, 0x1007C, 124, size, 0, 0, 4, 0) + struct.pack("<I", 0x13) * words)


def shared(offset):
    """The last segment's 16 bytes of the file begin at the offset; the text stands from 420 to 443."""
    data = bytearray(several())
    struct.pack_into("<I", data, 52 + 32 * 3 + 4, offset)
    return bytes(data)


def edges():
    """Executables at the edge of a rule: as much memory or text as may be, and one more; text that two segments have,
    by one byte, and none; and one that is cut at each of its first 200 bytes."""
    most = executable.MEMORY_LIMIT - (executable.STACK[1] - executable.STACK[0]) - 16 - 0x800
    return [several(most), several(most + 1), long_text(executable.TEXT_LIMIT), long_text(executable.TEXT_LIMIT + 1),
            shared(404), shared(405), shared(430), shared(443), shared(444),
            *(several()[:size] for size in range(200))]


def rows(data):
    """The headers of each kind: the places where they stand, and the fields of one."""
    headers, sections = struct.unpack_from("<II", data, 28)
    header_count, section_count = struct.unpack_from("<H", data, 44)[0], struct.unpack_from("<H", data, 48)[0]
    return (([0], FILE_FIELDS), ([headers + 32 * i for i in range(header_count)], SEGMENT_FIELDS),
            ([sections + 40 * i for i in range(section_count)], SECTION_FIELDS))


def changed(data, source):
    """The executable with a field or two changed: to a special value, to near its own, or to near that of another
    header."""
    kinds, data = rows(data), bytearray(data)
    for _ in range(source.choice((1, 1, 2, 3))):
        places, fields = source.choice((kinds[0], *kinds[1:], *kinds[1:]))
        offset, size = source.choice(fields)
        at, other = source.choice(places) + offset, source.choice(places) + offset
        near = int.from_bytes(data[other:other + size], "little") + source.choice(STEPS)
        value = source.choice((source.choice(VALUES), near, near)) % 256 ** size
        data[at:at + size] = value.to_bytes(size, "little")
    if source.random() < 0.03:
        del data[source.randrange(len(data)):]
    return bytes(data)


def compare(check, what, data):
    """Compares what the program says, and gives the rule that is broken, or 0."""
    check.write("file", data)
    found, done = executable.fault(data), check.call("run", "file", "--steps", "1", text=True, errors="replace")
    if found is None:
        agrees = done.returncode == 0 and done.stdout.startswith("end ")
    else:
        agrees = done.returncode == 5 and done.stdout == "fault 5 elf {} {} {}\n".format(*found)
    check.need(agrees, f"{what}: status {done.returncode}, {done.stdout!r} against {found}")
    return found[0] if found else 0


def look(check):
    source = random.Random(1)
    files = [several(), *(read(os.path.join(SAMPLES, name)) for name in ("crc32.elf", "sha256.elf"))]
    cases = files + edges() + [changed(files[number % len(files)], source) for number in range(COUNT)]
    rules = collections.Counter(compare(check, f"case {number}", data) for number, data in enumerate(cases))
    done = check.call("run", ".", text=True)
    check.same("the run of a folder", (done.returncode, done.stdout), (2, "fault 2 read .\n"))
    check.least({f"executables by fault {rule}": rules[rule] for rule in range(10)}, 1)
    told = ", ".join(f"{rules[rule]} of fault {rule}" if rule else f"{rules[rule]} faultless" for rule in sorted(rules))
    return f"{len(cases)} executables compared ({told})"


main(__doc__, look)
