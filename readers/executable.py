"""A plain reader of executables: the first rule that one breaks, by the order of the rules and their numbers in
`fault 5 elf RULE A B`, and what a faultless one holds. It shares nothing with the program, so that the checks can
compare the two. And a plain writer of the headers of executables that are made up."""
import bisect
import struct

SHORT, NOT_ELF, WRONG_KIND, BAD_SEGMENT, OVERLAP, SHARED_TEXT, BAD_SECTION, ENTRY_NOT_TEXT, TOO_LARGE = range(1, 10)
STACK, HIGHEST_END, MEMORY_LIMIT, TEXT_LIMIT = (0x7FF00000, 0x80000000), 0xFFFF0000, 67108864, 262144
LOAD, INTERPRETER, PROGBITS, SYMBOLS, ALLOC_AND_EXECUTE = 1, 3, 1, 2, 6
# Offset, size and wanted value of the fields that the kind of a file is told by.
KIND = ((4, 1, 1), (5, 1, 1), (6, 1, 1), (16, 2, 2), (18, 2, 243), (20, 4, 1))


def header(entry, headers, sections):
    """The file header; each table is its offset and its number of entries."""
    return b"\x7fELF\x01\x01\x01" + bytes(9) + struct.pack(
        "<HHIIIIIHHHHHH", 2, 243, 1, entry, headers[0], sections[0], 0, 52, 32, headers[1], 40, sections[1], 0)


def load(offset, address, file_size, size, flags=7):
    """The program header of a loadable segment."""
    return struct.pack("<8I", LOAD, offset, address, address, file_size, size, flags, 4)


def section(kind, flags, address, offset, size, entry_size=0):
    """A section header."""
    return struct.pack("<10I", 0, kind, flags, address, offset, size, 0, 0, 0, entry_size)


class Fault(Exception):
    """A rule that is broken: its number and its two figures."""


class Places:
    """Intervals that don't meet one another, each with an owner."""

    def __init__(self):
        self.starts, self.rows = [], []

    def met_by(self, start, past):
        """The rows that an interval meets."""
        at = max(bisect.bisect_right(self.starts, start) - 1, 0)
        found = []
        while at < len(self.rows) and self.rows[at][0] < past:
            if start < past and start < self.rows[at][1]:
                found.append(self.rows[at])
            at += 1
        return found

    def add(self, start, past, owner):
        at = bisect.bisect_left(self.starts, start)
        self.starts.insert(at, start)
        self.rows.insert(at, (start, past, owner))


def merged(intervals):
    """Places that hold the same numbers as intervals that may meet."""
    places, last = Places(), None
    for start, past in sorted(intervals):
        if start >= past:
            continue
        if last and start <= last[1]:
            last[1] = max(last[1], past)
        else:
            last = [start, past]
            places.rows.append(last)
    places.starts = [row[0] for row in places.rows]
    return places


def lies_in(data, offset, size):
    return size == 0 or offset + size <= len(data)


def read_header(data):
    if len(data) < 52:
        raise Fault(SHORT, 0, 0)
    if data[:4] != b"\x7fELF":
        raise Fault(NOT_ELF, 0, 0)
    for offset, size, wanted in KIND:
        value = int.from_bytes(data[offset:offset + size], "little")
        if value != wanted:
            raise Fault(WRONG_KIND, offset, value)
    entry, headers, sections, flags, _, header_size, header_count, section_size, section_count = \
        struct.unpack_from("<IIIIHHHHH", data, 24)
    if flags & 1:
        raise Fault(WRONG_KIND, 36, flags)
    if header_count and header_size != 32:
        raise Fault(WRONG_KIND, 42, header_size)
    if section_count and section_size != 40:
        raise Fault(WRONG_KIND, 46, section_size)
    for offset, size in ((headers, 32 * header_count), (sections, 40 * section_count)):
        if not lies_in(data, offset, size):
            raise Fault(SHORT, offset, 0)
    return entry, (headers, header_count), (sections, section_count)


def read_segments(data, table):
    """The loadable segments with memory: number, offset, address, file size, memory size."""
    segments = []
    for number in range(table[1]):
        at = table[0] + 32 * number
        kind, offset, address, _, file_size, size = struct.unpack_from("<6I", data, at)
        if kind == INTERPRETER:
            raise Fault(WRONG_KIND, at, INTERPRETER)
        if kind != LOAD or size == 0:
            continue
        if not lies_in(data, offset, file_size):
            raise Fault(SHORT, offset, 0)
        past = address + size
        if file_size > size or past > HIGHEST_END or (address < STACK[1] and STACK[0] < past):
            raise Fault(BAD_SEGMENT, number, 0)
        segments.append((number, offset, address, file_size, size))
    memory = Places()
    for number, _, address, _, size in segments:
        met = memory.met_by(address, address + size)
        if met:
            raise Fault(OVERLAP, min(owner for _, _, owner in met), number)
        memory.add(address, address + size, number)
    if sum(segment[4] for segment in segments) + STACK[1] - STACK[0] > MEMORY_LIMIT:
        raise Fault(TOO_LARGE, 0, 0)
    return segments


def holds(segment, offset, address, size):
    _, start, base, file_size, _ = segment
    return start <= offset and offset + size <= start + file_size and address - base == offset - start


def read_text(data, headers, sections, segments):
    """The text sections: address, offset, size."""
    rows = [struct.unpack_from("<10I", data, sections[0] + 40 * number) for number in range(sections[1])]
    tables = merged([(0, 52), (headers[0], headers[0] + 32 * headers[1]),
                     (sections[0], sections[0] + 40 * sections[1])]
                    + [(row[4], row[4] + row[5]) for row in rows if row[1] == SYMBOLS])
    text, earlier = [], Places()
    for number, (_, kind, flags, address, offset, size, _, _, _, entry_size) in enumerate(rows):
        if kind == SYMBOLS and not (lies_in(data, offset, size) and entry_size == 16 and size % 16 == 0):
            raise Fault(BAD_SECTION, number, 0)
        if kind != PROGBITS or flags & ALLOC_AND_EXECUTE != ALLOC_AND_EXECUTE or size == 0:
            continue
        past = offset + size
        if (not any(holds(segment, offset, address, size) for segment in segments) or tables.met_by(offset, past)
                or earlier.met_by(offset, past)):
            raise Fault(BAD_SECTION, number, 0)
        earlier.add(offset, past, number)
        text.append((address, offset, size))
    parts = []
    for number, offset, _, file_size, _ in segments:
        mine = [(max(start, offset), min(past, offset + file_size))
                for start, past, _ in earlier.met_by(offset, offset + file_size)]
        for other, pieces in parts:
            if any(start < past_other and start_other < past for start, past in mine
                   for start_other, past_other in pieces):
                raise Fault(SHARED_TEXT, other, number)
        if mine:
            parts.append((number, mine))
    return text


def read_ranges(text):
    """The whole words of each text section that has any: the addresses of the first word and of what is behind the last
    one, in ascending order."""
    ranges = [((address + 3) // 4 * 4, (address + size) // 4 * 4) for address, _, size in text]
    return sorted((start, past) for start, past in ranges if start < past)


class Image:
    """What a faultless executable holds: the entry, the ranges of the text, the bytes that are loaded from the file by
    their addresses, and the values of all symbols."""

    def __init__(self, data):
        self.entry, headers, sections = read_header(data)
        segments = read_segments(data, headers)
        self.ranges = read_ranges(read_text(data, headers, sections, segments))
        self.loaded = {}
        for _, offset, address, file_size, _ in segments:
            self.loaded.update(zip(range(address, address + file_size), data[offset:offset + file_size]))
        # An entry that several tables have counts once, at the first of them.
        entries = {}
        for number in range(sections[1]):
            _, kind, _, _, offset, size = struct.unpack_from("<6I", data, sections[0] + 40 * number)
            if kind == SYMBOLS:
                entries.update(dict.fromkeys(range(offset, offset + size, 16)))
        self.symbols = [struct.unpack_from("<I", data, at + 4)[0] for at in entries]

    def word(self, address):
        """The little-endian value of four bytes that are loaded from the file, or None."""
        found = [self.loaded.get(address + place) for place in range(4)]
        return None if None in found else int.from_bytes(bytes(found), "little")


def fault(data):
    """The rule that an executable breaks and its figures, or None."""
    try:
        entry, headers, sections = read_header(data)
        ranges = read_ranges(read_text(data, headers, sections, read_segments(data, headers)))
        if sum(past - start for start, past in ranges) > 4 * TEXT_LIMIT:
            raise Fault(TOO_LARGE, 0, 0)
        if entry % 4 or not any(start <= entry < past for start, past in ranges):
            raise Fault(ENTRY_NOT_TEXT, 0, 0)
    except Fault as found:
        return found.args
    return None


def frame(text, constants=(), values=()):
    """A small executable: words of the text at 0x10074, of constants behind it and of values at 0x20000."""
    parts, offset, sections = [], 116, [section(0, 0, 0, 0, 0)]
    for words, flags, address in ((text, 6, 0x10074), (constants, 2, 0x10074 + 4 * len(text)), (values, 3, 0x20000)):
        sections.append(section(PROGBITS, flags, address, offset, 4 * len(words)))
        parts.append(b"".join(struct.pack("<I", word) for word in words))
        offset += 4 * len(words)
    code = 116 + len(parts[0] + parts[1])
    return (header(0x10074, (52, 2), (offset, 4)) + load(0, 0x10000, code, code, 5)
            + load(code, 0x20000, len(parts[2]), len(parts[2]), 6) + b"".join(parts + sections))
