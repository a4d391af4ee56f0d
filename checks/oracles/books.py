"""A plain writer and reader of log books, both versions, for checks to compare with.

The reader knows the packed spelling by its writer alone: bytes go on where they are the first of some tree's bytes.
"""
import re

LEAVES = "OCIGF"
ITEMS = "B" + LEAVES
FIRST = {1: b"ci-log 1\n", 2: b"ci-log 2\n"}
HEADER, ITEM, UNFINISHED, TRAILING = 1, 2, 3, 4


def half_bytes(tree):
    """The half bytes of a tree's letters: each branch, and each maximal run of equal leaves."""
    halves = []
    for run in re.finditer("B|" + "|".join(f"{leaf}+" for leaf in LEAVES), tree):
        more = len(run[0]) - 1
        halves += [ITEMS.index(run[0][0])] + [15] * (more // 10) + ([5 + more % 10] if more % 10 else [])
    return halves


def packed(tree):
    """The bytes of a tree in version 2."""
    halves = half_bytes(tree)
    halves += [0] * (len(halves) % 2)
    return bytes(16 * high + low for high, low in zip(halves[::2], halves[1::2]))


def packed_text(text):
    """The text in version 2 of the book that a text of version 1 spells."""
    lines = text.encode().splitlines(keepends=True)
    return FIRST[2] + b"".join(packed(line[:-1].decode()) + b"\n" if set(line[:-1]) <= set(ITEMS.encode()) else line
                               for line in lines[1:])


def spelt(version, tree):
    """A tree's letters in a book of the version."""
    return tree.encode() if version == 1 else packed(tree)


def due_behind(items):
    """How many trees are due behind items of which none stands behind the end of a tree; None where one does."""
    due = 1
    for place, item in enumerate(items):
        if due == 0:
            return None
        due += 1 if item == "B" else -1
    return due


def unpacked(halves):
    """The items that half bytes stand for, if they may stand there at all."""
    items = ""
    for half in halves:
        if half > 5 and not items:
            return None
        items += ITEMS[half] if half < 6 else items[-1] * (half - 5)
    return items


def packed_state(data):
    """Of the first bytes of a packed tree: None where they are none, whether they are all, and the tree if so."""
    halves = [half for byte in data for half in (byte >> 4, byte & 15)]
    for count in (len(halves), len(halves) - 1):
        tree = unpacked(halves[:count])
        if tree and due_behind(tree) == 0 and packed(tree) == data:
            return True, tree
    items = unpacked(halves)
    due = None if items is None else due_behind(items)
    if not due:
        return None
    last = items[-1:] or "B"
    whole = items + ("O" if last == "F" else "F") * due
    return (False, None) if packed(whole).startswith(data) else None


class Fault(Exception):
    """The kind and the offset of a text's first fault."""


class Reader:
    """A text, and how far it was read."""

    def __init__(self, text):
        self.text, self.at, self.version = text, 0, 0

    def byte(self):
        if self.at == len(self.text):
            raise Fault(UNFINISHED, 0)
        return self.text[self.at]

    def need(self, allowed, kind=ITEM):
        byte = self.byte()
        if byte not in allowed:
            raise Fault(kind, 0 if kind == HEADER else self.at)
        self.at += 1
        return byte

    def word(self, word, kind=ITEM):
        for byte in word:
            self.need(bytes([byte]), kind)

    def number(self, numbers, behind):
        """One of the numbers, and the byte behind it, of those that may stand behind the number."""
        digits = ""
        while True:
            allowed = {str(number)[len(digits)] for number in numbers
                       if str(number).startswith(digits) and len(str(number)) > len(digits)}
            ends = behind(int(digits)) if digits and int(digits) in numbers else b""
            byte = self.need(ends + "".join(allowed).encode())
            if chr(byte) not in "0123456789":
                return int(digits), byte
            digits += chr(byte)

    def tree(self):
        first = self.at
        while True:
            data = self.text[first:self.at]
            if self.version == 1:
                due = due_behind(data.decode())
                state = (due == 0, data.decode())
            else:
                state = packed_state(data)
            if state[0]:
                self.need(b"\n", TRAILING)
                return state[1]
            byte = self.byte()
            if self.version == 1:
                self.need(ITEMS.encode())
            elif packed_state(data + bytes([byte])) is None:
                raise Fault(ITEM, self.at)
            else:
                self.at += 1

    def search(self):
        self.word(b"block ")
        leader = "".join(chr(self.need(b"0123456789abcdef")) for _ in range(8))
        self.word(b" ")
        kind = self.need(b"bns")
        if kind == ord("b"):
            self.word(b"est ")
            nodes, end = [], 32
            while end == 32:
                low = nodes[-1] + 1 if nodes else 0
                node, end = self.number(range(low, 256), lambda node: b"\n " if node < 255 else b"\n")
                nodes.append(node)
            return "best", leader, nodes, self.tree()
        if kind == ord("n"):
            self.word(b"one\n")
            return "none", leader, [], self.tree()
        self.word(b"pent ")
        return "spent", leader, [self.budget()], None

    def budget(self):
        digits = ""
        while True:
            allowed = b"0123456789" if digits != "0" and len(digits) < 7 else b""
            byte = self.need(allowed + (b"\n" if digits else b""))
            if byte == 10:
                return int(digits)
            digits += chr(byte)

    def take(self):
        self.word(b"take ")
        leader = "".join(chr(self.need(b"0123456789abcdef")) for _ in range(8))
        self.word(b" unit ")
        return "take", leader, [self.number(range(32), lambda unit: b"\n")[0]], None

    def book(self):
        """The version, the entries and the finish."""
        self.word(b"ci-log ", HEADER)
        self.version = self.need(b"12", HEADER) - ord("0")
        self.word(b"\n", HEADER)
        entries, takes = [], False
        while True:
            byte = self.byte()
            if byte == ord("b") and not takes:
                entries.append(self.search())
            elif byte == ord("t"):
                takes = True
                entries += [self.take(), self.search()]
            elif byte == ord("e"):
                break
            else:
                raise Fault(ITEM, self.at)
        self.word(b"end ")
        finish = "none" if self.need(b"nc") == ord("n") else "count"
        self.word(finish[1:].encode() + b"\n")
        if self.at < len(self.text):
            raise Fault(TRAILING, self.at)
        return self.version, entries, finish


def read(text):
    """The book of a text, or its fault."""
    try:
        return Reader(text).book(), None
    except Fault as fault:
        return None, fault.args


def written(version, entries, finish):
    """The text of a book in the version."""
    text = FIRST[version]
    for kind, leader, words, tree in entries:
        line = f"take {leader} unit" if kind == "take" else f"block {leader} {kind}"
        text += " ".join([line, *map(str, words)]).encode() + b"\n"
        if tree:
            text += spelt(version, tree) + b"\n"
    return text + f"end {finish}\n".encode()
