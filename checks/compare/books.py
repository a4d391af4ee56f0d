"""Compares what `rumtsafi find`, `check` and `relog` make of log books of both versions with a plain writer and reader.

LOGS that `find` writes of the samples have to be what the plain writer spells of them, in each version, with the same
other files; `check` has to accept both, and `relog` has to make each of the other. Then there are made-up books, with
long runs of leaves, and books that differ from the right one of a small program in an entry or a tree, each in both
versions; and 2,000 texts of each version in which a byte or a half of one is changed, dropped, added or exchanged with
the next one, or that end early or go on. Of each, `check` has to print the verdict of a plain reading, the same in both
versions, or the kind and the offset of the first fault that the plain reader tells; and `relog` has to print that fault
too and to write nothing, or to write what the plain writer spells of the book in each version.
"""
import collections
import os
import random

from checks.common import SAMPLES, Check, main
from checks.generators.choice_rows import FOLDED, LOGS, SUMS, UNIT
from checks.oracles import books
from checks.oracles.choices import Choice, Plan, Profile
from checks.oracles.cuts import Table
from readers import executable

VERSIONS = tuple(books.FIRST)
# How many books are made up, how many texts of each version are changed, and the budget for the samples.
BOOKS, CHANGED, BUDGET = 400, 2000, 300
# What OUT holds before a call of `relog`.
BEFORE = b"before"
# How the lines begin that have to be due at some time, in each version.
VERDICTS = "accepted", "fault 11 rejected", *(f"fault 10 log {kind}" for kind in range(1, 5))


def some_tree(source):
    """Letters of a tree: branches, and as many leaves at a time, often of one kind, as may follow on them."""
    tree, due, branches = "", 1, source.choice((0, 1, 2, 5, 12, 25, 45))
    while due:
        more = source.randrange(branches + 1)
        branches, due = branches - more, due + more
        leaves = min(due, source.choice((1, 2, 10, 11, 12, 21, 22, source.randrange(1, due + 1))))
        tree, due = tree + "B" * more + source.choice(books.LEAVES) * leaves, due - leaves
    return tree


def near_tree(source, tree):
    """A tree with another leaf in the place of one, or with a branch and a leaf more."""
    leaf = source.choice([at for at, letter in enumerate(tree) if letter != "B"])
    other = source.choice(books.LEAVES)
    return tree[:leaf] + source.choice((other, f"B{other}{tree[leaf]}", f"B{tree[leaf]}{other}")) + tree[leaf + 1:]


def some_leader(source):
    return f"{source.choice((0x10074, 0x1009C, source.getrandbits(32))):08x}"


def some_search(source):
    """An entry that is no take."""
    kind = source.choice(("best", "none", "spent"))
    words = {"best": sorted(source.sample(range(256), source.randrange(1, 5))), "none": [],
             "spent": [source.choice((0, 9, 65536, 9999999))]}[kind]
    return kind, some_leader(source), words, None if kind == "spent" else some_tree(source)


def some_book(source):
    """Entries and a finish."""
    entries = [some_search(source) for _ in range(source.randrange(4))]
    for _ in range(source.randrange(3)):
        entries += ("take", some_leader(source), [source.randrange(32)], None), some_search(source)
    return entries, source.choice(("none", "count"))


def near_book(source, book):
    """A book in which an entry is another one, or has another tree."""
    entries, finish = list(book[0]), book[1]
    at = source.choice([at for at, entry in enumerate(entries) if entry[0] != "take"])
    kind, leader, words, tree = entries[at]
    entries[at] = source.choice((some_search(source), (kind, leader, words, near_tree(source, tree)),
                                 (kind, leader, words, some_tree(source))))
    return entries, finish


def changed(source, version, book):
    """The text of a book, changed in a place, most of the time in a tree or directly behind it."""
    text, trees = books.written(version, *book), [entry[3] for entry in book[0] if entry[3]]
    at, size = 0, len(text)
    if trees and source.random() < 0.8:
        tree = books.spelt(version, source.choice(trees)) + b"\n"
        at, size = text.index(tree), len(tree)
    at += source.randrange(size)
    byte, other, half = text[at], source.randrange(256), source.randrange(1, 16)
    return source.choice((
        text[:at] + bytes([other]) + text[at + 1:], text[:at] + bytes([byte ^ half]) + text[at + 1:],
        text[:at] + bytes([byte ^ 16 * half]) + text[at + 1:], text[:at] + text[at + 1:],
        text[:at] + bytes([byte]) + text[at:], text[:at] + bytes([other]) + text[at:],
        text[:at] + text[at + 1:at + 2] + text[at:at + 1] + text[at + 2:], text[:at], text + bytes([byte]),
        # The trees of a book of the other version, and no version at all.
        text[:7] + source.choice((b"1", b"2", b"3", bytes([other]))) + text[8:]))


class Books(Check):
    """Calls in a folder, and where they don't print what is due."""

    def __init__(self, given, folder):
        super().__init__(given, folder)
        self.source, self.kinds = random.Random(1), collections.Counter()
        old = executable.frame(SUMS)
        for name, data in {"old": old, "new": executable.frame(FOLDED), "units": UNIT}.items():
            self.write(name, data)
        profile = Profile(collections.Counter((0x10074, 0x10078)), set(), "access 00000000 4 steps 2 cost 3")
        self.choice = Choice(old, profile, Plan(3, 1, 32, 65536), Table())

    def due(self, text):
        """What `check` has to print of a text."""
        book, fault = books.read(text)
        if fault:
            return "fault 10 log {} {}\n".format(*fault)
        return self.choice.verdict(books.written(1, *book[1:]).decode())

    def relog(self, what, name, text, version):
        """Compares what `relog` prints and writes of a file with this text, for a version."""
        book, fault = books.read(text)
        self.write("out", BEFORE)
        told = self.call("relog", name, "out", "--log", f"{version}", text=True).stdout
        written = BEFORE if fault else books.written(version, *book[1:])
        self.same(f"relog of {what}", told, "fault 10 log {} {}\n".format(*fault) if fault else
                  f"relog version {version} bytes {len(written)}\n")
        self.same(f"the book in version {version} of {what}", self.read("out"), written)

    def compare(self, version, text):
        """Compares what `check` and `relog` print of a text, and what `relog` writes."""
        self.write("logs", text)
        for asked in VERSIONS:
            self.relog(f"{text!r}", "logs", text, asked)
        due = self.due(text)
        self.kinds[version, next(kind for kind in VERDICTS if due.startswith(kind))] += 1
        told = self.call("check", "old", "new", "units", "logs", "--out", "1", text=True, errors="replace").stdout
        self.same(f"{text!r}", told, due)

    def sample(self, name):
        """Compares the books of a sample in both versions."""
        old, found = os.path.join(SAMPLES, name), []
        for version in VERSIONS:
            files = [f"{file}-{version}" for file in ("new", "units", "logs", "report")]
            line = self.call("find", old, *files, "--budget", f"{BUDGET}", "--log", f"{version}").stdout
            logs = self.read(files.pop(2))
            found.append((line, *map(self.read, files)))
            book, fault = books.read(logs)
            if not self.need(book, f"LOGS of {name} have the fault {fault}"):
                return
            self.same(f"LOGS of {name}", logs, books.written(version, *book[1:]))
            told = self.call("check", old, *files[:2], f"logs-{version}", "--budget", f"{BUDGET}", text=True).stdout
            self.same(f"the book of {name} in version {version}", told, "accepted\n")
            for asked in VERSIONS:
                self.relog(f"LOGS of {name}", f"logs-{version}", logs, asked)
        self.same(f"that the other files of {name} go by no version", found[0], found[1])


def look(check):
    samples = sorted(name for name in os.listdir(SAMPLES) if name.endswith(".elf"))
    for name in samples:
        check.sample(name)
    right = books.read(LOGS.encode())[0][1:]
    made = [right]
    for _ in range(BOOKS // 2):
        made += some_book(check.source), near_book(check.source, right)
    for version in VERSIONS:
        for book in made:
            text = books.written(version, *book)
            check.same(f"the plain reader of {text!r}", books.read(text), ((version, *book), None))
            check.compare(version, text)
        for _ in range(CHANGED):
            check.compare(version, changed(check.source, version, check.source.choice(made)))
    check.least({f"{kind} in version {version}": check.kinds[version, kind] for version in VERSIONS
                 for kind in VERDICTS}, 1)
    return f"{len(samples)} samples, {len(made)} books and {CHANGED} changed ones compared in each version"


main(__doc__, look, Books)
