"""Compares what `rumtsafi find` and `check` say of single blocks with a naive reading of what a best cut, the budget of
its search and a right log are.

Each of 200 executables, which are made up, always in the same way, begins with a block of at most ten instructions, so
that all sets of them can be tried. `find` has to find the best cut of that block where the budget is just what the
search takes, and to skip it where the budget is one less. `check` has to accept the log of that search. Where an item
of it is changed, dropped, added or exchanged with another one, or another cut is said to be the best, `check` has to
say of the log what the naive reading does: that it is right, which item is wrong first, and by which rule, or from
where on it is no whole tree. Each of these verdicts has to be due at some time.
"""
import collections
import random
import re

from checks.common import Check, main
from checks.generators.blocks import LIMITS, some_registers, some_table, some_word
from checks.oracles.cuts import Graph, Search
from readers import executable

GRAPHS, LONGEST, TIMES = 200, 10, 2
# A jump to the next word, with which the first block ends, and the last word of the second one.
JUMP, BREAK = 0x0040006F, 0x00100073
LETTERS, LEAVES = "BOCIGF", "OCIGF"
# The first entry of a log book, where it isn't skipped: what is found, and the log.
FIRST = re.compile(r"ci-log 1\nblock 00010074 (best(?P<cut>( [0-9]+)+)|none)\n(?P<tree>[BOCIGF]+)\n")
# By the rules 1 to 7 of an item, and as no whole tree.
VERDICTS = "accepted", *(f"rule {rule}" for rule in range(1, 8)), "fault 10 log 2", "fault 10 log 4"


def changed(source, tree):
    at = source.randrange(len(tree))
    return tree[:at] + source.choice(LETTERS.replace(tree[at], "")) + tree[at + 1:]


def dropped(source, tree):
    """One item less, or a branch less and the item behind it."""
    at = source.randrange(len(tree))
    return tree[:at] + tree[at + source.randrange(1, 3):]


def added(source, tree):
    """One item more, or a branch more with a leaf below it."""
    at = source.randrange(len(tree) + 1)
    return tree[:at] + source.choice(("", "B")) + source.choice(LEAVES) + tree[at:]


def exchanged(source, tree):
    """Two items with other letters in each other's place, where there are two."""
    letters, one = list(tree), source.randrange(len(tree))
    other = source.choice([at for at, letter in enumerate(tree) if letter != tree[one]] or [one])
    letters[one], letters[other] = letters[other], letters[one]
    return "".join(letters)


def another(source, cut, size):
    """Another cut, of which one node is out or in, or None."""
    return sorted(set(cut or ()) ^ {source.randrange(size)}) or None


def entry(cut, tree):
    """The beginning of a log book, up to the log of its first search."""
    found = "none" if cut is None else " ".join(("best", *map(str, cut)))
    return f"ci-log 1\nblock 00010074 {found}\n{tree}"


def unread(tree):
    """Of letters that aren't one whole tree: how many of them begin one, and the kind of the fault; or None."""
    due = 1
    for item, letter in enumerate(tree):
        if due == 0:
            return item, 4
        due += 1 if letter == "B" else -1
    return (len(tree), 2) if due else None


class Logs(Check):
    """Calls in a folder, and where they don't print what is due."""

    def __init__(self, given, folder):
        super().__init__(given, folder)
        self.source, self.counts = random.Random(1), collections.Counter()

    def told(self, command, files, options):
        """What a call prints."""
        words = [word for key, value in options.items() for word in (f"--{key}", f"{value}")]
        return self.call(command, *files, *words, text=True, errors="replace").stdout

    def find(self, options):
        """The log book that `find` writes."""
        printed = self.told("find", ("old", "new", "units", "logs", "report"), options)
        return self.read("logs").decode() if printed.startswith("cuts") else printed

    def graph(self, name):
        """Compares the search of a block that is made up, and verdicts on its log."""
        registers, table = some_registers(self.source), some_table(self.source)
        block = [some_word(self.source, registers) for _ in range(self.source.randrange(1, LONGEST))] + [JUMP]
        # The second block reads what is live after the first one, by stores.
        live = {register for register in range(1, 32) if self.source.random() < 0.5}
        text = block + [register << 20 | register << 15 | 0x2023 for register in live] + [BREAK]
        inputs, outputs = self.source.choice(LIMITS)
        search = Search(Graph(block, live, table), inputs, outputs)
        self.write("old", executable.frame(text))
        need, options = search.need(), {"in": inputs, "out": outputs, "table": self.write("table", table.text())}
        if need > 1:
            skipped = self.find({**options, "budget": need - 1}).splitlines()[1:2]
            self.same(f"{name}, by a budget of one less", skipped, [f"block 00010074 spent {need - 1}"])
        options["budget"] = max(need, 1)
        book = self.find(options)
        first = FIRST.match(book)
        if not self.need(first, f"{name}: {book!r}"):
            return
        cut = [int(node) for node in first["cut"].split()] if first["cut"] else None
        best = search.best().replace("no cut", "none").replace("cut", "best").partition(" gain")[0].strip()
        self.same(name, first[1], best)
        self.verdicts(name, search, cut, first["tree"], book[first.end("tree"):], options)

    def verdicts(self, name, search, cut, tree, rest, options):
        """Compares the verdicts on a right log, and on others that are made of it."""
        rows = [(cut, tree), (another(self.source, cut, search.graph.size), tree)]
        rows += [(cut, damaged(self.source, tree)) for damaged in (changed, dropped, added, exchanged)
                 for _ in range(TIMES)]
        for said, log in rows:
            due, kind = verdict(search, said, log)
            self.counts[kind] += 1
            self.write("logs", entry(said, log) + rest)
            told = self.told("check", ("old", "new", "units", "logs"), options)
            self.same(f"{name}, {entry(said, log)!r}", told, due)


def verdict(search, cut, tree):
    """What `check` has to print of the log of the first block, where the rest of the book is right; and its kind."""
    fault = unread(tree)
    if fault:
        item, kind = fault
        return f"fault 10 log {kind} {len(entry(cut, tree[:item]))}\n", f"fault 10 log {kind}"
    wrong = search.first_wrong(cut, tree)
    if wrong is None:
        return "accepted\n", "accepted"
    return "fault 11 rejected 0 00010074 {} {}\n".format(*wrong), f"rule {wrong[1]}"


def look(logs):
    for number in range(GRAPHS):
        logs.graph(f"number {number}")
    logs.least({f"verdicts that say {kind}": logs.counts[kind] for kind in VERDICTS}, 1)
    return (f"{GRAPHS} blocks and {sum(logs.counts.values())} logs compared, of which {logs.counts['accepted']} are "
            "right")


main(__doc__, look, Logs)
