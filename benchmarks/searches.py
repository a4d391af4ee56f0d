"""Times the search of `rumtsafi best` and the check of its log, and a plain search and check in C.

    python3 -m benchmarks.searches [PROGRAM]

PROGRAM is bin/rumtsafi if left out. The blocks are
CHAINS of `xor`, each of which reads the one before it, and the blocks of LEAST to LONGEST instructions in what GCC
makes of ciphers.c with each of LEVELS, with each of PORTS. search.c tells the need of each, the least budget that isn't
spent: `best` has to be spent by one branch less and to print with it the line of search.c. So the prefixes opened and
the items of the log are the same on both sides. Where the need is above the largest budget, both have to spend this.

`best` with a budget of one, of one less than the need and of the need differ by the time of the search and by that of
the check. They run in turn, some times over, and the least processor time of each counts. search.c tells its own
processor time, for as many searches as take some time. A line for each block has the ports, the need, the millions of
prefixes opened a second by both, the millions of items of the log that both check, and the ratios, or a dash where
other work on the machine hides a difference or where no log is checked; the last lines have, for each of PORTS, those
of all blocks but SHORT ones together.

It ends with status 0 where the answers are the same, and where the tools are missing, with a line that says so.
"""
import os
import re
import subprocess
import sys
import tempfile
from collections import namedtuple

from benchmarks.best import LEAST, LEVELS, LONGEST, PORTS, XOR, write_chain
from benchmarks.common import CROSS, HOST, bare_executable, least_times, missing, native, port_name, port_words, program
from benchmarks.graphs import blocks_of, text_of
from checks.oracles.cuts import Graph, Table

CHAINS = (64, 256)
# Every register is live after a block that stands alone.
ALL = range(1, 32)
# The largest budget. A search that takes less than SHORT is over in less time than a call varies by.
MOST, SHORT = 4_194_304, 5_000
ROUNDS, ROUNDS_OF_SHORT = 2, 15
# How many prefixes search.c opens in all, so that its time can be told.
OPENED = 10_000_000
TOLD = re.compile(r"(.*\n)opened (\d+) in (\S+)\n(?:items (\d+) in (\S+)\n)?")
# The prefixes opened, our seconds for them and those of search.c, and the same of items, which are none where the
# largest budget is spent.
Figures = namedtuple("Figures", "opened searched plainly_searched items checked plainly_checked")


def plain_search(searcher, graph, ports, rounds):
    """What search.c says of a graph: the line, how many prefixes it opened, the seconds, the number of items, and the
    seconds. There are no items where the largest budget is spent."""
    words = [searcher, graph, *map(str, ports), str(MOST), str(rounds)]
    done = subprocess.run(words, stdout=subprocess.PIPE, text=True, check=True)
    found = TOLD.fullmatch(done.stdout)
    if not found:
        sys.exit(f"{' '.join(words)}: {done.stdout!r}")
    line, opened, seconds, items, checking = found.groups()
    return line, int(opened), float(seconds), int(items or 0), float(checking or 0)


class Comparison:
    """Compares blocks, and keeps the sums of their numbers and times. A command stands beside the search of a source in
    C."""

    def __init__(self, folder, command="best", source="search.c"):
        self.command, self.searcher, self.graph = command, os.path.join(folder, "search"), os.path.join(folder, "graph")
        native(source, self.searcher)
        self.sums = {ports: Figures(*[0.0] * len(Figures._fields)) for ports in PORTS}

    def plainly(self, words, live, ports, opened=0):
        """What the search in C says of a block with the given words and live registers, so many times over that it
        opens some prefixes."""
        with open(self.graph, "w", encoding="ascii") as file:
            file.write(text_of(Graph(words, live, Table())))
        told = plain_search(self.searcher, self.graph, ports, 1)
        return plain_search(self.searcher, self.graph, ports, opened // told[1]) if 0 < told[1] < opened else told

    def measured(self, words, live, ports, *call):
        """The need of a block with the given words and live registers that a call of the command searches, or None
        where it is above the largest budget, and its figures."""
        line, opened, seconds, items, checking = self.plainly(words, live, ports, OPENED)
        if items:
            budgets, due = (1, opened - 1, opened), [f"skipped budget {opened - 1}\n", line]
        else:
            budgets, due = (1, MOST), [line]
        calls = [(program(), self.command, *call, *port_words(ports), "--budget", str(budget)) for budget in budgets]
        answers, times = zip(*least_times(ROUNDS_OF_SHORT if opened < SHORT else ROUNDS, *calls))
        told = [answer.decode() for answer in answers[1:]]
        if told != due:
            sys.exit(f"{' '.join(calls[0])}: {opened} opened, {due}, and {told}")
        figures = Figures(budgets[1], times[1] - times[0], seconds, items, times[-1] - times[1], checking)
        return opened if items else None, figures

    def block(self, name, words, live, ports, *call):
        """Compares a block, and prints its line."""
        need, figures = self.measured(words, live, ports, *call)
        show(f"{name} {port_name(ports)}", need or f">{MOST}", figures)
        if need is None or need >= SHORT:
            self.sums[ports] = Figures(*map(sum, zip(self.sums[ports], figures)))

    def show_sums(self):
        """Prints the lines of all blocks together."""
        for ports, figures in self.sums.items():
            show(f"all that aren't short {port_name(ports)}", "", figures)


def rate(count, seconds):
    """How many millions a second, or a dash."""
    return f"{count / seconds / 1e6:.1f}" if seconds > 0 else "-"


def figures_text(figures):
    """The rates of both sides, and the ratios, as a line ends with them."""
    told = ""
    for count, ours, plain in (figures[:3], figures[3:]):
        ratio = f"{plain / ours:.4f}" if ours > 0 else "-"
        told += f" {rate(count, ours):>9} {rate(count, plain):>8} {ratio:>7}"
    return told


def show(name, need, figures):
    """Prints a line."""
    print(f"{name:25} {need:>8}{figures_text(figures)}", flush=True)


def compare_all(folder):
    """Compares all blocks."""
    comparison = Comparison(folder)
    for length in CHAINS:
        for ports in PORTS:
            comparison.block(f"chain {length}", [XOR] * length, ALL, ports, write_chain(folder, length))
    for level in LEVELS:
        file = os.path.join(folder, f"ciphers{level}")
        bare_executable("ciphers.c", file, level, "-funroll-loops")
        for address, (words, live) in blocks_of(file).items():
            if LEAST <= len(words) <= LONGEST:
                for ports in PORTS:
                    comparison.block(f"{level} {address:x}", words, live, ports, file, "--at", f"0x{address:x}")
    comparison.show_sums()


def table():
    """Prints the lines of all blocks."""
    print(f"{'block':25} {'need':>8} {'open, M/s':>9} {'plain C':>8} {'ratio':>7} {'items M/s':>9} {'plain C':>8} "
          f"{'ratio':>7}")
    with tempfile.TemporaryDirectory() as folder:
        compare_all(folder)


def main():
    absent = missing(CROSS, HOST)
    if absent:
        print(absent)
        return 0
    table()
    return 0


if __name__ == "__main__":
    sys.exit(main())
