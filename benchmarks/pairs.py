"""Times the search of `rumtsafi pair` and the check of its log beside a plain search and check in C, and prints the
needs of pairs, and how much more a pair gains than two rounds do.

    python3 -m benchmarks.pairs [PROGRAM]

PROGRAM is bin/rumtsafi if left out. The blocks are those of at least LEAST instructions, of which at least JOINING may
join a cut, in what GCC makes of ciphers.c with each of LEVELS, of the programs of run.py, and of those of
checks/programs with picolibc, and in the samples, each with each of PORTS; of equal blocks the first one counts.
pairs.c tells the need of each. Of those of up to LONGEST instructions `pair` has to print the line of pairs.c with its
need as the budget, and to be spent by one branch less.

A line for each block and ports has its instructions, how many of these may join, and the need; and of a block of up to
LONGEST instructions also

- the gain of the best cut and of the one that the next round finds in the folded block, the sum of both, and the gain
  of the best pair, which isn't less where there are two;
- where the need is at least SHORT, the millions of prefixes opened a second by `pair` and by pairs.c, and the ratio,
  and the same of the items of the log that both check, as searches.py says.

The last lines have, for each of PORTS, the speeds of all but short searches together, the median and greatest needs by
the number of instructions that may join, and the sums of the gains. It ends with status 0 where the answers are the
same, and where the tools are missing, with a line that says so.
"""
import os
import sys
import tempfile
from collections import defaultdict
from statistics import median_high

from benchmarks.best import LEVELS, PORTS
from benchmarks.common import (
    HOST, PACKAGES, bare_executable, port_name, port_words, processor_time, program)
from benchmarks.graphs import blocks_of
from benchmarks.run import SEARCHED
from benchmarks.searches import MOST, SHORT, Comparison, Figures, figures_text
from checks.oracles import choices
from checks.oracles.cuts import Table
from checks.tools import compiled
from readers.latencies import may_join

LEAST, LONGEST, JOINING = 12, 40, 6
# The classes of blocks by the number of instructions that may join: each up to this number.
CLASSES = (8, 11, 14, 17, 20, 30, 40, 60, 100, 256)
USUAL_BUDGET, ROUNDS = 65_536, 2


def executables(folder):
    """The executables, each with its name."""
    for name, source, level in (*((f"ciphers {level}", "ciphers.c", level) for level in LEVELS),
                                *((os.path.basename(source)[:-2], source, "-O2") for source in SEARCHED)):
        file = os.path.join(folder, name.replace(" ", ""))
        bare_executable(source, file, level, *["-funroll-loops"] * (source == "ciphers.c"))
        yield name, file
    yield from compiled.executables(folder)


def blocks(folder):
    """The blocks: a name, the file, the address, the words and the registers that are live behind them."""
    seen = set()
    for name, file in executables(folder):
        for address, (words, live) in sorted(blocks_of(file).items()):
            key = tuple(words), frozenset(live)
            if LEAST <= len(words) and sum(map(may_join, words)) >= JOINING and key not in seen:
                seen.add(key)
                yield f"{name} {address:x}", file, address, words, live


def gains_of_rounds(words, live, ports):
    """The gains of the cuts that two rounds find in a block, the second one where the first is folded; 0 for none."""
    gains, plan = [], choices.Plan(*ports, ROUNDS, MOST)
    for number in range(ROUNDS):
        graph = choices.Graph(words, live, Table(), plan)
        found = choices.best_cut(graph)
        gains.append(found.gain)
        if found.cut:
            words = graph.block.folded(found.cut, number)
    return gains


def gain_in(line):
    """The gain that a line tells; 0 where it tells none."""
    return int(line.rpartition(" gain ")[2]) if " gain " in line else 0


def agree(line, need, *call):
    """Ends the benchmark where the line of a call by its need, or by one branch less, isn't the due one."""
    for budget, due in ((max(need, 1), line), (need - 1, f"skipped budget {need - 1}\n")):
        if budget > 0:
            told = processor_time(program(), "pair", *call, "--budget", str(budget))[0].decode()
            if told != due:
                sys.exit(f"{' '.join(call)} --budget {budget}: {told!r}, and not {due!r}")


class Pairs:
    """Compares blocks, and keeps what the last lines tell."""

    def __init__(self, folder):
        self.comparison = Comparison(folder, "pair", "pairs.c")
        self.needs, self.gains = defaultdict(list), {ports: [] for ports in PORTS}

    def block(self, name, call, words, live, ports):
        """Compares a block that a call names, and prints its line."""
        joining = sum(map(may_join, words))
        line, need, _, items, _ = self.comparison.plainly(words, live, ports)
        self.needs[next(most for most in CLASSES if joining <= most), ports].append(need if items else MOST + 1)
        begin = f"{name:20} {port_name(ports)} {len(words):>4} {joining:>4} {need if items else f'>{MOST}':>8}"
        if len(words) > LONGEST:
            print(begin, flush=True)
            return
        rounds = gains_of_rounds(words, live, ports)
        if min(rounds) > 0 and gain_in(line) < sum(rounds):
            sys.exit(f"{name}: {line!r}, and two rounds gain {rounds}")
        self.gains[ports].append((*rounds, gain_in(line)))
        speeds = self.speeds(line, need, (words, live, ports), *call)
        print(f"{begin} {' '.join(f'{gain:>4}' for gain in (*rounds, sum(rounds), gain_in(line)))}{speeds}", flush=True)

    def speeds(self, line, need, block, *call):
        """Sees that a call agrees with pairs.c, and gives the end of the block's line, which tells the speeds."""
        *_, ports = block
        if need < SHORT:
            agree(line, need, *call, *port_words(ports))
            return ""
        _, figures = self.comparison.measured(*block, *call)
        self.comparison.sums[ports] = Figures(*map(sum, zip(self.comparison.sums[ports], figures)))
        return figures_text(figures)

    def show_sums(self):
        """Prints the last lines."""
        for ports, figures in self.comparison.sums.items():
            print(f"{f'all that are not short {port_name(ports)}':62}{figures_text(figures)}")
        for most in CLASSES:
            for ports in PORTS:
                needs = self.needs[most, ports]
                if needs:
                    print(f"up to {most:>3} may join, {port_name(ports)}: {len(needs):>4} blocks, median need "
                          f"{median_high(needs)}, greatest {max(needs)}, within {USUAL_BUDGET} "
                          f"{sum(need <= USUAL_BUDGET for need in needs)}, within {MOST} "
                          f"{sum(need <= MOST for need in needs)}")
        for ports, gains in self.gains.items():
            for title, found in (("two cuts", [row for row in gains if row[1]]),
                                 ("one cut", [row for row in gains if row[0] and not row[1]])):
                rounds, pairs = sum(first + second for first, second, _ in found), sum(row[2] for row in found)
                more = sum(pair > first + second for first, second, pair in found)
                less = sum(pair < first + second for first, second, pair in found)
                print(f"{port_name(ports)}, {len(found)} blocks with {title} by rounds: {rounds} by rounds, {pairs} by "
                      f"pairs, more in {more}, less in {less}")


def main():
    absent = compiled.missing({HOST: PACKAGES[HOST]})
    if absent:
        print(absent)
        return 0
    print(f"{'block':20} {'':3} {'inst':>4} {'join':>4} {'need':>8} {'1st':>4} {'2nd':>4} {'sum':>4} {'pair':>4} "
          f"{'open, M/s':>9} {'plain C':>8} {'ratio':>7} {'items M/s':>9} {'plain C':>8} {'ratio':>7}")
    with tempfile.TemporaryDirectory() as folder:
        compared = Pairs(folder)
        for name, file, address, words, live in blocks(folder):
            for ports in PORTS:
                compared.block(name, (file, "--at", f"0x{address:x}"), words, live, ports)
        compared.show_sums()
    return 0


if __name__ == "__main__":
    sys.exit(main())
