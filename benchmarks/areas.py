"""Tells how many branches the search of `rumtsafi area` takes for the best units under a limit, and times it beside a
plain search in C.

    python3 -m benchmarks.areas [PROGRAM]

PROGRAM is bin/rumtsafi if left out. The choices are those of `find` with each of PORTS for the executables of pairs.py,
over runs of up to STEPS steps; of those with the same units by gates and gains the first one counts. A choice is tried
with limits of PARTS of the gates that all its units need. areas.c tells the need of each, the least budget that isn't
spent, and `area` has to print its line by the usual budget, or that it is skipped where the need is greater.

A line for each choice has its ports, its units, their gates, and the greatest of the needs. The last lines have, for
classes of choices by their units, how many choices and limits there were, the median and the greatest need, and how
many limits are within the usual budget; and for the greatest needs within it, of at least SHORT branches, the
microseconds of processor time that `area` takes for a branch, by what it takes longer than where there is room for no
gate, and those of areas.c, both with the check of the log. It ends with status 0 where the lines are as due, and where
the tools are missing, with a line that says so.
"""
import os
import re
import subprocess
import sys
import tempfile
from collections import defaultdict
from statistics import median_high

from benchmarks.common import HOST, PACKAGES, call, median_times, native, port_name, port_words, program
from benchmarks.pairs import USUAL_BUDGET, executables
from checks.tools import compiled

PORTS = ((2, 1), (3, 1), (3, 2), (4, 2), (5, 3))
STEPS, PARTS = "1000000", (0.1, 0.25, 0.4, 0.5, 0.6, 0.75, 0.9)
# The classes of choices: with up to so many units.
CLASSES = (4, 8, 16, 24, 32)
MOST, SHORT, TIMED, ROUNDS, OPENED = 4_194_304, 200, 5, 11, 100_000
CUT = re.compile(r"^cut \d+ block \w+ unit (\d+) gain (\d+) entries (\d+) ", re.M)
GATES = re.compile(r"^netlist \d+ gates (\d+)$", re.M)
TOLD = re.compile(r"(.*\n)opened (\d+) in (\S+)\n(?:items (\d+) in (\S+)\n)?")


def read(path):
    """A text."""
    with open(path, encoding="ascii") as file:
        return file.read()


def pieces_of(file, folder, options):
    """The gates and the gain of each unit that `find` chooses, or none where it or `gates` refuses the file."""
    new, units, logs, report, nets = (os.path.join(folder, name) for name in ("new", "units", "logs", "report", "nets"))
    for words in (("find", file, new, units, logs, report, *options), ("gates", units, nets)):
        if call(program(), *words)[1] != 0:
            return ()
    gains = defaultdict(int)
    for unit, gain, entries in CUT.findall(read(report)):
        gains[int(unit)] += int(gain) * int(entries)
    return tuple((int(gates), gains[number]) for number, gates in enumerate(GATES.findall(read(nets))))


class Areas:
    """Compares choices, and keeps what the last lines tell."""

    def __init__(self, folder):
        self.folder, self.searcher, self.pieces = folder, os.path.join(folder, "areas"), os.path.join(folder, "pieces")
        native("areas.c", self.searcher)
        self.seen, self.needs, self.greatest = set(), {most: [] for most in CLASSES}, []
        self.counts = defaultdict(int)

    def plainly(self, pieces, limit, rounds=1):
        """What areas.c says: the line, the need, and the seconds of a search and a check."""
        with open(self.pieces, "w", encoding="ascii") as file:
            file.write("".join(f"{first} {second}\n" for first, second in ((len(pieces), ""), *pieces)))
        words = [self.searcher, self.pieces, str(limit), str(MOST), str(rounds)]
        line, opened, searched, _, checked = TOLD.fullmatch(
            subprocess.run(words, stdout=subprocess.PIPE, text=True, check=True).stdout).groups()
        return line, int(opened), float(searched) + float(checked or 0)

    def need(self, file, pieces, limit, options):
        """The need of a choice within a limit, where `area` has to print the line of areas.c."""
        line, need, _ = self.plainly(pieces, limit)
        words = program(), "area", file, "--limit", str(limit), *options
        told = call(*words)[0].decode()
        due = line if need <= USUAL_BUDGET else f"skipped budget {USUAL_BUDGET}\n"
        if told != due:
            sys.exit(f"{' '.join(words)}: {told!r}, and not {due!r}")
        if SHORT <= need <= USUAL_BUDGET:
            self.greatest.append((need, file, pieces, limit, options))
            self.greatest = sorted(self.greatest, key=lambda row: -row[0])[:TIMED]
        return need

    def choice(self, name, file, ports):
        """Compares a choice, and prints its line."""
        options = *port_words(ports), "--steps", STEPS
        pieces = pieces_of(file, self.folder, options)
        if not pieces or pieces in self.seen:
            return
        self.seen.add(pieces)
        whole = sum(gates for gates, _ in pieces)
        needs = [self.need(file, pieces, int(whole * part), options) for part in PARTS]
        most = next(most for most in CLASSES if len(pieces) <= most)
        self.needs[most] += needs
        self.counts[most] += 1
        print(f"{name:20} {port_name(ports):>5} {len(pieces):>5} {whole:>8} {max(needs):>8}", flush=True)

    def show(self):
        """Prints the last lines."""
        for most, needs in self.needs.items():
            if needs:
                print(f"up to {most:>2} units: {self.counts[most]:>4} choices, {len(needs):>5} limits, median need "
                      f"{median_high(needs)}, greatest {max(needs)}, within {USUAL_BUDGET} "
                      f"{sum(need <= USUAL_BUDGET for need in needs)}")
        for need, file, pieces, limit, options in self.greatest:
            words = program(), "area", file, *options, "--limit"
            (_, none), (_, some) = median_times(ROUNDS, (*words, "0"), (*words, str(limit)))
            _, _, plain = self.plainly(pieces, limit, 1 + OPENED // need)
            print(f"{os.path.basename(file)} {port_name(options[1:4:2])}, {len(pieces)} units, limit {limit}: need "
                  f"{need}, {(some - none) / need * 1e6:.2f} us a branch, areas.c {plain / need * 1e6:.3f}")


def main():
    absent = compiled.missing({HOST: PACKAGES[HOST]})
    if absent:
        print(absent)
        return 0
    print(f"{'choice':20} {'ports':>5} {'units':>5} {'gates':>8} {'need':>8}")
    with tempfile.TemporaryDirectory() as folder:
        areas = Areas(folder)
        for name, file in executables(folder):
            for ports in PORTS:
                areas.choice(name, file, ports)
        areas.show()
    return 0


if __name__ == "__main__":
    sys.exit(main())
