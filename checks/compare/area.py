"""Compares what `rumtsafi area` prints with a plain reading of the best set of units.

`find` chooses cuts of executables of samples/ and of generated programs, with several options. The pieces are its
units: `gates` tells the area of each by itself, and REPORT what each of its cuts gains and how often. Of up to 14 pieces
all sets are tried, and of more each sum of areas with the best that it gives. `area` has to print the line of the best
set for limits around the areas of sets, or that it is skipped, where by the plain reading of the prefixes the budget
is too small; and it writes nothing.
"""
import collections
import os
import random
import re
from fractions import Fraction

from checks.common import SAMPLES, Check, main, read
from checks.oracles import generated, netlists, units

# Executables of samples/, and seeds of generated programs.
NAMES, SEEDS = ("crc32.elf", "sha256.elf"), (0, 7)
# How many units a choice has at most.
COUNTS = 1, 6, 11, 14, 32
# How many limits are tried of each choice, and up to how many pieces all sets and prefixes are.
LIMITS, FEW = 12, 14
CUT = re.compile(r"^cut \d+ block [0-9a-f]+ unit (\d+) gain (\d+) entries (\d+) ", re.MULTILINE)


def best(pieces, limit):
    """The area, the gain and the set of the best pieces, as a number with a bit for each. Of sets that gain as much, the
    one comes first whose greatest number that the other hasn't is greater."""
    sums = {0: (0, 0)}
    for number, (area, gain) in enumerate(pieces):
        more = dict(sums)
        for before, (gained, chosen) in sums.items():
            if before + area <= limit:
                more[before + area] = max(more.get(before + area, (0, 0)), (gained + gain, chosen | 1 << number))
        sums = more
    area, (gained, chosen) = max(sums.items(), key=lambda item: item[1])
    return area, gained, chosen


def best_of_all(pieces, limit):
    """The same by all sets."""
    found = 0, 0, 0
    for chosen in range(1 << len(pieces)):
        taken = [piece for number, piece in enumerate(pieces) if chosen >> number & 1]
        area, gain = sum(area for area, _ in taken), sum(gain for _, gain in taken)
        if area <= limit and (gain, chosen) > found[1:]:
            found = area, gain, chosen
    return found


def greedy(pieces, limit):
    """What the pieces gain that are taken one by one, those that gain most for their area first."""
    order = sorted(range(len(pieces)), key=lambda k: (pieces[k][0] > 0, -Fraction(pieces[k][1], pieces[k][0] or 1), k)
                   if pieces[k][0] else (False, 0, k))
    area = gained = 0
    for number in order:
        if area + pieces[number][0] <= limit:
            area, gained = area + pieces[number][0], gained + pieces[number][1]
    return gained


def need(pieces, limit):
    """How many prefixes are open and have a piece undecided."""
    least = greedy(pieces, limit)
    rates = [(0, 1), *((gain, area) for area, gain in pieces if area)]

    def bound(left, area, gained, num, den):
        rest = sum(max(0, den * gain - num * size) for size, gain in pieces[:left])
        return (den * gained + num * (limit - area) + rest) // den

    def below(left, area, gained):
        if left == 0 or area > limit or any(bound(left, area, gained, *rate) < least for rate in rates):
            return 0
        size, gain = pieces[left - 1]
        return 1 + below(left - 1, area + size, gained + gain) + below(left - 1, area, gained)

    return below(len(pieces), 0, 0)


def line(area, gained, chosen):
    numbers = "".join(f" {number}" for number in range(chosen.bit_length()) if chosen >> number & 1)
    return f"area {area} gain {gained} units{numbers}\n"


class Areas(Check):
    """What is found of the calls."""

    def __init__(self, given, folder):
        super().__init__(given, folder)
        self.source, self.kinds = random.Random(1), collections.Counter()

    def pieces(self, options):
        """The areas and the gains of the units of a choice."""
        done = self.call("find", "old", "new", "units", "logs", "report", *options)
        self.need(done.returncode == 0, f"find {options}: status {done.returncode}")
        gains = collections.Counter()
        for unit, gain, entries in CUT.findall(self.read("report").decode()):
            gains[int(unit)] += int(gain) * int(entries)
        modules = units.read(self.read("units"))
        return [(netlists.count(module), gains[number]) for number, module in enumerate(modules)]

    def limits(self, pieces):
        """Limits around the areas of sets."""
        whole = sum(area for area, _ in pieces)
        yield from (0, whole, max(0, whole - 1), 2 ** 32 - 1)
        while True:
            some = sum(area for area, _ in pieces if self.source.random() < 0.5)
            yield max(0, some + self.source.choice((-1, 0, 0, 1)))

    def compare(self, name, pieces, limit, options, budget):
        """One call, and what is due."""
        files = sorted(os.listdir(self.folder))
        done = self.call("area", "old", "--limit", str(limit), *options, text=True)
        self.same(f"the status of {name}", done.returncode, 0)
        self.same(f"the files after {name}", sorted(os.listdir(self.folder)), files)
        is_few = len(pieces) <= FEW
        if done.stdout == f"skipped budget {budget}\n":
            self.kinds["skipped"] += 1
            self.need(not is_few or need(pieces, limit) > budget, f"{name} is skipped")
            return
        self.kinds["few" if is_few else "many"] += 1
        found = best(pieces, limit)
        if is_few:
            self.same(f"both readings of {name}", best_of_all(pieces, limit), found)
        self.same(name, done.stdout, line(*found))

    def look(self, name, data):
        """The choices for an executable."""
        self.write("old", data)
        for count in COUNTS:
            options = "--count", str(count)
            pieces = self.pieces(options)
            for _, limit in zip(range(LIMITS), self.limits(pieces)):
                self.compare(f"area of {name} with {count} units and limit {limit}", pieces, limit, options, 65536)
        options = "--budget", "7"
        pieces = self.pieces(options)
        for _, limit in zip(range(LIMITS), self.limits(pieces)):
            self.compare(f"area of {name} with little budget and limit {limit}", pieces, limit, options, 7)


def look(check):
    for name in NAMES:
        check.look(name, read(os.path.join(SAMPLES, name)))
    for seed in SEEDS:
        check.look(f"the program of {seed}", generated.program(seed))
    check.least(check.kinds, 4)
    return f"{sum(check.kinds.values())} calls compared, {dict(check.kinds)}"


main(__doc__, look, Areas)
