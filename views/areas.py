"""What units save where there is room for some of them only: the gates of each, the limits where the best set of them
changes, and what `rumtsafi area` says of a limit."""
import os
import re
import tempfile
from collections import namedtuple

from program import Refused, fail, told
from reading import read

# The status of `gates` where there are more gates than a text of netlists may have.
TOO_MANY = "fault 14 "
NETLIST = re.compile(rb"^netlist \d+ gates (\d+)$", re.M)
LINE = re.compile(r"area (\d+) gain (\d+) units((?: \d+)*)\n")

# A set of units: the gates that it needs, the cycles that it saves, and the numbers of the units.
Choice = namedtuple("Choice", "gates saved units")


def gates_of(units_path):
    """The gates of each unit of a file, as `gates` counts them; None where they are too many for it."""
    with tempfile.TemporaryDirectory() as folder:
        out = os.path.join(folder, "netlists")
        try:
            told("gates", units_path, out)
        except Refused as refused:
            if refused.line.startswith(TOO_MANY):
                return None
            raise
        return [int(gates) for gates in NETLIST.findall(read(out))]


def ascending(choices):
    """Those choices that are better than each one that needs less room: of equal ones the set is better that has the
    greatest unit in which they differ."""
    kept = []
    for gates, saved, units in sorted(choices, key=lambda choice: (choice[0], -choice[1], -choice[2])):
        if not kept or (saved, units) > kept[-1][1:]:
            kept.append((gates, saved, units))
    return kept


def stairs(gates, saved):
    """The best set of units for each limit, ascending: each is the best from the gates that it needs up to the next
    one's. The sets are made unit by unit, by bits; one that isn't better than a smaller one stays so."""
    kept = [(0, 0, 0)]
    for number, (area, gain) in enumerate(zip(gates, saved, strict=True)):
        kept = ascending([*kept, *((room + area, sum_ + gain, units | 1 << number) for room, sum_, units in kept)])
    return [Choice(room, sum_, [number for number in range(len(gates)) if units >> number & 1])
            for room, sum_, units in kept]


def within(old, limit, words):
    """What `area` prints of an executable and a limit, with these options; None where its search is given up."""
    line = told("area", old, "--limit", str(limit), *words)
    found = LINE.fullmatch(line)
    if not found and not line.startswith("skipped budget "):
        fail(f"area prints {line!r}")
    return found and Choice(int(found[1]), int(found[2]), [int(number) for number in found[3].split()])
