"""Checks docs/faults.tsv, by which the script `rumtsafi` says fault lines in words.

A row has to stand for each fault line that the program can print: for each status, each rule of an executable and of a
table, each kind of a fault of a text, and each reason for a rejection, whatever the other figures are. No row may stand
behind another one that fits all its lines. The words may name what varies in the line alone.
"""
import itertools
import re

from checks.common import end, words
from checks.repository import usage

CHOICES = ["find", "check", "area"]
PROFILED = [*CHOICES, "rename"]
SEARCHES = ["best", "best --at", "pair", "pair --at"]
CALLS = ["best --at", "pair --at", *(command.name for command in usage.usage()[0])]
# Those that read files.
READERS = [call for call in CALLS if call != "load"]
# What is printed behind `fault`, of which calls, with an example for each name that varies.
LINES = {
    "1 usage": CALLS,
    "2 read NAME": READERS,
    "3 write -": CALLS,
    "3 write NAME": ["asm", "find", "gates", "relog", "rename"],
    "4 too large NAME": READERS,
    **{f"5 elf {rule} A B": ["best --at", "pair --at", "blocks", "run", *PROFILED] for rule in range(1, 10)},
    **{f"6 table {rule}": [*SEARCHES, "run", *CHOICES] for rule in (1, 2)},
    **{f"6 table {rule} KEY": [*SEARCHES, "run", *CHOICES] for rule in (3, 4)},
    "7 unsupported POSITION WORD": [*SEARCHES, "blocks", *PROFILED],
    "7 unsupported POSITION 00000000": ["eval", "geval"],
    "8 text touched PC ADDR": PROFILED,
    **{f"9 units {kind} OFFSET": ["eval", "gates", "run", "check"] for kind in range(1, 10)},
    **{f"10 log {kind} 0": ["check", "relog"] for kind in (1, 3)},
    **{f"10 log {kind} OFFSET": ["check", "relog"] for kind in (2, 4)},
    **{f"11 rejected ROUND LEADER ITEM {reason}": ["check"] for reason in range(1, 7)},
    **{f"11 rejected ROUND LEADER 0 {reason}": ["check"] for reason in range(7, 10)},
    **{f"11 rejected ROUND 00000000 0 {reason}": ["check"] for reason in range(10, 13)},
    "12 no memory": CALLS,
    **{f"13 asm {kind} LINE COLUMN": ["asm"] for kind in range(1, 8)},
    "14 many MODULE GATES": ["gates"],
    "15 nets OFFSET": ["geval"],
}
EXAMPLES = {
    "NAME": ["a file", "-x"], "A": ["0", "4", "5", "6", "16", "18", "20", "36", "42", "46", "84", "4294967295"],
    "B": ["0", "1", "2", "3", "62"], "KEY": ["read", "pad", "software", "hardware", "software.add", "hardware.mul"],
    "POSITION": ["00000000", "00010074"], "WORD": ["00000000", "0000050b", "464c457f"], "LINE": ["1", "2"],
    "PC": ["00010078"], "ADDR": ["00010074"], "ROUND": ["0", "2"], "LEADER": ["00010074"], "ITEM": ["0", "10"],
    "COLUMN": ["1"], "OFFSET": ["0", "19"], "MODULE": ["0", "31"], "GATES": ["4194305"],
}


def fits(pattern):
    """The expression that a row's line stands for."""
    parts = re.split(r"\{([A-Z]+)\}", pattern)
    parts[::2] = map(re.escape, parts[::2])
    parts[1::2] = [".*" if name == "NAME" else "[^ ]+" for name in parts[1::2]]
    return re.compile("".join(parts))


def fault_lines():
    """Each fault line that is tried, with its call."""
    for line, calls in LINES.items():
        names = [name for name in line.split() if name in EXAMPLES]
        for values in itertools.product(*(EXAMPLES[name] for name in names)):
            given = dict(zip(names, values))
            text = " ".join(given.get(word, word) for word in line.split())
            yield from ((f"fault {text}", call) for call in calls)


def main():
    words(__doc__).parse_args()
    rows, faults, told = usage.faults(), [], set()
    for row in rows:
        if len(row) != 3 or row[1] not in ("*", *CALLS):
            faults.append(f"no row of a line, a call and words: {row}")
        elif not set(re.findall(r"\{(\w+)\}", row[2])) <= set(re.findall(r"\{(\w+)\}", row[0])):
            faults.append(f"words that name more than their line: {row[2]}")
    if not faults:
        for line, call in fault_lines():
            fitting = (at for at, row in enumerate(rows) if row[1] in ("*", call) and fits(row[0]).fullmatch(line))
            place = next(fitting, None)
            told.add(place)
            if place is None:
                faults.append(f"no row fits '{line}' of {call}")
        faults += [f"no line is told by this row: {row[0]}" for at, row in enumerate(rows) if at not in told]
    end(faults, f"{len(rows)} rows tell {len(LINES)} kinds of fault lines")


main()
