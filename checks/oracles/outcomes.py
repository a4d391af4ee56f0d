"""Calls of each command with their files, and what a call may leave to which memory, a read or a write is refused.

The statuses, the fault lines and the files that are left are those of the table in docs/GUIDE.md.
"""
import os
import subprocess
from dataclasses import dataclass

from checks.common import read
from checks.generators.choice_rows import (CALLS, CALLS_BLOCKS, CALLS_REPORT, CALLS_UNITS, CONSTANTS, FOLDED, LOGS,
                                           PACKED_LOGS, SUMS, UNIT, VALUES, WRITTEN)
from checks.oracles import netlists
from readers import executable

# What stands in each file that a call writes.
BEFORE = b"before"
ADD, ADDED = b"add x5, x10, x11\n", b"\xb3\x02\xb5\x00"
# A netlist of or, and, and xor, each bit by bit.
NETS = netlists.written([netlists.Netlist([(word, b"a%d" % bit, b"b%d" % bit) for word in (b"or", b"and", b"xor")
                                           for bit in range(32)], [b"g%d" % place for place in range(96)])])
PAIR = b"\xb3\x02\xb5\x00\xb3\x82\xc2\x00"
# Causes of an end: that which the call has where nothing is refused, and the statuses of refusals.
OWN, READ, WRITE, NO_MEMORY = "own", 2, 3, 12
# The status of a call that doesn't end in time.
ENDLESS = 1000
# The options that name a file that is read, in the order in which that is done.
OPTIONS_OF_FILES = "--units", "--table", "--input"
LINES = {READ: "fault 2 read", WRITE: "fault 3 write", NO_MEMORY: "fault 12 no memory"}


@dataclass(frozen=True)
class Call:
    """A call: its words, what it prints where nothing is refused, the files that it writes, by name in their order,
    with what they have to hold (None where that isn't fixed), and its status."""
    words: str
    printed: bytes | None
    writes: dict
    status: int = 0


FOUND = {"units": UNIT.encode(), "logs": None, "report": None, "new": executable.frame(FOLDED)}
FOUND_IN_CALLS = {"units": CALLS_UNITS.encode(), "logs": None, "report": CALLS_REPORT.encode(), "new": None}
OPTIONS = "--table table --input input"
COMMANDS = (
    Call("find old new units logs report --out 1", b"cuts 1 units 1 skipped 0 gain 1\n", FOUND),
    Call(f"find calls new units logs report {OPTIONS}", b"cuts 2 units 2 skipped 0 gain 8\n", FOUND_IN_CALLS),
    Call("check old its-new its-units its-logs --out 1", b"accepted\n", {}),
    Call(f"area calls --limit 672 {OPTIONS}", b"area 672 gain 4 units 1\n", {}),
    Call("rename calls new --input input", b"renamed 4 blocks 3\n", {"new": None}),
    Call("relog its-logs packed", b"relog version 2 bytes 92\n", {"packed": PACKED_LOGS}),
    Call(f"run calls {OPTIONS}", WRITTEN + b"end exit 00000000 steps 61 cost 75\n", {}),
    Call("run its-new --units its-units", b"end access 00000000 4 steps 3 cost 3\n", {}),
    Call("asm text out", b"", {"out": ADDED}),
    Call("dis words", b"00b502b3 add x5, x10, x11\n", {}),
    Call("best pair --table table", b"cut 0 1 gain 1\n", {}),
    Call("best calls --at 0x100c4", b"cut 0 1 2 gain 2\n", {}),
    Call("pair calls --at 0x100c4 --table table", b"pair 1 2 and 0 gain 1\n", {}),
    Call("blocks calls", CALLS_BLOCKS.encode(), {}),
    Call("eval its-units 0 0x1 0x2 0x4", b"00000007 00000000\n", {}),
    Call("gates its-units nets", b"modules 1 gates 320\n", {"nets": None}),
    Call("geval its-nets 0 0x1 0x3 0x4", b"00000003 00000001 00000002\n", {}),
    Call("load 7", None, {}),
    Call("dis missing", b"fault 2 read missing\n", {}, READ),
)


@dataclass(frozen=True)
class End:
    """How a call ended: its status, what it printed and what went to standard error, and its files that it changed,
    added or took away, by name (None for those)."""
    status: int
    printed: bytes
    told: bytes
    files: dict


class Folder:
    """A folder with the files that the calls read and write, and the name of a file beside it."""

    def __init__(self, check):
        self.program, self.path, self.beside = check.program, check.path("files"), check.path("beside")
        os.mkdir(self.path)
        self.held = {"old": executable.frame(SUMS), "its-new": executable.frame(FOLDED), "its-units": UNIT.encode(),
                     "its-logs": LOGS.encode(), "its-nets": NETS, "text": CALLS.encode(), "words": ADDED, "pair": PAIR,
                     "table": b"", "input": b"input", **{name: BEFORE for call in COMMANDS for name in call.writes}}
        self.restore({name: None for name in self.held})
        subprocess.run([self.program, "asm", "text", "words"], cwd=self.path, check=True)
        words = memoryview(self.content("words")).cast("I")
        self.held.update(text=ADD, calls=executable.frame(words, CONSTANTS, VALUES))
        self.restore({name: None for name in self.held})

    def content(self, name):
        return read(os.path.join(self.path, name))

    def restore(self, names):
        """Makes these files what they were."""
        for name in names:
            path = os.path.join(self.path, name)
            if os.path.exists(path):
                os.remove(path)
            if name in self.held:
                with open(path, "wb") as file:
                    file.write(self.held[name])

    def changes(self):
        found = {name: self.content(name) for name in os.listdir(self.path)}
        return {name: found.get(name) for name in {*found, *self.held} if found.get(name) != self.held.get(name)}

    def run(self, call, before=(), seconds=60, **options):
        """Runs a call, perhaps by another program, and makes its files what they were."""
        words = [*before, self.program, *call.words.split()]
        try:
            done = subprocess.run(words, cwd=self.path, capture_output=True, timeout=seconds, check=False, **options)
            end = End(done.returncode, done.stdout, done.stderr, self.changes())
        except subprocess.TimeoutExpired:
            end = End(ENDLESS, b"", b"", self.changes())
        self.restore(end.files)
        return end

    def reads(self, call):
        """The files that a call reads, in order: those that stand alone, and then those of options."""
        words, named = call.words.split()[1:], []
        for option in OPTIONS_OF_FILES:
            if option in words:
                place = words.index(option)
                named.append(words[place + 1])
                del words[place:place + 2]
        return [word for word in words if word in {*self.held, "missing"} - {*call.writes}] + named


def whole(call, end):
    """Why a call to which nothing was refused didn't end as it has to; None where it did."""
    if end.status != call.status or call.printed not in (None, end.printed):
        return f"status {end.status}, {end.printed!r}"
    if {*end.files} != {*call.writes} or any(due not in (None, end.files[name]) for name, due in call.writes.items()):
        return f"the files {end.files}"
    return None


def wrong(call, success, end, causes, silent=False):
    """Why an end has none of these causes, with its status, its line and the files that come with it; None where it
    has. A cause is OWN, NO_MEMORY, or READ or WRITE with the name of the file. `success` is how the call ends where
    nothing is refused. `silent` says that the print of the fault line may have been refused too."""
    if any(is_by(call, success, end, cause, silent) for cause in causes):
        return None
    return f"status {end.status}, {end.printed[-60:]!r}, changed {sorted(end.files)}, and due is one of {causes}"


def is_by(call, success, end, cause, silent):
    """Whether an end has this cause."""
    names = [*call.writes]
    status, name = cause if isinstance(cause, tuple) else (cause, None)
    if status == OWN:
        printed = fronts(success.printed) if silent else {success.printed}
        return (end.status, end.files) == (success.status, success.files) and end.printed in printed
    line = " ".join([LINES[status], *([name] if name else [])]).encode() + b"\n"
    printed = fronts(line) if silent else {line}
    places, free = [0], None
    if status == NO_MEMORY:
        places = range(len(names) + 1)
    elif cause == (WRITE, "-"):
        places, printed = [len(names)], {front + last for front in fronts(success.printed) for last in printed}
    elif status == WRITE:
        places, free = [names.index(name)], name
    changed = {name: content for name, content in end.files.items() if name != free}
    return (end.status == status and end.printed in printed
            and changed in [{name: success.files[name] for name in names[:place]} for place in places])


def fronts(text):
    """Each text with which a text begins."""
    return {text[:length] for length in range(len(text) + 1)}
