"""Compares what `rumtsafi find`, `check` and `relog` print with worked rows.

For each reason by which `check` rejects files there are some that it has to reject by it, made from the right files of
a small program; a plain reading of log books has to find the same. Other rows are of a program with calls, a jump table
and environment calls, whose files have to be these, byte by byte, but for the logs of searches; of the log book of the
small program in both versions; and of refusals, which may write no file but those before the one that can't be written.
"""
import os
from collections import Counter

from checks.common import Check, main
from checks.generators.choice_rows import (CALLS, CALLS_LOGS, CALLS_REPORT, CALLS_UNITS, CONSTANTS, FOLDED, LOGS,
                                           PACKED_LOGS, PATCHES, SUMS, UNIT, VALUES, WRITTEN)
from checks.oracles.books import packed_text
from checks.oracles.choices import Choice, Plan, Profile, is_book, trees_of
from checks.oracles.cuts import Table
from readers import executable

SPENT = "ci-log 1\nblock 00010074 spent 1\nend none\n"
# What stands in LOGS, what stands there instead, and what is put behind `fault 11 rejected`.
LOG_ROWS = (
    ("FFG", "OFG", "0 00010074 8 1"), ("BOFBB", "OBB", "0 00010074 3 1"), ("OFB", "OCB", "0 00010074 5 2"),
    ("FFG", "FIG", "0 00010074 9 3"), ("BBOBOFBBFFG", "G", "0 00010074 0 4"), ("BBFFG", "G", "0 00010074 6 4"),
    ("FFG", "FFF", "0 00010074 10 5"), ("BBFFG", "F", "0 00010074 6 5"), ("OFB", "OBFFB", "0 00010074 5 6"),
    ("best 0 2", "best 0 1", "0 00010074 0 7"), ("best 0 2", "best 2", "0 00010074 0 7"),
    ("best 0 2", "best 0 2 9", "0 00010074 0 7"), ("best 0 2\n", "none\n", "0 00010074 8 5"),
    ("none\nG", "best 3\nF", "1 00010074 0 7"), ("none\nG", "none\nO", "1 00010074 0 1"),
    ("none\nG", "none\nBFBFF", "1 00010074 2 6"),
    ("10074 best", "10078 best", "0 00010074 0 8"), ("best 0 2\nBBOBOFBBFFG", "spent 65536", "0 00010074 0 8"),
    ("none\nG\n", "spent 65536\n", "1 00010074 0 8"), ("74 none", "78 none", "1 00010074 0 8"),
    (LOGS[9:], "end none\n", "0 00010074 0 8"),
    ("unit 0", "unit 1", "0 00010074 0 9"), ("take 00010074", "take 00010078", "0 00010074 0 9"),
    (LOGS[45:], "end none\n", "0 00010074 0 9"), (LOGS[45:], "end count\n", "0 00010074 0 9"),
    ("take", "block 00010074 none\nG\ntake", "0 00010074 0 9"),
    ("end none", "end count", "1 00000000 0 10"),
    ("end none", "take 00010074 unit 0\nblock 00010074 none\nG\nend none", "1 00000000 0 10"))
# Like these, with what is put behind `fault 10 log`.
FORM_ROWS = (
    ("end none\n", "end none\nx", "4 97"), ("end none\n", "end none", "3 0"), ("ci-log", "ci-lag", "1 0"),
    (LOGS, "", "3 0"), (LOGS, "ci-log 1", "3 0"), ("FFG\n", "FFGG\n", "4 44"), ("FFG\n", "FF\n", "2 43"),
    ("best 0 2", "best 2 0", "2 31"), ("best 0 2", "best 0 256", "2 33"), ("unit 0", "unit 32", "2 65"),
    ("best 0 2", "best", "2 28"), ("end none", "end nine", "2 93"), ("00010074 best", "0001007A best", "2 22"))
# Words that `find` refuses, and the line that it prints.
REFUSED = (((0x0000000B,), "fault 7 unsupported 00010074 0000000b"),
           ((0x00000297, 0x0002A303, 0x00100073), "fault 8 text touched 00010078 00010074"),
           ((0x00100073, 0x0000002B), "fault 7 unsupported 00010078 0000002b"))


class Rows(Check):
    """Calls in a folder, and where they don't print what is due."""
    calls = 0

    def need_file(self, name, due):
        """A file has these bytes, or isn't there."""
        self.same(name, self.read(name) if os.path.exists(self.path(name)) else None, due)

    def line(self, words, due, output=b""):
        """A call in the folder has to print this line behind this output, and to end with its status."""
        done = self.call(*words.split())
        status = int(due.split()[1]) if due.startswith("fault") else 0
        self.calls += 1
        self.same(words, (done.stdout, done.returncode), (output + f"{due}\n".encode(), status))


def sums(rows):
    """The program of two sums, and its right files."""
    old, new = executable.frame(SUMS), executable.frame(FOLDED)
    rows.write("old", old)
    rows.line("find old new units logs report --out 1", "cuts 1 units 1 skipped 0 gain 1")
    rows.need_file("new", new)
    rows.need_file("units", UNIT.encode())
    rows.line("run old", "end access 00000000 4 steps 2 cost 3")
    rows.line("run new --units units", "end access 00000000 4 steps 3 cost 3")
    rows.line("check old new units logs --out 1", "accepted")
    rows.write("logs", LOGS.encode())
    rows.line("check old new units logs --out 1", "accepted")
    return old, new


def rejections(rows, old, new):
    """Each reason to reject files of the program of two sums, and each kind of a fault of a log book."""
    profile = Profile(Counter((0x10074, 0x10078)), set(), "access 00000000 4 steps 2 cost 3")
    choice = Choice(old, profile, Plan(3, 1, 32, 65536), Table())
    reasons = set()
    for before, behind, figures in LOG_ROWS:
        book = LOGS.replace(before, behind, 1)
        rows.write("logs", book.encode())
        rows.line("check old new units logs --out 1", f"fault 11 rejected {figures}")
        rows.same("the plain verdict", choice.verdict(book), f"fault 11 rejected {figures}\n")
        reasons.add(figures.split()[3])
    for before, behind, figures in FORM_ROWS:
        book = LOGS.replace(before, behind, 1)
        rows.write("logs", book.encode())
        rows.line("check old new units logs --out 1", f"fault 10 log {figures}")
        rows.same("the plain form", is_book(book), False)
    rows.write("logs", LOGS.encode())
    for text in ("", UNIT.replace("cycles 1", "cycles 2"), UNIT.replace("assign q1 = c", "assign q1 = b"),
                 UNIT.replace("p0", "p2"), UNIT + UNIT.replace("ci_0", "ci_1")):
        rows.write("units", text.encode())
        rows.line("check old new units logs --out 1", "fault 11 rejected 1 00000000 0 11")
        reasons.add("11")
    rows.write("units", UNIT.replace("= ", " =\t").replace("32'h00000000", "32'h0").encode())
    rows.line("check old new units logs --out 1", "accepted")
    for data in (old, b"", new[:-1], new + b"\0", new[:120] + b"\x12" + new[121:]):
        rows.write("other", data)
        rows.line("check old other units logs --out 1", "fault 11 rejected 1 00000000 0 12")
        reasons.add("12")
    rows.same("the reasons", sorted(map(int, reasons)), list(range(1, 13)))


def versions(rows):
    """The log book of the program of two sums in both versions."""
    rows.line("relog logs packed", "relog version 2 bytes 92")
    rows.need_file("packed", PACKED_LOGS)
    rows.line("check old new units packed --out 1", "accepted")
    rows.line("relog packed again --log 1", "relog version 1 bytes 97")
    rows.need_file("again", LOGS.encode())
    for name, version, data in ("packed", 2, PACKED_LOGS), ("logs", 1, LOGS.encode()):
        rows.line(f"relog {name} again --log {version}", f"relog version {version} bytes {len(data)}")
        rows.need_file("again", data)
    rows.write("packed-wrong", PACKED_LOGS[:38] + b"\x41" + PACKED_LOGS[39:])
    rows.line("check old new units packed-wrong --out 1", "fault 10 log 2 38")
    for words, due in (("packed-wrong never", "fault 10 log 2 38"), ("missing never", "fault 2 read missing"),
                       ("bad never", "fault 10 log 1 0"), ("empty never", "fault 10 log 3 0"),
                       ("packed packed", "fault 1 usage"), ("packed never --log 3", "fault 1 usage"),
                       ("packed never --log", "fault 1 usage"), ("packed", "fault 1 usage"),
                       ("packed missing/out", "fault 3 write missing/out")):
        rows.line(f"relog {words}", due)
    rows.need_file("never", None)
    for version, files in (1, "new units found report"), (2, "packed-new packed-units packed-logs packed-report"):
        rows.line(f"find old {files} --out 1 --log {version}", "cuts 1 units 1 skipped 0 gain 1")
    for name in "new", "units", "report":
        rows.need_file(f"packed-{name}", rows.read(name))
    rows.need_file("packed-logs", packed_text(rows.read("found").decode()))
    rows.line("check old packed-new packed-units packed-logs --out 1", "accepted")
    rows.line("check old new units packed --out 1 --log 2", "fault 1 usage")


def order(rows):
    """Which of several faults comes first, and files of another choice, with those of the program of two sums there."""
    rows.write("empty", b"")
    rows.write("bad", b"x")
    rows.line("check old old empty logs --out 1", "fault 11 rejected 1 00000000 0 11")
    rows.line("check old empty bad logs --out 1", "fault 9 units 2 0")
    rows.line("check old empty empty bad --out 1", "fault 10 log 1 0")
    rows.line("check old missing bad bad", "fault 2 read missing")
    rows.line("check bad missing bad bad", "fault 5 elf 1 0 0")
    rows.line("check old new units logs --out 1 --table missing", "fault 2 read missing")
    rows.line("check old new units logs --out 1 --table bad", "fault 6 table 1")
    rows.line("find old new new logs report", "fault 1 usage")
    rows.line("find old new units logs old", "fault 1 usage")
    rows.line("check old new units logs --out 1 --in 2", "fault 11 rejected 0 00010074 0 7")
    rows.line("find old spent-new spent-units spent-logs spent-report --out 1 --budget 1",
              "cuts 0 units 0 skipped 1 gain 0")
    rows.need_file("spent-logs", SPENT.encode())
    rows.line("check old old empty spent-logs --out 1 --budget 1", "accepted")
    rows.line("check old old empty spent-logs --out 1 --budget 2", "fault 11 rejected 0 00010074 0 8")
    rows.write("spent-logs", SPENT.replace("spent 1", "spent 65536").encode())
    rows.line("check old old empty spent-logs --out 1", "fault 11 rejected 0 00010074 0 8")


def calls(rows):
    """The program with calls."""
    rows.write("text", CALLS.encode())
    rows.same("the status of asm", rows.call("asm", "text", "words").returncode, 0)
    words = memoryview(rows.read("words")).cast("I").tolist()
    rows.write("calls", executable.frame(words, CONSTANTS, VALUES))
    rows.line("run calls", "end exit 00000000 steps 61 cost 75", WRITTEN)
    rows.line("find calls calls-new calls-units calls-logs calls-report", "cuts 2 units 2 skipped 0 gain 8")
    folded = [PATCHES.get(place, word) for place, word in enumerate(words)]
    rows.need_file("calls-new", executable.frame(folded, CONSTANTS, VALUES))
    rows.need_file("calls-units", CALLS_UNITS.encode())
    rows.need_file("calls-report", CALLS_REPORT.encode())
    book = rows.read("calls-logs").decode()
    trees = set(trees_of(book))
    rows.same("calls-logs", "".join(line for line in book.splitlines(True) if line.strip() not in trees), CALLS_LOGS)
    rows.line("run calls-new --units calls-units", "end exit 00000000 steps 61 cost 67", WRITTEN)
    rows.line("check calls calls-new calls-units calls-logs", "accepted")


def refusals(rows):
    """Refused calls, which write nothing, and a file that can't be written, before which three are."""
    files = "none-new none-units none-logs none-report"
    data = [(executable.frame(words), line) for words, line in REFUSED]
    data.append((executable.frame((0x13,))[:60], "fault 5 elf 1 52 0"))
    shared = bytearray(executable.frame((0x13, 0x13), (), (0,)))
    shared[84:116] = executable.load(116, 0x20000, 8, 8)
    for file, line in [*data, (shared, "fault 5 elf 6 0 1")]:
        rows.write("refused", file)
        rows.line(f"find refused {files}", line)
    rows.line("check refused old units logs", "fault 5 elf 6 0 1")
    for words, line in REFUSED:
        rows.write("refused", executable.frame(words))
        rows.line("check refused old units logs", line)
    for name in files.split():
        rows.need_file(name, None)
    rows.line("find old missing/new last-units last-logs last-report --out 1", "fault 3 write missing/new")
    rows.need_file("last-units", UNIT.encode())
    for name in ("last-logs", "last-report"):
        rows.need(rows.read(name), f"{name} is empty")


def look(rows):
    rejections(rows, *sums(rows))
    order(rows)
    versions(rows)
    calls(rows)
    refusals(rows)
    return f"{rows.calls} calls compared"


main(__doc__, look, Rows)
