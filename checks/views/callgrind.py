"""Reads the files that `views/callgrind` writes by callgrind_annotate, where it is there, and compares their sums.

The cycles before and after of a sample and of programs with debug information have to sum up to those of REPORT,
instruction by instruction to what a run costs, and by function and line to what `views/report` tells. Where a block has
two cuts, whose operations stand between one another, each line has to save what the cuts of its operations do. A wrong
folder makes one line, and wrong calls end with the usage and status 2.
"""
import json
import os
import re
import shutil
import subprocess

from checks.common import SAMPLES
from checks.tools import compiled
from checks.views import viewing

ANNOTATE = "callgrind_annotate"
SOURCE = """#include "start.h"
static inline unsigned mix(unsigned hash, unsigned word)
{
    return ((hash << 7 | hash >> 25) ^ word) * 5 + 99;
}

void run(void)
{
    unsigned hash = 1;
    for (unsigned at = 0; at < 500; at++)
        hash = mix(hash, at);
    leave(hash);
}
"""
# Two cuts of one output each: that of lines 6 and 8, taken first, and that of line 7.
APART = """#include "start.h"
void run(void)
{
    unsigned hash = 1, rest = 7;
    for (unsigned at = 1; at < 500; at++) {
        hash = ((hash << 7 ^ at) + 99) ^ hash >> 3;
        rest = ((rest << 5 | rest >> 4) ^ at) + 77;
        hash = (hash << 9 | hash >> 6) + at;
    }
    leave(hash ^ rest);
}
"""
OF_FIRST, OF_SECOND = (6, 8), (7,)


def sums(text):
    """The sums of a file: of all, and by function."""
    total, function, by_name, names = [0] * 4, None, {}, {}
    for line in text.splitlines():
        named = re.fullmatch(r"fn=\((\d+)\)(?: (.*))?", line)
        if named:
            function = names.setdefault(named[1], named[2])
        row = re.fullmatch(r"0x[0-9a-f]+ \d+ (\d+) (\d+) (\d+) (\d+)", line)
        if row:
            figures = list(map(int, row.groups()))
            total = [one + other for one, other in zip(total, figures)]
            by_name[function] = by_name.get(function, 0) + figures[0]
    return total, by_name


def compare(views, name):
    """Compares the file of a choice with its report."""
    views.need(views.works("callgrind", name, "--file", "profile") == "profile\n", "the name of the file")
    text = views.read("profile").decode()
    total, by_name = sums(text)
    report = views.read(os.path.join(name, "report.txt")).decode()
    steps, cost = map(int, re.search(r"steps (\d+) cost (\d+)$", report, re.M).groups())
    saved = int(re.search(r"^total (\d+)$", report, re.M)[1])
    views.same(f"{name}: cycles and entries", total, [cost, cost - saved, saved, steps])
    views.same(f"{name}: the summary", re.search("^summary: (.*)$", text, re.M)[1].split(), list(map(str, total)))
    rows = json.loads(views.works("callgrind", name, "--json"))
    views.same(f"{name}: the rows", sum(row["before"] for row in rows), cost)
    views.need(all(row["saved"] == row["before"] - row["after"] <= row["before"] for row in rows), f"{name}: {rows}")
    page = json.loads(views.works("report", name, "--json"))
    views.same(f"{name}: by function", {row["name"]: row["before"] for row in page["by_function"]}, by_name)
    if page["by_line"]:
        due = {row["name"]: [row["before"], row["after"]] for row in page["by_line"]}
        views.same(f"{name}: by line", due, by_line(rows))
    if shutil.which(ANNOTATE):
        told = subprocess.run([ANNOTATE, "--threshold=100", views.path("profile")], stdout=subprocess.PIPE, text=True,
                              stderr=subprocess.STDOUT, check=False)
        views.need(told.returncode == 0 and f"{cost:,}" in told.stdout, f"{ANNOTATE} says {told.stdout[-400:]}")


def by_line(rows):
    """The cycles before and after by line, as `views/report` names lines."""
    found = {}
    for row in rows:
        place = row["place"]
        name = f"{os.path.basename(place['file'])}:{place['line']} {place['function']}" if place else "unknown"
        sums_of_line = found.setdefault(name, [0, 0])
        sums_of_line[0] += row["before"]
        sums_of_line[1] += row["after"]
    return found


def compare_apart(views):
    """Each line saves what the cut of its operations does, and a card names the lines of its cut's operations."""
    report = views.read("apart/report.txt").decode()
    saved = [int(gain) * int(entries)
             for gain, entries in re.findall(r"^cut .* gain (\d+) entries (\d+) ", report, re.M)]
    rows = json.loads(views.works("callgrind", "apart", "--json"))
    for lines, due in zip((OF_FIRST, OF_SECOND), saved, strict=True):
        found = sum(row["saved"] for row in rows if row["place"] and row["place"]["line"] in lines)
        views.same(f"what lines {lines} save", found, due)
    page = json.loads(views.works("report", "apart", "--json"))
    views.same("the lines of cuts", {cut["round"]: cut["lines"] for card in page["cards"] for cut in card["cuts"]},
               {0: "apart.c:6-8", 1: "apart.c:7"})


def look(views):
    """Looks at the profiles of three programs."""
    views.choose("sample", os.path.join(SAMPLES, "sha256.elf"))
    for name, source in (("mixed", SOURCE), ("apart", APART)):
        views.write(f"{name}.c", source)
        subprocess.run([compiled.GCC, *compiled.TARGET[:3], "-g", "-O2", "-nostdlib", "-I", SAMPLES, f"{name}.c",
                        "-lgcc", "-o", f"{name}.elf"], cwd=views.folder, check=True)
        views.choose(name, views.path(f"{name}.elf"), "--out", "1")
    compare_apart(views)
    for name in ("sample", "mixed", "apart"):
        before = views.hashes(*(os.path.join(name, file) for file in viewing.FILES))
        compare(views, name)
        views.need(views.hashes(*before) == before, "an input was changed")
    rows = json.loads(views.works("callgrind", "mixed", "--json"))
    views.need(any(row["function"] == "run" and row["place"] and row["place"]["function"] == "mix" for row in rows),
               "no inlined line")
    status, _, said = views.look("callgrind", "missing")
    views.need(status == 1 and said.count("\n") == 1, f"a missing folder: {status} {said}")
    views.wrong("callgrind", (), ("a", "b"), ("sample", "--file", "sample/old.elf"))


viewing.check(__doc__, look, "views/callgrind", {compiled.GCC: "gcc-riscv64-unknown-elf", "dot": "graphviz",
                                                  "riscv64-unknown-elf-addr2line": "binutils-riscv64-unknown-elf"},
              ("jinja2",))
