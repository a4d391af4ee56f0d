"""Compares what `views/tune` tells with what `find` prints.

A sample is tried by some ports: what is saved with each number of units has to be the gain that `find` prints by these
options, and the call that is told has to save what is said of it; no choice with fewer outputs, inputs or units is as
near to the most. Unrolled rounds, whose search is given up by the usual budget, take a greater one. The tables of
samples/tables/ have to be taken, with a `pad` of 1; by one of them nothing is saved, and no call is told. A refused
file makes one line, and wrong calls end with the usage and status 2.
"""
import glob
import json
import os
import re
import shlex
import subprocess
import tomllib

from checks.common import SAMPLES, TOP
from checks.tools import compiled
from checks.views import viewing

SAMPLE, COLUMNS, NEAR = os.path.join(SAMPLES, "sha256.elf"), 80, 5
LIMITS = "--in", "2", "--out", "2"
# A block whose search needs more than the usual budget.
DEEP = """#include "start.h"
static unsigned state[4];
void run(void)
{
    unsigned a = state[0] + 1, b = state[1] + 2, c = state[2] + 3, d = state[3] + 4;
    for (int at = 0; at < 100; at++) {
#define ROUND(p, q, r, s, n) p += (q ^ r) + (s >> n); q ^= p << n; r += q & s; s ^= r + (p >> (32 - n));
        ROUND(a, b, c, d, 7) ROUND(b, c, d, a, 9) ROUND(c, d, a, b, 13) ROUND(d, a, b, c, 18)
        ROUND(a, c, b, d, 5) ROUND(b, d, a, c, 11) ROUND(c, a, d, b, 3) ROUND(d, b, c, a, 21)
        ROUND(a, d, c, b, 6) ROUND(b, a, d, c, 15) ROUND(c, b, a, d, 25) ROUND(d, c, b, a, 2)
        ROUND(a, b, d, c, 4) ROUND(b, c, a, d, 19) ROUND(c, d, b, a, 8) ROUND(d, a, c, b, 27)
    }
    leave(a ^ b ^ c ^ d);
}
"""


def gain(views, path, *options):
    """The gain that `find` prints."""
    return int(views.told("find", path, "new", "units", "logs", "report", *options).split()[-1])


def compare_choices(views, found):
    """Compares choices with `find`."""
    for one in found["choices"]:
        ports = "--in", str(one["inputs"]), "--out", str(one["outputs"]), "--budget", str(one["budget"])
        for count in (1, 5, 32):
            views.same(f"{ports} with {count} units", one["saved"][count - 1],
                       gain(views, found["file"], *ports, "--count", str(count)))


def compare_taken(views, found, near):
    """The call that is told saves what is said, and no smaller choice is as near to the most."""
    words = shlex.split(found["call"])
    views.same("the start of the call", words[:2], ["./rumtsafi", "find"])
    views.same(found["call"], gain(views, words[2], *words[7:]), found["saved"])
    most = max(saved for one in found["choices"] for saved in one["saved"])
    least = min((one["outputs"], one["inputs"], count) for one in found["choices"]
                for count, saved in enumerate(one["saved"], 1) if saved >= most * (100 - near) / 100)
    views.same("the choice to take", (found["taken"]["outputs"], found["taken"]["inputs"], found["count"]), least)


def compare_tables(views):
    """Each table of a core is taken, and charges no-ops."""
    tables = glob.glob(os.path.join(SAMPLES, "tables", "*.toml"))
    views.need(len(tables) >= 4, f"there are {tables}")
    for table in tables:
        with open(table, "rb") as file:
            views.same(f"pad of {table}", tomllib.load(file)["pad"], 1)
        views.need(views.told("run", SAMPLE, "--table", table).splitlines()[-1].startswith("end exit "), f"{table}")
    printed = views.works("tune", SAMPLE, *LIMITS, "--table", os.path.join(SAMPLES, "tables", "ibex.toml"))
    views.need("nothing to take" in printed and "rumtsafi find" not in printed, f"nothing is saved: {printed}")


def look(views):
    """Looks at the advice for a sample."""
    shown = views.works("tune", SAMPLE, *LIMITS, "--jobs", "2", "--sshlogin", ":")
    found = json.loads(views.works("tune", SAMPLE, *LIMITS, "--near", str(NEAR), "--json"))
    compare_choices(views, found)
    compare_taken(views, found, NEAR)
    views.need(all(len(line) <= COLUMNS for line in shown.splitlines() if "rumtsafi" not in line), f"too wide: {shown}")
    for one in found["choices"]:
        views.need(re.search(rf"^ {one['inputs']}   {one['outputs']} .* {one['saved'][-1]}$", shown, re.M), f"{one}")
    views.write("deep.c", DEEP)
    subprocess.run([compiled.GCC, *compiled.TARGET[:3], "-O2", "-nostdlib", "-I", SAMPLES, "deep.c", "-lgcc",
                    "-o", "deep.elf"], cwd=views.folder, check=True)
    deep = json.loads(views.works("tune", "deep.elf", "--in", "3", "--out", "2", "--near", "0", "--json"))
    usual = [one for one in deep["choices"] if one["budget"] == 65536]
    views.need(any(one["skipped"] for one in usual), "no search is given up")
    views.need(len(deep["choices"]) == 6 + sum(one["skipped"] > 0 for one in usual), f"{len(deep['choices'])} choices")
    views.same(deep["call"], gain(views, views.path("deep.elf"), *shlex.split(deep["call"])[7:]), deep["saved"])
    compare_tables(views)
    views.refuses("tune", os.path.join(TOP, "README.md"))
    views.wrong("tune", (), (SAMPLE, "--in", "6"), (SAMPLE, "--near", "-1"), (SAMPLE, "--near", "x"), (SAMPLE, "--jobs", "x"))


viewing.check(__doc__, look, "views/tune", {"parallel": "parallel", compiled.GCC: "gcc-riscv64-unknown-elf"})
