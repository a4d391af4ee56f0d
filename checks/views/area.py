"""Compares what `views/area` tells with Yosys's own lines, with `rumtsafi gates` and with REPORT.

Two units of a sample are measured in gates, by a small library of cells, and one of them for an FPGA. What was measured
is kept: a second call needs no Yosys, and `views/report` has it. The delays that are written make a latency table that
the program takes, and a faster clock gives greater ones. Wrong calls end with the usage and status 2.
"""
import json
import os
import re
import subprocess
import tomllib

from checks.common import SAMPLES
from checks.views import viewing

SAMPLE, CLOCK = os.path.join(SAMPLES, "sha256.elf"), "1000"


def compare_gates(views):
    """What is told in gates is what Yosys, the program and REPORT tell."""
    found = json.loads(views.works("area", "two/units.v", "two/report.txt", "--json", "--jobs", "2"))["units"]
    printed = views.told("gates", "two/units.v", "nets")
    views.same("the sum of gates", sum(row["gates"] for row in found), int(printed.split()[-1]))
    total = int(re.search(r"^total (\d+)$", views.read("two/report.txt").decode(), re.M)[1])
    views.same("what is saved", sum(row["saved"] for row in found), total)
    done = subprocess.run(["yosys", "-p", "read_verilog two/units.v; synth -flatten -top ci_0; abc -g "
                           "AND,NAND,OR,NOR,XOR,XNOR,MUX,ANDNOT,ORNOT; stat"], cwd=views.folder, text=True,
                          stdout=subprocess.PIPE, check=True).stdout
    views.same("the cells of unit 0", found[0]["cells"], int(re.findall(r"Number of cells: +(\d+)", done)[-1]))
    views.need(all(row["path"] > 1 for row in found), f"no paths in {found}")
    views.environment["PATH"], path = views.write("none", "") + "-of-it", views.environment["PATH"]
    shown = views.works("area", "two/units.v", "two/report.txt")
    views.environment["PATH"] = path
    views.need(re.search(rf"^ +0 +{found[0]['gates']} +{found[0]['cells']} ", shown, re.M), f"what is kept: {shown}")
    return found


def compare_library(views):
    """What is told by a library of cells, and the table that is made by it."""
    views.write("CELLS.lib", viewing.library())
    found = json.loads(views.works("area", "two/units.v", "--library", "CELLS.lib", "--json"))["units"]
    views.need(all(row["area"] >= row["cells"] > 0 and row["path"] > 20 for row in found), f"by the library: {found}")
    printed = views.works("area", "two/units.v", "--library", "CELLS.lib", "--table", "made.toml", "--clock", CLOCK)
    views.need("--table made.toml" in printed, printed)
    with open(views.path("made.toml"), "rb") as file:
        delays = tomllib.load(file)["hardware"]
    views.need(delays["logic"] < delays["shift"] and delays["logic"] < delays["add"] < delays["mulh"], f"{delays}")
    line = views.told("find", SAMPLE, "new", "units", "logs", "report", "--table", "made.toml")
    views.need(line.startswith("cuts "), f"the table isn't taken: {line}")
    slow = "--table", "slow.toml", "--clock", str(2 * int(CLOCK))
    views.same("the units as JSON, with a table", json.loads(
        views.works("area", "two/units.v", "--library", "CELLS.lib", "--json", *slow))["units"], found)
    with open(views.path("slow.toml"), "rb") as file:
        slower = tomllib.load(file)["hardware"]
    views.need(all(abs(delays[name] - 2 * slower[name]) <= 2 for name in delays), f"{delays} and {slower}")


def look(views):
    """Looks at the areas of units."""
    views.choose("two", SAMPLE, "--count", "2")
    before = views.hashes(*(os.path.join("two", name) for name in viewing.FILES))
    found = compare_gates(views)
    compare_library(views)
    views.choose("one", SAMPLE, "--count", "1", "--in", "2", "--out", "1")
    shown = views.works("area", "one/units.v", "--fpga", "ice40")
    views.need(re.search(r"^ +0 +\d+ +\d+ +[1-9]\d* +0$", shown, re.M), f"for an FPGA: {shown}")
    views.works("report", "two")
    views.need(f"{found[0]['cells']} gates by Yosys" in views.read("two/report.html").decode(), "no area on the page")
    views.need(views.hashes(*before) == before, "an input was changed")
    views.write("other.json", "[]")
    status, _, said = views.look("area", "two/units.v", "--kept", "other.json")
    views.need(status == 1 and said.count("\n") == 1 and "name another file" in said, f"another file: {status} {said}")
    views.write("none.v", "module")
    views.refuses("area", "none.v")
    views.wrong("area", (), ("two/units.v", "--fpga", "other"), ("two/units.v", "--table", "a"),
                ("two/units.v", "--kept", "two/units.v"), ("two/units.v", "--jobs", "0"))


viewing.check(__doc__, look, "views/area", {"yosys": "yosys", "dot": "graphviz"}, ("jinja2",))
