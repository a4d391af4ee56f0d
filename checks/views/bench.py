"""Runs the testbenches that `views/bench` writes, and the lines that it tells.

The units of a sample pass by Icarus, by the line that the view tells and by its own run; Verilator takes the testbench
too, where no row stands in the block that waits, and runs that of a few units. Wide units pass as well, and units that
were changed don't. Yosys tells the area and the longest path of a unit by a small library of cells. A text that is no
units is refused, and wrong calls end with the usage and status 2.
"""
import json
import os
import re
import subprocess

from checks.common import SAMPLES
from checks.views import viewing
from readers.templates import WIDE_HEADER

SAMPLE = os.path.join(SAMPLES, "sha256.elf")
UNIT = 3
# What stands behind the header of a wide unit.
WIDE_REST = "assign y = a ^ d;\nassign z = e - b;\nassign x = c;\nendmodule\n"


def shell(views, line):
    """What a line of the shell prints, and its status."""
    done = subprocess.run(["bash", "-o", "pipefail", "-c", line], cwd=views.folder, stdout=subprocess.PIPE,
                          stderr=subprocess.STDOUT, text=True, timeout=viewing.LIMIT, check=False)
    return done.returncode, done.stdout


def look(views):
    """Looks at the testbenches."""
    views.told("find", SAMPLE, "new", "units.v", "logs", "report")
    text = views.read("units.v").decode()
    wide = text + WIDE_HEADER.format(cycles=1, number=text.count("endmodule")) + WIDE_REST
    for name, part in (("CELLS.lib", viewing.library()), ("changed.v", text.replace(" t3 = p3 | q3;", " t3 = p3 & q3;")),
                       ("none.v", ""), ("fault.v", "module"),
                       ("wide.v", wide), ("third.v", wide.replace("assign x = c;", "assign x = d;"))):
        views.write(name, part)
    before = views.hashes("units.v", "CELLS.lib")
    told = views.works("bench", "units.v", "--unit", str(UNIT)).splitlines()
    lines = {title.split(",")[0].rstrip(":"): line.strip() for title, line in zip(told[1::2], told[2::2])}
    count = re.search(r"of (\d+) units", told[0])[1]
    status, printed = shell(views, lines["Icarus"])
    views.need(status == 0 and re.search(r"^\d+ vectors, 0 wrong$", printed, re.M), f"Icarus prints {printed}")
    views.need(count == str(text.count("endmodule")), told[0])
    status, printed = shell(views, lines["Yosys"])
    delay, area = re.search(r"Delay = +[\d.]+ ps", printed), re.search(rf"ci_{UNIT}'?: [\d.]+", printed)
    views.need(status == 0 and delay and area, f"Yosys prints {printed[-300:]}")
    status, printed = shell(views, "verilator --lint-only " + lines["Verilator"].split("--binary ")[1].split(" && ")[0])
    views.need(status == 0, f"Verilator says {printed[:600]}")
    views.need(views.works("bench", "units.v", "--run", "icarus").endswith(" vectors, 0 wrong\n"), "the view's own run")
    # Such a block of so many rows takes the compiler minutes.
    waits = [part for part in re.split(r"^initial ", views.read("units_bench.v").decode(), flags=re.M) if "#1" in part]
    views.need(waits and not any("] = 256'h" in part for part in waits), "rows stand in the block that waits")
    views.told("find", SAMPLE, "new", "zwölf.v", "logs", "report", "--count", "2")
    views.need(views.works("bench", "zwölf.v", "--run", "verilator").endswith(" vectors, 0 wrong\n"), "Verilator's run")
    told = json.loads(views.works("bench", "zwölf.v", "--run", "icarus", "--json"))
    views.need(told["units"] == 2 and told["printed"][-1].endswith(" vectors, 0 wrong"), f"as JSON {told}")
    views.need(views.works("bench", "wide.v", "--run", "icarus").endswith(" vectors, 0 wrong\n"), "a wide unit")
    views.told("find", SAMPLE, "new", "greatest.v", "logs", "report", *viewing.GREATEST)
    views.need(views.works("bench", "greatest.v", "--run", "icarus").endswith(" vectors, 0 wrong\n"), "wide units")
    status, printed = shell(views, lines["Icarus"].replace("units_bench.v units.v", "wide_bench.v third.v"))
    views.need(status != 0 and re.search(r"^\d+ vectors, [1-9]\d* wrong$", printed, re.M), f"third: {printed[-300:]}")
    views.need(views.works("bench", "none.v", "--run", "icarus") == "0 vectors, 0 wrong\n", "no units")
    status, printed = shell(views, lines["Icarus"].replace(" units.v", " changed.v"))
    views.need(status != 0 and re.search(r"^\d+ vectors, [1-9]\d* wrong$", printed, re.M), f"changed: {printed[-300:]}")
    views.need(views.hashes(*before) == before, "an input was changed")
    views.refuses("bench", "fault.v")
    views.wrong("bench", (), ("units.v", "units.v"), ("units.v", "--run", "other"))


viewing.check(__doc__, look, "views/bench", {"iverilog": "iverilog", "yosys": "yosys", "verilator": "verilator"})
