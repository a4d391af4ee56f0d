"""Compares what `views/sweep` tells with what `find` and `area` print, and its plots with its CSVs.

A sample is swept by the usual latency table and by another one. Some rows of the CSV have to be what `find` prints by
these ports, this number of units and this table; the table on the terminal has to have the same numbers in at most 80
columns, and the plot the points of the CSV, within its fields. Some rows of the CSV of areas have to be what `area`
prints where there is room for their gates, and for one gate less than those of the next row; the last one of each pair
of ports saves what all units do, and the plot has to have the points of these rows. A refused file makes one line, and
wrong calls end with the usage and status 2.
"""
import csv
import json
import os
import re
import subprocess
import xml.etree.ElementTree

from checks.common import SAMPLES, TOP
from checks.views import viewing

# By this table most choices save more than as usual.
TABLE = "[software]\nshift_const = 2\n[hardware]\nadd = 900\nlogic = 300\n"
COLUMNS, TAKEN = 80, 7
# Of so many rows of areas one is compared with the program, and the greatest limit.
AREAS_TAKEN, MOST = 97, 2 ** 32 - 1
SAMPLE = os.path.join(SAMPLES, "sha256.elf")
SVG = "{http://www.w3.org/2000/svg}"
NEAR = 0.02
# Runs the view where a library isn't there.
HIDDEN = """import importlib.util, runpy, sys
found = importlib.util.find_spec
importlib.util.find_spec = lambda name, *more: None if name == "matplotlib" else found(name, *more)
sys.path.insert(0, {folder!r})
runpy.run_path({view!r}, run_name="__main__")
"""


def read_rows(views, name="sweep.csv"):
    """The rows of a CSV."""
    with open(views.path(name), encoding="utf-8", newline="") as file:
        return list(csv.DictReader(file))


def compare_rows(views, rows):
    """Compares rows with `find`."""
    views.need(len(rows) == 150, f"{len(rows)} rows")
    for row in rows[::TAKEN]:
        due = views.told("find", SAMPLE, "new", "units", "logs", "report", *options_of(row), "--count", row["count"])
        found = f"cuts {row['cuts']} units {row['units']} skipped {row['skipped']} gain {row['saved']}\n"
        views.need(found == due, f"{row}, and find prints {due}")


def options_of(row):
    """The ports and the table of a row, as options."""
    table = ["--table", row["table"]] if row["table"] != "usual" else []
    return ["--in", row["inputs"], "--out", row["outputs"], *table]


def compare_areas(views, rows, whole):
    """Compares rows of areas with `area`, and the last one of each pair of ports with what all units save."""
    lines = {}
    for row in rows:
        lines.setdefault((row["table"], row["inputs"], row["outputs"]), []).append(row)
    due = {(row["table"], row["inputs"], row["outputs"]): row["saved"] for row in whole if row["count"] == "32"}
    found = {key: line[-1]["saved"] for key, line in lines.items()}
    views.need(found == due, f"all units save {found}, and {due} is due")
    limits = [(row, limit) for line in lines.values() for row, after in zip(line, [*line[1:], None])
              for limit in (int(row["gates"]), int(after["gates"]) - 1 if after else MOST)]
    for row, limit in limits[::AREAS_TAKEN]:
        told = views.told("area", SAMPLE, "--limit", str(limit), *options_of(row))
        line = f"area {row['gates']} gain {row['saved']} units {row['units']}".rstrip() + "\n"
        views.need(told == line, f"{row} with limit {limit}, and area prints {told}")


def points(path):
    """The points of a line of the plot."""
    return [tuple(map(float, pair)) for pair in re.findall(r"[ML] (\S+) (\S+)", path)]


def corners(path):
    """The left ends of a staircase, of which the points go to and fro."""
    return points(path)[::2]


def compare_plot(views, rows, name, points_of):
    """Compares the points of the plot with the rows, by each table; a line that leaves its field lacks some of them."""
    tree, lines = xml.etree.ElementTree.parse(views.path(name)), {}
    for part in tree.iter(f"{SVG}g"):
        if part.get("id", "").startswith("ports "):
            lines[part.get("id")[6:]] = points_of(part.find(f"{SVG}path").get("d"))
    found = {}
    for row in rows:
        found.setdefault(f"{row['table']} {row['inputs']} {row['outputs']}", []).append(int(row["saved"]))
    counts = [{line: len(part) for line, part in some.items()} for some in (lines, found)]
    if not views.need(counts[0] == counts[1], f"{name} has points by line {counts[0]}, and {counts[1]} is due"):
        return
    for table in {row["table"] for row in rows}:
        pairs = [(saved, point[1]) for line in found if line.startswith(f"{table} ")
                 for saved, point in zip(found[line], lines[line], strict=True)]
        compare_places(views, pairs)


def compare_places(views, pairs):
    """Compares how high numbers are drawn, by the places of two of them."""
    (low, bottom), (high, top) = min(pairs), max(pairs)
    for saved, place in pairs:
        due = bottom + (saved - low) * (top - bottom) / (high - low)
        views.need(abs(place - due) < NEAR, f"{saved} is drawn at {place}, and {due} is due")


def compare_without_plot(views, rows):
    """Without matplotlib the table and the CSV are there, as are they as JSON; calls may run side by side."""
    view = views.view("sweep")
    hidden = views.write("sweep.py", HIDDEN.format(view=view, folder=os.path.dirname(view)))
    done = subprocess.run([viewing.PYTHON, hidden, SAMPLE, "--jobs", "2", "--csv", "plain.csv", "--plot", "none.svg",
                           "--areas", "plain_areas.csv", "--areas-plot", "none.svg", "--json"], cwd=views.folder, env=views.environment, stdout=subprocess.PIPE,
                          stderr=subprocess.PIPE, text=True, check=False)
    told = json.loads(done.stdout or "{}").get("choices", [])
    due = [row for row in rows if row["table"] == "usual"]
    views.need(done.returncode == 0 and "apt-get install python3-matplotlib" in done.stderr, f"no plot: {done.stderr}")
    views.need([row["saved"] for row in told] == [int(row["saved"]) for row in due], f"without a plot: {told[:3]}")
    views.need(not os.path.exists(views.path("none.svg")) and os.path.exists(views.path("plain.csv")), "what is there")


def look(views):
    """Looks at the choices for a sample."""
    with open(views.path("slow.toml"), "w", encoding="ascii") as file:
        file.write(TABLE)
    before = views.hashes(SAMPLE, "slow.toml")
    # The plot has the name as a title, and no formula of it.
    views.write("a$_$.elf", views.read(SAMPLE))
    shown = views.works("sweep", "a$_$.elf", "--table", "slow.toml")
    views.need(">a$_$.elf, by slow.toml<" in views.read("sweep.svg").decode(), "no title of the plot")
    rows = read_rows(views)
    compare_rows(views, rows)
    compare_plot(views, rows, "sweep.svg", points)
    areas = read_rows(views, "areas.csv")
    compare_areas(views, areas, rows)
    compare_plot(views, areas, "areas.svg", corners)
    for count in ("1", "2", "4", "8", "32"):
        due = [[row["saved"] for row in rows if (row["count"], row["table"], row["outputs"]) == (count, table, outputs)]
               for table in ("usual", "slow.toml") for outputs in ("1", "2", "3")]
        found = [line.replace("*", "").split()[1:] for line in shown.splitlines() if line.split()[0] == count]
        views.need(found == due, f"with {count} units {found} is shown, and {due} is due")
    views.need(all(len(line) <= COLUMNS for line in shown.splitlines()), f"too wide: {shown}")
    compare_without_plot(views, rows)
    views.need(views.hashes(*before) == before, "an input was changed")
    views.refuses("sweep", os.path.join(TOP, "README.md"))
    views.wrong("sweep", (), (SAMPLE, "--budget", "0"), (SAMPLE, "--table", "slow.toml", "--csv", "slow.toml"))


viewing.check(__doc__, look, "views/sweep", {}, ("matplotlib",))
