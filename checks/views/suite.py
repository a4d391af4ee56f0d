"""Compares the rows of `views/suite` with what `find` and `run` print.

Samples, programs that GCC compiled, one without a cut and two files that are refused make a suite, first some of them,
then all: the first rows have to stay as they are, and each row has to be right, as has that of a run that ends by its
steps. A refused file has its fault in words. A suite that is stopped by a signal goes on where it was. Wrong calls end
with the usage and status 2.
"""
import csv
import json
import os
import pathlib
import re
import signal
import subprocess
import time

from checks.common import TOP
from checks.views import viewing

# The steps of a run that is cut short.
SHORT = "1000"


def read_rows(views, name="suite.csv"):
    """The rows of a suite, by their files."""
    if not os.path.exists(views.path(name)):
        return {}
    with open(views.path(name), encoding="utf-8", newline="") as file:
        rows = list(csv.DictReader(file))
    views.need(len({row["file"] for row in rows}) == len(rows), f"a row stands twice in {name}")
    return {row["file"]: row for row in rows}


def compare_row(views, row, *options):
    """Compares a row with what the program prints by these options."""
    path = row["file"]
    line = views.told("find", path, "new", "units", "logs", "report", *options)
    if line.startswith("fault "):
        is_told = row["fault"].endswith(f" ({line.strip()})") and not row["fault"].startswith("refused")
        views.need(is_told and row["end"] == row["steps"] == "", f"{row} and {line}")
        return
    old, new = (views.told("run", *words, *options).splitlines()[-1].split()
                for words in ((path,), ("new", "--units", "units")))
    due = dict(zip(("cuts", "units", "skipped", "saved"), re.findall(r"\d+", line)), end=" ".join(old[1:-4]),
               steps=old[-3], before=old[-1], after=new[-1],
               share=f"{100 * int(line.split()[-1]) / int(old[-1]):.2f}", fault="")
    views.need({name: row[name] for name in due} == due, f"{row}, and {due} is due")


def compare_short(views, path):
    """A run that is cut short shows in the row, and in the table."""
    shown = views.works("suite", path, "--steps", SHORT, "--rows", "short.csv")
    row = read_rows(views, "short.csv")[path]
    compare_row(views, row, "--steps", SHORT)
    views.need(row["end"] == "limit" and " limit " in shown, f"a run of {SHORT} steps: {row} {shown}")


def compare_list(views, programs):
    """A list gives each program its own input, the same program several ones, and a wrong list is refused."""
    paths = [path for path, _ in list(programs.values())[:2]]
    inputs = [views.write("first.in", b"a few bytes"), views.write("second.in", bytes(range(200)))]
    pairs = [(paths[0], inputs[0]), (paths[0], inputs[1]), (paths[1], None)]
    views.write("list.toml", "".join(f'[[program]]\nfile = "{path}"\n' + (f'input = "{name}"\n' if name else "")
                                     for path, name in pairs))
    for count in range(2):
        views.works("suite", "--list", "list.toml", "--rows", "list.csv")
        with open(views.path("list.csv"), encoding="utf-8", newline="") as file:
            rows = list(csv.DictReader(file))
        views.need(len(rows) == len(pairs), f"{len(rows)} rows of a list after call {count}")
    for path, name in pairs:
        end = views.told("run", path, *(["--input", name] if name else [])).splitlines()[-1].split()
        views.need(any((row["file"], row["steps"], row["before"]) == (path, end[-3], end[-1]) for row in rows),
                   f"no row of {path} with {name}: {rows}")
    told = json.loads(views.works("suite", "--list", "list.toml", "--rows", "list.csv", "--json"))
    views.same("the rows as JSON", sorted(map(str, told)), sorted(map(str, rows)))
    for text in ("[[program", '[[program]]\ninput = "a"\n', '[program]\nfile = "a"\n', "[[program]]\nfile = 3\n"):
        views.write("wrong.toml", text)
        status, _, said = views.look("suite", "--list", "wrong.toml", "--rows", "wrong.csv")
        views.need(status == 1 and said.count("\n") == 1, f"{text}: {status} {said}")


def compare_stop(views, files, given):
    """Stops a suite once it has a row, and lets it go on."""
    words, view = [*files, "--input", given, "--rows", "stopped.csv", "--jobs", "1"], views.view("suite")
    rows = views.path("stopped.csv")
    with subprocess.Popen([view, *words], cwd=views.folder, env=views.environment, stdout=subprocess.DEVNULL,
                          stderr=subprocess.DEVNULL) as suite:
        for _ in range(500):
            # A line may be half written meanwhile.
            if os.path.exists(rows) and pathlib.Path(rows).read_bytes().count(b"\n") > 2:
                break
            time.sleep(0.02)
        suite.send_signal(signal.SIGINT)
        views.need(suite.wait() == -signal.SIGINT, f"an interrupt ended a suite by {suite.returncode}")
    rows = read_rows(views, "stopped.csv")
    views.need(2 <= len(rows) < len(files), f"{len(rows)} rows after a stop")
    views.works("suite", *words)
    after = read_rows(views, "stopped.csv")
    views.need(len(after) == len(files) and {**after, **rows} == after, "rows changed after a stop")


def compare_lost(views, file):
    """Where GNU parallel finds no folder for what it keeps, no row is made, and no call is counted as failed."""
    kept, views.environment = views.environment, {**views.environment, "TMPDIR": views.path("no_folder")}
    status, shown, said = views.look("suite", file, "--rows", "lost.csv")
    views.need(status == 1 and shown.endswith("lost.csv has these rows\n") and "1 of 1 rows could not" in said,
               f"a lost row: {status} {shown} {said}")
    status, shown, said = views.look("tune", file)
    views.need(status == 1 and not shown and said.endswith("tune: GNU parallel failed\n"), f"no folder: {shown} {said}")
    views.environment = kept


def look(views):
    """Looks at the rows of all programs."""
    programs = views.programs()
    given = viewing.INPUT
    files = [path for path, _ in programs.values()]
    refused = [os.path.join(TOP, "README.md"), views.path("missing.elf")]
    before = views.hashes(*files)
    views.works("suite", *files[:2], "--input", given)
    first = read_rows(views)
    shown = views.works("suite", *files, refused[0], "--input", given, "--sshlogin", "2/:")
    rows = read_rows(views)
    views.need(list(rows)[:2] == list(first) and {**rows, **first} == rows, "the first rows changed")
    views.need(rows.keys() == {*files, refused[0]}, f"the rows are of {rows.keys()}")
    for row in rows.values():
        compare_row(views, row, "--input", given)
    views.need(" exit " in shown, f"no end in {shown}")
    compare_short(views, files[0])
    views.need(all(os.path.basename(path) in shown for path in rows) and "refused: " in shown, f"shown is {shown}")
    views.need(views.hashes(*before) == before, "an input was changed")
    compare_list(views, programs)
    compare_stop(views, files, given)
    compare_lost(views, files[0])
    for view, *words in (("suite", "\udcff.elf"), ("block", "\udcff.elf", "0x0")):
        views.same("a word that isn't UTF-8", views.look(view, *words), (1, "", f"{view}: a word isn't UTF-8\n"))
    status, _, said = views.look("suite", refused[1])
    views.need(status == 1 and said.count("\n") == 1, f"a missing file: {status} {said}")
    twice = files[0], os.path.join(os.path.dirname(files[0]), ".", os.path.basename(files[0]))
    views.works("suite", *twice, "--rows", "twice.csv")
    views.same("a file by two names", list(read_rows(views, "twice.csv")), list(twice))
    views.wrong("suite", (), (files[0], "--out", "4"), (files[0], "--rows", files[0]), (files[0], "--jobs", "few"))


viewing.check(__doc__, look, "views/suite", {"parallel": "parallel"})
