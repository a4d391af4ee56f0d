"""Compares what `views/block` shows with what the program says of the same blocks.

The hottest blocks of samples and of programs that GCC compiled are shown, by the usual limits on inputs and outputs and
by the greatest ones: the marked instructions have to be the members of the cut that `best` prints, the sum of the gain
has to be right, no line may have more than 80 columns, and the graph has to be one for Graphviz, with the members in
its cluster. One is shown in tmux, in a window of 80 columns. The picture in docs/ has to be the one that the view
makes. Wrong calls end with the usage and status 2, and what standard output doesn't take with one line and status 1.
"""
import functools
import json
import os
import re
import signal
import subprocess
import time
import xml.etree.ElementTree

from checks.common import TOP, text_of
from checks.views import viewing

COLUMNS, BLOCKS = 80, 2
# Where the sample starts, by its symbol `_start`.
START = 0x10414
SHOWN = "samples/sha256.elf", "0x102b0", "--svg", "--near"
GRAPHVIZ = "2.43.0"
SUM = re.compile(r"^gain +(\d+) = (\d+) software - (\d+) hardware \([\d.]+\) - (\d+) read - (\d+) pad$", re.M)


def compare_block(views, path, leader, *options):
    """Compares what is shown of a block, with these limits."""
    told = views.told("best", path, "--at", leader, *options).split()
    members = told[1:-2] if told[0] == "cut" else []
    shown = views.works("block", path, leader, *options)
    views.need(re.findall(r"^\* +(\d+) ", shown, re.M) == members, f"{path} {leader}: {shown} and not {told}")
    views.need(all(len(line) <= COLUMNS for line in shown.splitlines()), f"{path} {leader}: {shown} is too wide")
    if members:
        found = SUM.search(shown)
        if views.need(found, f"{path} {leader}: no sum in {shown}"):
            gain, software, hardware, read, pad = map(int, found.groups())
            views.need(gain == software - hardware - read - pad == int(told[-1]), f"{path} {leader}: {found[0]}")
    for more in ((), ("--near",)):
        dot = views.works("block", path, leader, "--dot", *more, *options)
        cluster = re.search(r"subgraph cluster_cut \{(.*?)\n  \}", dot, re.S)
        views.need(re.findall(r"^ +n(\d+) ", cluster[1], re.M) == members, f"{path} {leader}: {dot}")
        subprocess.run(["dot", "-Tcanon"], input=dot, text=True, stdout=subprocess.DEVNULL, check=True)
    xml.etree.ElementTree.fromstring(views.works("block", path, leader, "--svg", *options))


def compare_terminal(views):
    """A window of 80 columns of tmux shows each line as it is printed."""
    lines = views.works("block", os.path.join(TOP, SHOWN[0]), SHOWN[1]).splitlines()
    name = f"views-{os.getpid()}"
    tmux = ["tmux", "-L", name]
    command = f"RUMTSAFI={views.program} {TOP}/views/block {TOP}/{SHOWN[0]} {SHOWN[1]}; sleep 60"
    subprocess.run([*tmux, "-f", os.devnull, "new-session", "-d", "-x", str(COLUMNS), "-y", "70", command], check=True)
    try:
        for _ in range(100):
            seen = subprocess.run([*tmux, "capture-pane", "-p"], stdout=subprocess.PIPE, text=True, check=True).stdout
            if seen.rstrip().splitlines()[-1:] == lines[-1:]:
                break
            time.sleep(0.1)
    finally:
        subprocess.run([*tmux, "kill-server"], check=True)
    views.need([line.rstrip() for line in seen.rstrip().splitlines()] == lines, f"tmux shows {seen}")


def compare_output(views, *words):
    """Standard output that takes nothing ends the view by one line, and without a word where nobody reads on."""
    reading, writing = os.pipe()
    os.close(reading)
    for output, status, said in ((os.open("/dev/full", os.O_WRONLY), 1, "No space left on device"),
                                 (writing, -signal.SIGPIPE, None), (None, 1, "standard output is closed")):
        closing = functools.partial(os.close, 1) if output is None else None
        done = subprocess.run([views.view("block"), *words], cwd=views.folder, env=views.environment, stdout=output,
                              stderr=subprocess.PIPE, preexec_fn=closing, text=True, check=False)
        due = status, f"block: {said}\n" if said else ""
        views.same(f"what is said of {said}", (done.returncode, done.stderr), due)
        if output is not None:
            os.close(output)


def compare_words(views):
    """A picture tells in words of which file it is, whatever the name, and whether there is a cut."""
    views.write("a&b <c>.elf", views.read(os.path.join(TOP, SHOWN[0])))
    for budget, due in (("65536", "with its best cut of 19 operations"), ("1", "skipped budget 1")):
        text = views.works("block", "a&b <c>.elf", *SHOWN[1:], "--budget", budget)
        said = xml.etree.ElementTree.fromstring(text).get("aria-label")
        views.need("of a&b <c>.elf" in said and said.endswith(due), f"a picture says {said}")


def look(views):
    """Looks at blocks of all programs."""
    for name, (path, given) in views.programs().items():
        views.choose(name, path, "--input", given)
        before = views.hashes(path)
        report = views.read(os.path.join(name, "report.txt")).decode()
        blocks = re.findall(r"^block (\w+) length (\d+) entries (\d+)$", report, re.M)
        blocks.sort(key=lambda block: -int(block[1]) * int(block[2]))
        for leader, _, _ in blocks[:BLOCKS]:
            compare_block(views, path, f"0x{leader}")
            compare_block(views, path, f"0x{leader}", *viewing.GREATEST)
        views.need(views.hashes(path) == before, f"{path} was changed")
    compare_terminal(views)
    for more in ((), ("--json",), ("--svg",)):
        compare_output(views, os.path.join(TOP, SHOWN[0]), SHOWN[1], *more)
    compare_words(views)
    version = subprocess.run(["dot", "-V"], stderr=subprocess.PIPE, text=True, check=True).stderr
    is_same = views.works("block", os.path.join(TOP, SHOWN[0]), *SHOWN[1:]) == text_of("docs/sha256_cut.svg")
    views.need(is_same or GRAPHVIZ not in version, f"docs/ has another picture than views/block {' '.join(SHOWN)}")
    sample = os.path.join(TOP, SHOWN[0])
    skipped = views.works("block", sample, SHOWN[1], "--budget", "1")
    views.need("skipped budget 1" in skipped and "*" not in skipped, skipped)
    views.refuses("block", os.path.join(TOP, "README.md"), SHOWN[1])
    views.refuses("block", sample, "0x10")
    views.refuses("block", sample, SHOWN[1], "--table", sample)
    views.write("wrong.toml", "[software]\nadd = 2\nmil = 3\n")
    views.refuses("block", sample, SHOWN[1], "--table", "wrong.toml")
    views.need(" has the key mil; " in views.look("block", sample, SHOWN[1], "--table", "wrong.toml")[2], "no key")
    views.same("a block by its function's name", views.works("block", sample, "_start"),
               views.works("block", sample, f"0x{START:x}"))
    status, _, said = views.look("block", sample, "no_such")
    views.need(status == 1 and said.count("\n") == 1 and "no function no_such" in said, f"no function: {said}")
    told = json.loads(views.works("block", sample, SHOWN[1], "--json"))
    views.need(told["gain"]["total"] == 17 and sum(row["member"] for row in told["instructions"]) == 19, f"{told}")
    views.wrong("block", (), (sample,), (sample, "102b0"), (sample, SHOWN[1], "--in", "6"), (sample, SHOWN[1], "--no"))


viewing.check(__doc__, look, "views/block", {"dot": "graphviz", "tmux": "tmux"})
