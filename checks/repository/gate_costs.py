"""Makes the table of what the gate costs, by crate, while it runs.

COMMAND is `.ci/run`, at the top of the repository, if left out; its output is passed on, and its status is that of
this script. Meanwhile the processes that it starts are looked at twice a second: those of the prover name their crate,
those of tests say so, and those of must-fail edits and of wrong bodies work in a folder of their own. The seconds of one
processor that each took are summed by crate. How many edits and bodies there were, and how many of them the prover
refused for a name that they took away and for no goal, is read from the output. A crate that an earlier run proved is
not measured, and is left out.
Once a minute a loop of two million additions is timed, since the processors of some machines are others' too, and a
second of one is not the same work all the time.

The table is printed behind the output, also where an interrupt ends the run; with --write that of a whole run takes
the place of the one in docs/PROOFS.md, which stands between the lines `<!-- gate -->` and `<!-- /gate -->`. What other
work of the machine runs beside makes all of it dearer.
"""
import argparse
import collections
import itertools
import os
import re
import signal
import statistics
import subprocess
import sys
import threading
import time

from checks.common import TOP, crates, text_of, words

DOCUMENT = os.path.join(TOP, "docs", "PROOFS.md")
PLACE = re.compile(r"(?<=<!-- gate -->\n).*?(?=<!-- /gate -->)", re.S)
EDIT = re.compile(r"(?:must-fail|wrong body) (\w+)/\S+: refused(?:, as it must be( \(only because a proof file names)?)?")
KINDS = ("proof", "tests", "edits")
PAUSE = 0.5
# How many looks are between two loops, and how many additions one makes.
LOOKS, ADDITIONS = 120, 2_000_000
TICKS = os.sysconf("SC_CLK_TCK")

Process = collections.namedtuple("Process", "parent started seconds words folder")


def process(number):
    """What the system tells of a process, or None where it has ended."""
    try:
        with open(f"/proc/{number}/stat", encoding="utf-8", errors="replace") as file:
            fields = file.read().rpartition(")")[2].split()
        with open(f"/proc/{number}/cmdline", encoding="utf-8", errors="replace") as file:
            words = file.read().split("\0")
        folder = os.readlink(f"/proc/{number}/cwd")
    except OSError:
        return None
    return Process(int(fields[1]), fields[19], (int(fields[11]) + int(fields[12])) / TICKS, words, folder)


def purpose(found):
    """The crate that a process of the prover works on, and whether for its proof, its tests or an edit."""
    if "--crate-name" not in found.words:
        return None
    crate = found.words[found.words.index("--crate-name") + 1]
    if "/rt-edit-" in found.folder:
        return crate, "edits"
    return crate, "tests" if "--test" in found.words else "proof"


def loop():
    """The processor seconds of a loop of additions."""
    began, total = time.thread_time(), 0
    for number in range(ADDITIONS):
        total += number
    return time.thread_time() - began


class Sampler(threading.Thread):
    """Looks at a process and all below it, again and again, until it is told to stop."""

    def __init__(self, root):
        super().__init__(daemon=True)
        self.root, self.ended = root, threading.Event()
        self.seen, self.loops = {}, []

    def look(self):
        """Keeps the seconds that each process has taken, and what it works for: what the next one above it does, where
        it is none of the prover's, as a compiler."""
        processes = {int(name): process(name) for name in os.listdir("/proc") if name.isdigit()}
        for number, found in processes.items():
            above, what = number, None
            while above != self.root and processes.get(above):
                what = what or purpose(processes[above])
                above = processes[above].parent
            if found and what and above == self.root:
                self.seen[number, found.started] = what, found.seconds

    def run(self):
        for number in itertools.count():
            if self.ended.wait(PAUSE):
                break
            self.look()
            if number % LOOKS == 0:
                self.loops.append(loop())

    def sums(self):
        """The seconds by crate and purpose."""
        total = collections.Counter()
        for what, seconds in self.seen.values():
            total[what] += seconds
        return total


def table(sums, edits, minutes, loops):
    """The table, with a line on the run that it is of, on the processor time of all that it ran, and on the loops."""
    names = [name for name in crates() if sums[name, "proof"]]
    spent = os.times()
    text = (f"Seconds of one processor by crate, in a run of {minutes:.0f} minutes on {len(os.sched_getaffinity(0))} "
            f"processors, with {(spent.children_user + spent.children_system) / 60:.0f} minutes of processor time.\n"
            f"A loop of {ADDITIONS:,} additions took {statistics.mean(loops):.2f} seconds in the mean meanwhile, and "
            f"{min(loops):.2f} to {max(loops):.2f}.\n\n"
            "| Crate | proof | tests | wrong bodies | number of these | refused for a name alone |\n"
            "|---|---|---|---|---|---|\n")
    for name in names:
        seconds = " | ".join(f"{sums[name, kind]:.0f}" if sums[name, kind] else "none" for kind in KINDS)
        text += f"| `{name}` | {seconds} | {edits[name, False] + edits[name, True]} | {edits[name, True]} |\n"
    whole = " | ".join(f"{sum(sums[name, kind] for name in names):.0f}" for kind in KINDS)
    alone = sum(edits[name, True] for name in names)
    return text + f"| all | {whole} | {sum(edits[name, False] for name in names) + alone} | {alone} |\n"


def main():
    parser = words(__doc__)
    parser.add_argument("--write", action="store_true", help="puts the table into docs/PROOFS.md")
    parser.add_argument("command", metavar="COMMAND", nargs=argparse.REMAINDER, help=".ci/run, if left out")
    given = parser.parse_args()
    write, command = given.write, given.command or [".ci/run"]
    began, edits = time.monotonic(), collections.Counter()
    with subprocess.Popen(command, cwd=TOP, stdout=subprocess.PIPE, text=True, errors="replace") as gate:
        sampler = Sampler(gate.pid)
        sampler.start()
        try:
            for line in gate.stdout:
                print(line, end="", flush=True)
                found = EDIT.search(line)
                if found:
                    edits[found.group(1), bool(found.group(2))] += 1
        except KeyboardInterrupt:
            gate.send_signal(signal.SIGINT)
    sampler.ended.set()
    sampler.join()
    made = table(sampler.sums(), edits, (time.monotonic() - began) / 60, sampler.loops or [loop()])
    print(made, end="")
    if write and not gate.returncode:
        text = text_of("docs/PROOFS.md")
        with open(DOCUMENT, "w", encoding="utf-8") as file:
            file.write(PLACE.sub(lambda _: "\n" + made + "\n", text, count=1))
    return gate.returncode


sys.exit(main())
