"""Compares `rumtsafi find` and `check` with plain readings of what they do, on programs that GCC compiled.

Each C program of checks/programs is compiled for RV32IM with -O2 and with -Os, and linked with picolibc; the
executables of samples/ are taken as they are. `find` chooses cuts of each by the profile of its run on an input, with
the default options, with the greatest limits on inputs and outputs, and with others. The steps of that run are those
that qemu-riscv32 says it made. The summary, UNITS, REPORT, NEW and all of LOGS but the trees have to be those of the
plain reading, the trees have to be accepted by it, and `check` has to accept all, also with the book in version 2 by
`relog`, which has to be that of a plain writer, and gives LOGS again. NEW has to run as the executable
does, on the profiled input and on others, with as many steps where no access ends it, and on the profiled input at a
cost that is less by the gain of the summary. The units have to be the cuts' operations by Icarus Verilog too. And where
one byte of LOGS, UNITS or NEW is changed, `check` has to print what the plain reading says. An executable with words of
the custom opcodes has to be refused.
"""
import os
import random
import re

from checks.common import Check, main, read
from checks.generators.blocks import costly
from checks.oracles import units
from checks.oracles.blocks import Text
from checks.oracles.books import packed_text
from checks.oracles.choices import Choice, Plan, trees_of
from checks.oracles.cuts import Table
from checks.tools import compiled
from checks.tools.profiles import QEMU, profile, trace
from checks.tools.simulation import ICARUS, Texts
from readers import executable
from readers.corners import vectors

# The input of the profiled runs, and others.
PROFILED = os.path.join(compiled.PROGRAMS, "count.c")
OTHERS = os.devnull, os.path.join(compiled.PROGRAMS, "print.c")
END = re.compile(rb"end ((.*) steps ([0-9]+) cost ([0-9]+))\n\Z")
# How many bytes are changed of each file of a choice, and how many choices with a cut there have to be.
CHANGES, LEAST = 2, 40
VECTORS = 12
# Plans, tables, numbers of steps and whether a leader is named: the defaults, and others in turn.
USUAL = Plan(3, 2, 32, 65536), Table(), None, False
SETTINGS = ((Plan(2, 1, 3, 300), Table(), None, False), (Plan(3, 2, 32, 40), costly(), None, False),
            (Plan(1, 2, 32, 5000), Table(), 3000, False), (Plan(3, 1, 5, 2000), Table(), None, True),
            (Plan(3, 2, 1, 700), costly(), None, True), (Plan(2, 2, 8, 1), Table(), None, False),
            (Plan(5, 1, 32, 3000), costly(), None, False), (Plan(4, 3, 32, 1000), Table(), None, False))
# The greatest limits on inputs and outputs.
GREATEST = Plan(5, 3, 32, 3000), Table(), None, False


class Finds(Check):
    """What is found of the calls."""

    def __init__(self, given, folder):
        super().__init__(given, folder)
        self.source, self.choices, self.changes = random.Random(1), 0, 0
        self.texts = Texts(self, "units", vectors(self.source)[-VECTORS:])

    def told(self, *words):
        """What a call prints; with its status where that isn't 0."""
        done = self.call(*words, timeout=120)
        return done.stdout if done.returncode == 0 else b"status %d: %s" % (done.returncode, done.stdout)

    def run(self, path, given, *words):
        """The output of a run, and what its end line says: all, the end, the steps and the cost."""
        printed = self.told("run", path, "--input", given, *words)
        found = END.search(printed)
        if not found:
            return printed, ("", "", 0, 0)
        line, end, steps, cost = (part.decode() for part in found.groups())
        return printed[:found.start()], (line, end, int(steps), int(cost))

    def same(self, what, ours, due):
        at = next((at for at, pair in enumerate(zip(ours, due)) if pair[0] != pair[1]), min(len(ours), len(due)))
        self.need(ours == due, f"{what} has {ours[at:at + 80]!r} at {at} and not {due[at:at + 80]!r}")


def options(finds, settings, entry):
    """The words of the settings that `run` has too, and the others."""
    plan, table, steps, is_named = settings
    shared = [] if table.is_usual() else ["--table", finds.write("table", table.text())]
    shared += [] if steps is None else ["--steps", str(steps)]
    own = [] if plan == USUAL[0] else ["--in", str(plan.inputs), "--out", str(plan.outputs), "--count",
                                       str(plan.count), "--budget", str(plan.budget)]
    return shared, own + (["--leader", f"0x{entry + 8:x}"] if is_named else [])


def compare(finds, name, path, steps, settings):
    """Compares a choice with these settings for an executable, which made these steps on the profiled input."""
    data = read(path)
    entry = executable.Image(data).entry
    shared, own = options(finds, settings, entry)
    ends = finds.run(path, PROFILED, *shared)[1]
    name = " ".join([name, *shared, *own])
    if ends[1] != "limit" and ends[2] != len(steps):
        finds.faults.append(f"{name}: {ends[2]} steps, and {len(steps)} of {QEMU}")
        return
    choice = Choice(data, profile(data, steps, ends[0]), *settings[:2], {entry + 8} if settings[3] else ())
    files, words = [path, "new", "units.v", "logs"], [*shared, *own, "--input", PROFILED]
    summary = finds.told("find", *files, "report", *words)
    text = Text(executable.Image(data), ())
    if text.custom() is not None:
        refused = b"status 7: fault 7 unsupported %08x %08x\n" % (text.custom(), text.words[text.custom()])
        finds.same(f"{name}: the refusal", summary, refused)
        return
    if summary.startswith(b"status"):
        finds.faults.append(f"{name}: {summary!r}")
        return
    compare_files(finds, name, choice, summary)
    finds.same(f"{name}: check", finds.told("check", *files, *words), b"accepted\n")
    compare_versions(finds, name, ["check", *files[:3], "packed", *words])
    compare_runs(finds, name, path, settings, choice.saved)
    compare_changes(finds, name, choice, ["check", *files, *words])
    finds.texts.add(choice.units_text(), choice.units)
    finds.choices += choice.takes > 0


def compare_files(finds, name, choice, summary):
    """Compares what `find` prints and writes with the plain reading."""
    logs = finds.read("logs").decode()
    for what, ours, due in (("the summary", summary.decode(), choice.summary()),
                            ("UNITS", finds.read("units.v").decode(), choice.units_text()),
                            ("REPORT", finds.read("report").decode(), choice.report()),
                            ("NEW", finds.read("new"), choice.new_file()),
                            ("LOGS", logs, choice.logs(trees_of(logs))),
                            ("the plain verdict", choice.verdict(logs), "accepted\n")):
        finds.same(f"{name}: {what}", ours, due)


def compare_versions(finds, name, check):
    """Compares the log book in version 2, which `check` has to accept too, and what version 1 it has."""
    logs = finds.read("logs")
    for version, words, due in (2, ("logs", "packed"), packed_text(logs.decode())), (1, ("packed", "again"), logs):
        line = b"relog version %d bytes %d\n" % (version, len(due))
        finds.same(f"{name}: relog {version}", finds.told("relog", *words, "--log", f"{version}"), line)
        finds.same(f"{name}: version {version}", finds.read(words[1]), due)
    finds.same(f"{name}: check in version 2", finds.told(*check), b"accepted\n")


def compare_runs(finds, name, path, settings, saved):
    """Compares the runs of the executable and of the new one, whose profiled run saves so much."""
    words = [] if settings[1].is_usual() else ["--table", finds.path("table")]
    reads = finds.run(path, PROFILED, *words) != finds.run(path, OTHERS[0], *words)
    for given in (PROFILED, *OTHERS) if reads else (PROFILED,):
        old, new = finds.run(path, given, *words), finds.run("new", given, "--units", "units.v", *words)
        finds.same(f"{name}: the output on {os.path.basename(given)}", new[0], old[0])
        finds.same(f"{name}: the end on {os.path.basename(given)}", new[1][1], old[1][1])
        if old[1][1].split()[0] == "access":
            continue
        less = old[1][3] - new[1][3]
        if new[1][2] != old[1][2] or given == PROFILED and settings[2] is None and less != saved or less < 0:
            finds.faults.append(f"{name}: {new[1]} on {given} after {old[1]}, with a gain of {saved}")


def compare_changes(finds, name, choice, words):
    """Changes a byte, and compares what `check` prints."""
    for file in ("logs", "units.v", "new") * CHANGES:
        right = finds.read(file)
        if not right:
            continue
        at = finds.source.randrange(len(right))
        byte = finds.source.choice([byte for byte in (right[at] ^ 1, *(finds.source.choice(right) for _ in "ab"))
                                    if byte != right[at]])
        wrong = right[:at] + bytes([byte]) + right[at + 1:]
        finds.write(file, wrong)
        printed = finds.told(*words).split(b": ", 1)[-1].decode()
        finds.write(file, right)
        finds.changes += 1
        due = due_line(choice, file, wrong)
        if printed != due and not (due == "fault 10 log " and is_log_fault(printed, at)):
            finds.faults.append(f"{name}: byte {at} of {file} is {byte}, and check prints {printed!r}, not {due!r}")


def is_log_fault(line, at):
    """Whether a line tells a fault of a log book that is well formed up to this byte."""
    found = re.fullmatch("fault 10 log ([1-4]) ([0-9]+)\n", line)
    return found and (int(found[2]) == 0 if found[1] in "13" else int(found[2]) >= at)


def due_line(choice, file, wrong):
    """What `check` has to print where one file has these bytes, and the others are right."""
    if file == "logs":
        return choice.verdict(wrong.decode("latin-1"))
    if file == "new":
        return f"fault 11 rejected {choice.takes} 00000000 0 12\n"
    try:
        modules = units.read(wrong)
    except units.Fault as fault:
        return f"fault 9 units {fault.kind} {fault.offset}\n"
    if modules == units.read(choice.units_text().encode()):
        return "accepted\n"
    return f"fault 11 rejected {choice.takes} 00000000 0 11\n"


def look(finds):
    programs = compiled.executables(finds.folder)
    for number, (name, path) in enumerate(programs):
        steps = trace(path, PROFILED)
        for settings in (USUAL, GREATEST, SETTINGS[number % len(SETTINGS)]):
            compare(finds, name, path, steps, settings)
    finds.texts.write()
    finds.texts.simulate()
    finds.least({"choices with a cut": finds.choices}, LEAST)
    return (f"{3 * len(programs)} choices for {len(programs)} executables compared, {finds.choices} with cuts, "
            f"{len(finds.texts.wanted)} units, and {finds.changes} changed bytes")


main(__doc__, look, Finds, compiled.missing({QEMU: "qemu-user", ICARUS: ICARUS}))
