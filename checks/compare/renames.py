"""Compares what `rumtsafi rename` makes of executables with a plain reading of what a renamed one is.

The executables are 5,000 blocks that are made up, fifty in each, always in the same way; programs that are made up; odd
executables with words of the text between data; the samples; and C programs of checks/programs, compiled for RV32IM by
GCC and linked with picolibc. Of each, NEW and the line have to be those of the plain reading, byte for byte, for the
leaders that the profiled run and `--leader` name; where the run touches the text, or a word has a custom opcode, the
line has to be that with which `find` refuses the executable too. NEW has to have the leaders, the blocks and the live
registers of OLD, also by `blocks`. Of each renamed block, the graph has to have the sources and the live values of the
old one, and no arc that the old one doesn't have; and `best` has to gain as much in it at least, where neither search
is given up. Old and new program run beside each other on plain machines in Python: after each step for which the old
run is tame they have to stand at one address, with the same output, memory outside the text, heap end, input left, cost
and end, and with the same live registers at each listed leader. What GCC compiled also runs to its end by `run`, and by
qemu-riscv32 where that is there, with the same output and the same end. Words of renamed blocks are put back in NEW,
one at a time, and many of these have to show in the runs. And each refusal has to have its status and line, and to
leave NEW as it was.

What takes a tool that is missing is skipped, with a line that says so.
"""
import collections
import os
import random
import re
import shutil

from checks.common import Check, called, leave_no_dumps, main, read
from checks.generators.blocks import some_word
from checks.generators.executables import made, of_blocks
from checks.generators.programs import program
from checks.oracles.blocks import Text, live_sets
from checks.oracles.choices import text_places
from checks.oracles.cuts import Graph, Table
from checks.oracles.emulator import Machine, Program
from checks.oracles.renaming import File
from checks.oracles.runs import InStep
from checks.tools import compiled
from checks.tools.profiles import QEMU
from readers import executable

# How many executables of made-up blocks there are, of how many blocks, of up to how many words each; and how many of
# other kinds are made up.
MADE, BLOCKS, WORDS, PROGRAMS, ODD = 100, 50, 24, 60, 60
# Which of the C programs are compiled.
COMPILED = ("cipher", "count", "divide", "hash", "jump_table", "matrix", "memory", "print", "recursion", "sort")
# How many steps a profiled run has at most, and how many are compared of runs of made-up and of compiled programs.
PROFILED, SHORT, MOST, PART = 100, 100, 1500, 6000
# Of how many blocks of each executable `best` is called, and how many words of a program are put back.
BEST, PLANTED = 2, 3
INPUT = os.path.join(compiled.PROGRAMS, "count.c")
# How often each kind of thing has to come, but for these.
LEAST, RARE = 20, ("refused", "compiled", "searches that are given up")
GAIN = re.compile("cut .* gain ([0-9]+)\n")
# Words of environment calls: numbers of calls, and the call.
CALLS = 0x05D00893, 0x04000893, 0x00000073
# lui x5, 0x10; lw x6, 116(x5), which reads the text; and a word of a custom opcode.
TOUCHES, CUSTOM = (0x000102B7, 0x0742A303), (0x00000013, 0x0000050B)
ROW = 0x00B502B3, 0x00062503, 0x00A28533, 0x05D00893, 0x00000073
RENAMED_ROW = 0x00B502B3, 0x00062083, 0x00128533, 0x05D00893, 0x00000073
# Calls that are refused, with the lines.
REFUSALS = (
    ("rename row", "1 usage"), ("rename row new row", "1 usage"), ("rename row new --steps 0", "1 usage"),
    ("rename row new --table row", "1 usage"), ("rename row new --units row", "1 usage"),
    ("rename row new --leader 12", "1 usage"), ("rename missing new", "2 read missing"),
    ("rename row new --input missing", "2 read missing"), ("rename big new", "4 too large big"),
    ("rename row new --input big", "4 too large big"), ("rename text new", "5 elf 2 0 0"),
    ("rename text new --input missing", "5 elf 2 0 0"), ("rename custom new --input missing", "2 read missing"),
    ("rename custom new", "7 unsupported 00010078 0000050b"),
    ("rename touches new", "8 text touched 00010078 00010074"),
    ("rename row no/folder", "3 write no/folder"), ("rename touches no/folder", "8 text touched 00010078 00010074"),
)


def some_block(source, registers):
    """Up to some words and some end, over these registers, over all, or over those of environment calls too."""
    named = source.choice((registers, registers, [*registers, 10, 11, 12, 17], list(range(32))))
    count = 200 if len(named) == 32 and source.random() < 0.1 else source.randrange(1, WORDS + 1)
    block = [some_word(source, named) for _ in range(count)]
    if source.random() < 0.1:
        block += [source.choice(CALLS[:2]), CALLS[2]]
    return block + source.choice(([], [None], [None]))


def run_in_step(file, new, given, most):
    """Both runs, of so many steps at most."""
    both = InStep(Machine(Program(file.data, Table()), given, file.live), Machine(Program(new, Table()), given),
                  {leader: sorted(live) for leader, live in file.live.items()})
    both.run(most)
    return both


class Renames(Check):
    """What is found of the calls."""

    def __init__(self, given, folder):
        super().__init__(given, folder)
        self.source, self.wrong, self.counts = random.Random(1), random.Random(2), collections.Counter()
        self.qemu = QEMU if shutil.which(QEMU) else None

    def told(self, *words):
        """The status of a call, and what it prints."""
        done = self.call(*words)
        return done.returncode, done.stdout.decode(errors="replace")

    def profile(self, name, data, steps, given, named):
        """The words of the call, and the plain reading of the file by the leaders of the profiled run; or None where
        the executable is refused."""
        self.write("old", data)
        self.write("input", given)
        words = ["--steps", str(steps), "--input", "input", *(f"--leader=0x{address:x}" for address in named)]
        run, address = Machine(Program(data, Table()), given), None
        custom = Text(run.program.image, ()).custom()
        while custom is None and not (run.wild or run.end) and run.steps < steps:
            address = run.pc
            run.step()
        if custom is None and not run.wild:
            return words, File(data, {*run.targets, *named})
        line = f"fault 8 text touched {address:08x} " if run.wild else (
            f"fault 7 unsupported {custom:08x} {run.program.words[custom]:08x}\n")
        told = self.told("rename", "old", "refused", *words)
        self.need(told[0] == int(line[6]) and told[1].startswith(line), f"{name}: {told}, and due is {line!r}")
        self.same(f"{name}: the refusal of find", self.told("find", "old", *"abcd", *words), told)
        self.counts["refused"] += 1
        return None

    def compare(self, name, data, steps=PROFILED, given=b"", named=(), most=SHORT):
        """Compares all that there is of one executable. Gives the plain reading of it, or None where it is refused, or
        NEW is another."""
        profiled = self.profile(name, data, steps, given, named)
        if profiled is None:
            return None
        words, file = profiled
        self.same(f"{name}: the line", self.told("rename", "old", "new", *words), (0, file.line()))
        new = self.read("new")
        if not self.need(new == file.new(), f"{name}: NEW differs from the plain reading"):
            return None
        self.count(file)
        self.same_blocks(name, file, new)
        for leader in file.changed():
            self.same_graph(f"{name}: the block {leader:08x}", file, leader)
        for leader in self.source.sample(file.changed(), min(BEST, len(file.changed()))):
            self.best(f"{name}: best at {leader:08x}", leader, file)
        self.in_step(name, file, new, given, most)
        return file

    def count(self, file):
        blocks = file.renamed.values()
        self.counts.update({"executables": 1, "blocks": len(blocks), "renamed blocks": len(file.changed()),
                            "values": sum(block.values for block in blocks),
                            "values for which no register is free": sum(block.crowded for block in blocks),
                            "values that a call reads": sum(block.called for block in blocks)})

    def same_blocks(self, name, file, new):
        """NEW has the leaders, the blocks and the live registers of OLD."""
        text = Text(executable.Image(new), file.text.named)
        blocks = text.blocks()
        self.need(blocks == file.blocks and live_sets(text, blocks) == (file.live, file.after),
                  f"{name}: NEW has other blocks or other live registers")
        leaders = [f"--leader=0x{address:x}" for address in sorted(file.text.named)]
        self.same(f"{name}: blocks of NEW", self.told("blocks", "new", *leaders), self.told("blocks", "old", *leaders))

    def same_graph(self, name, file, leader):
        """The new graph has the sources and live values of the old one, and no arc more."""
        words, after = file.words(leader), file.after[leader]
        renamed = file.renamed[leader].words
        old, new = Graph(words, after, Table()), Graph(renamed, after, Table())
        self.need((old.sources, old.live, old.key, old.order) == (new.sources, new.live, new.key, new.order),
                  f"{name}: the graph has other sources, live values or operations")
        fewer = 0
        for node in range(old.size):
            for later in range(node + 1, old.size):
                before, behind = old.is_arc(words, node, later), new.is_arc(renamed, node, later)
                self.need(before or not behind, f"{name}: the arc from {node} to {later} is new")
                fewer += before and not behind
        self.counts["arcs that go away"] += fewer

    def best(self, name, leader, file):
        """The best gain doesn't fall."""
        named = [f"--leader=0x{address:x}" for address in sorted(file.text.named)]
        lines = [self.told("best", which, "--at", f"0x{leader:x}", *named)[1] for which in ("old", "new")]
        if any(line.startswith("skipped") for line in lines):
            self.counts["searches that are given up"] += 1
            return
        gains = [int(found[1]) if found else 0 for found in map(GAIN.fullmatch, lines)]
        self.need(gains[0] <= gains[1], f"{name}: {lines}")
        self.counts["best cuts"] += 1
        self.counts["best gains that rise"] += gains[0] < gains[1]

    def in_step(self, name, file, new, given, most):
        """Both runs stay in step where the old one is tame."""
        both = run_in_step(file, new, given, most)
        self.counts.update({"runs": 1, "steps": both.n, "leaders on the way": both.fronts})
        if both.fault:
            self.faults.append(f"{name}: after {both.fault[0]} steps {both.fault[1]}")

    def plant(self, file, given):
        """Puts words that were renamed back in NEW, each by itself, and counts how many of these the runs show."""
        place = text_places(file.data)
        changed = [address for leader in file.changed() for address, old, word in
                   zip(file.blocks[leader], file.words(leader), file.renamed[leader].words) if old != word]
        for address in self.wrong.sample(changed, min(PLANTED, len(changed))):
            new, at = bytearray(self.read("new")), place(address)
            new[at:at + 4] = file.data[at:at + 4]
            self.counts["wrong words"] += 1
            self.counts["wrong words that show"] += run_in_step(file, bytes(new), given, MOST).fault is not None

    def compiled(self, name, path):
        """Compares a program that GCC compiled, and whole runs."""
        data, given = read(path), read(INPUT)
        if Text(executable.Image(data), ()).custom() is not None:
            return
        self.compare(name, data, 10 * PART, given, (), PART)
        self.counts["compiled"] += 1
        ours = [self.told("run", which, "--input", "input") for which in ("new", "old")]
        self.same(f"{name}: the run of NEW", *ours)
        if self.qemu:
            os.chmod(self.path("new"), 0o755)
            runs = [called([self.qemu, file], input=given) for file in (self.path("new"), path)]
            self.same(f"{name}: the run of NEW by {self.qemu}", *((run.returncode, run.stdout) for run in runs))

    def refusals(self):
        """Compares the calls that are refused, and what is worked by hand."""
        for name, words in (("row", ROW), ("custom", CUSTOM), ("touches", TOUCHES)):
            self.write(name, executable.frame(words, values=[0]))
        self.write("text", "no executable\n" * 4)
        os.truncate(self.write("big", b""), 16777217)
        self.write("new", "before")
        for call, line in REFUSALS:
            self.same(call, self.told(*call.split()), (int(line.split()[0]), f"fault {line}\n"))
            self.same(f"NEW after {call}", self.read("new"), b"before")
        self.same("the row", self.told("rename", "row", "new"), (0, "renamed 1 blocks 1\n"))
        self.same("NEW of the row", self.read("new"), executable.frame(RENAMED_ROW, values=[0]))
        for which, cuts in (("row", "cuts 0 units 0 skipped 0 gain 0\n"), ("new", "cuts 1 units 1 skipped 0 gain 1\n")):
            self.same(f"find of {which}", self.told("find", which, *"abcd", "--out", "1"), (0, cuts))
            self.same(f"run of {which}", self.told("run", which), (0, "end access 00000000 4 steps 2 cost 3\n"))


def look(renames):
    leave_no_dumps()
    missing, source = compiled.missing(), renames.source
    if missing:
        print(missing)
    if not renames.qemu:
        print(f"runs by {QEMU}: skipped: it isn't there (Debian's qemu-user)")
    renames.refusals()
    for number in range(MADE):
        renames.compare(f"blocks, number {number}", of_blocks(source, BLOCKS, some_block), source.choice((1, PROFILED)),
                        named=[0x10000 + 4 * source.randrange(400) for _ in range(number % 3)])
    for number in range(PROGRAMS):
        data, steps, given = program(source), source.choice((MOST, 40)), source.randbytes(32)
        file = renames.compare(f"program, number {number}", data, steps, given, most=MOST)
        if file:
            renames.plant(file, given)
    for number in range(ODD):
        renames.compare(f"odd, number {number}", made(source))
    for name, path in compiled.samples() if missing else compiled.executables(renames.folder, COMPILED):
        renames.compiled(name, path)
    counts = renames.counts
    renames.least({kind: count for kind, count in counts.items() if kind not in RARE}, LEAST)
    renames.least({kind: counts[kind] for kind in RARE}, 2)
    return ", ".join(f"{count} {kind}" for kind, count in counts.items()) + " compared"


main(__doc__, look, Renames)
