"""Compares `rumtsafi run` with --units and without, and with a plain machine in Python.

Each C program of checks/programs is compiled for RV32IM by GCC with -O2 and with -Os, and linked with picolibc; the
executables of samples/ are taken as they are. None has unit words. Each runs on the same input by the plain machine, by
the extended one without modules, and by the one with a module; what is printed has to be the same, byte for byte, and
the status 0. Where the tools are missing, this is skipped, with a line that says so.

Then 400 programs with units are made up, always in the same way: modules of all forms, most of them wide, and bundles
of `cput`, unit word and `cread` of both indices, each of which may be left out. `run` has to print what the plain
machine in Python does, by two tables and for some number of steps, where the run leaves its text alone. In each of them
a word of each of the three kinds, of those that were executed, is then changed, to see by the plain machine that such
errors would show.
"""
import os
import random
from collections import Counter

from checks.common import Check, main
from checks.generators.programs import program_of_units
from checks.generators.units import Maker, spell
from checks.oracles import units
from checks.oracles.choices import text_places
from checks.oracles.cuts import Table
from checks.oracles.emulator import Machine, Program
from checks.tools import compiled
from readers.folds import cput_word, is_cput, is_cread, is_unit
from readers.templates import HEADER, WIDE_HEADER

INPUT = os.path.join(compiled.PROGRAMS, "count.c")
MODULE = HEADER.format(cycles=7, number=0) + "assign y = a + b;\nassign z = c;\nendmodule\n"
# The results of a wide module, each of which tells its operands.
RESULTS = "assign y = d - e;\nassign z = a ^ d;\nassign x = e - b;\nendmodule\n"
# How many programs with units are made up, for how many steps they run, and how many of the wrong words of a kind have
# to show.
MADE, MOST, LEAST = 400, 2500, 50
# Wrong words by their kinds: which words are changed, and to what.
WRONG = (("operands exchanged", is_cput, lambda word: cput_word(word >> 20 & 31, word >> 15 & 31)),
         ("another index", is_cread, lambda word: word ^ 1 << 20),
         ("another unit", is_unit, lambda word: word ^ 1 << 12))


class Machines(Check):
    """Programs, and what was found of their runs."""

    def __init__(self, given, folder):
        super().__init__(given, folder)
        self.source, self.counts, self.ends = random.Random(1), Counter(), Counter()

    def run(self, program, *words):
        """The status of a run, and what it prints."""
        done = self.call("run", program, *words)
        return done.returncode, done.stdout

    def compiled(self):
        """Compares what GCC compiled on three machines."""
        programs, files = compiled.executables(self.folder), {"none": "", "one": MODULE}
        for name, text in files.items():
            self.write(f"{name}.v", text)
        for name, program in programs:
            status, plain = self.run(program, "--input", INPUT)
            self.need(status == 0, f"{name}: status {status}, {plain[-80:]!r}")
            for modules in files:
                status, extended = self.run(program, "--input", INPUT, "--units", f"{modules}.v")
                self.need((status, extended) == (0, plain),
                          f"{name}: {extended[-80:]!r} with --units, modules {modules}, against {plain[-80:]!r}")
        print(f"{len(programs)} executables compared on {1 + len(files)} machines")
        self.least({"executables": len(programs)}, 20)

    def modules(self):
        """A text of one to six modules of all forms, most of them wide, and of a small wide one."""
        source, tokens, count = self.source, [], self.source.choice((0, 1, 2, 6))
        for number in range(count):
            tokens += Maker(source).module(number, source.randrange(8), source.randrange(4) > 0)
        return (spell(source, tokens) + WIDE_HEADER.format(cycles=3, number=count) + RESULTS).encode()

    def made_up(self):
        """Compares the run of a program that is made up, and looks whether wrong words would show."""
        source, text, table = self.source, self.modules(), Table()
        table.read = source.choice((1, 1, 3))
        modules, given = units.read(text), source.randbytes(source.randrange(33))
        data, most = program_of_units(source, len(modules)), source.choice((MOST, MOST, source.randrange(1, 500)))
        machine = Machine(Program(data, table, modules), given)
        machine.run(most)
        if machine.wild:
            self.counts["wild"] += 1
            return
        self.counts.update(runs=1, steps=machine.steps, wide=any(module.wide for module in modules))
        self.ends[(machine.end or "limit").split()[0]] += 1
        for name, part in (("made", data), ("made.v", text), ("table", table.text().encode()), ("input", given)):
            self.write(name, part)
        ours = self.run("made", "--units", "made.v", "--table", "table", "--input", "input", "--steps", str(most))
        self.need(ours == (0, machine.told()), f"number {self.counts['runs']}: {ours} and not {machine.told()[-60:]!r}")
        self.plant(data, machine, given, most)

    def plant(self, data, machine, given, most):
        """Plants wrong words, one of a kind, and counts those by which the plain machine prints something else."""
        program, place = machine.program, text_places(data)
        for kind, is_kind, other in WRONG:
            found = [address for address in program.actions if is_kind(program.words[address])]
            if found:
                address, changed = self.source.choice(found), bytearray(data)
                changed[place(address):place(address) + 4] = other(program.words[address]).to_bytes(4, "little")
                wrong = Machine(Program(bytes(changed), program.table, program.modules), given)
                wrong.run(most)
                self.counts[kind] += wrong.told() != machine.told()


def look(machines):
    missing = compiled.missing()
    if missing:
        print(missing)
    else:
        machines.compiled()
    for _ in range(MADE):
        machines.made_up()
    counts, kinds = machines.counts, [kind for kind, _, _ in WRONG]
    print("ends: " + ", ".join(f"{end} {count}" for end, count in sorted(machines.ends.items())))
    print("wrong words that show: " + ", ".join(f"{kind} {counts[kind]}" for kind in kinds))
    machines.least({f"wrong words that show, {kind}": counts[kind] for kind in kinds}, LEAST)
    return (f"{counts['runs']} programs with units, {counts['wide']} of them with wide ones, compared for "
            f"{counts['steps']} steps; {counts['wild']} others touch their text")


main(__doc__, look, Machines)
