"""Compares whole runs of executables with those of the new ones that `rumtsafi find` makes of them, step by step.

The executables are the samples, each C program of checks/programs, compiled for RV32IM by GCC with -O2 and with -Os and
linked with picolibc, and 212 that are made up, always in the same way: with loads and stores between the operations,
calls, jumps through a table of addresses, accesses that fail, and ends of all kinds; and one of full blocks. `find`
chooses cuts of each, by several plans, tables and numbers of steps. Old and new program run beside each other on plain
machines in Python, on the profiled input and on others, for some number of steps. Where the old run is tame, the two
have to be alike: after each step in their output; at each listed leader in address, memory outside the text, heap end,
input left, live registers, and in what was saved up to there; and in their ends. `run` has to print the same as these
machines. What GCC compiled also runs to its end by `run`, and has to save what the gains and the entries say, which are
those of the interpreter of benchmarks/.

Then wrong words are planted in new programs that were made up, and wrong units: of each kind many have to be found.

What takes a tool that is missing is skipped, with a line that says so.
"""
import os
import random
import re
import subprocess
from collections import Counter

from checks import common
from checks.common import Check, called, main, read
from checks.generators.blocks import costly
from checks.generators.programs import TEXT, long_text, program
from checks.oracles import units
from checks.oracles.blocks import Text, live_sets
from checks.oracles.choices import Plan, text_places
from checks.oracles.cuts import Table
from checks.oracles.emulator import Machine, Program
from checks.oracles.operations import IMMEDIATE
from checks.oracles.runs import Both
from checks.tools import compiled
from readers import executable
from readers.folds import cput_word, is_cput, is_cread, is_unit, writes
from readers.instructions import STORES, mnemonic
from readers.latencies import NO_OPERATION

# How many programs are made up, how many of them get wrong words, and for how many steps they run at most.
MADE, WRONG, MOST = 212, 90, 2500
# For how many steps what GCC compiled is profiled and compared.
PART = 15000
INPUTS = [os.path.join(compiled.PROGRAMS, name) for name in ("count.c", "print.c")] + [os.devnull]
CUT = re.compile("^cut [0-9]+ block ([0-9a-f]{8}) unit [0-9]+ gain ([0-9]+) ", re.M)
END = re.compile(rb"end (.*) steps ([0-9]+) cost ([0-9]+)\n\Z")
PLANS = (Plan(3, 2, 32, 3000), Plan(3, 2, 32, 3000), Plan(3, 1, 32, 3000), Plan(2, 2, 6, 3000), Plan(1, 2, 32, 3000),
         Plan(3, 2, 32, 40), Plan(5, 3, 32, 3000), Plan(5, 3, 32, 3000), Plan(4, 3, 6, 3000))
# The options by which cuts of what GCC compiled are chosen.
COMPILED = (), ("--in", "5", "--out", "3")
# How many wrong words and units of each kind have to be found.
LEAST = 15


class Rewriting:
    """An executable and the new one, with what `find` says of them."""

    def __init__(self, runs, data, given, words, table, steps, named=()):
        self.data, self.table = data, table
        self.old = Program(data, table)
        profiled = Machine(self.old, given)
        profiled.run(steps)
        text = Text(self.old.image, {*profiled.targets, *named})
        blocks = text.blocks()
        live, after = live_sets(text, blocks)
        self.live = {leader: sorted(registers) for leader, registers in live.items()}
        self.touches, self.reads = profiled.wild, profiled.input != given
        runs.write("old", data)
        runs.write("input", given)
        leaders = [f"--leader=0x{address:x}" for address in named]
        self.summary = runs.told("find", "old", "new", "units.v", "logs", "report", "--input", "input", "--steps",
                                 str(steps), *leaders, *words)
        if not self.summary.startswith(b"cuts "):
            return
        self.new_data, self.modules = runs.read("new"), units.read(runs.read("units.v"))
        self.new = Program(self.new_data, table, self.modules)
        self.gains, cuts = Counter(), Counter()
        for leader, gain in CUT.findall(runs.read("report").decode()):
            self.gains[int(leader, 16)] += int(gain)
            cuts[leader] += 1
        runs.counts.update(cuts=sum(cuts.values()), several=sum(count > 1 for count in cuts.values()))
        self.folded = [address for leader in self.gains for address in blocks[leader]]
        # The last words of folded blocks that write a register which is live behind the block.
        self.makers = {}
        for leader in self.gains:
            last = {register: address for address in blocks[leader] for register in writes(self.new.words[address])}
            self.makers.update((last[register], register) for register in after[leader] & last.keys())

    def both(self, given, new=None):
        return Both(Machine(self.old, given, self.live), Machine(new or self.new, given), self.live, self.gains)


class Runs(Check):
    """What is found of the runs."""

    def __init__(self, given, folder):
        super().__init__(given, folder)
        self.source, self.counts, self.ends = random.Random(1), Counter(), Counter()
        self.planted, self.found = Counter(), Counter()

    def told(self, *words):
        return self.call(*words).stdout

    def has_choice(self, name, rewriting):
        """Whether a choice was made; it has to be refused just where the profiled run touches the text."""
        summary = rewriting.summary
        self.need(summary.startswith(b"fault 8 " if rewriting.touches else b"cuts "), f"{name}: {summary!r}")
        if not summary.startswith(b"cuts "):
            self.counts["refused"] += 1
            return False
        return True

    def compare(self, name, rewriting, given, words, most):
        """Compares two runs of so many steps at most, and what `run` prints of each."""
        both = rewriting.both(given)
        both.run(most)
        end = (both.old.end or "limit").split()[0]
        self.counts.update(runs=1, steps=both.n, fronts=both.fronts, wild=both.old.wild,
                           inside=end == "access" and rewriting.gains[both.leader] > 0)
        self.ends[end] += 1
        if both.fault:
            self.faults.append(f"{name}: after {both.fault[0]} steps {both.fault[1]}")
            return
        if both.old.wild or both.new.wild:
            return
        self.write("input", given)
        for file, machine, more in (("old", both.old, ()), ("new", both.new, ("--units", "units.v"))):
            told = self.told("run", file, "--input", "input", "--steps", str(most), *more, *words)
            self.need(told == machine.told(),
                      f"{name}: the {file} run ends with {told[-60:]!r} and not {machine.told()[-60:]!r}")

    def made_up(self, number):
        """Compares the runs of a program that is made up."""
        source = self.source
        data, table = program(source), costly(logic=3) if number % 5 == 4 else Table()
        plan, steps = PLANS[number % len(PLANS)], source.choice((MOST, MOST, source.randrange(20, 400)))
        shared = [] if table.is_usual() else ["--table", self.write("table", table.text())]
        inputs = [source.randbytes(32), source.randbytes(source.randrange(33)), b""]
        rewriting = Rewriting(self, data, inputs[0], [
            *shared, "--in", str(plan.inputs), "--out", str(plan.outputs), "--count", str(plan.count), "--budget",
            str(plan.budget)], table, steps, source.sample(range(TEXT, TEXT + 600, 4), number % 3 // 2))
        name = f"made up, number {number}"
        if not self.has_choice(name, rewriting):
            return
        self.counts["made"] += 1
        for given in inputs:
            self.compare(name, rewriting, given, shared, source.choice((MOST, MOST, source.randrange(1, 500))))
        if number < WRONG:
            self.plant(rewriting, inputs)

    def full_blocks(self):
        """Compares the runs of a text of full blocks, whose beginnings a target of the profiled run moves: a jump to
        one that the file alone gives isn't tame."""
        data, first = long_text()
        moved, alone = first + 4 * (100 + 256), first + 4 * 256
        given = {number: number.to_bytes(4, "little") for number in (100, 0, 356, 256)}
        rewriting = Rewriting(self, data, given[100], ["--out", "1"], Table(), MOST)
        if not self.has_choice("a long text", rewriting):
            return
        for number, number_read in given.items():
            self.compare(f"a long text, from word {number}", rewriting, number_read, (), MOST)
        both = rewriting.both(given[256])
        both.run(MOST)
        self.need(both.old.wild and moved in rewriting.live and alone not in rewriting.live
                  and alone in Text(rewriting.old.image, ()).blocks(), "a long text: its leaders are others")

    def plant(self, rewriting, inputs):
        """Plants wrong words and units, one at a time, and looks which are found on one of the inputs."""
        for kind, new in wrong_programs(self.source, rewriting):
            self.planted[kind] += 1
            for given in inputs:
                both = rewriting.both(given, new)
                both.run(MOST)
                if both.fault:
                    self.found[kind] += 1
                    break

    def compiled(self, name, path, interpreter, options):
        """Compares the runs of a program that GCC compiled, by a profile of its first steps."""
        data, inputs = read(path), list(map(read, INPUTS))
        if Text(executable.Image(data), ()).custom() is not None:
            return
        rewriting = Rewriting(self, data, inputs[0], options, Table(), PART)
        if not self.has_choice(name, rewriting):
            return
        self.counts["compiled"] += 1
        for given in inputs:
            self.compare(name, rewriting, given, (), PART)
            if not rewriting.reads:
                break
        seen = set()
        for given in INPUTS if interpreter else ():
            told = called([interpreter, "run", path, "--input", given, "--entries"],
                          stderr=subprocess.PIPE).stderr.decode()
            if told not in seen:
                self.account(name, path, rewriting, given, told)
            seen.add(told)

    def account(self, name, path, rewriting, given, told):
        """Compares the ends, the steps and the costs of whole runs with the gains and the entries, which are told."""
        rows = [line.split() for line in told.splitlines()]
        entries = {int(row[0], 16): int(row[1]) for row in rows if row[0] != "touched"}
        if any(row[0] == "touched" or row[2:] == ["target"] and int(row[0], 16) not in rewriting.live for row in rows):
            self.counts["other"] += 1
            return
        old = self.told("run", path, "--input", given)
        new = self.told("run", "new", "--units", "units.v", "--input", given)
        ends = [END.search(text) for text in (old, new)]
        if None in ends or old[:ends[0].start()] != new[:ends[1].start()] or ends[0][1] != ends[1][1]:
            self.faults.append(f"{name}: the new run on {given} prints {new[-60:]!r} and not {old[-60:]!r}")
            return
        if ends[0][1].startswith(b"access"):
            return
        self.counts.update(accounts=1, longer=int(ends[0][2]) > PART or given != INPUTS[0])
        steps, cost = ([int(end[place]) for end in ends] for place in (2, 3))
        saved = sum(gain * entries.get(leader, 0) for leader, gain in rewriting.gains.items())
        self.need(steps[0] == steps[1] and cost[0] - cost[1] == saved,
                  f"{name}: {new[-60:]!r} on {given} after {old[-60:]!r}, with a gain of {saved}")


def wrong_programs(source, rewriting):
    """New programs with one error each, by its kind."""
    words, place = rewriting.new.words, text_places(rewriting.data)

    def changed(changes):
        data = bytearray(rewriting.new_data)
        for address, word in changes.items():
            data[place(address):place(address) + 4] = word.to_bytes(4, "little")
        return Program(bytes(data), rewriting.table, rewriting.modules)

    def with_modules(modules):
        return Program(rewriting.new_data, rewriting.table, modules)

    uses = [address for address in rewriting.folded if is_unit(words[address])]
    reads = [address for address in rewriting.folded if is_cread(words[address])]
    puts = [address for address in rewriting.folded if is_cput(words[address])]
    makers = [address for address in rewriting.makers if mnemonic(words[address]) in IMMEDIATE]
    stores = [address for address in rewriting.folded if mnemonic(words[address]) in STORES.values()]
    moves = [address for address in uses if address + 4 not in rewriting.live and is_cread(words[address + 4])
             or not {words[address + 4] >> 15 & 31, words[address + 4] >> 20 & 31}.isdisjoint(writes(words[address]))]
    if uses:
        address = source.choice(uses)
        yield "another operand of a unit word", changed({address: words[address] ^ 1 << 15})
        yield "another target of a unit word", changed({address: words[address] ^ 1 << 7})
        number = source.randrange(len(rewriting.modules))
        yield "a unit of another cost", with_modules([
            module._replace(cycles=module.cycles + (module.number == number)) for module in rewriting.modules])
    if reads:
        yield "a no-op for a cread", changed({source.choice(reads): NO_OPERATION})
        address = source.choice(reads)
        yield "another index of a cread", changed({address: words[address] ^ 1 << 20})
    if puts:
        yield "a no-op for a cput", changed({source.choice(puts): NO_OPERATION})
        address = source.choice(puts)
        yield "exchanged registers of a cput", changed(
            {address: cput_word(words[address] >> 20 & 31, words[address] >> 15 & 31)})
    if makers:
        address = source.choice(makers)
        yield "another constant", changed({address: words[address] ^ 1 << 20})
    if stores:
        address = source.choice(stores)
        yield "another place of a store", changed({address: words[address] ^ 1 << 7})
    if moves:
        address = source.choice(moves)
        yield "a unit word behind the next word", changed({address: words[address + 4], address + 4: words[address]})
    if len(rewriting.modules) > 1:
        modules = list(rewriting.modules)
        first, second = source.sample(range(len(modules)), 2)
        modules[first], modules[second] = modules[second], modules[first]
        yield "two units swapped", with_modules(modules)


def look(runs):
    missing, lacks_host = compiled.missing(), common.missing({compiled.HOST_GCC: "gcc"})
    if missing:
        print(missing)
    if lacks_host:
        print(f"accounts of whole runs {lacks_host}")
    interpreter = None if lacks_host else compiled.interpreter(runs.folder)
    for number in range(MADE):
        runs.made_up(number)
    runs.full_blocks()
    for name, path in compiled.samples() if missing else compiled.executables(runs.folder):
        for options in COMPILED:
            runs.compiled(" ".join((name, *options)), path, interpreter, options)
    runs.least({f"{kind} that is found, of {count} that are planted": runs.found[kind]
                for kind, count in runs.planted.items()}, LEAST)
    counts = runs.counts
    print(f"{counts['cuts']} cuts of {counts['made']} made-up and {counts['compiled']} compiled executables, "
          f"{counts['several']} blocks with several; {counts['refused']} refused")
    print(f"{counts['accounts']} accounts of whole runs, {counts['longer']} of them not profiled or not to their end; "
          f"{counts['other']} whole runs aren't tame")
    print("ends: " + ", ".join(f"{end} {count}" for end, count in sorted(runs.ends.items()))
          + f"; {counts['inside']} accesses that fail in a block with cuts")
    print("found of those planted: " + ", ".join(f"{kind} {runs.found[kind]} of {count}"
                                                 for kind, count in runs.planted.items()))
    return (f"{counts['runs']} pairs of runs with {counts['steps']} steps compared at {counts['fronts']} leaders, "
            f"{counts['wild']} of them until they aren't tame")


main(__doc__, look, Runs)
