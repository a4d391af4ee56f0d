"""Compares the Verilog of units with what other tools make of it, and with a plain reading of the operations.

FOLDS is the program of the crate `ci_folds`: it writes the units of the cuts that it is given. These are of each
operation alone, on all kinds of operands and by all shift amounts; of chains; and of blocks that are made up, always in
the same way. Their text has to be the templates' one. Icarus Verilog simulates the modules, on words at their bounds
and others, as do `eval` of PROGRAM and a plain reading of the text, and all have to give what the operations of the
standard give. The same is done, but for the operations, with modules of all forms that a text of units may have, most
of them wide, of which `eval` has to give what they are of d and e as 0. Yosys has to take all modules, and Verilator to
warn of nothing in those of units but what their layout asks for. What takes a tool that is missing is skipped, with a
line that says so.
"""
import collections
import random

from checks.common import FOLDS, called, main, missing
from checks.generators.units import Maker, spell
from checks.oracles.cuts import Graph, Table, further_words
from checks.oracles.operations import ALU, IMMEDIATE, SHIFTS, WORDS, unit_of, with_registers
from checks.tools.simulation import ICARUS, LIMIT, VERILATOR, YOSYS, Texts
from readers.corners import vectors
from readers.latencies import may_join
from readers.templates import unit_text

# How many units one text has at most, and how many have to be compared.
MOST, LEAST = 32, 500
CHAINS = (2, 3, 5, 8, 13, 64, 256)
BLOCKS, SMALL = 90, 20
# How many modules of all forms there are, of which each fifth is narrow and the others are wide.
MODULES = 250
EVERY_REGISTER = set(range(1, 32))
# Lines that have no block with a cut that fits, each by another cause.
REFUSED = "00b502b3", "x | 0", "000b502b3 | 0", "00b502b3 | x", "00b502b3 | 1", "00b502b3 |", "02b542b3 | 0"


def upper(target, value):
    return value << 12 | target << 7 | 0x37


def singles():
    """Blocks of one instruction: each operation on two registers, on one, and on x0; and with immediates."""
    for name in ALU:
        for first, second in ((10, 11), (10, 10), (0, 10), (10, 0), (0, 0)):
            yield [with_registers(name, 5, first, second)]
    for name in IMMEDIATE:
        for amount in range(32) if name in SHIFTS else (0, 1, 5, 31, 2047, -1, -2048):
            yield [with_registers(name, 5, 10, amount)]
        yield [with_registers(name, 5, 0, 7)]
    for value in (0, 1, 0x12345, 0x80000, 0xFFFFF):
        yield [upper(5, value)]


def word(source, registers):
    """Some instruction that may join."""
    name, first, second = source.choice(sorted(WORDS)), source.choice(registers), source.choice(registers)
    if name in IMMEDIATE:
        second = source.randrange(32) if name in SHIFTS else source.randrange(-2048, 2048)
    target = source.choice([register for register in registers if register])
    if source.randrange(12) == 0:
        return upper(target, source.getrandbits(20))
    return with_registers(name, target, first, second)


def chain(source, length):
    """A block of instructions of which each one reads the one before it, and writes its register."""
    block = [with_registers("add", 5, 10, 11)]
    while len(block) < length:
        name = source.choice(sorted(WORDS))
        second = (source.randrange(32) if name in SHIFTS else source.randrange(-2048, 2048)) if name in IMMEDIATE else (
            source.choice((5, 10, 11, 12)))
        block.append(with_registers(name, 5, 5, second))
    return block


def cuts_of(source, block, count):
    """Some cuts of a block, each with the block and its unit."""
    graph = Graph(block, EVERY_REGISTER, Table())
    joining = [node for node, code in enumerate(block) if may_join(code)]
    for _ in range(count):
        cut = set(source.sample(joining, source.randrange(1, len(joining) + 1)))
        facts = graph.facts(cut)
        if (facts.convex and len(facts.inputs) <= 5 and 1 <= facts.outputs <= 3
                and len(cut) >= 1 + further_words(len(facts.inputs), facts.outputs)):
            yield block, cut, unit_of(graph, block, cut)


def cases(source):
    """Blocks with cuts and their units, of which no two are equal."""
    whole = [*singles(), *(chain(source, length) for length in CHAINS for _ in range(1 if length > 13 else 4))]
    found = [(block, set(range(len(block))), unit_of(Graph(block, EVERY_REGISTER, Table()), block,
                                                     set(range(len(block))))) for block in whole]
    for size in range(BLOCKS):
        registers = source.sample(range(5, 32), source.randrange(2, 5)) + [source.choice((0, 5))]
        block = [word(source, registers) for _ in range(2 + size % 9)]
        found += cuts_of(source, block, SMALL)
    return list({str(case[2]): case for case in found}.values())


def emitted(emitter, batch):
    """The text that the program writes for the units of these cases, of which one stands twice."""
    lines = [" ".join([*(f"{code:08x}" for code in block), "|", *map(str, sorted(cut))]) for block, cut, _ in batch]
    done = called([emitter], LIMIT, input="".join(f"{line}\n" for line in [*lines, lines[0]]), text=True)
    return done.stdout if done.returncode == 0 else f"status {done.returncode}: {done.stdout}"


def refusals(check):
    """Lines that the program has to refuse."""
    for line in REFUSED:
        done = called([check.given.folds], LIMIT, input=f"{line}\n", text=True)
        check.need(done.returncode == 1 and line in done.stdout,
                   f"the line {line!r} gives status {done.returncode} and {done.stdout!r}")


def some_units(check, source, values):
    """The units of the cases, by the program's text."""
    texts, found = Texts(check, "units", values), cases(source)
    for begin in range(0, len(found), MOST):
        batch = found[begin:begin + MOST]
        text = emitted(check.given.folds, batch)
        due = "".join(unit_text(number, (unit.operations, unit.outputs, unit.cycles))
                      for number, (_, _, unit) in enumerate(batch))
        check.need(text == due, f"the text of units {begin} and on is {text[:2000]!r} and not {due[:2000]!r}")
        texts.add(due, [unit for _, _, unit in batch])
    return texts, collections.Counter(name for _, _, unit in found for name, *_ in unit.operations)


def some_modules(check, source, values):
    """Modules of all forms."""
    texts = Texts(check, "modules", values)
    for number in range(MODULES):
        texts.add(spell(source, Maker(source).module(0, number % 13, number % 5 > 0), (" ", "\n")))
    return texts


def look(check):
    source = random.Random(1)
    values = vectors(source)
    given, kinds = some_units(check, source, values)
    refusals(check)
    made = some_modules(check, source, values)
    calls = given.call(source) + made.call(source)
    given.write()
    made.write()
    lacking = {tool: missing({tool: tool}) for tool in (ICARUS, YOSYS, VERILATOR)}
    if not lacking[ICARUS]:
        given.simulate()
        # Leading zeros of a constant may go past its width.
        made.simulate("extra digits given")
    if not lacking[YOSYS]:
        given.elaborate()
        given.synthesise()
        made.elaborate()
    if not lacking[VERILATOR]:
        given.lint()
    for line in filter(None, lacking.values()):
        print(line)
    check.least({"units": len(given.wanted)}, LEAST)
    check.same("the kinds of operations", {*kinds}, {*ALU})
    there = [tool for tool, line in lacking.items() if not line]
    return (f"{len(given.wanted)} units of {sum(kinds.values())} operations and {len(made.wanted)} modules of all "
            f"forms on {len(values)} vectors, and {calls} calls of eval, compared by "
            f"{', '.join(there) or 'no other tool'}")


main(__doc__, look, folds=FOLDS)
