"""Compares what `rumtsafi gates` and `geval` make with plain readings, and netlists with their modules.

`gates` writes the netlists of the samples' units, of one unit of each operation and others that are made up, of 300
modules of all forms, most of them wide, and of the texts of most wires and of most modules. A plain reader has to take
each text; it has to have a netlist for each module, with the number of gates that a table of operators gives, and with
the values of the plain reading of the module on words at their bounds and others; the line has to tell the sums, and
`geval` and `eval` have to give these values. Yosys proves that netlists give what their modules do, on all inputs, and
not so where one bit of a result is inverted; and Icarus Verilog runs them. Where a module has products of more than 8
bits, its netlist and the plain reading of it are compared on 10,000 vectors instead. (Yosys 0.23 is asked of no shift
by a constant of 32 bits or more, since it shifts wrongly by some.) What takes a tool that is missing is skipped, with a
line that says so.

Modules of so many products that their gates are too many together have to be refused, at the first module with which
they are, with the sum up to there, and with OUT as before; and those of as many as may be are written. Of texts that
each show one rule of netlists, and of 2,000 that are changed in a place or two, `geval` has to print the offset at
which the plain reader finds them bad, or values.
"""
import collections
import os
import random

from checks.common import SAMPLES, Check, main, missing
from checks.generators.netlists import changed, products, rows
from checks.generators.units import Maker, many_modules, many_wires, some_unit, spell
from checks.oracles import netlists, units
from checks.tools.netlists import Pair, proof, simulate
from checks.tools.simulation import ICARUS, YOSYS
from readers.corners import BOUNDS, vectors
from readers.templates import LINES, unit_text

# How many modules of all forms are made up, how many of them one text has at most, and how many units.
MODULES, TOGETHER, UNITS = 300, 8, 40
# The widest products that Yosys has to prove, and how many netlists it proves; how many with wider ones are compared on
# so many vectors, and how many of these Icarus runs too.
WIDEST, PROVED, LONG, VECTORS, RUN = 8, 60, 20, 10_000, 4
# How many texts have too many gates, in addition, and how many texts of netlists are changed.
SUMS, CHANGED = 30, 2000
# The products and other gates of the modules of texts with too many gates, or just as many as there may be.
MOST = (336, 1024)
FULL = [MOST], [(0, 0), *[(10, 30_544)] * 26, (10, 30_560)]
OVER = ([(336, 1025)], [(337, 0)], [(2000, 0)], [MOST, (0, 1)], [(0, 1), MOST], [MOST, (0, 0), (0, 1), (0, 5)],
        [(11, 0)] * 32, [(200, 0), (136, 1023), (0, 2), (1, 0)], [(0, 0)] * 31 + [(337, 0)])
BEFORE = b"before"


def words(results):
    return " ".join(f"{result:08x}" for result in results) + "\n"


def expressions(module):
    return *(wire.value for wire in module.wires), module.y, module.z, module.x


def operators(module):
    """The operators of a module, each with the width of its left operand."""
    for expression in expressions(module):
        if isinstance(expression, units.Two):
            yield expression.operator, netlists.width(expression.left)
        elif isinstance(expression, units.Choose):
            yield "?", netlists.width(expression.yes)


def has_wide_products(module):
    return any(operator == "*" and width > WIDEST for operator, width in operators(module))


def is_fixed(term, fixed):
    """Whether a term has constants alone, and names that stand for such."""
    if isinstance(term, units.Repeat):
        return is_fixed(term.part, fixed)
    if isinstance(term, units.Bits):
        return term.name in fixed
    return isinstance(term, units.Number) or all(is_fixed(item, fixed) for item in term)


def has_long_fixed_amounts(module):
    """Whether a shift goes by a constant of 32 bits or more."""
    fixed = set()
    for name, value in (*((wire.name, wire.value) for wire in module.wires), *zip("yzx", expressions(module)[-3:])):
        terms = [part for part in value if not isinstance(part, str)]
        if isinstance(value, units.Two) and value.operator in units.SHIFTS and netlists.width(value.right) > 31:
            if is_fixed(value.right, fixed):
                return True
        if all(is_fixed(term, fixed) for term in terms):
            fixed.add(name)
    return False


class Gates(Check):
    """Calls in a folder, and where they don't print or write what is due."""

    def __init__(self, given, folder):
        super().__init__(given, folder)
        self.source, self.kinds, self.counts = random.Random(1), collections.Counter(), collections.Counter()
        self.vectors = vectors(self.source)
        self.known = netlists.inputs(self.vectors)

    def told(self, *words):
        """What a call prints, and its status."""
        done = self.call(*words, text=True)
        return done.stdout, done.returncode

    def compare(self, text):
        """The modules of a text, each with its netlist, which are compared."""
        modules, known = units.read(text.encode()), text[-2000:]
        self.write("units", text)
        self.write("nets", BEFORE)
        due = [netlists.count(module) for module in modules]
        self.same(f"gates of {known!r}", self.told("gates", "units", "nets"),
                  (f"modules {len(modules)} gates {sum(due)}\n", 0))
        nets, bad = netlists.read(self.read("nets"))
        if not self.need(bad is None, f"the netlists of {known!r} are bad at {bad}"):
            return []
        self.same(f"the numbers of gates of {known!r}", [len(net.gates) for net in nets], due)
        for module, net in zip(modules, nets):
            self.values(f"module {module.number} of {known!r}", module, net, self.vectors, self.known)
            self.kinds.update(operator for operator, _ in operators(module))
        self.counts.update(modules=len(modules), gates=sum(due))
        self.evaluate(modules)
        self.absent(len(modules))
        return list(zip(modules, nets))

    def values(self, what, module, net, vectors, known=None):
        """Compares the values of a netlist with those of its module."""
        ours = netlists.values(net, vectors, known)
        for vector, found in zip(vectors, ours):
            due = units.evaluate(module, *vector)
            if not self.need(found == due, f"{what}: the netlist gives {found} of {vector}, and not {due}"):
                return

    def evaluate(self, modules):
        """Calls `geval` and `eval` for each module."""
        for module in modules:
            vector = self.source.choice(self.vectors)
            given = [str(module.number), *units.operand_words(vector, self.source)]
            self.same(f"geval {given}", self.told("geval", "nets", *given),
                      (words(units.evaluate(module, *vector)), 0))
            self.same(f"eval {given}", self.told("eval", "units", *given), (units.results_line(module, *vector), 0))

    def absent(self, number):
        """There is no netlist of this number, and none behind it."""
        for number in {number, 31} if number < 32 else ():
            self.same(f"geval of {number}", self.told("geval", "nets", f"{number}", "0x0", "0x0", "0x0"),
                      (f"fault 7 unsupported {number:08x} 00000000\n", 7))

    def full(self, modules):
        """Compares the line and the length of a text of as many gates as there may be."""
        text = "".join(products(number, *counts) for number, counts in enumerate(modules))
        self.write("units", text)
        self.same(f"gates of {modules}", self.told("gates", "units", "nets"),
                  (f"modules {len(modules)} gates {netlists.MOST_GATES}\n", 0))
        self.same(f"the lines of {modules}", self.read("nets").count(b"\n"), netlists.MOST_GATES + 4 * len(modules))
        self.evaluate(units.read(text.encode())[-1:])

    def over(self, modules):
        """Compares how modules with too many gates are refused."""
        text, total = "".join(products(number, *counts) for number, counts in enumerate(modules)), 0
        for module in units.read(text.encode()):
            total += netlists.count(module)
            if total > netlists.MOST_GATES:
                self.refused(text, f"fault 14 many {module.number} {total}\n", 14)
                # A fault of the text comes first.
                self.refused(f"{text};", f"fault 9 units 2 {len(text)}\n", 9)
                return True
        return False

    def refused(self, text, due, status):
        self.write("units", text)
        self.write("nets", BEFORE)
        self.same(f"gates of {text[-300:]!r}", (*self.told("gates", "units", "nets"), self.read("nets")),
                  (due, status, BEFORE))

    def text(self, data, due=None):
        """Compares what `geval` makes of a text of netlists."""
        nets, bad = netlists.read(data)
        self.write("nets", data)
        if due is not None:
            self.same(f"the plain reader of {data[-300:]!r}", bad, due)
        vector, count = self.source.choice(self.vectors), len(nets or ())
        number = self.source.choice((0, max(0, count - 1), count % 32))
        given = [str(number), *units.operand_words(vector, self.source)]
        if bad is not None:
            answer = f"fault 15 nets {bad}\n", 15
        elif number >= count:
            answer = f"fault 7 unsupported {number:08x} 00000000\n", 7
        else:
            answer = words(netlists.values(nets[number], [vector])[0]), 0
        self.kinds["bad at its end" if bad == len(data) else answer[1]] += 1
        self.same(f"geval {given} of {data[-300:]!r}", self.told("geval", "nets", *given), answer)


def sample_units(check):
    """The texts of the samples' units, by the usual ports and by the most."""
    for name in sorted(name for name in os.listdir(SAMPLES) if name.endswith(".elf")):
        for ports in ((), ("--in", "5", "--out", "3")):
            check.call("find", os.path.join(SAMPLES, name), "new", "units", "logs", "report", *ports)
            yield check.read("units").decode()


def made_units(source):
    """Texts of one unit each: one of each operation, and some of several."""
    for name in LINES:
        yield unit_text(0, ([(name, ("input", 0), ("input", 1))], [0], 1))
    for place in range(UNITS):
        yield unit_text(0, some_unit(source, 2 + place % 5))


def made_modules(source):
    """Texts of modules of all forms, most of them with one module each."""
    number = 0
    while number < MODULES:
        maker, tokens = Maker(source), []
        for place in range(min(source.choice((1, 1, 1, source.randrange(1, TOGETHER))), MODULES - number)):
            tokens += maker.module(place, number % 13, number % 5 > 0)
            number += 1
        yield spell(source, tokens, (" ", "\n"))


def some_pairs(check):
    """Compares the netlists of all units and modules: those of texts with one module each."""
    texts = [*sample_units(check), *made_units(check.source), *made_modules(check.source), many_wires(units.MOST_WIRES),
             many_modules(units.MOST_MODULES), ""]
    found = [(text, check.compare(text)) for text in texts]
    # The text of most wires would keep Yosys busy.
    return [Pair(text, *pairs[0]) for text, pairs in found if len(pairs) == 1 and len(pairs[0][0].wires) < 100]


def prove(check, pairs):
    """Yosys proves that netlists give what their modules do, but not those of which a bit of a result is inverted."""
    for pair in pairs:
        done = proof(check, pair)
        check.need(done.returncode == 0, f"{pair.text!r}: Yosys ends with status {done.returncode}: "
                                         f"{done.stdout[-600:]}")
    for pair in pairs[:3]:
        gates, outputs = list(pair.net.gates), list(pair.net.outputs)
        place = check.source.randrange(64)
        gates.append((b"xor", outputs[place], b"1"))
        outputs[place] = b"g%d" % (len(gates) - 1)
        done = proof(check, pair._replace(net=netlists.Netlist(gates, outputs)))
        check.need(done.returncode > 0 and "proof did fail" in done.stdout,
                   f"{pair.text!r}: Yosys proves a netlist with another bit {place}, by status {done.returncode}: "
                   f"{done.stdout[-600:]}")


def on_many_vectors(check, pairs):
    """Compares netlists with the plain reading of their modules on many vectors."""
    some = [tuple(check.source.choice((check.source.choice(BOUNDS), check.source.getrandbits(5),
                                       check.source.getrandbits(32))) for _ in netlists.INPUTS) for _ in range(VECTORS)]
    known = netlists.inputs(some)
    for pair in pairs:
        check.values(repr(pair.text), pair.module, pair.net, some, known)


def by_tools(check, pairs):
    """Has the tools that are there prove and run netlists; how many, by which, and how many are compared without."""
    wide = [pair for pair in pairs if has_wide_products(pair.module)][:LONG]
    proved = [pair for pair in pairs
              if not has_wide_products(pair.module) and not has_long_fixed_amounts(pair.module)][:PROVED]
    check.least({"netlists for Yosys": len(proved)}, PROVED)
    check.least({"netlists with wide products": len(wide)}, LONG)
    on_many_vectors(check, wide)
    there = []
    for tool, use in {YOSYS: lambda: prove(check, proved),
                      ICARUS: lambda: simulate(check, proved + wide[:RUN], check.vectors)}.items():
        line = missing({tool: tool})
        if line:
            print(line)
        else:
            use()
            there.append(tool)
    return f"{len(wide)} of them on {VECTORS:,} vectors and {len(proved)} by {', '.join(there) or 'no other tool'}"


def sums(check):
    """Compares modules with as many gates as there may be, and with too many; how many these are."""
    for modules in FULL:
        check.full(modules)
    refused = sum(map(check.over, OVER))
    check.same("how many have too many gates", refused, len(OVER))
    while refused < len(OVER) + SUMS:
        most = check.source.choice((30, 60, 120, 360))
        refused += check.over([(check.source.randrange(most), check.source.randrange(3000))
                               for _ in range(check.source.randrange(1, 33))])
    return refused


def look(check):
    proved, refused, count = by_tools(check, some_pairs(check)), sums(check), 0
    for count, (data, due) in enumerate(rows(), 1):
        check.text(data, due)
    for _ in range(CHANGED):
        check.text(changed(check.source))
    check.least({operator: check.kinds[operator] for operator in (*units.OPERATORS, "?")}, 20)
    check.least({kind: check.kinds[kind] for kind in (0, 7, 15, "bad at its end")}, 20)
    return (f"{check.counts['modules']} modules with {check.counts['gates']:,} gates, {proved}, {refused} texts with "
            f"too many gates, {count} rows and {CHANGED} changed texts compared")


main(__doc__, look, Gates)
