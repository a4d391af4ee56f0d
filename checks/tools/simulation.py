"""Texts of units, which are compared by what other tools make of them."""
import re
import subprocess

from checks.common import called
from checks.oracles import units
from checks.oracles.operations import ALU, outputs
from readers.templates import unit_text

LIMIT = 120
# The Debian packages have the tools' names.
ICARUS, YOSYS, VERILATOR = "iverilog", "yosys", "verilator"
# What Yosys does to all units, and to one of each operation, which it takes down to gates.
ELABORATION, SYNTHESIS = "hierarchy -check; proc; opt_expr; opt_clean; check -assert", "synth -noabc; check -assert"
# How many of the vectors `eval` is called with, for each module.
CALLS = 2
# What units ask for: several modules in one file, ports, wires and bits that nobody reads, and comparisons with 0.
UNAVOIDABLE = "DECLFILENAME", "MULTITOP", "UNUSED", "UNSIGNED", "CMPCONST"


class Texts:
    """Texts of units, and what their modules have to give of each vector."""

    def __init__(self, check, name, values):
        self.check, self.name = check, name
        # Words for a, b and c, and for d and e, which only wide modules have.
        self.vectors = values
        self.texts, self.wanted = [], []
        self.path = check.path(f"{name}.v")

    def add(self, text, known=None):
        """Takes a text, with the units of its modules where these are known, and compares its plain reading."""
        self.texts.append(text)
        for module in units.read(text.encode()):
            read = [units.evaluate(module, *vector) for vector in self.vectors]
            if known is not None:
                unit = known[module.number]
                self.compare(f"the text of {unit}", read, [outputs(unit, vector) for vector in self.vectors])
            self.wanted.append((len(self.texts) - 1, module, read))

    def compare(self, name, ours, due):
        for vector, our, wanted in zip(self.vectors, ours, due, strict=True):
            if not self.check.need(our == wanted, f"{self.name}: {name} gives {our} of {vector}, and not {wanted}"):
                return

    def write(self):
        """All modules in one file, with names of their own."""
        self.check.write(self.path, "".join(re.sub(r"\bmodule(\s+)ci_", rf"module\1t{number}_ci_", text)
                                            for number, text in enumerate(self.texts)))

    def say(self, tool, done, allowed=None):
        """Puts down what a tool says, where it fails or says anything but what is allowed."""
        lines = [line for line in done.stdout.splitlines() if allowed is None or not re.search(allowed, line)]
        self.check.need(done.returncode == 0 and not lines,
                        f"{self.name}: {tool} ends with status {done.returncode} and says {lines[:10]}")

    def simulate(self, allowed=None):
        """Icarus runs all modules on all vectors."""
        bench, built = self.check.path("bench.v"), self.check.path("bench")
        names = [f"t{text}_ci_{module.number}" for text, module, _ in self.wanted]
        with open(bench, "w", encoding="ascii") as file:
            print("module bench;\nreg [31:0] a, b, c, d, e;", file=file)
            for name, (_, module, _) in zip(names, self.wanted):
                further, third = ("d, e, ", f", {name}_x") if module.wide else ("", "")
                print(f"wire [31:0] {name}_y, {name}_z, {name}_x;\n"
                      f"{name} {name}_unit(a, b, c, {further}{name}_y, {name}_z{third});", file=file)
                if not module.wide:
                    print(f"assign {name}_x = 32'h0;", file=file)
            print("initial begin", file=file)
            for vector in self.vectors:
                print("a = 32'h{:x}; b = 32'h{:x}; c = 32'h{:x}; d = 32'h{:x}; e = 32'h{:x}; #1 show;".format(*vector),
                      file=file)
            print("end\ntask show; begin", file=file)
            for name in names:
                print(f'$display("%h %h %h", {name}_y, {name}_z, {name}_x);', file=file)
            print("end endtask\nendmodule", file=file)
        self.say(ICARUS, told([ICARUS, "-g2005", "-Wall", "-Wno-timescale", "-o", built, bench, self.path]), allowed)
        printed = told(["vvp", "-n", built]).stdout.splitlines()
        for place, (text, module, due) in enumerate(self.wanted):
            lines = printed[place:len(self.vectors) * len(names):len(names)]
            # Digits that are no number say that a bit is unknown.
            ours = [tuple(int(digits, 16) if re.fullmatch("[0-9a-f]+", digits) else digits for digits in line.split())
                    for line in lines]
            self.compare(f"module {module.number} of text {text}, by Icarus,", ours, due)

    def call(self, source):
        """The program evaluates each module on a few of the vectors. Gives the number of the calls."""
        held, calls = None, 0
        for text, module, _ in self.wanted:
            if held != text:
                held = text
                self.check.write("units", self.texts[text])
            for place in source.sample(range(len(self.vectors)), CALLS):
                words = [str(module.number), *units.operand_words(self.vectors[place], source)]
                done = self.check.call("eval", "units", *words, text=True)
                self.check.same(f"{self.name}: eval {' '.join(words)} of text {text}", (done.returncode, done.stdout),
                                (0, units.results_line(module, *self.vectors[place])))
                calls += 1
        return calls

    def elaborate(self):
        """Yosys takes all modules."""
        self.say(YOSYS, told([YOSYS, "-q", "-p", f"read_verilog {self.path}; {ELABORATION}"]))

    def synthesise(self):
        """Yosys makes gates of a unit of each operation."""
        each = self.check.write("each.v", "".join(
            unit_text(number, ([(name, ("input", 0), ("input", 1))], [0], 1)) for number, name in enumerate(ALU)))
        self.say(YOSYS, told([YOSYS, "-q", "-p", f"read_verilog {each}; {SYNTHESIS}"]))

    def lint(self):
        self.say(VERILATOR, told([VERILATOR, "--lint-only", "-Wall", *(f"-Wno-{name}" for name in UNAVOIDABLE),
                                  self.path]))


def told(words):
    """What a call prints, on both ways, and its status."""
    return called(words, LIMIT, stderr=subprocess.STDOUT, text=True)
