"""Drives the modules that `views/port` writes, through the handshake of each interface, with waits on both sides.

A sample's units by the usual limits and by the greatest, a text without units, and units of two inputs and one result
get a port each; the cycles of the units are changed first, so that they take from 1 to 6. Icarus, Verilator (all
warnings but those that units ask for) and Yosys have to read each. Then a testbench hands over words of all units, with
`cread` and `cput` where the interface has them, and words that are none: the core side waits before a word, and before
it takes a result, and gives up some words. Each result has to be that of a plain reading of the units, in the very
cycle that the unit's line says. Modules that were changed don't pass. A choice that doesn't fit an interface is refused
with the options of `find` that make one that does.
"""
import json
import random
import re
import subprocess

from checks.common import SAMPLES, called
from checks.oracles import units
from checks.tools.simulation import ELABORATION, ICARUS, UNAVOIDABLE, VERILATOR, YOSYS
from checks.views import viewing

ROWS, MOST_CYCLES, GIVEN_UP = 400, 6, 15
PLAIN, CFU, PCPI = "plain", "cfu", "pcpi"
SAMPLE = f"{SAMPLES}/sha256.elf"
TABLE, READ = "read = 3\n", 3
BENCH = """module bench;
// A word, its registers, what it gives, its cycles (0 where it is none of the port's), and how long the core waits
// before it and behind it; the core gives a word up after a cycle where that is {given_up}.
reg [255:0] rows [0:{last}];
reg clock = 0, reset = 1, valid = 0, takes = 0;
reg [31:0] word, rs1, rs2, rs3, due, cycles, before, behind;
wire is_own, ready;
wire [31:0] rd;
{port}
integer at, spent, wrong;
always #5 clock = !clock;
task need(input holds);
    if (!holds) begin
        wrong = wrong + 1;
        $display("row %0d: %h of %h %h %h: own %b, ready %b, %h and not %h",
            at, word, rs1, rs2, rs3, is_own, ready, rd, due);
    end
endtask
initial begin
    $readmemh("rows.hex", rows);
    wrong = 0;
    repeat (3) @(negedge clock);
    reset = 0;
    for (at = 0; at <= {last}; at = at + 1) begin
        {{word, rs1, rs2, rs3, due, cycles, before, behind}} = rows[at];
        repeat (before) @(negedge clock) #1 need(!ready);
        valid = 1;
        takes = behind == 0;
        #1 need({own_due});
        for (spent = 1; spent < (behind == {given_up} ? 2 : cycles); spent = spent + 1) begin
            need(!ready || behind == {given_up});
            @(negedge clock) #1;
        end
        if (cycles != 0 && behind != {given_up}) begin
            need(ready && rd === due);
            repeat (behind) @(negedge clock) #1 need(ready && rd === due);
            takes = 1;
            #1 need(ready && rd === due);
        end
        @(negedge clock);
        valid = 0;
        takes = 0;
        // What was given up takes a cycle to be forgotten.
        if (behind == {given_up}) @(negedge clock);
    end
    $display("%0d words, %0d wrong", at, wrong);
    $finish;
end
endmodule
"""
PORTS = {
    PLAIN: "unit_port port(clock, reset, valid, word, rs1, rs2, rs3, ready && takes, is_own, ready, rd);",
    CFU: """wire taken;
Cfu port(.cmd_valid(valid), .cmd_ready(taken), .cmd_payload_function_id({word[31:25], word[14:12]}),
    .cmd_payload_inputs_0(rs1), .cmd_payload_inputs_1(rs2), .rsp_valid(ready), .rsp_ready(takes),
    .rsp_payload_outputs_0(rd), .reset(reset), .clk(clock));
// A command is taken when its response is.
assign is_own = taken == (ready && takes);""",
    PCPI: """wire writes;
unit_pcpi port(.clk(clock), .resetn(!reset), .pcpi_valid(valid), .pcpi_insn(word), .pcpi_rs1(rs1), .pcpi_rs2(rs2),
    .pcpi_wr(writes), .pcpi_rd(rd), .pcpi_wait(is_own), .pcpi_ready(ready));""",
}
OWN_DUE = {PLAIN: "is_own === (cycles != 0)", CFU: "is_own === 1'b1",
           PCPI: "is_own === (cycles != 0) && writes === ready"}
# What a changed module has in the place of what stands there, by interface: each is to be noticed.
CHANGES = ((PLAIN, "hidden <= z", "hidden <= y"), (PLAIN, "|| !is_held ||", "||"), (PLAIN, ">= cycles", "> cycles"),
           (CFU, "is_last && rsp_ready", "is_last"), (CFU, "spent + 10'd1 >= cycles", "1'b1"),
           (PCPI, "5'd1: begin y = y1", "5'd1: begin y = y0"),
           (PCPI, "assign pcpi_wait = is_held", "assign pcpi_wait = pcpi_valid"))


class State:
    """What the hidden registers of the port hold."""

    def __init__(self, modules):
        self.modules, self.passed, self.kept = modules, (0, 0), (0, 0)

    def unit(self, number, operands):
        """What a unit gives, which stays."""
        y, *self.kept = units.evaluate(self.modules[number], *operands, *self.passed)
        return y


def unit_word(number, source):
    """The word of a unit, with any registers."""
    return number % 8 << 12 | number // 8 << 25 | 0x0B | source.getrandbits(5) << 7 | source.getrandbits(10) << 15


def row(state, interface, source):
    """A word with its registers, what it gives, and its cycles; what a word does to the hidden registers stays."""
    operands = [source.choice((source.getrandbits(32), source.getrandbits(5), 2 ** 31, 2 ** 32 - 1)) for _ in "abc"]
    count, kind = len(state.modules), source.randrange(10) if interface == PLAIN else source.randrange(7)
    waits = source.choice((0, 0, 1, 3)), source.choice((0, 0, 1, 4)) if interface != PCPI else 0
    if kind < 6 and count or interface == CFU:
        number = source.randrange(count) if count and (kind < 6 or count == 32) else 31
        word = unit_word(number, source) | (source.getrandbits(5) << 27 if interface == PLAIN else 0)
        if number >= count:
            return word, operands, 0, 1, waits
        cycles = state.modules[number].cycles
        if cycles > 1 and interface != CFU and not source.randrange(8):
            return word, operands, 0, cycles, (waits[0], GIVEN_UP)
        return word, operands, state.unit(number, operands if interface == PLAIN else operands[:2] + [0]), cycles, waits
    if kind < 8 and interface == PLAIN:
        place = source.randrange(2)
        return 0x2B | place << 20 | source.getrandbits(5) << 7, operands, state.kept[place], READ, waits
    if kind < 9 and interface == PLAIN:
        state.passed = tuple(operands[:2])
        return 0x102B | source.getrandbits(10) << 15, operands, None, READ, waits
    others = [0x33, 0x13, 0x20002B, 0x2B | 1 << 31, 0x10AB, 0x202B]
    return source.choice(others + [unit_word(count, source)] * (count < 32)), operands, 0, 0, (waits[0], 0)


def rows_of(modules, interface, seed):
    """The lines of a testbench."""
    source, state, lines = random.Random(seed), State(modules), []
    for _ in range(ROWS):
        word, operands, due, cycles, waits = row(state, interface, source)
        if due is None:
            # `cput` writes no register, so anything may stand there; the module has what is kept.
            due = state.kept[word >> 20 & 1]
        lines.append("_".join(f"{field:08x}" for field in (word, *operands, due, cycles, *waits)))
    return "\n".join(lines) + "\n"


def simulate(views, name, interface, text, seed):
    """What the testbench says of a module."""
    modules = units.read(views.read(name))
    views.write("rows.hex", rows_of(modules, interface, seed))
    views.write("bench.v", BENCH.format(last=ROWS - 1, given_up=GIVEN_UP, port=PORTS[interface],
                                        own_due=OWN_DUE[interface]))
    views.write("port.v", text)
    built = called([ICARUS, "-g2005", "-o", "bench", "bench.v", "port.v", name], cwd=views.folder, text=True,
                   stderr=subprocess.STDOUT)
    return built.stdout + called(["vvp", "-n", "bench"], cwd=views.folder, text=True).stdout


def read_by_tools(views, what, *files):
    """Each tool reads the files, and says nothing."""
    for words in ((ICARUS, "-g2005", "-Wall", "-Wno-timescale", "-o", "read", *files),
                  (VERILATOR, "--lint-only", "-Wall", *(f"-Wno-{name}" for name in UNAVOIDABLE), *files),
                  (YOSYS, "-q", "-p", f"read_verilog {' '.join(files)}; {ELABORATION}")):
        done = called(words, cwd=views.folder, text=True, stderr=subprocess.STDOUT)
        views.need(done.returncode == 0 and not done.stdout, f"{what}: {words[0]} says {done.stdout[:400]}")


def slowed(text):
    """A text of units that take from 1 to MOST_CYCLES cycles."""
    numbers = iter(range(len(text)))
    return re.sub(r"^// cycles \d+$", lambda _: f"// cycles {next(numbers) * 5 % MOST_CYCLES + 1}", text, flags=re.M)


def look(views):
    """Looks at the ports."""
    views.write("read.toml", TABLE)
    views.write("none.v", "")
    for name, words in (("usual.v", ()), ("greatest.v", viewing.GREATEST), ("small.v", ("--in", "2", "--out", "1"))):
        views.told("find", SAMPLE, "new", name, "logs", "report", *words)
        views.write(name, slowed(views.read(name).decode()))
    texts = {}
    for number, (name, interface) in enumerate((
            ("usual.v", PLAIN), ("greatest.v", PLAIN), ("small.v", PLAIN), ("none.v", PLAIN), ("small.v", CFU),
            ("none.v", CFU), ("small.v", PCPI), ("none.v", PCPI))):
        text = views.works("port", name, "--interface", interface, "--table", "read.toml")
        texts.setdefault(interface, (name, text))
        said = simulate(views, name, interface, text, number)
        views.need(said.endswith(f"{ROWS} words, 0 wrong\n"), f"{name} by {interface}: {said[:600]}")
        read_by_tools(views, f"{name} by {interface}", "port.v", *([name] if name != "none.v" else []))
    for interface, old, new in CHANGES:
        name, text = texts[interface]
        views.need(text.count(old) == 1, f"{interface} has not one '{old}'")
        said = simulate(views, name, interface, text.replace(old, new), 0)
        views.need(re.search(r"^\d+ words, [1-9]\d* wrong$", said, re.M), f"{interface} with '{new}': {said[-300:]}")
    for name in ("usual.v", "greatest.v"):
        status, _, said = views.look("port", name, "--interface", CFU)
        views.need(status == 1 and "choose by `find --in 2 --out 1`" in said, said)
    for name, fits in (("usual.v", [PLAIN]), ("small.v", [PLAIN, CFU, PCPI])):
        views.same(f"what fits {name}", json.loads(views.works("port", name, "--json"))["interfaces"], fits)
    views.write("fault.v", "module")
    views.refuses("port", "fault.v")
    views.refuses("port", "small.v", "--table", "fault.v")
    views.wrong("port", (), ("small.v", "--interface", "other"), ("small.v", "more"))


viewing.check(__doc__, look, "views/port", {ICARUS: ICARUS, VERILATOR: VERILATOR, YOSYS: YOSYS})
