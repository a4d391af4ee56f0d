"""Modules in Verilog by which a core uses the units of a text: their words decoded, and held back for their cycles."""
import os
import re
from collections import namedtuple

from program import Refused, told
from reading import read

PLAIN, CFU, PCPI = "plain", "cfu", "pcpi"
# A module of a text of units: its cycles, its ports, and what stands behind them.
MODULE = re.compile(r"// cycles (\d+)\n\s*module\s+ci_\d+\s*\((.*?)\)\s*;(.*?)\bendmodule\b", re.S)
THIRD, SECOND = re.compile(r"\bc\b"), re.compile(r"\bassign\s+z\s*=(?!\s*\d+'h0+\s*;)")
# The bits of the greatest cycles of `cread` and `cput`.
READ_BITS = 10
MOST = 32
# A unit: its cycles, and whether it is wide, reads its third input and gives a second result.
Unit = namedtuple("Unit", "number cycles wide third second")

HEADS = {
    PLAIN: """// {units} in a core: their words, `cread` and `cput`. Written by `views/port`.
//
// The core holds `valid`, a word and its registers until that is done. Where `is_own` is 1 the word is one of these,
// and waits until `ready` is 1; then, at once or later, `retires` is 1 for a clock, and the core writes `rd` to the
// register word[11:7], if that isn't 0. To give a word up, `valid` is 0 for a clock. `cread` and `cput` take READ
// cycles. The paths through a unit have all of its cycles.
module unit_port #(parameter [{high}:0] READ = {read}) (
    input clock, input reset,
    input valid, input [31:0] word, input [31:0] rs1, input [31:0] rs2, input [31:0] rs3, input retires,
    output is_own, output ready, output [31:0] rd
);
wire [4:0] number = {{word[26:25], word[14:12]}};
wire is_unit = word[6:0] == 7'h0b{known};
wire is_cread = word == {{11'h000, word[20], 8'h00, word[11:7], 7'h2b}};
wire is_cput = word == {{7'h00, word[24:15], 3'h1, 5'h00, 7'h2b}};
assign is_own = is_unit || is_cread || is_cput;
wire is_held = valid && is_own;
""",
    CFU: """// {units} as a CFU of CFU-Playground. Written by `views/port --interface cfu`.
//
// The id, funct7 and funct3 of a word of custom-0, is a unit's number where rs3 is x0, as `find --in 2` writes words.
// A command is taken when its response is, and stays until then: so the paths through a unit have all of its cycles. An
// id without a unit gives 0.
module Cfu (
    input cmd_valid, output cmd_ready, input [9:0] cmd_payload_function_id,
    input [31:0] cmd_payload_inputs_0, input [31:0] cmd_payload_inputs_1,
    output rsp_valid, input rsp_ready, output [31:0] rsp_payload_outputs_0,
    input reset, input clk
);
wire clock = clk, is_held = cmd_valid, is_unit = 1'b1;
wire [31:0] rs1 = cmd_payload_inputs_0, rs2 = cmd_payload_inputs_1;
wire [4:0] number = cmd_payload_function_id[4:0];
""",
    PCPI: """// {units} as a co-processor of PicoRV32. Written by `views/port --interface pcpi`.
//
// The core holds pcpi_valid, a word and its registers until pcpi_ready: so the paths through a unit have all of its
// cycles. A word that is none of the units' is left to other co-processors.
module unit_pcpi (
    input clk, input resetn,
    input pcpi_valid, input [31:0] pcpi_insn, input [31:0] pcpi_rs1, input [31:0] pcpi_rs2,
    output pcpi_wr, output [31:0] pcpi_rd, output pcpi_wait, output pcpi_ready
);
wire clock = clk, reset = !resetn;
wire [31:0] rs1 = pcpi_rs1, rs2 = pcpi_rs2;
wire [4:0] number = {{pcpi_insn[26:25], pcpi_insn[14:12]}};
wire is_unit = pcpi_insn[6:0] == 7'h0b{known}, is_held = pcpi_valid && is_unit;
""",
}
CHOICE = """reg [31:0] {results};
reg [{high}:0] cycles;
always @* begin
    {target} = {width}'h0;
    cycles = {others};
    if (is_unit)
        case (number)
{cases}            default: ;
        endcase
end
reg [{high}:0] spent;
wire is_last = spent + {bits}'d1 >= cycles;
{retires}always @(posedge clock)
    if (reset || !is_held || retires) spent <= {bits}'d0;
    else if (!is_last) spent <= spent + {bits}'d1;
"""
NARROW = """assign ready = is_held && is_last;
reg [31:0] hidden;
assign rd = is_unit ? y : word[20] ? 32'h0 : hidden;
always @(posedge clock)
    if (reset) hidden <= 32'h0;
    else if (retires && is_unit) hidden <= z;
endmodule
"""
WIDE = """assign ready = is_held && is_last;
reg [31:0] second, third;
assign rd = is_unit ? y : word[20] ? third : second;
always @(posedge clock)
    if (reset) {d, e, second, third} <= 128'h0;
    else if (retires && is_cput) {d, e} <= {rs1, rs2};
    else if (retires && is_unit) {second, third} <= {z, x};
endmodule
"""
TAILS = {
    CFU: """assign cmd_ready = retires;
assign rsp_valid = is_held && is_last;
assign rsp_payload_outputs_0 = y;
wire unused = &{{1'b0, {unread}cmd_payload_function_id[9:5]}};
endmodule
""",
    PCPI: """assign pcpi_wait = is_held;
assign pcpi_ready = retires;
assign pcpi_wr = retires;
assign pcpi_rd = y;
wire unused = &{{1'b0, {unread}pcpi_insn[31:27], pcpi_insn[24:15], pcpi_insn[11:7]}};
endmodule
""",
}
# When a word is done, where the core doesn't say so.
RETIRES = {PLAIN: "", CFU: "wire retires = is_held && is_last && rsp_ready;\n",
           PCPI: "wire retires = is_held && is_last;\n"}


def units_of(path):
    """The units of a text, as the program reads it."""
    try:
        told("eval", path, "0", "0x0", "0x0", "0x0")
    except Refused as refused:
        if not refused.line.startswith("fault 7 "):
            raise
    return [Unit(number, int(cycles), ports.count("output") > 2, bool(THIRD.search(body)), bool(SECOND.search(body)))
            for number, (cycles, ports, body) in enumerate(MODULE.findall(read(path).decode()))]


def fault(units, interface):
    """Why the units have no such port, with the options of `find` that make others; None where they have one."""
    for unit in units:
        if unit.cycles == 0:
            return f"unit {unit.number} takes 0 cycles, and a port holds each word back for one at least"
        what = ("five inputs" if unit.wide else "a third input" if unit.third else
                "a second result" if unit.second else None)
        if what and interface != PLAIN:
            return (f"unit {unit.number} has {what}, and {interface} passes two operands and one result: "
                    "choose by `find --in 2 --out 1`")
    return None


def instance(unit, is_plain):
    """A unit in the port."""
    k, inputs, outputs = unit.number, "abcde" if unit.wide else "abc", "yzx" if unit.wide else "yz"
    wires = {"a": "rs1", "b": "rs2", "c": "rs3" if is_plain else "32'h0", "d": "d", "e": "e"}
    named = [f".{name}({wires[name]})" for name in inputs] + [f".{name}({name}{k})" for name in outputs]
    return (f"wire [31:0] {', '.join(f'{name}{k}' for name in outputs)};\nci_{k} unit{k}({', '.join(named)});\n")


def together(names):
    """Names as one value."""
    return names[0] if len(names) == 1 else f"{{{', '.join(names)}}}"


def choice(units, results, bits, interface):
    """What picks the results and the cycles by the unit's number, and counts the cycles."""
    cases = []
    for unit in units:
        given = [f"{name}{unit.number}" if name != "x" or unit.wide else "32'h0" for name in results]
        cases.append(f"            5'd{unit.number}: begin {together(results)} = {together(given)}; "
                     f"cycles = {bits}'d{unit.cycles}; end\n")
    return CHOICE.format(results=", ".join(results), target=together(results), width=32 * len(results), high=bits - 1,
                         bits=bits, others="READ" if interface == PLAIN else f"{bits}'d1", cases="".join(cases),
                         retires=RETIRES[interface])


def port(path, units, interface, cycles):
    """The module of an interface; `cread` and `cput` take these cycles."""
    is_plain, is_wide = interface == PLAIN, any(unit.wide for unit in units)
    bits = max(READ_BITS, *(unit.cycles.bit_length() for unit in units), 1)
    known = "" if len(units) == MOST else f" && number < 5'd{len(units)}" if units else " && 1'b0"
    count = f"{len(units)} unit{'' if len(units) == 1 else 's'} of {os.path.basename(path)}"
    parts = [HEADS[interface].format(units=count, high=bits - 1, read=cycles, known=known)]
    parts += ["reg [31:0] d, e;\n"] if is_plain and is_wide else []
    parts += [instance(unit, is_plain) for unit in units]
    parts.append(choice(units, "y" if not is_plain else "yzx" if is_wide else "yz", bits, interface))
    if is_plain:
        return "".join([*parts, WIDE if is_wide else NARROW])
    return "".join([*parts, TAILS[interface].format(unread="".join(f"z{unit.number}, " for unit in units))])
