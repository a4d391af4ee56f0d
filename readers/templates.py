"""What units of operations have to be written as: a module each, of wires for the operands and the result of each
operation."""

HEADER = """// cycles {cycles}
module ci_{number}(input [31:0] a, input [31:0] b, input [31:0] c, output [31:0] y, output [31:0] z);
"""
# The header of a wide module.
WIDE_HEADER = HEADER.replace("output [31:0] y", "input [31:0] d, input [31:0] e, output [31:0] y").replace(
    "z)", "z, output [31:0] x)")
# The lines behind those of the operands p and q, by operation: letter, width and value of a wire, # for its number.
SIGN, NO_SIGN, FLIP = "{{32{%s#[31]}}, %s#}", "{32'h00000000, %s#}", "%s# ^ 32'h80000000"
CARRY = ("t", 32, "{31'h00000000, w#}")
LINES = {
    **{name: (("t", 32, f"p# {sign} q#"),)
       for name, sign in (("add", "+"), ("sub", "-"), ("mul", "*"), ("and", "&"), ("or", "|"), ("xor", "^"))},
    "sll": (("t", 32, "p# << q#[4:0]"),), "srl": (("t", 32, "p# >> q#[4:0]"),),
    "sra": (("w", 64, SIGN % ("p", "p") + " >> q#[4:0]"), ("t", 32, "w#[31:0]")),
    "sltu": (("w", 1, "p# < q#"), CARRY),
    "slt": (("u", 32, FLIP % "p"), ("v", 32, FLIP % "q"), ("w", 1, "u# < v#"), CARRY),
    **{name: (("w", 64, f"{left} * {right}"), ("t", 32, "w#[63:32]")) for name, left, right in (
        ("mulhu", NO_SIGN % "p", NO_SIGN % "q"), ("mulh", SIGN % ("p", "p"), SIGN % ("q", "q")),
        ("mulhsu", SIGN % ("p", "p"), NO_SIGN % "q"))},
}


def spelt(argument):
    """An argument of an operation: ('input', place), ('earlier', operation) or ('constant', word)."""
    kind, number = argument
    return {"input": "abcde"[number:number + 1], "earlier": f"t{number}", "constant": f"32'h{number:08x}"}[kind]


def is_wide(operations, outputs):
    """Whether a unit has more than three inputs, or three outputs."""
    return len(outputs) > 2 or any(kind == "input" and number > 2
                                   for _, *arguments in operations for kind, number in arguments)


def unit_text(number, unit):
    """The module of a unit: its operations, each a name and two arguments, its outputs, and the cycles of a use."""
    operations, outputs, cycles = unit
    lines = []
    for place, (name, *arguments) in enumerate(operations):
        operands = [(letter, 32, spelt(argument)) for letter, argument in zip("pq", arguments)]
        lines += [f"wire [{width - 1}:0] {letter}{place};\nassign {letter}{place} = {value.replace('#', str(place))};\n"
                  for letter, width, value in (*operands, *LINES[name])]
    header, letters = (WIDE_HEADER, "yzx") if is_wide(operations, outputs) else (HEADER, "yz")
    results = [f"t{place}" for place in outputs] + ["32'h00000000"] * 2
    lines += [f"assign {letter} = {result};\n" for letter, result in zip(letters, results)]
    return header.format(cycles=cycles, number=number) + "".join(lines) + "endmodule\n"
