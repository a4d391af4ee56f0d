"""Texts of units of which each shows one rule, with the first fault of each."""
from checks.generators.units import many_modules, many_wires
from readers.templates import HEADER, WIDE_HEADER

# A name of 31 letters.
NAME = "n" * 31
# Texts, each with a mark at the token of its first fault, if it has one, and the kind of the fault.
MARK = "~"
TEXTS = (
    (None, ""), (None, " \t\n"), (2, "~x"), (1, "~@"), (2, "~module"), (1, "\n~\r"), (1, "~\xe4"), (2, " ~;"),
    # The cycles of a module are one token.
    (1, "~// cycles "), (1, "~// cycles 1"), (1, "~// cycles 01\n"), (1, "~// cycles 10000000\n"),
    (1, "~//cycles 1\n"),
    (1, "~// cycles  1\n"), (1, "~// cycles 1 \n"), (1, "~// cycles -1\n"), (1, "~//  cycles 1\n"), (1, "~// a\n"),
    (1, "~/ a"), (2, "// cycles 0\n~"), (2, "// cycles 9999999\n\n\t~"), (2, "// cycles 1\n~// cycles 1\n"),
    (1, "// cycles 1\n~// a comment\n"), (1, "// cycles 1\n~/* a comment */"), (2, "~cycles 1\n"),
    # The header.
    (9, "// cycles 1\nmodule ~ci_1("), (9, "// cycles 1\nmodule ~ci_00("), (9, "// cycles 1\nmodule ~cycles"),
    (9, "// cycles 1\nmodule ~" + NAME + "n"), (2, "// cycles 1\nmodule ~" + NAME + "nn"),
    (2, "// cycles 1\nmodule ~a("), (2, "// cycles 1\nmodule ~endmodule("), (1, "// cycles 1\nmodule ~_("),
    (2, "// cycles 1\nmodule ci_0(input [~30:0]"), (2, "// cycles 1\nmodule ci_0(input [~031:0]"),
    (2, "// cycles 1\nmodule ci_0(input [31:~1]"), (2, "// cycles 1\nmodule ci_0(input [31:0] ~b"),
    (2, "// cycles 1\nmodule ci_0(input [31:0] a, ~output"), (2, "// cycles 1\n~moduleci_0("),
    (2, "// cycles 1\nmodule ci_0(input[31:0]a,input[31:0]b,input[31:0]~cc"),
)
# Like these, behind the header of a module.
BODIES = (
    (3, "assign y = ~d;"), (3, "assign y = ~ci_0;"), (3, "assign y = ~d"), (3, "assign y = ~" + NAME + "n"),
    (2, "assign y = ~" + NAME + "nn"), (2, "assign y = ~y;"), (2, "assign y = ~module;"), (2, "assign y = ~3;"),
    (2, "~"), (2, "~assigny = a;"), (2, "assign ~z"), (2, "assign ~w"), (2, "assign ~a"), (2, "assign y ~;"),
    (2, "assign y = a; ~wire"), (2, "assign y = a; assign ~y = b;"), (2, "assign y = a; assign z = b; ~assign"),
    (2, "assign y = a; assign z = b;~"), (None, "assign y = a; assign z = b; endmodule"),
    (None, "assign y = a;assign z=b;endmodule\n\n\t "), (2, "assign y = a; assign z = b; endmodule ~x"),
    (2, "assign y = a; assign z = b; endmodule ~endmodule"), (1, "assign y = a; assign z = b; endmodule ~@"),
    (9, "assign y = a; assign z = b; endmodule// cycles 1\nmodule ~ci_0"),
    # Signs.
    (1, "assign y = a ~> b;"), (1, "assign y = a >> ~> b;"), (1, "assign y = a ~/ b;"), (1, "assign y = a~'h0;"),
    (2, "assign y = ~32'h;"), (2, "assign y = ~32 'h0;"), (1, "assign y = ~'h0;"), (1, "assign y = ~_a;"),
    (2, "assign y = a << ~<< b;"), (2, "assign y = a < ~< b;"), (2, "assign y = a + b ~+ c;"),
    (2, "assign y = a ~= b;"), (2, "assign y = ~- a;"), (2, "assign y = ~(a);"),
    # Wires.
    (6, "wire [~64:0] w;"), (6, "wire [~64 @"), (6, "wire [~9999999"), (2, "wire [~10000000:0] w;"), (2, "wire [~w"),
    (2, "wire [31:~1] w;"), (2, "wire [31:~64] w;"), (2, "wire [31:~00] w;"), (2, "wire ~w;"), (2, "wire [~00"),
    (2, "wire [0:0] ~a;"), (2, "wire [0:0] ~y;"), (2, "wire [0:0] ~wire;"), (2, "wire [0:0] ~" + NAME + "nn;"),
    (2, "wire [0:0] w; assign ~y = a"), (2, "wire [0:0] w; assign ~a = a"),
    (2, "wire [0:0] w; assign ~wire"), (7, "wire [0:0] w; assign ~v = a;"), (7, "wire [0:0] w; assign ~W"),
    (7, "wire [0:0] w; assign ~" + NAME + "n"), (2, "wire [0:0] w; assign ~" + NAME + "nn"),
    (2, "wire [0:0] w; ~wire"), (2, "wire [0:0] w~, v;"), (3, "wire [31:0] w; assign w = ~w;"),
    (3, "wire [31:0] w; assign w = ~v; wire"),
    (4, "wire [31:0] w; assign w = a; wire [0:0] ~w"), (4, "wire [31:0] w; assign w = a; wire [0:0] ~w; assign v"),
    (None, "wire [31:0] ci_0; assign ci_0 = a; wire [0:0] cycles; assign cycles = ci_0[31]; assign y = ci_0; "
           "assign z = {32{cycles}}; endmodule"),
    (None, f"wire [31:0] {NAME}n; assign {NAME}n = a; assign y = {NAME}n; assign z = a; endmodule"),
    (3, "wire [31:0] w; assign w = a; assign y = w; assign z = w; endmodule // cycles 1\n" + HEADER.format(
        cycles=1, number=1).split("\n")[1] + "assign y = ~w;"),
    # Bits of a name.
    (6, "assign y = a[~32];"), (6, "assign y = a[~32"), (6, "assign y = a[~32 @"), (6, "assign y = a[~32:0];"),
    (6, "assign y = a[4:~5];"), (6, "assign y = a[4:~32"), (2, "assign y = a[~00];"), (2, "assign y = a[~10000000];"),
    (2, "assign y = a[~b];"), (2, "assign y = a[4:~];"), (2, "assign y = a[4~}"), (2, "assign y = a[4:3~:"),
    (2, "assign y = 32'h1~[0];"), (2, "assign y = a[31:0]~[0];"),
    (None, "assign y = {a[3], a[3:3], b[29:0]}; assign z = a[31:0]; endmodule"),
    (6, "wire [4:0] w; assign w = 5'h0; assign y = w[~5"), (6, "wire [4:0] w; assign w = 5'h0; assign y = {w[4:~5"),
    # Constants.
    (5, "assign y = ~4'h10"), (5, "assign y = ~4'h10 + a"), (5, "assign y = ~32'h100000000;"),
    (5, "assign y = ~1'h2"),
    (2, "assign y = ~64'h00000000000000000;"), (2, "assign y = ~032'h0;"), (2, "assign y = ~10000000'h0;"),
    (6, "assign y = ~9999999'h0 + a;"), (2, "assign y = 32'h0 ~1"), (2, "assign y = 32'h0~g;"),
    (None, "assign y = 32'h00000000FFFFffff; assign z = 32'h0; endmodule"),
    (None, "wire [63:0] w; assign w = 64'hffffffffffffffff; assign y = w[63:32]; assign z = w[31:0]; endmodule"),
    # A constant of a width that isn't from 1 to 64, with what else may be wrong with it.
    (5, "assign y = ~65'h0;"), (6, "assign y = ~65'h0"), (6, "assign y = ~65'h0 "), (5, "assign y = ~65'h0 @"),
    (5, "assign y = ~65'h0 )"), (5, "assign y = ~65'h0 10000000"), (6, "assign y = ~65'h0 + 65'h0;"),
    (6, "assign y = ~65'h0 <"), (5, "assign y = ~65'h0 ?"), (5, "assign y = a + ~65'h0"),
    (5, "assign y = a < ~65'h0"),
    (6, "assign y = a << ~65'h0"), (6, "assign y = a >> ~0'h0;"), (5, "assign y = a[0] << ~65'h0"),
    (6, "assign y = a[0] ? ~65'h0 : a;"), (6, "assign y = a[0] ? ~65'h0 : 65'h0;"),
    (5, "assign y = a[0] ? a : ~65'h0"),
    (5, "assign y = ~0'h1"), (6, "assign y = ~0'h0"), (5, "assign y = ~0'h0;"), (6, "assign y = {~65'h0}"),
    (6, "assign y = {~0'h0, a}"), (5, "assign y = {~0'h1, a}"), (6, "assign y = {a, ~0'h0}"),
    (6, "assign y = {2{~0'h0}}"), (6, "assign y = {~65'h0"), (5, "assign y = {a, b, ~0'h1}"),
    (5, "assign y = {a, b, ~4'h10}"), (2, "assign y = {a, b, ~4'h00000000000000010}"),
    # A right side is complete where the next token or a bad byte shows it.
    (2, "assign y = a~"), (2, "assign y = a \n~"), (2, "assign y = 5'h0~"), (2, "assign y = a[3:0]~"),
    (2, "assign y = {a[3:0]}~"), (5, "assign y = ~5'h0;"), (5, "assign y = ~5'h0 5"), (5, "assign y = ~5'h0@"),
    (5, "assign y = a[3:0~];"), (5, "assign y = a[3:0~] @"), (5, "assign y = {a[3:0]~};"),
    (5, "assign y = {4{a[0]}~}'"),
    (1, "assign y = a ~@"), (2, "assign y = a ~10000000"), (2, "assign y = a ~b"), (1, "assign y = 32'h0~@"),
    (5, "wire [4:0] w; assign w = 5'h0; assign y = ~w;"), (2, "wire [4:0] w; assign w = 5'h0; assign y = w~"),
    (5, "wire [4:0] w; assign w = 5'h0; assign y = ~w @"), (5, "wire [4:0] w; assign w = 5'h0; assign y = ~w )"),
    (5, "wire [4:0] w; assign w = 5'h0; assign y = ~w " + NAME + "nn"),
    (2, "wire [6:0] w; assign w = {32'h0~"), (5, "wire [6:0] w; assign w = {32'h0~};"),
    (2, "wire [6:0] w; assign w = {32'h0}~"), (6, "wire [6:0] w; assign w = {32'h0, 32'h0, ~1'h0"),
    # Operands: the second one ends the right side.
    (5, "assign y = a + ~1'h0"), (5, "assign y = a + b[3:0~]"), (5, "assign y = a + {b[3:0]~}"),
    (2, "assign y = a +~"),
    (2, "assign y = a + b~"), (2, "assign y = a + b[3:0~"), (5, "assign y = 5'h0 + ~5'h0"),
    (5, "assign y = a[3:0] - ~5'h0"), (5, "assign y = a[3:0] & ~b;"), (2, "assign y = a[3:0] & b~"),
    (5, "assign y = a[3:0] & ~b @"), (5, "assign y = a[3:0] & ~b )"), (5, "assign y = a < ~b;"),
    (2, "assign y = a < b~"),
    (5, "assign y = a[0] < b[0~]"), (5, "assign y = a < b[0~]"), (5, "assign y = 1'h0 << ~a;"),
    (2, "assign y = 1'h0 << a~"), (5, "assign y = a[3:0] >> b[3~]"), (2, "assign y = a << b[3]~"),
    (5, "wire [4:0] w; assign w = 5'h0; assign y = a | ~w;"), (2, "wire [4:0] w; assign w = 5'h0; assign y = a | w~"),
    (5, "wire [4:0] w; assign w = 5'h0; assign y = a | ~w ? a"), (2, "assign y = a | b ~? a"),
    (None, "wire [0:0] w; assign w = a < b; assign y = a << {32{w}}; assign z = 32'h1 >> 64'h20; endmodule"),
    # Choices.
    (5, "assign y = ~a ? b : c;"), (5, "assign y = ~a ?"), (5, "assign y = ~2'h0 ? b"), (5, "assign y = a[1:0~] ?"),
    (5, "assign y = {a[1:0]~} ?"), (2, "assign y = a[0] ?~"), (2, "assign y = a[0] ? a~"),
    (2, "assign y = a[0] ? a ~;"),
    (2, "assign y = a[0] ? a ~+"), (2, "assign y = a[0] ? 5'h0 ~;"), (5, "assign y = a[0] ? 5'h0 : ~5'h0"),
    (5, "assign y = a[0] ? 5'h0 : ~a;"), (2, "assign y = a[0] ? 5'h0 : a~"), (5, "assign y = a[0] ? a : ~5'h0"),
    (5, "assign y = a[0] ? a : b[3:0~]"), (5, "assign y = a[0] ? a : {b[3:0]~}"), (2, "assign y = a[0] ? a : b~"),
    (5, "assign y = a[0] ? a[3:0] : ~b @"), (2, "assign y = a[0] ? a : b ~? a : b;"), (2, "assign y = a[0] ? a : ~:"),
    (5, "wire [4:0] w; assign w = 5'h0; assign y = ~w ? a"), (2, "wire [4:0] w; assign w = 5'h0; assign y = w~"),
    # Concatenations and repetitions.
    (2, "assign y = {~}"), (2, "assign y = {a~"), (2, "assign y = {a, ~}"), (2, "assign y = {a ~;"),
    (2, "assign y = {{~a}}"), (2, "assign y = {a, {~b}}"), (2, "assign y = {a ~+ b}"),
    (2, "assign y = {2 ~}"), (2, "assign y = {2{a} ~;"), (2, "assign y = {2{a~, b}}"), (2, "assign y = {2{~{a}}}"),
    (2, "assign y = {{2{a~"), (2, "assign y = {{2{a[0]}}~"), (2, "assign y = {2{a[0]~"), (2, "assign y = {2{a[0]}~"),
    (6, "assign y = {a, b, ~c}"), (6, "assign y = {a, b, ~c, c}"), (2, "assign y = {a, b, c~"),
    (6, "assign y = {a, b, ~1'h0"), (6, "assign y = {a, b, c[0~]"), (2, "assign y = {a, b, c[0~"),
    (6, "assign y = {a, b, ~c @"), (6, "assign y = {a, b, ~c )"), (2, "assign y = {a, b, c [~y"),
    (6, "assign y = {3{~a}}"), (6, "assign y = {3{~a )"), (2, "assign y = {3{a~"), (6, "assign y = {33{~2'h0"),
    (6, "assign y = {33{a[1:0~]"), (6, "assign y = {~0{a}}"), (6, "assign y = {~65{a[0]}}"), (6, "assign y = {~65"),
    (2, "assign y = {~00{a}}"), (2, "assign y = {~10000000{a}}"), (6, "assign y = {a, {~0{a}}}"),
    (6, "assign y = {a, {2{~b}}}"), (6, "assign y = {a, {3{b[10:0~]}}}"), (6, "assign y = {{2{a}}, b[0~]"),
    (6, "assign y = {{3{~a}}}"), (5, "assign y = {2{a}~};"), (5, "assign y = {a, b~};"),
    (None, "wire [63:0] w; assign w = {64{1'h1}}; wire [63:0] v; assign v = {a, {2{b[15:0]}}}; "
           "assign y = {{16{w[3]}}, v[15:0]}; assign z = {1{c}}; endmodule"),
)
# Like these, behind the first three inputs.
PORTS = (
    (2, "~"), (2, "~in"), (2, "input~"), (2, "output~"), (2, "~wire"), (1, "~@"), (2, "~d"), (2, "input [~30:0] d"),
    (2, "input [31:0] d~"), (2, "input [31:0] ~e"), (2, "input [31:0] d,~"), (2, "input [31:0] d, ~output"),
    (2, "input [31:0] d, input [31:0] ~d"), (2, "input [31:0] d, input [31:0] e, output [31:0] y, output [31:0] z~)"),
    (2, "input [31:0] d, input [31:0] e, output [31:0] y, output [31:0] z, output [31:0] ~w"),
    (2, "input [31:0] d, input [31:0] e, output [31:0] y, output [31:0] z, ~input"),
    (2, "output [31:0] y, output [31:0] z~, output [31:0] x);"), (2, "output [31:0] y, ~input"),
    (2, "input [31:0] ~dd"),
    (2, "input [31:0] d, input [31:0] e, output [31:0] y, output [31:0] z, output [31:0] x~,"),
)
# Behind the header of a wide module.
WIDE_BODIES = (
    (None, "assign y = a; assign z = b; assign x = c; endmodule"),
    (None, "assign y = d; assign z = d ^ e; assign x = {d[31:16], e[15:0]}; endmodule"),
    (2, "assign y = a; assign z = b; ~endmodule"), (2, "assign y = a; assign ~x = b;"),
    (2, "assign y = a; assign z = b; assign ~z = c;"), (5, "assign y = a; assign z = b; assign x = ~31'h0;"),
    (2, "assign y = a; assign z = b; assign x = 32'h0~"),
    (5, "assign y = a; assign z = b; assign x = ~33'h1ffffffff;"), (2, "assign y = a; assign z = b; assign ~d = a;"),
    (2, "assign ~x = a;"), (2, "assign y = a; assign z = b; assign x = c; ~assign"), (2, "assign y = ~x;"),
    (2, "assign y = ~x"), (2, "assign y = ~y;"), (3, "assign y = ~w;"), (2, "assign y = {2{~x"),
    (2, "assign y = a + ~x[0];"), (2, "assign y = d + e~"), (2, "wire [31:0] ~d"), (2, "wire [31:0] ~e;"),
    (2, "wire [31:0] ~x;"), (2, "wire [31:0] ~a"),
    (None, "wire [31:0] dx; assign dx = e; assign y = a; assign z = b; assign x = c; endmodule"),
    (None, "wire [0:0] xx; assign xx = d < e; assign y = a; assign z = b; assign x = c; endmodule"),
    (2, "wire [31:0] w; assign ~x = a;"), (2, "wire [31:0] w; assign ~d = a;"), (2, "wire [31:0] w; assign ~e = a;"),
    (7, "wire [31:0] w; assign ~v = a;"), (2, "wire [31:0] w; assign ~y = a;"),
    (4, "wire [31:0] w; assign w = e; wire [31:0] ~w;"),
    (None, "wire [7:0] w; assign w = e[7:0]; assign y = {w, w, d[15:0]}; assign z = e >> w; assign x = {4{w}}; "
           "endmodule"),
    (6, "assign y = d[~32];"), (6, "assign y = e[3:~4];"), (6, "assign y = {d, e, ~1'h0};"),
)
# Behind the header of a narrow one, in which d, e and x are names.
NARROW_BODIES = (
    (None, "assign y = a; assign z = b; endmodule"), (2, "assign y = a; assign z = b; ~assign x = c; endmodule"),
    (3, "assign y = ~x;"), (3, "assign y = ~d;"), (3, "assign y = ~e;"),
    (None, "wire [31:0] d; assign d = a; wire [31:0] e; assign e = d; wire [31:0] x; assign x = e; assign y = x; "
           "assign z = d; endmodule"),
    (4, "wire [31:0] d; assign d = a; wire [31:0] ~d;"), (7, "wire [31:0] x; assign ~d = a;"),
    (7, "wire [31:0] w; assign ~x = a;"), (7, "wire [31:0] w; assign ~d = a;"),
)
# Behind the header of a second module, with whether the first is wide, and whether this one is.
SECOND_BODIES = (
    (True, False, 3, "assign y = ~d;"), (True, False, 3, "assign y = ~x;"),
    (True, False, None, "wire [31:0] d; assign d = a; assign y = d; assign z = d; endmodule"),
    (False, True, None, "assign y = d; assign z = e; assign x = a; endmodule"), (False, True, 2, "assign y = ~x"),
    (True, True, 2, "wire [31:0] ~x"), (True, False, 2, "wire [31:0] x~"),
)
# The headers of modules, and what may stand behind them.
HEAD, WIDE_HEAD = (header.format(cycles=1, number=0) for header in (HEADER, WIDE_HEADER))
INPUTS_HEAD = HEAD[:HEAD.index("output")]
REST = "assign y = a;\nassign z = a;\nendmodule\n"
WIDE_REST = REST.replace("endmodule", "assign x = a;\nendmodule")


def rows():
    """Texts with their first faults: a kind and an offset, or None."""
    due = [(kind, text) for kind, text in TEXTS] + [(kind, HEAD + body) for kind, body in BODIES + NARROW_BODIES]
    due += [(kind, INPUTS_HEAD + ports) for kind, ports in PORTS]
    due += [(kind, WIDE_HEAD + body) for kind, body in WIDE_BODIES]
    due += [(kind, (WIDE_HEAD + WIDE_REST if first else HEAD + REST)
             + (WIDE_HEADER if wide else HEADER).format(cycles=1, number=1) + body)
            for first, wide, kind, body in SECOND_BODIES]
    due += [(9, WIDE_HEAD + WIDE_REST + "// cycles 1\nmodule ~ci_0("), (9, "// cycles 1\nmodule ~d("),
            (9, "// cycles 1\nmodule ~x"), (2, "~d")]
    due += [(None, widened(many_wires(2048))), (8, marked(widened(many_wires(2049)), "wire [31:0] n2048"))]
    due += [(None, many_wires(2048)), (8, marked(many_wires(2049), "wire [31:0] n2048")),
            (4, marked(many_wires(2049).replace("n2048", "n2047"), "wire [31:0] n2047", 1)),
            (2, marked(many_wires(2049).replace("n2048", "a"), "wire [31:0] a")),
            (None, many_modules(32)), (9, marked(many_modules(33), "module ci_32")), (2, many_modules(32)
             + "// cycles 1\nmodule~"), (9, many_modules(32) + "// cycles 1\nmodule ~d")]
    for kind, text in due:
        yield text.replace(MARK, "", 1).encode("latin-1"), kind and (kind, text.index(MARK))


def widened(text):
    """The module of a text, as a wide one."""
    return text.replace(HEAD, WIDE_HEAD).replace("endmodule", "assign x = e;\nendmodule")


def marked(text, part, number=0):
    """A text with a mark before the last word of such a part, of the first one or of a later one."""
    place = -1
    for _ in range(number + 1):
        place = text.index(part, place + 1)
    place += part.rindex(" ") + 1
    return text[:place] + MARK + text[place:]
