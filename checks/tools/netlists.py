"""Netlists as Verilog, which Yosys proves equal to the modules that they are of, and which Icarus Verilog simulates."""
import re
from collections import namedtuple

from checks.oracles.netlists import RESULTS
from checks.tools.simulation import YOSYS, Texts, told
from readers.templates import HEADER, WIDE_HEADER

SIGNS = {b"and": "&", b"or": "|", b"xor": "^"}
WHOLE, GATES = "whole", "gates"
# Yosys ends with a status above 0 where it finds inputs at which the results differ.
PROOF = (f"read_verilog {{path}}; proc; opt_clean; miter -equiv -flatten {WHOLE} {GATES} both; "
         "sat -verify -prove trigger 0 both")

# The text of one module, the module, and its netlist.
Pair = namedtuple("Pair", "text module net")


def bit(spelt):
    """A bit of a netlist in Verilog."""
    letter, number = spelt[:1].decode(), spelt[1:].decode()
    return f"1'b{letter}" if not number else f"g{number}" if letter == "g" else f"{letter}[{number}]"


def verilog(name, module, net):
    """A netlist as a module of this name with the ports of the one that it is of."""
    header = (WIDE_HEADER if module.wide else HEADER).format(cycles=1, number=0)
    lines = [f"wire g{place} = {bit(left)} {SIGNS[operator]} {bit(right)};\n"
             for place, (operator, left, right) in enumerate(net.gates)]
    lines += (f"assign {letter} = {{{', '.join(map(bit, net.outputs[32 * place:32 * place + 32][::-1]))}}};\n"
              for place, letter in enumerate(RESULTS if module.wide else RESULTS[:2]))
    return header.replace("module ci_0", f"module {name}") + "".join(lines) + "endmodule\n"


def proof(check, pair):
    """What Yosys says, and its status, which is 0 where it proves that the netlist gives what the module does."""
    text = re.sub(r"\bmodule(\s+)ci_0", rf"module\1{WHOLE}", pair.text)
    path = check.write("pair.v", text + verilog(GATES, pair.module, pair.net))
    return told([YOSYS, "-q", "-p", PROOF.format(path=path)])


def simulate(check, pairs, vectors):
    """Icarus runs the netlists on all vectors, which have to give what the modules do."""
    texts = Texts(check, "netlists", vectors)
    for pair in pairs:
        texts.add(pair.text)
    check.write(texts.path, "".join(verilog(f"t{number}_ci_0", pair.module, pair.net)
                                    for number, pair in enumerate(pairs)))
    texts.simulate()
