"""Runs programs by `views/core` on the core of samples/core/, and compares them with `rumtsafi run` and with QEMU.

Fourteen programs are those of samples/ and some of checks/programs, which GCC compiles. `find` chooses instructions for
each by a run on one input, by ports from the least to the greatest. Units of all these choices are put into one text,
and unit words get their numbers there, so that one core has them all. Then each old program and each new one runs on
that core on another input: the output, the end, the steps and the cycles have to be those of `run`, and the output and
the end those of qemu-riscv32, where it is there and the old program exits. So it is by the usual latencies, and, for a
number of steps, by a table that has another one for each class.

A program of `load` and a sample run by the very files of their choices, by Icarus, and there is a wave of the new one;
and so does one with no-ops in front of what takes its own address, which changes its text, and one that ends illegal.
Another new program, and a core that was changed, are noticed. Icarus, Verilator and Yosys read the core.
"""
import json
import os
import random
import re
import shutil
import subprocess
from collections import namedtuple

from checks.common import SAMPLES, TOP, called, read
from checks.oracles import generated
from checks.tools import compiled
from checks.tools.profiles import QEMU
from checks.tools.simulation import ELABORATION, ICARUS, UNAVOIDABLE, VERILATOR, YOSYS
from checks.views import viewing
from readers import executable
from readers.folds import is_unit

PROGRAMS = ("access", "cipher", "corners", "count", "divide", "hash", "jump_table", "matrix", "memory", "multiply",
            "sort", "trap")
PORTS = (3, 2), (5, 3), (2, 1), (4, 2)
COUNT, STEPS, SEED = 2, "20000", 5
CORE = os.path.join(SAMPLES, "core")
MODULE = re.compile(r"^// cycles (\d+)\nmodule ci_(\d+)(.*?^endmodule\n)", re.M | re.S)
# Another latency for each class, and for what stands between a cut's word and its outputs.
LATENCIES = {"add": 2, "logic": 4, "shift": 3, "shift_const": 5, "compare": 6, "lui": 7, "mul": 8, "mulh": 9, "load": 1,
             "store": 10, "branch": 11, "jump": 12, "auipc": 13, "div": 37, "fence": 15, "system": 16}
TABLE = "read = 4\npad = 2\n[software]\n" + "".join(f"{name} = {cycles}\n" for name, cycles in LATENCIES.items())
# What a changed core has in the place of what stands there, and by how many steps that is to be noticed.
CHANGES = (("rs1 ^ operand", "rs1 | operand", "7000"), ("cycles = LOAD", "cycles = STORE", "500"),
           ("rs3 = x[word[31:27]]", "rs3 = rs2", "7000"))
# No-ops in front of instructions that take their own address, and a store into the next instruction.
PLACES = """#include "start.h"

void run(void)
{
    unsigned from, to, changed;
    __asm__ volatile("nop; nop; auipc %0, 0; nop; jal %1, 1f; nop; 1: nop; nop; beq x0, x0, 2f; nop; 2: la t0, 4f;"
                     "lw t1, 0(t0); la t0, 3f; sw t1, 0(t0); 3: li %2, 1; j 5f; 4: li %2, 2; 5:"
                     : "=&r"(from), "=&r"(to), "=&r"(changed) : : "t0", "t1", "memory");
    leave((to - from) * 16 + changed);
}
"""
# The files of a choice as they are.
Files = namedtuple("Files", "name old new")


class Program:
    """A program and what was chosen for it, with its units at other numbers."""

    def __init__(self, views, name, path, ports, first):
        self.name, self.old, self.first = name, path, first
        self.new = views.path(f"{name}.new")
        views.told("find", path, self.new, "units", "logs", "report", "--count", str(COUNT), "--in", str(ports[0]),
                   "--out", str(ports[1]), "--input", "profiled", "--steps", STEPS)
        self.modules = [f"// cycles {cycles}\nmodule ci_{first + int(number)}{rest}"
                        for cycles, number, rest in MODULE.findall(views.read("units").decode())]
        data = bytearray(read(self.new))
        renumber(data, first)
        views.write(self.new, bytes(data))


def renumber(data, first):
    """Adds to the number in each unit word of an executable."""
    _, headers, sections = executable.read_header(data)
    text = executable.read_text(data, headers, sections, executable.read_segments(data, headers))
    for address, offset, size in text:
        for at in range(offset + -address % 4, offset + size - 3, 4):
            word = int.from_bytes(data[at:at + 4], "little")
            if is_unit(word):
                number = (word >> 25 & 3) * 8 + (word >> 12 & 7) + first
                word = word & ~(3 << 25 | 7 << 12) | number // 8 << 25 | number % 8 << 12
                data[at:at + 4] = word.to_bytes(4, "little")


def programs_of(views):
    """The programs, and the text of all their units."""
    found, modules = [], []
    paths = [(os.path.splitext(name)[0], path) for name, path in compiled.samples()]
    for name in PROGRAMS:
        paths.append((name, views.path(f"{name}.elf")))
        subprocess.run([compiled.GCC, *compiled.TARGET, "-O2", os.path.join(compiled.PROGRAMS, f"{name}.c"),
                        compiled.SUPPORT, "-o", paths[-1][1]], check=True)
    for number, (name, path) in enumerate(paths):
        found.append(Program(views, name, path, PORTS[number % len(PORTS)], len(modules)))
        modules += found[-1].modules
    views.write("all.v", "".join(modules))
    views.least({"units": len(modules)}, 2 * len(paths) - 6)
    return found


def due(views, program, units, *words):
    """What the view has to print, by two runs, and the output and end of the old one."""
    old = views.call("run", program.old, *words).stdout
    new = views.call("run", program.new, "--units", units, *words).stdout
    start, second = old.rindex(b"end "), new.rindex(b"end ")
    views.need(old[:start] == new[:second] and old[start:].split()[:-2] == new[second:].split()[:-2],
               f"{program.name}: {old[start:]} and {new[second:]} by `run`")
    return old[:start] + b"old " + old[start:] + b"new " + new[second:], old[:start], old[start:].split()


def compare_qemu(views, program, given, output, end):
    """The output and the code of a program that exits are those of QEMU. Gives whether it exits."""
    if end[1] == b"exit" and shutil.which(QEMU):
        with open(views.path(given), "rb") as file:
            done = called([QEMU, program.old], stdin=file, stderr=subprocess.STDOUT)
        views.same(f"{program.name} by {QEMU}", (done.stdout, done.returncode), (output, int(end[2], 16) & 255))
    return end[1] == b"exit"


def compare(views, program, units, words, others=()):
    """Runs a program on the core, by words that `run` takes too, and by others."""
    printed, output, end = due(views, program, units, *words)
    ours = views.works("core", program.old, program.new, units, "--folder", "cores", *words, *others)
    views.need(ours.encode() == printed,
               f"{program.name} {' '.join(words)}: {ours[-200:]!r} and not {printed[-200:]!r}")
    return output, end


def compare_files(views):
    """Runs the very files of two choices by Icarus, and looks at the wave; another new program is noticed."""
    views.write("generated.elf", generated.program(SEED))
    for name, path, words in (("sample", os.path.join(SAMPLES, "sha256.elf"), ("--steps", "3000")),
                              ("generated", views.path("generated.elf"), ("--steps", "3000"))):
        views.told("find", path, f"{name}.new", f"{name}.v", "logs", "report")
        compare(views, Files(name, path, f"{name}.new"), f"{name}.v", words,
                ("--simulator", "icarus", "--vcd", f"{name}.vcd"))
        wave = views.read(f"{name}.vcd").decode()
        views.need("$enddefinitions" in wave and all(f" {signal} " in wave for signal in ("pc", "is_own", "unit0")),
                   f"the wave of {name}")
    status, _, said = views.look("core", "trap.elf", "sample.new", "sample.v", "--simulator", "icarus", "--steps",
                                 "1000")
    views.need(status == 1 and "OLD and NEW" in said, f"another new program: {status} {said}")


def compare_plain(views):
    """Runs, by Icarus, two programs that nothing is chosen for: PLACES, and one that ends by a word without a unit."""
    illegal = os.path.join(compiled.PROGRAMS, "illegal.c")
    views.write("none.v", "")
    for name, words in (("places", ["-nostdlib", "-I", SAMPLES, views.write("places.c", PLACES), "-lgcc"]),
                        ("illegal", [illegal, compiled.SUPPORT])):
        path = views.path(f"{name}.elf")
        subprocess.run([compiled.GCC, *(compiled.TARGET if name == "illegal" else compiled.TARGET[:3]), "-O2", *words,
                        "-o", path], check=True)
        _, end = compare(views, Files(name, path, path), "none.v", (), ("--simulator", "icarus"))
        due_end = [b"exit", b"000000c2"] if name == "places" else [b"illegal", b"0000300b"]
        views.same(f"how {name} ends", end[1:3], due_end)


def compare_changed(views):
    """A core that was changed is noticed, as the view builds one from a copy of samples/."""
    top = views.path("copy")
    for part in ("views", "readers", "samples", "docs", "script"):
        shutil.copytree(os.path.join(TOP, part), os.path.join(top, part))
    path = os.path.join(top, "samples", "core", "core.v")
    text = read(path).decode()
    for old, new, steps in CHANGES:
        views.need(text.count(old) == 1, f"core.v has not one '{old}'")
        with open(path, "w", encoding="utf-8") as file:
            file.write(text.replace(old, new))
        done = called([os.path.join(top, "views", "core"), os.path.join(SAMPLES, "sha256.elf"), "sample.new",
                       "sample.v", "--simulator", "icarus", "--steps", steps], cwd=views.folder, env=views.environment,
                      stderr=subprocess.STDOUT, text=True, errors="replace")
        views.need(done.returncode == 1 and "the core" in done.stdout, f"'{new}': {done.stdout[-300:]}")


def read_by_tools(views):
    """Each tool reads the core with a port, and says nothing."""
    views.write("port.v", views.works("port", "sample.v"))
    files = os.path.join(CORE, "core.v"), "port.v", "sample.v"
    for words in ((ICARUS, "-g2005", "-Wall", "-Wno-timescale", "-s", "core", "-o", "read", *files),
                  (VERILATOR, "--lint-only", "-Wall", "--top-module", "core",
                   *(f"-Wno-{name}" for name in UNAVOIDABLE), *files),
                  (YOSYS, "-q", "-p", f"read_verilog {' '.join(files)}; hierarchy -top core; {ELABORATION}")):
        done = called(words, cwd=views.folder, text=True, stderr=subprocess.STDOUT)
        views.need(done.returncode == 0 and not done.stdout, f"{words[0]} says {done.stdout[:400]}")


def look(views):
    """Looks at the programs on the core."""
    source = random.Random(SEED)
    views.write("profiled", bytes(source.choice(b"etaoin shrdlu\n") for _ in range(300)))
    views.write("other", bytes(source.choice(b"\0Rumtsafi, 0 to 255.\n\xff") for _ in range(700)))
    views.write("table.toml", TABLE)
    exits = 0
    for program in programs_of(views):
        output, end = compare(views, program, "all.v", ("--input", "other"))
        exits += compare_qemu(views, program, "other", output, end)
        compare(views, program, "all.v", ("--input", "other", "--steps", STEPS, "--table", "table.toml"))
    views.least({"programs that exit": exits}, 8)
    compare_files(views)
    compare_plain(views)
    compare_changed(views)
    read_by_tools(views)
    sample = os.path.join(SAMPLES, "sha256.elf")
    found = json.loads(views.works("core", sample, "sample.new", "sample.v", "--simulator", "icarus", "--steps", "99",
                                   "--json"))
    views.same("the JSON", [found[name]["steps"] for name in ("old", "new")], [99, 99])
    views.refuses("core", os.path.join(TOP, "README.md"), "sample.new", "sample.v")
    views.refuses("core", sample, "sample.new", "missing.v")
    views.wrong("core", (), (sample,), (sample, "sample.new", "sample.v", "--steps", "0"),
                (sample, "sample.new", "sample.v", "--fetch", "0"), (sample, "sample.new", "sample.v", "--vcd", sample))


viewing.check(__doc__, look, "views/core", {ICARUS: ICARUS, VERILATOR: VERILATOR, YOSYS: YOSYS, "g++": "g++",
                                            compiled.GCC: "gcc-riscv64-unknown-elf"})
