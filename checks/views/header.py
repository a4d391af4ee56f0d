"""Tries the headers that `views/header` writes: by GCC, and by runs of `rumtsafi run --units`.

For the units of a sample, by the usual limits on inputs and outputs and by the greatest ones, a program calls each
macro on corner values and random words and writes what it gives, which has to be what `eval` prints. UNITS may have any
name. The lines of objdump of the new program have to have each word of a unit, a `cread` and a `cput` as the program's
own disassembly has it. A text that is no units is refused, and so are units that `find` doesn't write; wrong calls end
with the usage and status 2.
"""
import json
import os
import random
import re
import struct
import subprocess

from checks.common import SAMPLES
from checks.tools import compiled
from checks.views import viewing
from readers.corners import vectors
from readers.templates import HEADER

# A unit of one's own, as the tutorial has it.
OWN = HEADER.format(cycles=1, number=0) + "assign y = b;\nassign z = a;\nendmodule\n"
SAMPLE, VECTORS = os.path.join(SAMPLES, "sha256.elf"), 3
OBJDUMP = "riscv64-unknown-elf-objdump"


def program(units, given):
    """The program that calls each unit on words."""
    lines = []
    for unit in units:
        further = [f"&{name}" for name in unit["results"][1:]]
        for row in given:
            words = [f"0x{row['abcde'.index(letter)]:08x}u" for letter in unit["inputs"]]
            lines.append(f"    y = ci_{unit['number']}({', '.join(words + further)}); put(y, z, x);")
    body = "\n".join(lines)
    return ('#include "start.h"\n#include "units.h"\nstatic void put(unsigned y, unsigned z, unsigned x)\n{\n'
            "    unsigned words[3] = {y, z, x};\n    write_bytes((unsigned char *)words, sizeof words);\n}\n"
            f"void run(void)\n{{\n    unsigned y, z = 0, x = 0;\n{body}\n    leave(0);\n}}\n")


def compare_macros(views, name):
    """What the macros of a choice give is what its units do."""
    units_path = os.path.join(name, "units.v")
    views.need(views.works("header", units_path, "--header", "units.h") == "units.h\n", "the name of the header")
    units = json.loads(views.works("header", units_path, "--json"))
    source = random.Random(1)
    given = source.sample(vectors(source), VECTORS)
    views.write("calls.c", program(units, given))
    warnings = "-Wall", "-Wextra", "-Werror"
    subprocess.run([compiled.GCC, *compiled.TARGET[:3], "-O2", *warnings, "-nostdlib", "-I", SAMPLES, "calls.c", "-lgcc",
                    "-o", "calls.elf"], cwd=views.folder, check=True)
    printed = views.call("run", "calls.elf", "--units", units_path).stdout
    views.need(printed.endswith(b"\n") and b"end exit 00000000" in printed, f"{name}: the run ends {printed[-60:]}")
    rows = struct.iter_unpack("<3I", printed[:printed.rindex(b"end ")])
    for unit in units:
        for vector in given:
            found = dict(zip("yzx", next(rows)))
            a, b, c, d, e = (f"0x{word:x}" for word in vector)
            due = views.told("eval", units_path, str(unit["number"]), a, b, c, "--d", d, "--e", e).split()
            due = {letter: int(word, 16) for letter, word in zip("yzx", due) if letter in unit["results"]}
            views.same(f"{name}: unit {unit['number']} of {vector}", {letter: found[letter] for letter in due}, due)


def compare_listing(views, name):
    """The lines of objdump have the words of units read."""
    shown = views.works("header", os.path.join(name, "units.v"), os.path.join(name, "new.elf"))
    plain = subprocess.run([OBJDUMP, "-d", "-M", "numeric,no-aliases", views.path(name, "new.elf")],
                           stdout=subprocess.PIPE, text=True, check=True).stdout
    views.same(f"{name}: the number of lines", shown.count("\n"), plain.count("\n"))
    report = views.read(os.path.join(name, "report.txt")).decode()
    for word in re.findall(r"^cut .* word (\w{8})$", report, re.M):
        views.need(re.search(rf"\t{word} +\tci \d+.*# .*y = ", shown), f"{name}: no line of {word}")
    views.need("\t.insn" not in shown and "cread" in shown, f"{name}: words are left")


def look(views):
    """Looks at the headers of a sample's units."""
    for name, options in (("usual", ()), ("greatest", viewing.GREATEST)):
        views.choose(name, SAMPLE, *options)
        before = views.hashes(os.path.join(name, "units.v"), os.path.join(name, "new.elf"))
        compare_macros(views, name)
        compare_listing(views, name)
        views.need(views.hashes(*before) == before, "an input was changed")
    views.write("3 größer.v", views.read("usual/units.v"))
    views.need(views.works("header", "3 größer.v") == "3 größer.h\n", "another name")
    subprocess.run([compiled.GCC, *compiled.TARGET[:3], "-Wall", "-Werror", "-fsyntax-only", "3 größer.h"],
                   cwd=views.folder, check=True)
    views.write("none.v", "module")
    views.refuses("header", "none.v")
    views.refuses("header", "usual/units.v", "none.v")
    for text in (OWN, views.read("usual/units.v").decode().rstrip()):
        views.write("own.v", text)
        status, printed, said = views.look("header", "own.v")
        views.need(status == 1 and not printed and said.count("\n") == 1 and not os.path.exists(views.path("own.h")),
                   f"units that find doesn't write: {status} {printed} {said}")
    views.wrong("header", (), ("usual/units.v", "--header", "usual/units.v"), ("a", "b", "c"))


viewing.check(__doc__, look, "views/header", {compiled.GCC: "gcc-riscv64-unknown-elf",
                                               OBJDUMP: "binutils-riscv64-unknown-elf"})
