"""Compares where `views/leaders` finds that jump tables of differences lead with the labels of which GCC made them, and
runs programs with these leaders.

The guide's program with a jump table, one with several switches, one of them inside another, and generated ones with
more variables than registers are compiled by the flags that make such tables, by several levels, and stripped. Exactly
the labels of the tables have to be named. NEW, made with these leaders over a run that takes few of the ways, has to do
what OLD does on inputs that take all; without them it doesn't at least once. Programs whose tables have addresses have
none. Jumps to labels as values and into a row of instructions are told.
"""
import json
import os
import random
import re
import subprocess

from checks.common import SAMPLES, text_of
from checks.tools import compiled
from checks.views import viewing

FLAGS, LEVELS = ("-mcmodel=medany", "-fPIC", "-fpie"), ("-O0", "-O1", "-O2", "-O3", "-Os")
NM, STRIP = "riscv64-unknown-elf-nm", "riscv64-unknown-elf-strip"
INPUTS = "00000", "01234", "43210", "56789", "5505152", "8765:;<=>?", "6162636465"
SWITCHES = """#include "start.h"
static unsigned char in[4096];
static __attribute__((noinline)) unsigned step(unsigned kind, unsigned s)
{
    switch (kind) {
    case 0: s = (s ^ 0x55) + 3;
    case 1: s = (s << 3 ^ s) + 7;
    case 2: s = (s >> 2) - (s << 1);
    case 3: s = (s + 12345) ^ s << 7;
    case 4: s = s * 5 + 1;
    }
    return s;
}
void run(void)
{
    int count = read_bytes(in, sizeof in);
    unsigned s = 1, t = 2;
    for (int i = 0; i < count; i++) {
        switch (in[i] - '0') {
        case 0: s = (s ^ 0x55) + 3;
        case 1: s = (s << 3 ^ s) + 7;
        case 2: s = (s >> 2) - (s << 1); break;
        case 3: leave(s);
        case 4: s = s * 5 + 1;
        case 5:
            switch (s & 7) {
            case 0: t = (t ^ 0x55) + 3;
            case 1: t = (t << 3 ^ t) + 7;
            case 2: t = (t >> 2) - (t << 1);
            case 3: t = (t + 12345) ^ t << 7;
            case 4: t = t * 5 + 1;
            case 5: t = (t << 2) + (s ^ 9);
            case 6: t = (t ^ s << 3) + 1;
            case 7: t = (t << 5) - (s >> 3);
            }
            break;
        case 6: s += step(t & 7, s);
        case 7: t = (t ^ s) + (t << 2);
        case 8: t = (t >> 3) + (s << 3);
        }
    }
    leave(s ^ t);
}
"""
LABELS = """#include "start.h"
void run(void)
{
    static const int ways[] = {&&zero - &&zero, &&one - &&zero, &&two - &&zero, &&three - &&zero, &&end - &&zero};
    static unsigned char in[4096];
    in[read_bytes(in, sizeof in - 1)] = '4';
    unsigned s = 1;
    const unsigned char *at = in;
#define NEXT goto *(&&zero + ways[*at++ % 5])
    NEXT;
zero: s = (s ^ 0x55) + 3; NEXT;
one: s = (s << 3 ^ s) + 7;
two: s = (s >> 2) - (s << 1); NEXT;
three: s = (s + 12345) ^ s << 7; NEXT;
end: leave(s);
}
"""
# A jump into a row of instructions, as a loop that is unrolled by hand has it.
ROW = """.globl _start
_start: lla t1, 1f
    andi a0, a0, 12
    add t1, t1, a0
    jr t1
1:  addi a1, a1, 1
    addi a1, a1, 1
    addi a1, a1, 1
    addi a1, a1, 1
    li a7, 93
    ecall
"""


def generated(seed):
    """A program with nested switches in loops, and more variables than registers."""
    source, names = random.Random(seed), [f"v{number}" for number in range(24)]

    def statement(depth):
        one, other, kind = source.choice(names), source.choice(names), source.random()
        if depth and kind < 0.3:
            cases = "\n".join(f"case {number}: {statement(depth - 1)} {source.choice(('break;', ''))}"
                              for number in range(source.randrange(5, 12)))
            return f"switch ({one} & 15) {{ {cases} }}"
        if depth and kind < 0.5:
            return (f"for (unsigned n{depth} = {one} & 3; n{depth}; n{depth}--) {{ {statement(depth - 1)} "
                    f"{statement(depth - 1)} }}")
        return f"{one} = ({other} << {source.randrange(1, 9)} ^ {one}) + {source.choice(names)};"

    body = "\n".join(statement(3) for _ in range(20))
    start = ", ".join(f"{name} = in[{number}]" for number, name in enumerate(names))
    return ('#include "start.h"\nstatic unsigned char in[4096];\n'
            f"void run(void)\n{{\n    int count = read_bytes(in, sizeof in);\n    unsigned {start};\n"
            f"    while (count--) {{\n{body}\n    }}\n    leave({' ^ '.join(names)});\n}}\n")


def build(views, name, source, *words):
    """Compiles a program without its symbols, and gives the addresses of the labels in tables of differences."""
    gcc = [compiled.GCC, *compiled.TARGET[:3], "-nostdlib", "-I", SAMPLES]
    subprocess.run([*gcc, *words, "-w", "-S", views.write(f"{name}.c", source), "-o", views.path(f"{name}.s")],
                   check=True)
    text = views.read(f"{name}.s").decode()
    # The assembler keeps labels with other names.
    views.write(f"{name}.s", re.sub(r"\.L(\d)", r"L_\1", text))
    path = views.path(f"{name}.elf")
    subprocess.run([*gcc, views.path(f"{name}.s"), "-lgcc", "-o", path], check=True)
    symbols = subprocess.run([NM, path], stdout=subprocess.PIPE, text=True, check=True).stdout
    places = dict(reversed(line.split(" ", 2)[::2]) for line in symbols.splitlines() if " U " not in line)
    subprocess.run([STRIP, path], check=True)
    return {int(places[f"L_{label}"], 16) for label in re.findall(r"^\s*\.word\s+\.L(\d+)-\.L\d+", text, re.M)}


def named(views, name, due):
    """The options that are printed, which have to name these places and no others."""
    status, printed, said = views.look("leaders", f"{name}.elf")
    views.same(f"{name}: what is printed", (status, printed, said),
               (0, " ".join(f"--leader 0x{place:x}" for place in sorted(due)) + "\n", ""))
    found = json.loads(views.works("leaders", "--json", f"{name}.elf"))
    views.same(f"{name}: the tables' targets",
               {int(place, 16) for table in found["tables"] for place in table["targets"]}, due)
    views.need(len(found["tables"]) >= len(found["jumps_by_sums"]), f"{name}: {found}")
    return printed.split()


def differing(views, name, words):
    """The inputs on which NEW, made by these options over a run on the first, doesn't do what OLD does."""
    files = [f"{name}.elf", "new.elf", "units.v", "logs.txt", "report.txt"]
    views.told("find", *files, "--input", "input0", *words)
    views.same(f"{name}: check", views.told("check", *files[:4], "--input", "input0", *words), "accepted\n")
    ends = [(views.told("run", files[0], "--input", f"input{number}").split(" cost ")[0],
             views.told("run", "new.elf", "--units", "units.v", "--input", f"input{number}").split(" cost ")[0])
            for number in range(len(INPUTS))]
    return [number for number, (old, new) in enumerate(ends) if old != new]


def compare(views, name, source, *words):
    """Compares a program that is compiled by these words, and gives whether NEW does something else where no leaders
    are given."""
    due = build(views, name, source, *words)
    views.need(due, f"{name} by {words} has no tables")
    views.same(f"{name} by {words}: inputs on which NEW differs", differing(views, name, named(views, name, due)), [])
    return bool(differing(views, name, []))


def tells(views, name, count):
    """A program whose jumps lead to sums, but by no table, names none, and a line tells the jumps."""
    status, printed, said = views.look("leaders", f"{name}.elf")
    line = rf"leaders: tables found: 0, jumps that lead to sums: {count}, at 0x10\w+(, 0x10\w+)*: name by .*\n"
    views.need(status == 0 and printed == "\n" and re.fullmatch(line, said), f"{name}: {status}, {printed!r}, {said!r}")


def look(views):
    """Looks at leaders."""
    for number, text in enumerate(INPUTS):
        views.write(f"input{number}", text)
    kinds, differ = re.search(r"```c kinds.c\n(.*?)```", text_of("docs/GUIDE.md"), re.S)[1], 0
    for number, level in enumerate(LEVELS):
        differ += compare(views, "kinds", kinds, FLAGS[number % 3], level)
        compare(views, "switches", SWITCHES, FLAGS[(number + 1) % 3], level)
    views.need(differ, "NEW does what OLD does without the leaders, too")
    for seed in range(6):
        name = f"generated{seed}"
        named(views, name, build(views, name, generated(seed), FLAGS[seed % 3], LEVELS[seed % 5]))
    for name, path in compiled.executables(views.folder):
        # That program has words of a custom opcode.
        if not name.startswith("illegal.c"):
            views.same(f"{name}: what is printed", views.look("leaders", path), (0, "\n", ""))
    build(views, "labels", LABELS, "-O2")
    tells(views, "labels", "4")
    views.write("row.s", ROW)
    subprocess.run([compiled.GCC, *compiled.TARGET[:3], "-nostdlib", "row.s", "-o", "row.elf"], cwd=views.folder,
                   check=True)
    tells(views, "row", "1")
    views.refuses("leaders", "row.s")
    views.wrong("leaders", (), ("row.elf", "row.elf"))


viewing.check(__doc__, look, "views/leaders",
              {compiled.GCC: "gcc-riscv64-unknown-elf", **dict.fromkeys((NM, STRIP), "binutils-riscv64-unknown-elf")})
