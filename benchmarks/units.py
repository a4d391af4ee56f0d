"""Times `rumtsafi eval` on texts of units that are as large as they may be.

    python3 -m benchmarks.units [PROGRAM]

PROGRAM is bin/rumtsafi if left out. A line for each
text has the seconds of the faster of two runs, the greatest resident memory, their limits, and the answer. What the
values of 2,048 wires take is shown by two modules of one text, a small one and that one, each by the fastest of several
runs. It ends with status 0 where each answer is the right one and comes within its limits.
"""
import os
import sys
import tempfile

from benchmarks.common import measure, program, write
from readers.templates import HEADER

SIZE, LIMIT, MEMORY = 4_194_304, 1.0, 100.0
# Each item of a concatenation holds its name by itself, and one text can have 1.6 million of them.
NAMES, NAMES_MEMORY = "concatenations of 64 wires", 192.0
WIRES, MODULES = 2048, 32
# The seconds that the values of a module of 2,048 wires may take, and how many runs show them.
VALUES, RUNS = 0.001, 15
ANSWER = "00000001 00000003"


def module(number, body, y="a"):
    return HEADER.format(cycles=1, number=number) + body + f"assign y = {y};\nassign z = c;\nendmodule\n"


def filled(text):
    """A text with newlines behind it, up to the most bytes."""
    assert len(text) <= SIZE, len(text)
    return text + "\n" * (SIZE - len(text))


def repeated(body, y="a"):
    """As many modules with these wires as fit."""
    count = min(MODULES, SIZE // len(module(MODULES - 1, body, y)))
    return filled("".join(module(number, body, y) for number in range(count)))


def wires(value):
    """Wires up to the most, with long names that differ late, each with a value by its number."""
    return "".join(f"wire [31:0] {name(number)};\nassign {name(number)} = {value(number)};\n"
                   for number in range(WIRES))


def name(number):
    return f"n{'_' * 27}{number:04}"


def near(number):
    """The wire before a wire, and a constant."""
    return f"{name(number - 1)} + 32'h0" if number else "a"


def far(number):
    """The first wire and one in the middle."""
    return f"{name(0)} & {name(number // 2)}" if number else "a"


def joined():
    """Concatenations of as many items as there may be."""
    bits = ", ".join(f"a[{bit % 32}]" for bit in range(64))
    return repeated("".join(f"wire [63:0] w{number};\nassign w{number} = {{{bits}}};\n" for number in range(WIRES)))


def small_items():
    """As many items of concatenations as there may be: each is one letter."""
    bits = ",".join("d" * 64)
    return repeated("wire[0:0]d;assign d=a[0];" + "".join(
        f"wire[63:0]w{number};assign w{number}={{{bits}}};" for number in range(WIRES - 1)))


def most_wires():
    """As many modules as there may be of as many wires as there may be, with blanks between them."""
    return repeated("".join(f"wire[0:0]w{number};assign w{number}=a[0];".ljust(63) for number in range(WIRES)))


def inner_blanks():
    begin, end = module(0, "").split("assign y")
    return begin + "\n" * (SIZE - len(module(0, ""))) + "assign y" + end


def ended(text, end):
    """A text with another end."""
    return text[:SIZE - len(end)] + end


def past_wires():
    """The first wire too many, behind as many blanks as there may be."""
    return module(0, wires(near)).split("assign y")[0].ljust(SIZE - len(PAST)) + PAST


HEAD, SUM, PAST = HEADER.format(cycles=1, number=0), "assign y = a + a ", "wire [0:0] w;"
# A name, the text, and the answer.
TEXTS = (
    ("wires that read the one before", lambda: repeated(wires(near), name(WIRES - 1)), ANSWER),
    ("wires that read far ones", lambda: repeated(wires(far), name(WIRES - 1)), ANSWER),
    ("concatenations of 64 bits", joined, ANSWER),
    (NAMES, small_items, ANSWER),
    ("32 modules of 2048 wires", most_wires, ANSWER),
    ("blanks behind", lambda: filled(module(0, "")), ANSWER),
    ("blanks inside", inner_blanks, ANSWER),
    ("marks alone", lambda: "// cycles 1\n" * (SIZE // 12), "fault 9 units 2 12"),
    ("signs alone", lambda: ";" * SIZE, "fault 9 units 2 0"),
    ("one name", lambda: "x" * SIZE, "fault 9 units 2 0"),
    ("one number", lambda: "// cycles ".ljust(SIZE, "1"), "fault 9 units 1 0"),
    ("a long sum", lambda: filled(HEAD + SUM + "+ a " * 1_000_000), f"fault 9 units 2 {len(HEAD + SUM)}"),
    ("a bad byte at the end", lambda: ended(most_wires(), "@"), f"fault 9 units 1 {SIZE - 1}"),
    ("a word at the end", lambda: ended(most_wires(), "x"), f"fault 9 units 2 {SIZE - 1}"),
    ("a wire too many at the end", past_wires, f"fault 9 units 8 {SIZE - len(PAST) + PAST.index('w;')}"),
)


def write_text(path, make):
    text = make()
    with open(path, "w", encoding="ascii") as file:
        file.write(text)


def call(file, number):
    return measure(program(), "eval", file, str(number), "0x1", "0x2", "0x3")


def report(title, file, wanted):
    """Whether the text is read in time, and the answer is right; prints its line."""
    runs, most = [call(file, 0) for _ in range(2)], NAMES_MEMORY if title == NAMES else MEMORY
    output, _, seconds, memory = min(runs, key=lambda run: run[2])
    answer = output.decode(errors="replace").rstrip("\n")
    marks = ("" if answer == wanted else f"  WRONG, wanted {wanted}") + (
        "" if seconds <= LIMIT else "  TOO SLOW") + ("" if memory <= most else "  TOO LARGE")
    print(f"{title:32} {seconds:7.3f} s of {LIMIT:.1f} s {memory:7.1f} MiB of {most:.0f} MiB  {answer[:40]}{marks}")
    return not marks


def two_modules():
    """A small module, and one of the most wires."""
    return module(0, "") + module(1, wires(near), name(WIRES - 1))


def values(file):
    """Whether the values of a module of the most wires take no longer than they may; prints the line."""
    small, large = (min(call(file, number)[2] for _ in range(RUNS)) for number in (0, 1))
    right = large - small <= VALUES
    print(f"{f'values of {WIRES} wires':32} {1000 * (large - small):7.3f} ms of {1000 * VALUES:.1f} ms, beside "
          f"{1000 * small:.1f} ms{'' if right else '  TOO SLOW'}")
    return right


def main():
    passed = []
    with tempfile.TemporaryDirectory() as folder:
        file = os.path.join(folder, "units")
        for title, make, wanted in TEXTS:
            write(write_text, file, make)
            passed.append(report(title, file, wanted))
        write(write_text, file, two_modules)
        passed.append(values(file))
    print(f"{sum(passed)} of {len(passed)} right and in time")
    return 0 if all(passed) else 1


sys.exit(main())
