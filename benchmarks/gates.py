"""Times `rumtsafi gates` and `geval` on as many gates as there may be.

    python3 -m benchmarks.gates [PROGRAM]

PROGRAM is bin/rumtsafi if left out. The modules of three texts have 4,194,304 gates: one of products of 64 bits, 28 of
products and others, and eight of sums of 64 bits. A line for each has the length of OUT, the seconds of the faster of
two runs of `gates`, their greatest resident memory, and how much of it is beside OUT, in bytes for each gate; and the
seconds and the memory of `geval` on the last netlist of OUT, which has to print what `eval` prints of the module. Then
`geval` reads a text with as many gates as NETS can hold, and `gates` refuses modules with very many.

It ends with status 0 where each answer is the right one and comes within its limits.
"""
import os
import sys
import tempfile

from benchmarks.common import faster, measure, program, write
from checks.generators.netlists import REST, products
from readers.templates import HEADER

# The most gates, the longest NETS, and the limits: seconds, and bytes of memory for each gate beside OUT.
MOST, LONGEST = 4_194_304, 268_435_456
SECONDS, BESIDE = 5.0, 32
# Of a NETS as long as may be: seconds and MiB.
LONG_SECONDS, LONG_MEMORY = 20.0, 1200
# Of modules with too many gates, which are counted alone: seconds and MiB.
COUNTED, COUNTED_MEMORY = 0.5, 100.0
GATE = "or 0 0\n"
VALUES = "0x89abcdef", "0x12345678", "0xffffffff"
UNITS, NETS = "units.v", "nets"


def sums(number, count):
    """A module of so many sums of 64 bits, each of 320 gates."""
    wires = "".join(f"wire [63:0] s{place};\nassign s{place} = {f's{place - 1}' if place else '{a, b}'} + {{b, c}};\n"
                    for place in range(count))
    results = f"assign y = s{count - 1}[63:32];\nassign z = a;\nendmodule\n"
    return HEADER.format(cycles=1, number=number) + wires + results


def one_module():
    return products(0, 336, 1024)


def many_modules():
    others = [products(number, 10, 30_544) for number in range(1, 27)]
    return "".join([products(0, 0), *others, products(27, 10, 30_560)])


def modules_of_sums():
    return "".join([*(sums(number, 2047) for number in range(6)), sums(6, 825), products(7, 0, 64)])


def too_many():
    return "".join(products(number, 2030) for number in range(32))


def write_units(path, make):
    with open(path, "w", encoding="ascii") as file:
        file.write(make())


def write_nets(path):
    """Netlists with as many gates as a text of the greatest length has room for."""
    with open(path, "w", encoding="ascii") as file:
        number = 0
        while True:
            left = LONGEST - file.tell()
            count = min(MOST, (left - len(f"netlist {number} gates {MOST}\n{REST}")) // len(GATE))
            if count < 1:
                return
            file.write(f"netlist {number} gates {count}\n{GATE * count}{REST}")
            number += 1


def marks(*wrong):
    return "".join(f"  {text}" for holds, text in wrong if holds)


def report(title, folder, make, number):
    """Whether modules become gates, and the last of these is read, in time and in little memory; prints the line."""
    units, nets = (os.path.join(folder, name) for name in (UNITS, NETS))
    write(write_units, units, make)
    line, seconds, memory = faster("gates", units, nets)
    length, place = os.path.getsize(nets), str(number)
    value, read, held = faster("geval", nets, place, *VALUES)
    due = faster("eval", units, place, *VALUES)[0].split()
    beside = (memory * 2 ** 20 - length) / MOST
    is_right = line == b"modules %d gates %d\n" % (number + 1, MOST) and value.split() == [*due, b"00000000"]
    said = marks((not is_right, "WRONG"), (max(seconds, read) > SECONDS, "TOO SLOW"),
                 (beside > BESIDE, "TOO MUCH MEMORY"))
    print(f"{title:28} {length:>11,} {seconds:7.2f} s {memory:6.0f} MiB {beside:5.1f} B {read:7.2f} s {held:6.0f} MiB"
          f"{said}", flush=True)
    return not said


def report_long(folder):
    """Whether a NETS of the greatest length is read in time and in little memory; prints the line."""
    nets = os.path.join(folder, NETS)
    write(write_nets, nets)
    value, seconds, memory = faster("geval", nets, "0", *VALUES)
    said = marks((value.split() != [b"00000000"] * 3, "WRONG"), (seconds > LONG_SECONDS, "TOO SLOW"),
                 (memory > LONG_MEMORY, "TOO MUCH MEMORY"))
    print(f"{'a NETS of 38 million gates':28} {os.path.getsize(nets):>11,} {'':28} {seconds:7.2f} s {memory:6.0f} MiB"
          f"{said}", flush=True)
    return not said


def report_refusal(folder):
    """Whether modules with too many gates are refused at once; prints the line."""
    units, nets = (os.path.join(folder, name) for name in (UNITS, "none"))
    write(write_units, units, too_many)
    output, status, seconds, memory = measure(program(), "gates", units, nets)
    is_right = (output, status) == (b"fault 14 many 0 %d\n" % (2030 * 12_480), 14) and not os.path.exists(nets)
    said = marks((not is_right, "WRONG"), (seconds > COUNTED, "TOO SLOW"),
                 (memory > COUNTED_MEMORY, "TOO MUCH MEMORY"))
    print(f"{'811 million gates, refused':28} {'':>11} {seconds:7.2f} s {memory:6.0f} MiB{said}", flush=True)
    return not said


def main():
    print(f"{'modules':28} {'bytes':>11} {'gates':>9} {'memory':>10} {'beside':>7} {'geval':>9} {'memory':>10}")
    with tempfile.TemporaryDirectory() as folder:
        passed = [report(title, folder, make, number) for title, make, number in (
            ("one of products", one_module, 0), ("28 of products and others", many_modules, 27),
            ("eight of sums", modules_of_sums, 7))]
        passed += report_long(folder), report_refusal(folder)
    print(f"{sum(passed)} of {len(passed)} right and in time")
    return 0 if all(passed) else 1


if __name__ == "__main__":
    sys.exit(main())
