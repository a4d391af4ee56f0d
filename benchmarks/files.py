"""Times `rumtsafi run` on files that are as large as they may be and made to be slow to read, and on files of many
ranges of text and many segments that are made to be slow to run.

    python3 -m benchmarks.files [PROGRAM]

PROGRAM is bin/rumtsafi if left out. A line for each
file that is slow to read has the seconds of the faster of two runs, the limit, the greatest resident memory, and the
answer.

Then programs run for STEPS steps in files with as many ranges or segments as COUNTS say, which they visit far from one
another: by jumps from range to range, by loads and stores in the segments, and by calls that write bytes of them. Each
runs too in a file with one range over all of these and one segment over all of those. A line has the nanoseconds of
processor time that a step takes in both files, without those of a run of one step, by the fastest of several runs in
turn; the ratio; the most that it may be; and the nanoseconds of interpreter.c on the first file, where there is GCC.
Where STEPS steps would take more than PATIENT seconds there are a hundredth of them, and the line says so.

It ends with status 0 where each answer is the right one and comes within its limit.
"""
import os
import re
import struct
import sys
import tempfile

from benchmarks.common import HOST, least_times, measure, missing, native, program, write
from checks.oracles.operations import with_registers
from readers import executable
from readers.executable import header, load, section
from readers.instructions import with_offset

FILE_SIZE, COUNT = 16_777_216, 65_535
# A prime, so that its multiples modulo COUNT are all numbers below it, in an order that no sort has from the start.
STRIDE = 32_771
BASE, TEXT_WORDS = 0x10000, struct.pack("<2I", 0x05D00893, 0x00000073)
NO_OP = struct.pack("<I", 0x13)
EXIT = "end exit 00000000 steps 2 cost 2"
ELF_LIMIT, TABLE_LIMIT = 1.0, 0.1
TABLE_SIZE = 65_536

COUNTS, STEPS, PATIENT, STEP_ROUNDS = (16, 256, 4_096, 65_000), 1_000_000, 3, 3
# From a place to the next one that a program visits: they lie far apart, and all are visited.
WAY = 40_503
# Where the segments of data begin, how far apart, their size, and where a last range of text lies behind them.
DATA, SPACING, DATA_SIZE, BEHIND = 0x200000, 960, 64, 0x10000000
# The bytes of a range, but of the first one, which may have all instructions of a program.
RANGE = 16
JUMP, CALL, LOAD, STORE, WRITTEN = 0x6F, 0x73, 0x2003, 0x2023, 16


def tiny():
    """One segment and one text section, which exits."""
    return (header(BASE + 84, (52, 1), (92, 1)) + load(0, BASE, 92, 92) + TEXT_WORDS
            + section(1, 6, BASE + 84, 84, 8))


def many_headers(overlap):
    """As many loadable segments as a file can have, in no order of their addresses, all with bytes of the file."""
    spacing, size = 1_008, 1_000
    text = 52 + 32 * COUNT
    table, free = text + size, text + size + 40
    addresses = [BASE + number * STRIDE % COUNT * spacing for number in range(COUNT)]
    rows = [load(text, addresses[0], size, size)]
    rows += [load(free + number * 997 % (FILE_SIZE - free - size), addresses[number], size, size)
             for number in range(1, COUNT)]
    if overlap:
        rows[-1] = load(free, addresses[-2] + size - 1, 1, 1)
    data = (header(addresses[0], (52, COUNT), (table, 1)) + b"".join(rows) + TEXT_WORDS.ljust(size, b"\0")
            + section(1, 6, addresses[0], text, 8))
    return data.ljust(FILE_SIZE, b"\0")


def many_sections(symbols, meeting):
    """As many text sections as a file can have, in no order; or every other one is a symbol table."""
    size = 16
    text = 84 + 40 * COUNT
    tables = text + size * COUNT
    places = [number * STRIDE % COUNT for number in range(COUNT)]
    rows = [section(2, 0, 0, tables + size * place, size, 16) if symbols and number % 2
            else section(1, 6, BASE + size * place, text + size * place, size) for number, place in enumerate(places)]
    if meeting:
        rows[-1] = section(1, 6, BASE + size * places[-1] - 4, text + size * places[-1] - 4, size)
    data = (header(BASE, (52, 1), (84, COUNT)) + load(text, BASE, size * COUNT, size * COUNT) + b"".join(rows)
            + TEXT_WORDS + NO_OP * (4 * COUNT - 2) + bytes(size * COUNT))
    return data.ljust(FILE_SIZE, b"\0")


def repeated(begin, part, end=""):
    """A text of TABLE_SIZE bytes: its begin, as many parts as fit (each made of its number), its end, and a comment."""
    parts, length = [], len(begin) + len(end) + 1
    while length + len(part(len(parts))) <= TABLE_SIZE:
        parts.append(part(len(parts)))
        length += len(parts[-1])
    text = begin + "".join(parts) + end + "\n"
    return (text + "#" * (TABLE_SIZE - len(text))).encode()


def nested():
    depth = (TABLE_SIZE - 8) // 2
    return ("read = " + "[" * depth + "]" * depth + "\n").encode()


EXECUTABLES = (
    ("65535 program headers", lambda: many_headers(False), EXIT),
    ("65535, the last two overlap", lambda: many_headers(True), "fault 5 elf 5 65533 65534"),
    ("65535 text sections", lambda: many_sections(False, False), EXIT),
    ("65535, text and symbol tables", lambda: many_sections(True, False), EXIT),
    ("65535, the last meets another", lambda: many_sections(False, True), "fault 5 elf 7 65534 0"),
)

# The answers of tables. How deep one may be nested is for the TOML reader to say.
TABLES = (
    ("comments", lambda: repeated("pad = 0\n", lambda _: "# a comment\n"), EXIT),
    ("unknown keys", lambda: repeated("", lambda n: f"k{n} = 1\n"), "fault 6 table 2"),
    ("unknown tables", lambda: repeated("", lambda n: f"[t{n}]\n"), "fault 6 table 2"),
    ("a key of many parts", lambda: repeated("a", lambda _: ".a", " = 1"), "fault 6 table [12]"),
    ("brackets", nested, "fault 6 table (1|3 read)"),
    ("a long list", lambda: repeated("read = [", lambda _: "1,", "]"), "fault 6 table 3 read"),
    ("a long text", lambda: repeated('read = "', lambda _: "\\u00e9", '"'), "fault 6 table 3 read"),
    ("a long number", lambda: repeated("read = ", lambda _: "1"), "fault 6 table [13]( read)?"),
)


def write_elf(name, make, wanted):
    data = make()
    found = executable.fault(data)
    answer = EXIT if found is None else "fault 5 elf {} {} {}".format(*found)
    assert len(data) == FILE_SIZE and answer == wanted, answer
    with open(name, "wb") as file:
        file.write(data)


def write_table(name, make, _):
    data = make()
    assert len(data) == TABLE_SIZE
    with open(name, "wb") as file:
        file.write(data)


def report(name, wanted, limit, *words):
    """Whether a run gives the answer in time; prints its line."""
    runs = [measure(program(), "run", *words) for _ in range(2)]
    output, status, seconds, memory = min(runs, key=lambda run: run[2])
    answer = output.decode(errors="replace").rstrip("\n")
    right = bool(re.fullmatch(wanted, answer)) and status == (int(answer.split()[1]) if answer[:6] == "fault " else 0)
    marks = ("" if right else f"  WRONG, wanted {wanted}") + ("" if seconds <= limit else "  TOO SLOW")
    print(f"{name:32} {seconds:7.3f} s of {limit:.1f} s {memory:7.1f} MiB  {answer[:60]}{marks}")
    return not marks


def number(register, value):
    """The two words that give a register a value."""
    low = (value + 0x800) % 0x1000 - 0x800
    return [(value - low) | register << 7 | 0x37, with_registers("addi", register, register, low)]


def jumping(count):
    """Ranges that lead to each other in an order that no walk follows: the words, how many of them are not in the loop,
    and the costs of the loop's steps."""
    words = []
    for place in range(count):
        way = ((place + WAY) % count - place) * RANGE - 12
        words += [with_registers("addi", 5, 5, 1), with_registers("xor", 6, 6, 5), with_registers("add", 7, 7, 6),
                  with_offset(JUMP, way)]
    return words, 0, [1, 1, 1, 2], b""


def visiting(count, visit, costs, written=b""):
    """A loop that visits the segments in such an order; x11 is the address of one."""
    begin = (number(12, WRITTEN) + number(17, 64) + number(20, count * SPACING) + number(21, DATA)
             + number(22, WAY % count * SPACING))
    loop = [with_registers("add", 9, 9, 22), with_registers("sltu", 7, 9, 20), with_registers("addi", 7, 7, -1),
            with_registers("and", 7, 7, 20), with_registers("sub", 9, 9, 7), with_registers("add", 11, 9, 21), *visit]
    loop.append(with_offset(JUMP, -4 * len(loop)))
    words = begin + loop
    first = -(-4 * len(words) // RANGE)
    padding = [0x13] * (RANGE // 4 * (first + count - 1) - len(words))
    return words + padding, len(begin), [1] * 6 + costs + [2], written


def loading(count):
    """A load and a store in each segment."""
    return visiting(count, [LOAD | 11 << 15 | 5 << 7, STORE | 5 << 20 | 11 << 15 | 4 << 7], [2, 1])


def calling(count):
    """A call that writes some bytes of each segment."""
    return visiting(count, [with_registers("addi", 10, 0, 1), CALL], [1, 1], bytes(WRITTEN))


# The programs, and how many times longer a step may take with many ranges and segments.
PROGRAMS = (("jumps", jumping, 3), ("loads and stores", loading, 4), ("calls that write", calling, 4))


def write_places(name, make, count, many):
    """A file with a program, with so many ranges and segments, or with one over all of them. One more range lies behind
    the data, so that these are between ranges of text."""
    words, *_ = make(count)
    text = struct.pack(f"<{len(words)}I", *words)
    first = len(text) - (count - 1) * RANGE
    order = [place * STRIDE % count for place in range(count)] if many else [0]
    ranges, segments = [(0, len(text))], [(0, (count - 1) * SPACING + DATA_SIZE)]
    if many:
        ranges = [(0, first) if place == 0 else (first + (place - 1) * RANGE, RANGE) for place in order]
        segments = [(place * SPACING, DATA_SIZE) for place in order]
    sections = 52 + 32 * (len(segments) + 2)
    start = sections + 40 * (len(ranges) + 1)
    past = start + len(text)
    data = (header(BASE, (52, len(segments) + 2), (sections, len(ranges) + 1))
            + load(start, BASE, len(text), len(text)) + load(past, BEHIND, len(NO_OP), len(NO_OP))
            + b"".join(load(0, DATA + offset, 0, size) for offset, size in segments)
            + b"".join(section(1, 6, BASE + offset, start + offset, size) for offset, size in ranges)
            + section(1, 6, BEHIND, past, len(NO_OP)) + text + NO_OP)
    assert executable.fault(data) is None, executable.fault(data)
    with open(name, "wb") as file:
        file.write(data)


def answer_of(make, count, steps):
    """What a run of so many steps prints."""
    _, begin, costs, written = make(count)
    rounds, rest = divmod(max(steps - begin, 0), len(costs))
    cost = min(steps, begin) + rounds * sum(costs) + sum(costs[:rest])
    # The call is the last step of the loop but one.
    calls = rounds + (rest == len(costs) - 1)
    return written * calls + f"end limit steps {steps} cost {cost}\n".encode()


def timed(runs, make, count, rounds):
    """The least seconds of runs of one program, which take turns; each is a call, a file and a number of steps."""
    found = least_times(rounds, *[(called, "run", file, "--steps", str(steps)) for called, file, steps in runs])
    for (called, _, steps), (output, _) in zip(runs, found):
        due = answer_of(make, count, steps)
        if output != due:
            sys.exit(f"{called}, {count} places, {steps} steps: {output[-80:]} isn't {due[-80:]}")
    return [seconds for _, seconds in found]


def nanoseconds(calls, make, count):
    """The nanoseconds that a step takes, by each call on a file, and over how many steps."""
    trials = timed([(*call, steps) for call in calls for steps in (1, STEPS // 100)], make, count, 1)
    steps = [STEPS // 100 if (part - start) * 100 > PATIENT else STEPS
             for start, part in zip(trials[::2], trials[1::2])]
    runs = [(*call, number) for call, most in zip(calls, steps) for number in (1, most)]
    times = timed(runs, make, count, STEP_ROUNDS)
    return [(max(whole - start, 0) / most * 1e9, most) for start, whole, most in zip(times[::2], times[1::2], steps)]


def step_table():
    """Whether all steps are within their limits; prints the lines."""
    passed = []
    print(f"{'ns a step':18} {'places':>7} {'many':>9} {'one':>9} {'ratio':>8} {'limit':>6} {'plain C':>9}")
    with tempfile.TemporaryDirectory() as folder:
        many, one, interpreter = (os.path.join(folder, name) for name in ("many", "one", "interpreter"))
        calls = [(program(), many), (program(), one)]
        if not missing(HOST):
            native("interpreter.c", interpreter)
            calls.append((interpreter, many))
        for title, make, limit in PROGRAMS:
            for count in COUNTS:
                write(write_places, many, make, count, True)
                write(write_places, one, make, count, False)
                (slow, steps), (fast, _), *others = nanoseconds(calls, make, count)
                passed.append(slow <= limit * fast)
                print(f"{title:18} {count:7} {slow:9.1f} {fast:9.1f} {slow / max(fast, 0.1):8.2f} {limit:6} "
                      f"{others[0][0] if others else float('nan'):9.1f}{'' if passed[-1] else '  TOO SLOW'}"
                      f"{'' if steps == STEPS else f'  over {steps} steps'}", flush=True)
    return passed


def main():
    passed = []
    with tempfile.TemporaryDirectory() as folder:
        file, small = os.path.join(folder, "file"), os.path.join(folder, "small.elf")
        for name, make, wanted in EXECUTABLES:
            write(write_elf, file, make, wanted)
            passed.append(report(name, wanted, ELF_LIMIT, file))
        with open(small, "wb") as output:
            output.write(tiny())
        for name, make, wanted in TABLES:
            write(write_table, file, make, wanted)
            passed.append(report(f"table: {name}", wanted, TABLE_LIMIT, small, "--table", file))
    passed += step_table()
    print(f"{sum(passed)} of {len(passed)} right and in time")
    return 0 if all(passed) else 1


if __name__ == "__main__":
    sys.exit(main())
