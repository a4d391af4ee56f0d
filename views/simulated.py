"""The core of samples/core/ with the port of some units, built by a simulator, and runs of executables on it."""
import glob
import hashlib
import os
import shutil
import struct
import subprocess
import tempfile
from collections import namedtuple

from ports import PLAIN, fault, port, units_of
from program import TOP, fail, tool
from reading import read
from readers import executable
from readers.latencies import NO_OPERATION, Latencies

SOURCES, FILES = os.path.join(TOP, "samples", "core"), ("core.v", "machine.v", "clock.v", "clock.cpp")
VERILATOR, ICARUS = "verilator", "icarus"
# The tools that each takes, which are named as Debian's packages are.
TOOLS = {VERILATOR: ("verilator", "g++"), ICARUS: ("iverilog",)}
# The settings of machine.v: where the rows of segments begin, and how many there may be of these and of ranges of text.
REGIONS, ROWS = 8, 64
# The testbench's memory for the heap under Icarus, which takes sixteen bytes for each.
SMALL_HEAP = 4 << 20
# The words of a fetch that most programs need, and the most.
USUAL_FETCH, WIDEST = 32, 256
# What a run printed: its output, and its end line without the word `end`.
Ran = namedtuple("Ran", "output end")


class Program:
    """An executable as the testbench takes it: its settings, the bytes of stack and segments, and its text."""

    def __init__(self, path):
        data = read(path)
        entry, headers, sections = executable.read_header(data)
        segments = executable.read_segments(data, headers)
        text = executable.read_ranges(executable.read_text(data, headers, sections, segments))
        low, past = executable.STACK
        self.image, regions = bytes(past - low), []
        for _, offset, address, file_size, size in segments:
            regions.append((address, address + size, len(self.image)))
            self.image += data[offset:offset + file_size] + bytes(size - file_size)
        rows = [(start, past, base + start - first) for start, past in joined(text)
                for first, end, base in regions if first <= start < end]
        if max(len(regions), len(rows)) > ROWS:
            fail(f"{path} has more than {ROWS} segments or sections of text")
        heap = -(-max(past for _, past, _ in regions) // 16) * 16
        self.words = [0] * (REGIONS + 6 * ROWS)
        self.words[:6] = entry, heap, len(regions), len(rows), 0, len(self.image)
        for first, some in ((REGIONS, regions), (REGIONS + 3 * ROWS, rows)):
            self.words[first:first + 3 * len(some)] = [word for row in some for word in row]
        self.text = [struct.unpack_from(f"<{(past - start) // 4}I", self.image, base) for start, past, base in rows]

    def no_operations(self):
        """The greatest number of no-ops that stand together."""
        longest = 0
        for words in self.text:
            count = 0
            for word in words:
                count = count + 1 if word == NO_OPERATION else 0
                longest = max(longest, count)
        return longest


def joined(ranges):
    """Ranges, where one that begins at the end of another goes on with it."""
    found = []
    for start, past in ranges:
        if found and found[-1][1] == start:
            start = found.pop()[0]
        found.append((start, past))
    return found


def fetch_width(programs, pad):
    """The words of a fetch by which no-ops cost `pad`: a power of two, so that most programs have the same."""
    least, found = 1 + max(program.no_operations() for program in programs), USUAL_FETCH
    while found < least:
        found *= 2
    return 1 if pad else found


def settings(latencies, programs, fetch, simulator):
    """The text of the settings that the core is built by."""
    memory = max(len(program.image) for program in programs) + SMALL_HEAP
    memory = executable.MEMORY_LIMIT if simulator == VERILATOR else min(memory, executable.MEMORY_LIMIT)
    values = {**latencies.software, "read": latencies.read, "pad": latencies.pad}
    named = ", ".join(f".{name.upper()}(10'd{cycles})" for name, cycles in values.items())
    return f"`define PARAMETERS {named}\n`define WINDOW {fetch}\n`define MEMORY {memory}\n"


def step(words, folder):
    """A step of a build, and what it prints."""
    done = subprocess.run(words, cwd=folder, stdout=subprocess.PIPE, stderr=subprocess.STDOUT, text=True, check=False)
    if done.returncode:
        fail(f"{words[0]} failed: {done.stdout.strip()[-2000:]}")
    return done.stdout


def compiler(include, traced):
    """The words of the compiler for what Verilator writes."""
    return ["g++", "-std=gnu++17", "-O1", "-w", f"-I{include}", f"-I{include}/vltstd", f"-DVM_TRACE={int(traced)}",
            "-DVM_COVERAGE=0", "-DVM_SC=0"]


def compiled(include, folder, traced):
    """Verilator's own objects, which all cores of a folder share."""
    parts = []
    for name in ("verilated", "verilated_threads", *(["verilated_vcd_c"] if traced else [])):
        part = os.path.join(folder, f"{name}{'_traced' if traced else ''}.o")
        if not os.path.exists(part):
            step([*compiler(include, traced), "-c", os.path.join(include, f"{name}.cpp"), "-o", f"{part}.new"], folder)
            os.replace(f"{part}.new", part)
        parts.append(part)
    return parts


def by_verilator(folder, traced):
    """Builds the core by Verilator."""
    step(["verilator", "--cc", "-O3", "--x-initial", "0", "--top-module", "machine", "-Wno-fatal", "-Wno-lint",
          "-Wno-style", "-I.", "--Mdir", "made", *(["--trace"] if traced else []), "machine.v", "core.v", "port.v",
          "units.v"], folder)
    include = os.path.join(step(["verilator", "--getenv", "VERILATOR_ROOT"], folder).strip(), "include")
    made = sorted(glob.glob(os.path.join(folder, "made", "*.cpp")))
    with open(os.path.join(folder, "all.cpp"), "w", encoding="utf-8") as file:
        file.write("".join(f'#include "{path}"\n' for path in (*made, os.path.join(folder, "clock.cpp"))))
    step([*compiler(include, traced), "-I", os.path.join(folder, "made"), "all.cpp",
          *compiled(include, os.path.dirname(folder), traced), "-lpthread", "-o", "simulation.new"], folder)


def by_icarus(folder):
    """Builds the core by Icarus."""
    step(["iverilog", "-g2005", "-I", folder, "-s", "bench", "-o", "simulation.new", "clock.v", "machine.v", "core.v",
          "port.v", "units.v"], folder)


class Core:
    """The core with the port of units, for some programs."""

    def __init__(self, units, programs, table=None, fetch=None, simulator=None):
        found, self.latencies = units_of(units), Latencies(table)
        wrong = fault(found, PLAIN)
        if wrong:
            fail(wrong)
        is_there = {name: all(map(shutil.which, tools)) for name, tools in TOOLS.items()}
        self.simulator = simulator or (ICARUS if is_there[ICARUS] and not is_there[VERILATOR] else VERILATOR)
        for name in TOOLS[self.simulator]:
            tool(name)
        width = fetch or fetch_width(programs, self.latencies.pad)
        self.texts = {"units.v": read(units), "port.v": port(units, found, PLAIN, self.latencies.read).encode(),
                      "settings.vh": settings(self.latencies, programs, width, self.simulator).encode(),
                      **{name: read(os.path.join(SOURCES, name)) for name in FILES}}
        self.start = None

    def build(self, folder, traced):
        """Builds the core in a folder of its own below this one, unless it is there."""
        parts = self.simulator.encode(), b"traced" if traced else b"", *self.texts.values()
        folder = os.path.join(os.path.realpath(folder), hashlib.sha256(b"\0".join(parts)).hexdigest()[:16])
        simulation = os.path.join(folder, "simulation")
        if not os.path.exists(simulation):
            os.makedirs(folder, exist_ok=True)
            for name, text in self.texts.items():
                with open(os.path.join(folder, name), "wb") as file:
                    file.write(text)
            if self.simulator == VERILATOR:
                by_verilator(folder, traced)
            else:
                by_icarus(folder)
            os.replace(f"{simulation}.new", simulation)
        self.start = [simulation] if self.simulator == VERILATOR else ["vvp", "-n", simulation]

    def run(self, program, given, steps, wave):
        """Runs a program on the bytes of a file, and writes its wave to another; both may be None."""
        with tempfile.TemporaryDirectory() as folder:
            words = list(program.words)
            words[4] = os.path.getsize(given) if given else 0
            with open(os.path.join(folder, "settings"), "w", encoding="ascii") as file:
                file.write("\n".join(f"{word:08x}" for word in words) + "\n")
            with open(os.path.join(folder, "image"), "wb") as file:
                file.write(program.image)
            for name, path in (("input", given or os.devnull), *([("wave.vcd", wave)] if wave else [])):
                os.symlink(os.path.abspath(path), os.path.join(folder, name))
            options = [*([f"+steps={steps}"] if steps else []), *(["+vcd"] if wave else [])]
            done = subprocess.run([*self.start, *options], cwd=folder, stdout=subprocess.PIPE,
                                  stderr=subprocess.STDOUT, check=False)
            said = done.stdout.decode(errors="replace")
            ends = [line[4:] for line in said.splitlines() if line.startswith("end ")]
            if not ends:
                fail(f"the core's run had no end: {said.strip()[-500:]}")
            return Ran(read(os.path.join(folder, "output")), ends[-1])
