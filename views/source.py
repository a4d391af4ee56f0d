"""The source of a program's instructions: the functions of its symbols, and the lines of its debug information."""
import bisect
import os
import re
import shutil
import subprocess
from collections import namedtuple

import beside  # noqa: F401 (readers/ is found from here on)
from readers import executable
from program import ADDRESS, fail
from reading import functions, symbols

# The binutils that read debug information, by the names that systems give them; the variable ADDR2LINE of the
# environment comes first.
TOOLS = "riscv64-unknown-elf-addr2line", "riscv32-unknown-elf-addr2line", "riscv64-linux-gnu-addr2line", "addr2line"
PACKAGE = "binutils-riscv64-unknown-elf"

# A place in the source: the function, which may be inlined, the file and the line.
Place = namedtuple("Place", "function file line")


def tool():
    """The tool that reads lines, or None."""
    return next((name for name in (os.environ.get("ADDR2LINE"), *TOOLS) if name and shutil.which(name)), None)


def has_lines(data):
    """Whether an executable has a section of lines."""
    return b".debug_line\0" in data


def places(path, addresses):
    """The places of addresses, for each from the innermost inlined function outwards; none where they aren't known."""
    asked, found, at = tool(), {}, None
    if not asked or not addresses:
        return found
    done = subprocess.run([asked, "-a", "-f", "-i", "-C", "-e", path], input="\n".join(f"0x{it:x}" for it in addresses),
                          stdout=subprocess.PIPE, stderr=subprocess.DEVNULL, text=True, check=False)
    lines = iter(done.stdout.splitlines())
    for line in lines:
        if re.fullmatch(r"0x[0-9a-f]+", line):
            at = int(line, 16)
            continue
        file, _, number = next(lines, "").partition(" (")[0].rpartition(":")
        if number.isdecimal() and number != "0":
            found.setdefault(at, []).append(Place(line, os.path.normpath(file), int(number)))
    return found


def named(function, data, path):
    """The address of a function's first instruction."""
    found = {address for address, name in functions(data) if name == function}
    if len(found) != 1:
        fail(f"{path} has {len(found) or 'no'} functions {function}, and one is due" if found else
             f"{path} has no function {function} among its symbols")
    return found.pop()


def span(found):
    """The lines of places in short: file by file, each with its first and last line."""
    files = {}
    for place in found:
        files.setdefault(os.path.basename(place.file), set()).add(place.line)
    return ", ".join(f"{file}:{min(lines)}" + (f"-{max(lines)}" if len(lines) > 1 else "")
                     for file, lines in files.items())


def address_of(text, data, path):
    """An address by its digits, or that of a function by its name."""
    return int(text, 16) if ADDRESS.fullmatch(text) else named(text, data, path)


def objects(data):
    """The names in the symbols of an executable by their addresses, ascending: functions, data and labels."""
    return sorted((address, name) for address, name in symbols(data) if name and not name.startswith("."))


class Linked:
    """What tells the addresses of an executable from other numbers: where it has memory, and its symbols."""

    def __init__(self, data):
        _, headers, _ = executable.read_header(data)
        self.segments = [(address, address + size)
                         for _, _, address, _, size in executable.read_segments(data, headers)]
        self.names = objects(data)

    def called(self, number):
        """What an address is called by the symbol before it, or None where it is none of the program's."""
        if not any(start <= number < past for start, past in self.segments):
            return None
        at = bisect.bisect_right(self.names, (number, "\uffff")) - 1
        if at < 0:
            return f"{number:08x}"
        address, name = self.names[at]
        return name if address == number else f"{name} + {number - address}"

    def addresses(self, lines):
        """The addresses among the constants of a unit's expressions, each with what it is called."""
        numbers = sorted({int(digits, 16) for _, text in lines for digits in re.findall(r"0x([0-9a-f]{8})", text)})
        return [(number, self.called(number)) for number in numbers if self.called(number)]


class Source:
    """Where the instructions of an executable come from: those of its text at these addresses."""

    def __init__(self, path, data, addresses):
        self.image = executable.Image(data)
        self.places = places(path, addresses) if has_lines(data) else {}

    def span(self, addresses):
        """The lines of instructions in short, of the functions that are written there."""
        return span(self.places[address][0] for address in addresses if address in self.places)

    def is_own(self, addresses):
        """Whether instructions are of source that is here, and not of a library's or of the start's; None where no
        lines are known."""
        if not self.places:
            return None
        return any(os.path.exists(place.file) for address in addresses for place in self.places.get(address, ()))

    def line(self, address):
        """The innermost place of an instruction, or None."""
        found = self.places.get(address)
        return found[0] if found else None
