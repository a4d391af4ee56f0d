"""Prints the needs of long blocks by the ports: how many branches the search for the best cut takes.

    python3 -m benchmarks.needs SOURCES [PROGRAM]

SOURCES is the folder of packages.py, and PROGRAM is bin/rumtsafi if left out. The blocks are those of LEAST to LONGEST
instructions in what GCC makes of ciphers.c with each of LEVELS, and of the packages.

A line for each block has its instructions, its need with each of PORTS, and, with the last of them, the nanoseconds of
processor time that `best` and search.c take for a prefix, or dashes where the search is over too soon to tell. search.c
tells the needs, and `best` has to agree, as searches.py says. It ends with status 0 where they do, and where the tools
are missing, with a line that says so.
"""
import os
import sys
import tempfile

from benchmarks.best import LEVELS, LONGEST
from benchmarks.common import HOST, PACKAGES, bare_executable, port_name
from benchmarks.graphs import blocks_of
from benchmarks.packages import PACKAGES as OTHERS, compile_to, sources_of
from benchmarks.searches import MOST, SHORT, Comparison
from checks.tools import compiled

LEAST = 60
PORTS = ((2, 1), (3, 1), (3, 2), (4, 2), (5, 3))


def executables(sources, folder):
    """The executables, each with its name."""
    for level in LEVELS:
        file = os.path.join(folder, f"ciphers{level}")
        bare_executable("ciphers.c", file, level, "-funroll-loops")
        yield f"ciphers {level}", file
    for package, path in zip(OTHERS, sources):
        file = os.path.join(folder, package.name)
        compile_to(file, package, path)
        yield package.name, file


def per_prefix(seconds, figures, need):
    """The nanoseconds that a prefix takes, or a dash."""
    return f"{seconds / figures.opened * 1e9:.1f}" if seconds > 0 and (need is None or need >= SHORT) else "-"


def show(comparison, name, words, live, *call):
    """Prints the line of a block."""
    line = f"{name:20} {len(words):>6}"
    for ports in PORTS:
        need, figures = comparison.measured(words, live, ports, *call)
        line += f" {need or f'>{MOST}':>8}"
    for seconds in (figures.searched, figures.plainly_searched):
        line += f" {per_prefix(seconds, figures, need):>7}"
    print(line, flush=True)


def main():
    if len(sys.argv) < 2:
        sys.exit(__doc__.split("\n\n")[1].strip())
    folder = sys.argv.pop(1)
    absent = compiled.missing({HOST: PACKAGES[HOST]})
    if absent:
        print(absent)
        return 0
    sources = [sources_of(package, folder) for package in OTHERS]
    columns = " ".join(f"{port_name(ports):>8}" for ports in PORTS)
    print(f"{'block':20} {'length':>6} {columns} {'best':>7} {'plain C':>7}")
    with tempfile.TemporaryDirectory() as out:
        comparison = Comparison(out)
        for name, file in executables(sources, out):
            for address, (words, live) in blocks_of(file).items():
                if LEAST <= len(words) <= LONGEST:
                    show(comparison, f"{name} {address:x}", words, live, file, "--at", f"0x{address:x}")
    return 0


if __name__ == "__main__":
    sys.exit(main())
