"""Tries `rumtsafi find`, `check` and `run` on programs that others wrote: what is saved, and how long it takes.

    python3 -m benchmarks.packages SOURCES [PROGRAM] [--ports IN/OUT,..] [--count N,..] [--budget N,..]

SOURCES is a folder in which `apt-get source bzip2 libgsm lua5.4 mujs zlib` unpacked the sources of these packages of
Debian: two compressors, the speech coder of GSM, and the interpreters of Lua and of JavaScript. GCC compiles each with
-O2, with picolibc and with its main function in packages/, which reads up to 256 KiB of input. PROGRAM is
bin/rumtsafi if left out. The options are those of `find` and
`check`, --ports its --in and --out; of each option several can be told, and all are combined.

`find` runs each program on one input, and `check` has to accept what it writes. Then the old program and the new one
run on this input and on another, and have to print the same in as many steps; on the first, the new one has to cost
less by the gain that `find` printed. A line for each program and choice of options has these; the instructions of the
blocks, the millions of steps and of cycles of the first run, the cuts, the units and the searches that were given up;
how much less the new program costs, in percent, on the first input and on the other; and the seconds of processor time
of the first run, of `find` and of `check`, the least of ROUNDS.

It ends with status 0 where all of that holds, and where the tools are missing, with a line that says so; else with
status 1, also where sources are missing.
"""
import argparse
import glob
import itertools
import os
import re
import subprocess
import sys
import tempfile
from collections import namedtuple

from benchmarks.common import HERE, least_times, port_name, port_words, processor_time, program
from checks.tools import compiled

ROUNDS = 3
STEPS = ("--steps", "4294967296")
END = re.compile(r"(.*)^end exit 00000000 steps (\d+) cost (\d+)\n", re.M | re.S)
FOUND = re.compile(r"cuts (\d+) units (\d+) skipped (\d+) gain (\d+)\n")
PROGRAMS = os.path.join(HERE, "packages")

# A program: its name, the folder of its sources, the names of those, the folder of their headers from there, what the
# compiler is told, and two inputs, which are files of packages/ or of the sources.
Package = namedtuple("Package", "name folder sources headers options inputs")
PACKAGES = (
    Package("bzip2", "bzip2-*", "blocksort bzlib compress crctable decompress huffman randtable", ".",
            ["-DBZ_NO_STDIO"], ("blocksort.c", "decompress.c")),
    Package("gsm", "libgsm-*/src",
            "add code decode gsm_create gsm_decode gsm_encode long_term lpc preprocess rpe short_term table", "../inc",
            ["-DSASR", "-DNeedFunctionPrototypes=1"], ("code.c", "lpc.c")),
    Package("lua", "lua5.4-*/src",
            "lapi lauxlib lbaselib lcode lctype ldebug ldo ldump lfunc lgc llex lmathlib lmem lobject lopcodes lparser "
            "lstate lstring lstrlib ltable ltablib ltm lundump lvm lzio", ".", [], ("sorting.lua", "queens.lua")),
    Package("mujs", "mujs-*", "one", ".", [], ("sorting.js", "primes.js")),
    Package("zlib", "zlib-*", "adler32 compress crc32 deflate inffast inflate inftrees trees uncompr zutil", ".", [],
            ("deflate.c", "inflate.c")),
)


def sources_of(package, folder):
    """The folder of a package's sources."""
    found = glob.glob(os.path.join(folder, package.folder))
    if len(found) != 1:
        sys.exit(f"{folder} has {len(found)} folders {package.folder}, not one, as apt-get source leaves")
    return found[0]


def input_of(name, sources):
    """The path of an input."""
    own = os.path.join(PROGRAMS, name)
    return own if os.path.exists(own) else os.path.join(sources, name)


def compile_to(file, package, sources):
    """Makes the executable of a package."""
    # Debian's build of Lua makes this header, which tells where libraries lie.
    with open(os.path.join(os.path.dirname(file), "lua5.4-deb-multiarch.h"), "w", encoding="ascii"):
        pass
    parts = [os.path.join(PROGRAMS, f"{package.name}.c"), compiled.SUPPORT]
    parts += [os.path.join(sources, f"{name}.c") for name in package.sources.split()]
    folders = os.path.join(sources, package.headers), compiled.SAMPLES, os.path.dirname(file)
    subprocess.run([compiled.GCC, *compiled.TARGET, "-O2", *package.options, *(f"-I{folder}" for folder in folders),
                    *parts, "-o", file], check=True)


def run(*words):
    """What a run prints before its end line, its steps and its cost."""
    output, _ = processor_time(program(), "run", *words, *STEPS)
    ended = END.fullmatch(output.decode())
    if not ended:
        sys.exit(f"run {' '.join(words)}: {output[-200:]!r}")
    return ended[1], int(ended[2]), int(ended[3])


def costs(package, old, new, units, given):
    """The steps of both programs on an input, on which they have to print the same, and the cost of each."""
    output, steps, cost = run(old, "--input", given)
    other, others_steps, less = run(new, "--units", units, "--input", given)
    if (output, steps) != (other, others_steps):
        sys.exit(f"{package.name}: on {given} the new program prints something else, or makes other steps")
    return steps, cost, less


def instructions_of(file):
    """The number of instructions of the blocks of a file."""
    output, _ = processor_time(program(), "blocks", file)
    return sum(int(length) for length in re.findall(r" length (\d+)", output.decode()))


def choose(package, old, inputs, out, options):
    """Prints the line of a package by some options, which are ports, a count and a budget."""
    new, units, logs, report = (os.path.join(out, name) for name in ("new", "units", "logs", "report"))
    first, other = inputs
    ports, count, budget = options
    running = "--input", first, *STEPS
    words = *running, *port_words(ports), "--count", str(count), "--budget", str(budget)
    (_, run_seconds), (found, find_seconds), (verdict, check_seconds) = least_times(
        ROUNDS, (program(), "run", old, *running), (program(), "find", old, new, units, logs, report, *words),
        (program(), "check", old, new, units, logs, *words))
    cuts, kinds, skipped, gain = map(int, FOUND.fullmatch(found.decode()).groups())
    steps, cost, less = costs(package, old, new, units, first)
    _, others_cost, others_less = costs(package, old, new, units, other)
    if verdict != b"accepted\n" or cost - less != gain:
        sys.exit(f"{package.name}: {verdict!r}, and {cost} - {less} isn't {gain}")
    saved, others_saved = 100 * (1 - less / cost), 100 * (1 - others_less / others_cost)
    print(f"{package.name:8} {port_name(ports):>5} {count:>5} {budget:>7} {instructions_of(old):>12} "
          f"{steps / 1e6:>7.1f} {cost / 1e6:>8.1f} {cuts:>5} {kinds:>6} {skipped:>8} {saved:>6.1f} "
          f"{others_saved:>6.1f} {run_seconds:>6.2f} {find_seconds:>6.2f} {check_seconds:>6.2f}", flush=True)


def try_out(package, sources, out, choices):
    """Prints the lines of a package by each choice of options."""
    old = os.path.join(out, "old")
    compile_to(old, package, sources)
    inputs = [input_of(name, sources) for name in package.inputs]
    for options in choices:
        choose(package, old, inputs, out, options)


def numbers_in(separator):
    """What reads numbers with this between them."""
    return lambda text: tuple(map(int, text.split(separator)))


def read_words():
    """The folder of the sources, and all choices of options; the words that are left are those of common.py."""
    reader = argparse.ArgumentParser(description=__doc__.split("\n\n", maxsplit=1)[0])
    reader.add_argument("sources")
    reader.add_argument("program", nargs="?")
    reader.add_argument("--ports", default=((3, 2),), type=lambda text: tuple(map(numbers_in("/"), text.split(","))))
    reader.add_argument("--count", default=(32,), type=numbers_in(","))
    reader.add_argument("--budget", default=(65536,), type=numbers_in(","))
    read = reader.parse_args()
    sys.argv[1:] = [read.program] if read.program else []
    return read.sources, list(itertools.product(read.ports, read.count, read.budget))


def main():
    folder, choices = read_words()
    absent = compiled.missing()
    if absent:
        print(absent)
        return 0
    sources = [sources_of(package, folder) for package in PACKAGES]
    print(f"{'program':8} {'ports':>5} {'count':>5} {'budget':>7} {'instructions':>12} {'Msteps':>7} {'Mcycles':>8} "
          f"{'cuts':>5} {'units':>6} {'given up':>8} {'saved':>6} {'other':>6} {'run':>6} {'find':>6} {'check':>6}")
    with tempfile.TemporaryDirectory() as out:
        for package, path in zip(PACKAGES, sources):
            try_out(package, path, out, choices)
    return 0


if __name__ == "__main__":
    sys.exit(main())
