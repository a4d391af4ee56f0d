"""What the benchmarks share: where the program is, how files are made, and what a call takes of time and memory."""
import functools
import multiprocessing
import os
import signal
import statistics
import subprocess
import sys
import tempfile
import threading
import time

from checks import common
from checks.common import SHIPPED

# The seconds after which a call is stopped.
PATIENCE = 120
HERE = os.path.dirname(os.path.abspath(__file__))

# The compilers, each with the Debian package that has it.
CROSS, HOST = "riscv64-unknown-elf-gcc", "gcc"
PACKAGES = {CROSS: "gcc-riscv64-unknown-elf", HOST: "gcc"}
TARGET = ["-march=rv32im", "-mabi=ilp32", "-ffreestanding", "-nostdlib", "-nostartfiles", "-static"]


@functools.cache
def program():
    """The program: the first word, or the one that ships."""
    return os.path.abspath(sys.argv[1]) if len(sys.argv) > 1 else SHIPPED


def call(*words):
    """What a call prints, its status, its seconds of the clock, and what the system says that it used.

    The system counts the memory that this script holds at the call as the call's own, so it should be little.
    """
    with tempfile.TemporaryFile() as output:
        begin = time.perf_counter()
        child = os.posix_spawnp(words[0], words, os.environ, file_actions=[
            (os.POSIX_SPAWN_DUP2, output.fileno(), 1)])
        stop = threading.Timer(PATIENCE, os.kill, (child, signal.SIGKILL))
        stop.start()
        _, ended, usage = os.wait4(child, 0)
        seconds = time.perf_counter() - begin
        stop.cancel()
        output.seek(0)
        return output.read(), os.waitstatus_to_exitcode(ended), seconds, usage


def measure(*words):
    """What a call prints, its status, its seconds of the clock, and its greatest resident memory in MiB."""
    output, status, seconds, usage = call(*words)
    return output, status, seconds, usage.ru_maxrss / 1024


def processor_time(*words):
    """What a call prints, and its seconds of processor time. It has to end with status 0."""
    output, status, _, usage = call(*words)
    if status != 0:
        sys.exit(f"{' '.join(words)}: status {status}, {output[-80:]!r}")
    return output, usage.ru_utime + usage.ru_stime


def least_times(rounds, *calls):
    """Makes some calls in turn, so many times over: what each prints, which has to be the same each time, and its least
    seconds of processor time."""
    return times_by(min, rounds, *calls)


def median_times(rounds, *calls):
    """As least_times, but with the median of each one's seconds, which doesn't compare a call in a moment when the
    processor is fast with another one in a moment when it isn't."""
    return times_by(statistics.median, rounds, *calls)


def times_by(choice, rounds, *calls):
    """Makes some calls in turn, so many times over: what each prints, which has to be the same each time, and the choice
    of its seconds of processor time."""
    outputs, times = [set() for _ in calls], [[] for _ in calls]
    for _ in range(rounds):
        for place, words in enumerate(calls):
            output, seconds = processor_time(*words)
            outputs[place].add(output)
            times[place].append(seconds)
    for words, found in zip(calls, outputs):
        if len(found) != 1:
            sys.exit(f"{' '.join(words)}: not the same each time")
    return [(found.pop(), choice(seconds)) for found, seconds in zip(outputs, times)]


def faster(*words):
    """The output, seconds and memory of the faster of two runs of the program that end with status 0."""
    runs = [measure(program(), *words) for _ in range(2)]
    for output, status, _, _ in runs:
        if status != 0:
            sys.exit(f"{' '.join(words)}: status {status}, {output[-80:]!r}")
    output, _, seconds, memory = min(runs, key=lambda run: run[2])
    return output, seconds, memory


def port_words(ports):
    """The options of a call for ports, which are so many inputs and so many outputs."""
    return "--in", str(ports[0]), "--out", str(ports[1])


def port_name(ports):
    """Ports as tables have them."""
    return f"{ports[0]}/{ports[1]}"


def missing(*compilers):
    """A line that says which of the compilers are not there; None where none is missing."""
    return common.missing({compiler: PACKAGES[compiler] for compiler in compilers})


def bare_executable(source, file, *options):
    """Compiles a source of this folder for RV32IM, without a library, with some options of the compiler."""
    subprocess.run([CROSS, *TARGET, *options, os.path.join(HERE, source), "-lgcc", "-o", file], check=True)


def native(source, file):
    """Compiles a source of this folder for this machine."""
    subprocess.run([HOST, "-O2", os.path.join(HERE, source), "-o", file], check=True)


def write(how, *words):
    """Writes a file in a process of its own: the system counts the memory that this one holds as the next call's."""
    process = multiprocessing.get_context("fork").Process(target=how, args=words)
    process.start()
    process.join()
    if process.exitcode != 0:
        sys.exit("a file could not be made")
