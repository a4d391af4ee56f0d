"""Compares `rumtsafi run` with qemu-riscv32 and with a plain interpreter in C.

PROGRAM may also be the interpreter of benchmarks/, which takes the same words.

Each C program of checks/programs is compiled for RV32IM by GCC with -O2 and with -Os, and linked with picolibc; the
executables of samples/ are taken as they are. Each runs in turn by `rumtsafi run`, by qemu-riscv32 and by the
interpreter, on the same input. The output and the end have to be those of qemu, where a signal stands for an end other
than an exit, and the end line with its counts has to be that of the interpreter. Every executable has to keep the
rules of executables, and every instruction of RV32IM has to be among those that qemu executed.
"""
import os
import re
import signal
import subprocess

from checks.common import LIMIT, called, leave_no_dumps, main, read
from checks.tools import compiled
from checks.tools.profiles import QEMU
from readers import executable
from readers.instructions import ALL, mnemonic

INPUT = os.path.join(compiled.PROGRAMS, "count.c")
SIGNALS = {"break": signal.SIGTRAP, "access": signal.SIGSEGV, "illegal": signal.SIGILL}
END = re.compile(rb"end (exit|break|access|misaligned|fetch|illegal|limit)((?: [0-9a-f]+)*) steps \d+ cost \d+\n\Z")


def executed(log):
    """The instructions in qemu's log of the blocks that it translated, which it does just before it executes them."""
    with open(log, encoding="utf-8", errors="replace") as file:
        words = re.findall(r"^0x[0-9a-f]+:\s+([0-9a-f]{8})\s", file.read(), re.M)
    return {mnemonic(int(word, 16)) for word in set(words)} - {None}


def run(words, **options):
    """What a program prints, and how it ends; where it doesn't end in time, that is its status."""
    try:
        return called(words, **options)
    except subprocess.TimeoutExpired:
        return subprocess.CompletedProcess(words, f"none after {LIMIT} s", b"")


def compare(check, name, program, interpreter, log):
    """Compares an executable's run with those by qemu and the interpreter."""
    ours = run([check.program, "run", program, "--input", INPUT])
    plain = run([interpreter, "run", program, "--input", INPUT])
    with open(INPUT, "rb") as file:
        # Both files that a program may write to are one output in `run`.
        qemu = run([QEMU, "-d", "in_asm", "-D", log, program], stdin=file, stderr=subprocess.STDOUT)
    check.same(f"{name}: the rule that the executable breaks", executable.fault(read(program)), None)
    found = END.search(ours.stdout)
    if not check.need(ours.returncode == 0 and found, f"{name}: status {ours.returncode}, {ours.stdout[-80:]!r}"):
        return
    kind = found.group(1).decode()
    code = int(found.group(2), 16) & 255 if kind == "exit" else -SIGNALS.get(kind, 0)
    output = qemu.stdout
    if code < 0:
        # What qemu itself says of the signal comes after the program's output.
        output = output.split(b"qemu: uncaught target signal")[0]
    check.need(ours.stdout[:found.start()] == output, f"{name}: the output is another than that of {QEMU}")
    check.need(qemu.returncode == code,
               f"{name}: {kind}{found.group(2).decode()} against status {qemu.returncode} of {QEMU}")
    check.need(ours.stdout == plain.stdout,
               f"{name}: {ours.stdout[found.start():]!r} against {plain.stdout[-80:]!r} of the interpreter")


def look(check):
    leave_no_dumps()
    interpreter, log, seen = compiled.interpreter(check.folder), check.path("log"), set()
    programs = compiled.executables(check.folder)
    for name, program in programs:
        compare(check, name, program, interpreter, log)
        seen |= executed(log)
    check.same("the instructions that no program executed", sorted(ALL - seen), [])
    check.least({"executables": len(programs)}, 20)
    return f"{len(programs)} executables compared, {len(seen)} of {len(ALL)} instructions executed"


main(__doc__, look, skipped=compiled.missing({QEMU: "qemu-user", compiled.HOST_GCC: "gcc"}))
