"""Profiles of runs, by the addresses of the instructions that qemu-riscv32 says it executed."""
import os
import re
import subprocess
import tempfile
from collections import Counter

from checks.oracles.choices import Profile
from readers import executable
from readers.instructions import mnemonic

QEMU = "qemu-riscv32"
LIMIT = 60
TRACE = re.compile(r"^Trace 0: \S+ \[[0-9a-f]+/([0-9a-f]+)/", re.M)


def each_alone():
    """The option by which each instruction is a block of its own, which newer versions spell in another way."""
    told = subprocess.run([QEMU, "-help"], stdout=subprocess.PIPE, text=True, check=False).stdout
    return "-one-insn-per-tb" if "-one-insn-per-tb" in told else "-singlestep"


def trace(path, given):
    """The addresses of the steps of a run on the bytes of a file."""
    with tempfile.TemporaryDirectory() as folder, open(given, "rb") as file:
        log = os.path.join(folder, "log")
        subprocess.run([QEMU, each_alone(), "-d", "exec,nochain", "-D", log, path], stdin=file, timeout=LIMIT,
                       stdout=subprocess.DEVNULL, stderr=subprocess.DEVNULL, check=False)
        with open(log, encoding="utf-8", errors="replace") as file:
            return [int(address, 16) for address in TRACE.findall(file.read())]


def profile(data, steps, end):
    """The profile of the steps that an executable made, of which the end line says `end`."""
    image = executable.Image(data)
    made = int(end.split()[-3])
    jumps = {address for address in set(steps) if mnemonic(image.word(address)) == "jalr"}
    targets = {after for address, after in zip(steps[:made], steps[1:]) if address in jumps}
    return Profile(Counter(steps[:made]), targets, end)
