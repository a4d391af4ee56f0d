"""Executables that GCC compiles and links for RV32IM, for the checks that compare with other tools."""
import os
import subprocess

from checks import common
from checks.common import SAMPLES, TOP

PROGRAMS = os.path.join(TOP, "checks", "programs")
GCC, LINKER = "riscv64-unknown-elf-gcc", "riscv64-unknown-elf-ld"
HOST_GCC, SPECIFICATION = "gcc", "picolibc.specs"
# The linker's own layout stands in the place of picolibc's, which is for a board with two memories.
TARGET = ["-march=rv32im", "-mabi=ilp32", "-static", f"--specs={SPECIFICATION}", "-nostartfiles",
          "-T", "ldscripts/elf32lriscv.x"]
SUPPORT = os.path.join(SAMPLES, "picolibc.c")
LEVELS = ("-O2", "-Os")


def missing(others=()):
    """A line that says which tools are not there: those that the executables take, and the others, each by its name
    with the Debian package that has it. None where none is missing."""
    lacks = common.missing({GCC: "gcc-riscv64-unknown-elf", LINKER: "binutils-riscv64-unknown-elf", **dict(others)})
    if not lacks and compiler_lacks(SPECIFICATION):
        return common.lacking([SPECIFICATION], ["picolibc-riscv64-unknown-elf"])
    return lacks


def compiler_lacks(name):
    """Whether GCC doesn't know where a file of this name is: then it gives the name back."""
    found = subprocess.run([GCC, f"-print-file-name={name}"], check=True, capture_output=True, text=True).stdout
    return found.strip() == name


def samples():
    """The executables of samples/, each with its name."""
    return [(name, os.path.join(SAMPLES, name)) for name in sorted(os.listdir(SAMPLES)) if name.endswith(".elf")]


def executables(folder, chosen=None):
    """Each executable with a name: those of samples/, and those of checks/programs, which are built here, or of them
    those that are chosen by their names."""
    found = samples()
    for name in sorted(os.listdir(PROGRAMS)):
        for level in LEVELS:
            if name.endswith(".c") and (chosen is None or name[:-2] in chosen):
                program = os.path.join(folder, name[:-2] + level)
                subprocess.run([GCC, *TARGET, level, os.path.join(PROGRAMS, name), SUPPORT, "-o", program], check=True)
                found.append((f"{name} {level}", program))
    return found


def interpreter(folder):
    """The plain interpreter in C of benchmarks/, which is built here."""
    built = os.path.join(folder, "interpreter")
    subprocess.run([HOST_GCC, "-O2", os.path.join(TOP, "benchmarks", "interpreter.c"), "-o", built], check=True)
    return built
