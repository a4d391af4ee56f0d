"""Compares `rumtsafi dis` with GNU objdump, and `rumtsafi asm` with the bytes that `dis` read.

A C program is compiled for RV32IM by GCC, and the words of its text go through both. Every word has to read the same,
once the two ways of writing are brought to one; and the text of `dis` has to assemble to the same bytes again.
"""
import os
import re
import subprocess

from checks.common import TOP, main, missing

SOURCE = os.path.join(TOP, "checks", "compare", "objdump.c")
TOOLS = {name: f"riscv64-unknown-elf-{name}" for name in ("gcc", "objcopy", "objdump")}
TARGET = ["-march=rv32im", "-mabi=ilp32", "-O2", "-ffreestanding", "-nostdlib", "-nostartfiles"]
BRANCHES = {"beq", "bne", "blt", "bge", "bltu", "bgeu", "jal"}


def number(text):
    """A number as Python has it: decimal or hex, with a sign or without."""
    return int(text, 0)


def fence_bits(operands):
    """The bits 31 to 20 of a fence whose sets of accesses objdump names."""
    sets = [sum(8 >> "iorw".index(letter) for letter in part) for part in operands]
    return sets[0] * 16 + sets[1]


def from_objdump(address, mnemonic, operands):
    """An instruction of objdump as a mnemonic and its operands, numbers as numbers, offsets from the instruction."""
    if mnemonic == "fence":
        return ("fence", fence_bits(operands), "x0", "x0")
    result = [mnemonic]
    for place, operand in enumerate(operands):
        memory = re.fullmatch(r"(-?\d+)\((x\d+)\)", operand)
        if memory:
            result += [number(memory.group(1)), memory.group(2)]
        elif operand.startswith("x"):
            result.append(operand)
        elif mnemonic in BRANCHES and place == len(operands) - 1:
            result.append(int(operand, 16) - address)
        else:
            result.append(number(operand))
    return tuple(result)


def from_dis(text):
    """A line of `dis` without its word, in the same form."""
    mnemonic, *rest = text.split(" ", 1)
    result = [mnemonic]
    for operand in rest[0].split(", ") if rest else []:
        memory = re.fullmatch(r"(-?\d+)\((x\d+)\)", operand)
        if memory:
            result += [number(memory.group(1)), memory.group(2)]
        elif operand.startswith("x"):
            result.append(operand)
        else:
            result.append(number(operand))
    return tuple(result)


def objdump_rows(program):
    """Each instruction of the text as objdump reads it: its word, and the instruction."""
    listing = subprocess.run(
        [TOOLS["objdump"], "-d", "-j", ".text", "-M", "no-aliases,numeric", "--no-show-raw-insn", program],
        check=True, capture_output=True, text=True).stdout
    rows = []
    for line in listing.split("\n"):
        found = re.match(r"\s*([0-9a-f]+):\s+([a-z]\S*)\s*([^#<]*)", line)
        if found:
            operands = [part.strip() for part in found.group(3).strip().split(",") if part.strip()]
            rows.append(from_objdump(int(found.group(1), 16), found.group(2), operands))
    return rows


def look(check):
    program, text = check.path("program"), check.path("text.bin")
    subprocess.run([TOOLS["gcc"], *TARGET, SOURCE, "-lgcc", "-o", program], check=True)
    subprocess.run([TOOLS["objcopy"], "-O", "binary", "--only-section=.text", program, text], check=True)
    listed = check.call("dis", text, text=True)
    check.same("the status of dis", listed.returncode, 0)
    lines, rows = listed.stdout.split("\n")[:-1], objdump_rows(program)
    check.same("the number of words", len(lines), len(rows))
    for line, row in zip(lines, rows):
        check.same(line, from_dis(line[9:]), row)
    check.write("text.s", "".join(line[9:] + "\n" for line in lines))
    check.same("the status of asm", check.call("asm", "text.s", "again.bin").returncode, 0)
    check.need(check.read("again.bin") == check.read(text), "the text does not assemble to the same bytes")
    check.least({"words": len(lines)}, 1000)
    return f"{len(lines)} words compared"


main(__doc__, look, skipped=missing(dict.fromkeys(TOOLS.values(), "gcc-riscv64-unknown-elf")))
