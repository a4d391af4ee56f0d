"""Runs the examples of README.md, docs/GUIDE.md and docs/TUTORIAL.md, and compares what they print and how they end.

PROGRAM is the program that `./rumtsafi` stands for in the examples.

An example is a fenced block marked `console`. Its lines that begin with `$ ` are commands, which go on behind a line
that ends with a backslash, and the lines after each are what it prints on standard output. Every command has to end
with status 0, unless the next command is `echo $?`. A block marked `c NAME`, `text NAME` or `verilog NAME` is a file
that later examples use. The blocks of a document are run in turn, each by one shell, in a folder that holds a copy of
samples/, a link to views/, and what earlier blocks left. A block that needs a tool which is not there is skipped, with
a line that says so, and so is one that needs a file which a skipped block makes. Blocks in which GCC compiles take the
version that the figures are of.
"""
import os
import re
import secrets
import shlex
import shutil
import subprocess
import sys

from checks.common import SAMPLES, TOP, main, text_of
from checks.tools.compiled import compiler_lacks
from checks.views import viewing

DOCUMENTS = ("README.md", "docs/GUIDE.md", "docs/TUTORIAL.md")
BUILT_IN = {"cd", "do", "done", "echo", "read", "while"}
GCC, VERSION = "riscv64-unknown-elf-gcc", "12.2.0"
LIMIT = 120
# The views, and what some of them need.
VIEWS, VIEW_TOOLS, VIEW_LIBRARIES = "views/", ("dot", "parallel", "iverilog"), ("jinja2", "matplotlib")


class Command:
    """A command of an example: its text, the output that is due, and where it stands."""

    def __init__(self, text, place):
        self.text, self.place, self.output = text, place, ""


def fences(document):
    """The fenced blocks of a document: the mark of each, its lines, and the number of its first line."""
    mark, inside, lines, first = None, 0, [], 0
    for number, line in enumerate(text_of(document).splitlines(True), 1):
        indent = re.match(" *", line).end()
        if mark is None and line[indent:].startswith("```"):
            mark, inside, lines, first = line[indent + 3:].strip(), indent, [], number + 1
        elif mark is not None and line.strip() == "```":
            yield mark, lines, first
            mark = None
        elif mark is not None:
            lines.append(line[inside:])


def commands_of(document, lines, first):
    """The commands of an example."""
    found, goes_on = [], False
    for number, line in enumerate(lines, first):
        if goes_on:
            found[-1].text += "\n" + line.rstrip("\n")
        elif line.startswith("$ "):
            found.append(Command(line[2:].rstrip("\n"), f"{document}:{number}"))
        elif found:
            found[-1].output += line
            continue
        else:
            sys.exit(f"{document}:{number}: a block of examples begins with a command")
        goes_on = line.endswith("\\\n")
    return found


def tools(command):
    """The programs that a command names."""
    lexer = shlex.shlex(command, posix=True, punctuation_chars=True)
    lexer.whitespace_split = True
    names, begins = set(), True
    for token in lexer:
        if begins and re.match(r"[\w./-]", token):
            names.add(token)
        begins = bool(re.fullmatch(r"[|;&]+", token))
    return names


def made(commands):
    """The files that a block of examples makes: the words behind `-o` and `>`, and those of `find` behind its first."""
    text = "\n".join(command.text for command in commands)
    found = re.findall(r"rumtsafi find [\w./-]+((?: [\w./-]+){4})", text)
    return {*re.findall(r"(?:-o|>) ?([\w./-]+)", text), *" ".join(found).split()}


def missing(commands, lost):
    """What a block of examples needs that is not there: programs, GCC's version, and files that no block made."""
    names = set().union(*(tools(command.text) for command in commands)) - BUILT_IN
    absent = sorted(name for name in names if not name.startswith(("./", VIEWS)) and not shutil.which(name))
    absent += viewing.absent(VIEW_TOOLS, VIEW_LIBRARIES) if any(name.startswith(VIEWS) for name in names) else []
    if GCC in names and GCC not in absent:
        version = subprocess.run([GCC, "-dumpfullversion"], check=True, capture_output=True, text=True).stdout.strip()
        absent += [] if version == VERSION else [f"version {VERSION} of {GCC}"]
        if any("picolibc.specs" in command.text for command in commands) and compiler_lacks("picolibc.specs"):
            absent.append("picolibc")
    return absent + sorted(name for name in lost if any(name in command.text for command in commands))


def run(commands, folder):
    """What each command of a block prints, and its status."""
    mark = secrets.token_hex(16)
    text = "status=0\n"
    for command in commands:
        text += f"(exit $status)\n{command.text}\nstatus=$?\nprintf '{mark} %d\\n' $status\n"
    environment = {**os.environ, "RUMTSAFI": os.path.join(folder, "rumtsafi")}
    done = subprocess.run(["bash", "-c", text], cwd=folder, env=environment, stdin=subprocess.DEVNULL,
                          stdout=subprocess.PIPE, stderr=subprocess.DEVNULL, timeout=LIMIT, check=False)
    output = done.stdout.decode("utf-8", errors="backslashreplace")
    return re.findall(rf"(.*?){mark} (\d+)\n", output, re.S)


def compare(commands, folder):
    """The lines that say where a block's commands do something else than the document says."""
    faults = []
    ends = run(commands, folder)
    if len(ends) != len(commands):
        faults.append(f"{commands[0].place}: the block ended before its last command")
    for place, (command, (output, status)) in enumerate(zip(commands, ends)):
        tells = place + 1 < len(commands) and commands[place + 1].text == "echo $?"
        if status != "0" and not tells:
            faults.append(f"{command.place}: {command.text}\n  ends with status {status}")
        if output != command.output:
            faults.append(f"{command.place}: {command.text}\n  prints {output!r}\n  and not {command.output!r}")
    return faults


def examples(check, document):
    """Runs the examples of a document, in a folder of its own. Gives how many commands they have."""
    folder, count, lost = check.path(os.path.basename(document)), 0, set()
    shutil.copytree(SAMPLES, os.path.join(folder, "samples"))
    os.symlink(check.program, os.path.join(folder, "rumtsafi"))
    os.symlink(os.path.join(TOP, "views"), os.path.join(folder, "views"))
    for mark, lines, first in fences(document):
        kind, _, name = mark.partition(" ")
        if kind in ("c", "text", "verilog") and name:
            check.write(os.path.join(folder, name), "".join(lines))
        elif kind == "console":
            commands = commands_of(document, lines, first)
            absent = missing(commands, lost)
            if absent:
                print(f"skipped: the examples from {document}:{first} on, for want of {', '.join(absent)}")
                lost |= made(commands)
                continue
            count += len(commands)
            check.faults += compare(commands, folder)
    return count


def look(check):
    total = sum(examples(check, document) for document in DOCUMENTS)
    check.least({"examples": total}, 1)
    return f"{total} examples run"


main(__doc__, look)
