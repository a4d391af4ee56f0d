"""Compares the calls that the program makes on real files, as strace shows them, with what they have to be.

The shelf over real files tells nothing of them, but the calls made on it: each file of a command is opened to be read
once, in the order of docs/GUIDE.md, then each output takes its place, in order, and then the text is printed. Each call
of `outcomes.COMMANDS` is traced. Nothing that it opens may be another file but what is new beside an output.
"""
import os
import re

from checks.common import main
from checks.oracles import outcomes
from checks.tools.tracing import OPENED, lacking_here, own_lines, traced

MOVED = re.compile(r'[^"]*"([^"]*)"[^"]*"([^"]*)"')


def made(lines):
    """What the lines of a trace say, in order: files that are read, made or looked at, outputs, and prints."""
    for name, _, rest in own_lines(lines):
        if name == "openat":
            file = os.path.basename(OPENED.match(rest)[1])
            if "O_CREAT" in rest:
                yield "make", file
            else:
                yield ("read" if "O_RDONLY" in rest else "look at"), file
        elif name == "rename":
            yield ("write", *(os.path.basename(path) for path in MOVED.match(rest).groups()))
        elif name == "write" and rest.startswith("1<"):
            yield "print", "-"


def due(folder, call):
    """What a call has to make."""
    for name in folder.reads(call):
        yield "read", name
    for name in call.writes:
        yield "look at", name
        yield "make", f"{name}.tmp0"
        yield "write", f"{name}.tmp0", name
    if call.printed != b"":
        yield "print", "-"


def look(check):
    folder = outcomes.Folder(check)
    for call in outcomes.COMMANDS:
        end, lines = traced(folder, call)
        fault = outcomes.whole(call, end)
        check.same(call.words, fault or list(made(lines)), list(due(folder, call)))
    return f"{len(outcomes.COMMANDS)} calls traced"


main(__doc__, look, skipped=lacking_here())
