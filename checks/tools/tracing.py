"""The system calls of the program, as strace shows them."""
import os
import re
import subprocess
from collections import Counter

from checks.common import missing, read

SECONDS = 20
# The program's first call: the runtime lets a write to a closed pipe fail.
FIRST = ("rt_sigaction", "SIGPIPE")
# A line of a trace: the call, and what stands behind it.
LINE = re.compile(r"(\w+)\((.*)")
# What a file is called there: where it is opened, and where an open one is used.
OPENED, USED = re.compile(r'[^"]*"([^"]*)"'), re.compile(r"(\d+)<([^>]*)>")


def lacking_here():
    """A line that says why strace doesn't run here; None where it does."""
    lacks = missing({"strace": "strace"})
    if not lacks and subprocess.run(["strace", "-qq", "-o", os.devnull, "true"], capture_output=True,
                                    check=False).returncode != 0:
        return "skipped: strace can't trace a program here"
    return lacks


def traced(folder, call, *injections):
    """Runs a call under strace: its end, and the lines of the trace."""
    end = folder.run(call, ["strace", "-qq", "-y", "-s", "4096", "-o", folder.beside, *injections], SECONDS)
    return end, read(folder.beside).decode(errors="replace").splitlines()


def own_lines(lines):
    """The system calls of a trace that are the program's own: the name, which one of its name it is, and what stands
    behind the name."""
    counts, own = Counter(), False
    for line in lines:
        found = LINE.match(line)
        if not found or found[1] == "exit_group":
            continue
        name, rest = found.groups()
        counts[name] += 1
        own = own or name == FIRST[0] and FIRST[1] in rest
        if own:
            yield name, counts[name], rest
