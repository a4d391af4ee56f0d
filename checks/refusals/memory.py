"""Runs calls to which memory is refused, and compares how they end with what docs/GUIDE.md says of status 12.

Each call runs once for each growth of memory that it asks for, with that growth refused, and once more with all later
ones refused too; of a call that asks for very many, some of them. checks/refusals/memory.c refuses them, between the
program and the C library. Then each call runs under limits on its address space, from nothing up to enough. Each run
has to end with status 12, or as it does with all memory, and its files have to be those that come with that: of the
files that `find` writes some first ones are whole and the others as before, and no other file changes. The fault line
may be missing only as long as the words aren't there yet. Where a limit is so small that the system can't start the
program, or can't give it the stack that it touches before it reads or writes a file, that is counted by itself. A
later end by a signal is a fault; where there is gdb, it shows the place.

It takes a minute or two.
"""
import dataclasses
import os
import re
import resource
import shutil
import subprocess
import sys

from checks.common import TOP, leave_no_dumps, main, missing
from checks.oracles import outcomes
from checks.oracles.outcomes import NO_MEMORY, OWN

# How often a call that does nothing is made, to see whether a limit lets the program begin: where the stack lies
# differs from run to run.
TRIALS = 30
COMPILER, LIBRARY = "cc", os.path.join(TOP, "checks", "refusals", "memory.c")
# How many growths of a call are refused, and how many limits are tried.
GROWTHS, LIMITS = 500, 150
PAGE, ALL = resource.getpagesize(), 2 ** 62
STARTED, ASKED = b"started\n", re.compile(rb"started\n(\d+) growths\n")
# What the system's loader says where it can't start a program; and where it starts one without the library.
LOADER, WITHOUT = re.compile(rb"error while loading shared libraries|cannot allocate TLS"), b"cannot be preloaded"


def is_started(end):
    """Whether the system started the program: else its loader says why not, or a signal ends it without a word."""
    failed = LOADER.search(end.told) if end.status == 127 else end.status < 0 and WITHOUT not in end.told
    return STARTED in end.told or not failed


class Checked:
    """The runs of a call, and what was wrong with them."""

    def __init__(self, folder, call, library):
        self.folder, self.call = folder, call
        self.library, self.runs, self.refused, self.unstarted, self.faults = library, 0, 0, 0, []
        self.success = self.run()
        fault = outcomes.whole(call, self.success)
        if fault:
            sys.exit(f"{call.words}: with all memory: {fault}")

    def run(self, first=0, last=0, **options):
        environment = {**os.environ, "LD_PRELOAD": self.library, "REFUSED_FROM": str(first), "REFUSED_TO": str(last)}
        return self.folder.run(self.call, env=environment, **options)

    def judge(self, end, what, silent=False):
        """Notes where a run ended otherwise than it may."""
        self.runs += 1
        self.refused += end.status == NO_MEMORY
        fault = outcomes.wrong(self.call, self.success, end, [OWN, NO_MEMORY], silent)
        if fault:
            self.faults.append(f"{self.call.words}: {what}: {fault}")

    def refuse_growths(self):
        """Refuses each growth, alone and with all later ones."""
        asked = int(ASKED.fullmatch(self.success.told)[1])
        numbers = sorted({1 + place * asked // GROWTHS for place in range(GROWTHS)}) if asked > GROWTHS else range(
            1, asked + 1)
        for later in (False, True):
            silent = True
            for number in numbers:
                end = self.run(number, ALL if later else number)
                # Once the words are there, the line is.
                silent = silent and (end.status != NO_MEMORY or end.printed == b"")
                self.judge(end, f"growth {number}{' and all later ones' if later else ''} refused", silent)

    def limit_space(self):
        """Runs it under limits from nothing up to enough."""
        silent = True
        for size in self.sizes():
            end = self.limited(size)
            nothing = (end.printed, end.files) == (b"", {})
            if nothing and (not is_started(end) or end.status < 0 and not self.begins(size)):
                self.unstarted += 1
                continue
            silent = silent and (end.status != NO_MEMORY or end.printed == b"")
            self.judge(end, f"{size} bytes of address space", silent)
            if end.status < 0:
                self.faults.append(self.place(size))

    def sizes(self):
        """Limits from nothing up to enough, and each of some pages from the least by which the program is started."""
        enough = PAGE
        while self.limited(enough).status != self.success.status:
            enough *= 2
        least, most = 0, enough // PAGE
        while least < most:
            middle = (least + most) // 2
            least, most = (least, middle) if is_started(self.limited(middle * PAGE)) else (middle + 1, most)
        pages = {place * enough // PAGE // LIMITS for place in range(LIMITS + 1)} | {*range(least, least + LIMITS)}
        return [number * PAGE for number in sorted(pages)]

    def limited(self, size):
        return self.run(preexec_fn=lambda: resource.setrlimit(resource.RLIMIT_AS, (size, size)))

    def begins(self, size):
        """Whether the program always gets under a limit as far as to its words: as many as the call has, which it then
        can't read."""
        call, self.call = self.call, dataclasses.replace(self.call, words=self.call.words.upper())
        begins = all(self.limited(size).status >= 0 for _ in range(TRIALS))
        self.call = call
        return begins

    def place(self, size):
        """Where a signal ends the run under a limit, by gdb."""
        if not shutil.which("gdb") or not shutil.which("prlimit"):
            return "there is no gdb that shows where"
        return self.folder.run(self.call, ["gdb", "-batch", "-nx", "-ex", f"set exec-wrapper prlimit --as={size}",
                                           "-ex", "run", "-ex", "backtrace", "--args"]).printed.decode(errors="replace")


def look(check):
    leave_no_dumps()
    library, folder = check.path("refused.so"), outcomes.Folder(check)
    subprocess.run([COMPILER, "-O2", "-shared", "-fPIC", LIBRARY, "-o", library], check=True)
    for call in outcomes.COMMANDS:
        checked = Checked(folder, call, library)
        checked.refuse_growths()
        checked.limit_space()
        check.faults += checked.faults
        print(f"{call.words}: {checked.runs} runs, of which {checked.refused} ended with status 12; "
              f"{checked.unstarted} more were not started; {len(checked.faults)} faults")
    return f"{len(outcomes.COMMANDS)} calls looked at"


main(__doc__, look, skipped=missing({COMPILER: "gcc"}))
