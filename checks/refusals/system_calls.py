"""Has each system call of the program fail, by strace, and compares how the program ends with what docs/GUIDE.md says.

Calls of each command are traced, and each system call that the program makes, behind those by which the system starts
it, fails in turn by each error that it may have; reads, writes and openings fail also with all later ones of their
kind. A failed read has to end with status 2, and a failed write with 3, each with the name of the file; an EINTR may be
tried again; without memory the status may be 12; and other calls may fail with no effect. The files have to be those
that come with the status. No run may end by a signal, or go on for ever.

It takes a minute or two.
"""
import os
import re
import sys
from collections import Counter, namedtuple

from checks.common import leave_no_dumps, main
from checks.oracles import outcomes
from checks.oracles.outcomes import ENDLESS, NO_MEMORY, OWN, READ, WRITE
from checks.tools.tracing import OPENED, USED, lacking_here, own_lines, traced

# How a call of each name may fail, and any other. The system gives no error for brk, but the break that stays.
FAILURES = {
    "openat": ["EACCES", "EIO", "EINTR", "EMFILE", "ENOMEM", "ENOSPC", "EROFS"], "read": ["EIO", "EINTR", "EISDIR"],
    "write": ["EIO", "ENOSPC", "EINTR", "EFBIG", "EPIPE", "EDQUOT"], "close": ["EIO", "EINTR", "ENOSPC"],
    "mmap": ["ENOMEM"], "mremap": ["ENOMEM"], "munmap": ["ENOMEM"], "brk": ["retval=0"],
    "getrandom": ["EINTR", "ENOSYS"]}
OTHERS = ["EIO", "EINTR", "ENOSPC"]
MEMORY = {"mmap", "brk", "mremap", "munmap"}
# These fail for good, too; an EINTR doesn't.
LASTING = {"openat", "read", "write"}

# A call of the system: which one of its name it is, and its file, if it has one.
SystemCall = namedtuple("SystemCall", "name number file")


def system_calls(lines):
    """The system calls of a trace that are the program's own. A file beside an output stands for it."""
    for name, number, rest in own_lines(lines):
        opened, used = OPENED.match(rest), USED.match(rest)
        file = os.path.basename(used[2]) if used else opened[1] if opened and name != "write" else None
        file = "-" if used and used[1] == "1" else file and re.sub(r"\.tmp\d+$", "", file)
        yield SystemCall(name, number, file)


def causes(call, reads, failed, error, lasting):
    """The causes of an end that a failed system call may have, alone or with all later ones of its kind."""
    if failed.name in MEMORY:
        return [OWN, NO_MEMORY]
    if failed.file in reads and failed.name in ("openat", "read"):
        found = [(READ, failed.file)]
    elif failed.file == "-":
        found = [OWN] if call.status else [(WRITE, "-")]
    elif failed.file in call.writes:
        found = [(WRITE, failed.file)]
    elif failed.file is not None and failed.file not in reads:
        # Another file by which the program writes one.
        found = [(WRITE, name) for name in call.writes]
    else:
        found = []
    # Where a file can't be closed, or its system call is tried again, nothing is lost. A file that is opened to be
    # replaced, or made beside one, may be written in place.
    harmless = (not found or error == "EINTR" or failed.name not in LASTING
                or failed.name == "openat" and failed.file in call.writes and not lasting)
    return found + [OWN] * harmless + [NO_MEMORY] * (error == "ENOMEM")


def compare(folder, call):
    """Has each system call of a call fail: how many did, how the calls ended, and what was wrong with that."""
    success, lines = traced(folder, call)
    fault = outcomes.whole(call, success)
    if fault:
        sys.exit(f"{call.words}: where nothing fails: {fault}")
    ends, faults, names = Counter(), [], []
    for failed in system_calls(lines):
        names.append(failed.name)
        for error in FAILURES.get(failed.name, OTHERS):
            failure = error if "=" in error else f"error={error}"
            for lasting in (False, True)[:1 + (failed.name in LASTING and error != "EINTR")]:
                when = f"{failed.number}{'+' if lasting else ''}"
                end, made = traced(folder, call, "-e", f"trace={failed.name}", "-e",
                                   f"inject={failed.name}:{failure}:when={when}")
                what = f"{call.words}: {failed.name} number {when} of {failed.file} fails by {error}"
                if not any(line.endswith("(INJECTED)") for line in made):
                    faults.append(f"{what}: that was not made")
                # Where the output takes nothing more, or its only print is the fault line, that is missing.
                silent = failed.name == "write" and (lasting or call.status != 0)
                fault = outcomes.wrong(call, success, end, causes(call, folder.reads(call), failed, error, lasting),
                                       silent)
                ends["no end" if end.status == ENDLESS else end.status] += 1
                if fault:
                    faults.append(f"{what}: {fault}")
    if not {"openat", "read", "write"} & {*names}:
        faults.append(f"{call.words}: none of its system calls was seen")
    return len(names), ends, faults


def look(check):
    leave_no_dumps()
    folder = outcomes.Folder(check)
    for call in outcomes.COMMANDS:
        made, ends, faults = compare(folder, call)
        check.faults += faults
        told = ", ".join(f"{count} with status {status}" for status, count in sorted(ends.items(), key=str))
        print(f"{call.words}: {made} system calls failed in {ends.total()} runs, which ended {told}; "
              f"{len(faults)} faults")
    return f"{len(outcomes.COMMANDS)} calls looked at"


main(__doc__, look, skipped=lacking_here())
