"""Tries the wrong bodies of the crates, which the prover has to refuse, many in one check.

A file `crates/NAME/wrong-bodies/*.edit` names a function as a check does, less the crate, and changes its body in the
form of a must-fail edit: `function: TEXT`, and then `file: PATH` and pairs of `old: TEXT` and `new: TEXT`.

The proof of a function takes of those that it calls their contracts alone, and no body changes a contract. So bodies of
functions of which none calls another are refused together just where each is refused alone. A check of a crate has as
many bodies as that allows, and looks at their functions and at what these call. A function that calls another one with
a wrong body isn't looked at: the check says so, and its body comes into the next check. A body is refused where a goal
of its own function stays open, at a line of the function or at an answer of its proof; that an answer only names what
is gone, or met a limit of the prover, is not enough.

That a body is refused for itself, and not for how the check is called, is seen by what else the check looks at: of the
functions that it has as they stand one at least is proved in it. Where there is none, the same call has to prove those
of the bodies as they stand; without --proved it has to in any case, over libraries that `rt lib` makes.
"""
import collections
import concurrent.futures
import functools
import os
import re
import shutil
import signal
import subprocess
import sys
import tempfile

from checks.common import TOP, crates, words

PARTS = ("src", "specs", "proofs")
USES = crates()
HEAD = re.compile(r"( *)(?:pub(?:\(\w+\))? )?(?:const )?(?:unsafe )?fn (\w+)")
# What the prover says of a proof that shows nothing of the contract: it cites what is gone, or met a limit or a bug of
# the prover.
SHOWS_NOTHING = re.compile(r"has no field|is not in scope|has no `|was not admitted|is no name|ran out of|"
                           r"outgrew the memory limit|stopped at the step limit|internal (compiler )?error")

Body = collections.namedtuple("Body", "name function changes")
# A change of a file: the text that stands in it once, and what takes its place. Both are of one line.
Change = collections.namedtuple("Change", "path old new")
# Where a function stands: its file, and the numbers of its lines, from its attributes on, and of those of its body.
Place = collections.namedtuple("Place", "path lines body")


class Fault(Exception):
    """A wrong body that isn't refused, or can't be tried."""


def body_of(path):
    """The wrong body of a file."""
    at, name, said, changes = os.path.relpath(path, TOP), os.path.basename(path), {}, []
    if not re.fullmatch(r"\w[\w.-]*\.edit", name):
        raise Fault(f"{at} isn't named as a wrong body is")
    with open(path, encoding="utf-8") as file:
        lines = file.read().splitlines()
    for line in lines:
        kind, _, text = line.partition(":")
        if kind not in ("function", "file", "old", "new"):
            raise Fault(f"{at} has a line that isn't read: {line}")
        said[kind] = text.removeprefix(" ")
        if kind == "new":
            changes.append(Change(said.get("file"), said.pop("old", None), said["new"]))
    if not changes or "old" in said or "function" not in said or None in sum(changes, ()):
        raise Fault(f"{at} lacks a function, a file, or one of two texts")
    for file in {change.path for change in changes}:
        if not file.startswith("src/") or os.path.normpath(file) != file:
            raise Fault(f"{at} changes {file}, which is no file of src/")
    return Body(name.removesuffix(".edit"), said["function"], changes)


def library(name):
    return os.path.join(TOP, "crates", name, "out", "rlib", f"{name}.rlib")


@functools.cache
def below(name):
    """The crates of the repository that one stands on, also through others."""
    found = {}
    for low in USES[name]:
        if low in USES:
            found |= {**below(low), low: None}
    return found


class Crate:
    """A crate, of which copies with wrong bodies are checked."""

    def __init__(self, kit, name):
        self.kit, self.name, self.folder = kit, name, os.path.join(TOP, "crates", name)

    def bodies(self):
        """The wrong bodies of the crate. Each changes the body of its function alone: what stands outside may serve
        others."""
        folder = os.path.join(self.folder, "wrong-bodies")
        names = sorted(os.listdir(folder)) if os.path.isdir(folder) else []
        found = [body_of(os.path.join(folder, name)) for name in names]
        for body in found:
            place = self.place(body)
            if any(change.path != place.path or self.line(change) not in place.body for change in body.changes):
                raise Fault(f"{self.name}/{body.name} changes more than the body of {body.function}")
        return found

    def size(self):
        return sum(os.path.getsize(os.path.join(folder, name)) for part in PARTS
                   for folder, _, names in os.walk(os.path.join(self.folder, part)) for name in names)

    def text(self, path):
        with open(os.path.join(self.folder, path), encoding="utf-8") as file:
            return file.read()

    def line(self, change):
        """The number of the line that a change is in, from 0."""
        text = self.text(change.path)
        if text.count(change.old) != 1:
            raise Fault(f"{change.path} of {self.name} has {text.count(change.old)} times, and not once: {change.old}")
        return text.count("\n", 0, text.index(change.old))

    def place(self, body):
        """Where a body's function stands. No change moves a line."""
        path, changed = body.changes[0].path, self.line(body.changes[0])
        lines = self.text(path).split("\n")
        heads = [(at, head[1]) for at in range(changed) if (head := HEAD.match(lines[at])) and
                 head[2] == body.function.rpartition(":")[2]]
        if not heads:
            raise Fault(f"{self.name}/{body.name} changes nothing behind the head of {body.function}")
        first, indent = heads[-1]
        opens = re.compile(rf"{indent}(\{{|\).* \{{|(pub|const|unsafe|fn)\b.* \{{)")
        opening = next(at for at in range(first, len(lines)) if opens.fullmatch(lines[at]))
        last = next(at for at in range(opening, len(lines)) if lines[at] == indent + "}")
        while first and lines[first - 1].strip() and lines[first - 1][-1] not in "{}":
            first -= 1
        return Place(path, range(first, last + 1), range(opening + 1, last))

    def proofs(self, body):
        """The folders that the proof of a body's function may have. Functions that call one another have one proof."""
        path, lines, _ = self.place(body)
        text = "\n".join(self.text(path).split("\n")[at] for at in lines)
        cycle, (module, _, name) = re.search(r"#\[cycle\((\w+)\)\]", text), body.function.rpartition("::")
        last = [f"+{cycle[1]}"] if cycle else [name, f"+{name}"]
        base = "".join(f"{part}/" for part in ["./proofs", *module.split("::")] if part)
        return {f"{base}{folder}/" for folder in last}

    def together(self, bodies):
        """Bodies that can be tried together, as far as their texts tell; the changed files; and the bodies left."""
        texts, tried, left = {}, [], []
        for body in bodies:
            changed = dict(texts)
            is_apart = not any(self.proofs(body) & self.proofs(other) for other in tried)
            for path, old, new in body.changes:
                text = changed.setdefault(path, self.text(path))
                is_apart = is_apart and text.count(old) == 1
                changed[path] = text.replace(old, new)
            if is_apart:
                texts, tried = changed, [*tried, body]
            else:
                left.append(body)
        if not tried:
            raise Fault(f"{self.name}/{bodies[0].name} has a text that isn't there once behind the changes before it")
        return tried, texts, left

    def call(self, functions, kept):
        """The words that check these functions and what they call, over what earlier checks have kept."""
        kit, is_program = self.kit, os.path.isfile(os.path.join(self.folder, "src/main.rt"))
        call = [f"{kit}/bin/rattle", "check", "--crate-name", self.name, "src/main.rt" if is_program else "src/lib.rt"]
        call += ["-L", f"dependency={kit}/rlibs"]
        for name in ["std", *USES[self.name]]:
            call += ["--extern", f"{name}={library(name) if name in USES else f'{kit}/rlibs/{name}.rlib'}"]
        for name in below(self.name):
            call += ["-L", f"dependency={os.path.dirname(library(name))}"]
        call += ["--antt-project", f"{kit}/rattle/logic/antt-project.json", "--logic-built", f"{kit}/logic_built"]
        call += ["--links", f"{self.name}=", "--jobs", "1", "--incremental", kept]
        return call + [word for function in functions for word in ("--only", function)]

    def check(self, functions, texts, kept):
        """What a check of these functions prints, in a copy with these files. It has to come to the proofs."""
        # `rt` removes a folder of this name that a run which was killed has left, and the script for the gate's costs
        # knows by it what a process works for.
        with tempfile.TemporaryDirectory(prefix=f"rt-edit-{os.getpid()}-") as room:
            for part in PARTS:
                if os.path.isdir(os.path.join(self.folder, part)):
                    shutil.copytree(os.path.join(self.folder, part), os.path.join(room, part))
            for path, text in texts.items():
                with open(os.path.join(room, path), "w", encoding="utf-8") as file:
                    file.write(text)
            for _ in range(2):
                done = subprocess.run(self.call(functions, kept), cwd=room, stdin=subprocess.DEVNULL,
                                      stdout=subprocess.PIPE, stderr=subprocess.STDOUT, text=True, errors="replace",
                                      check=False)
                # Most likely it was for memory.
                if done.returncode != -signal.SIGKILL:
                    break
        said = done.stdout.rstrip("\n").split("\n")
        if not re.fullmatch(r"only=\d+ proved=\d+", said[-1]) or any(
                re.match(r"(\./)?(src|specs)/\S+: error: ", line) for line in said):
            raise Fault("\n".join([f"{self.name}: a check ended with status {done.returncode} and no proofs, of these:",
                                   *functions, *said[:6]]))
        return said

    def refusal(self, body, said):
        """Why a body is refused, or None where its function isn't looked at, as it calls another one."""
        start = f"fn {self.name}::{body.function}: "
        verdict = next((line.removeprefix(start) for line in said if line.startswith(start)), "not named by the check")
        if re.search(r"which (is|are) not proved", verdict):
            return None
        if "`search` did not prove" in verdict:
            return verdict[verdict.index("`search`"):]
        place, folders = self.place(body), tuple(self.proofs(body))
        for line in said if verdict == "not proved" else ():
            noted = re.match(r"note: (\S+?):(\d+):\d+: it is not proved", line)
            is_answer = line.startswith(folders) and ": error: " in line and not SHOWS_NOTHING.search(line)
            if is_answer or noted and noted[1] == place.path and int(noted[2]) - 1 in place.lines:
                return line
        raise Fault(f"the function {body.function} is {verdict}")


def look(crate, bodies, proved, tell):
    """Tries these wrong bodies of a crate; `tell` takes what each try came to. Then their functions as they stand,
    unless these are proved and each check has proved others. Gives the number of checks."""
    left, checks = bodies, 0
    with tempfile.TemporaryDirectory(prefix=f"rt-edits-{os.getpid()}-") as kept:
        while left:
            tried, texts, later = crate.together(left)
            said = crate.check([body.function for body in tried], texts, kept)
            waiting, checks, proved = [], checks + 1, proved and any(
                line.startswith(f"fn {crate.name}::") and line.endswith(": proved") for line in said)
            for body in tried:
                label = f"wrong body {crate.name}/{body.name}"
                try:
                    why = crate.refusal(body, said)
                    if why is None:
                        waiting.append(body)
                    else:
                        tell(f"{label}: refused: {why[:160]}")
                except Fault as fault:
                    tell(f"{label}: {fault}", is_fault=True)
            if len(waiting) == len(tried):
                raise Fault(f"{crate.name}: none of these is looked at: {', '.join(body.name for body in tried)}")
            left = waiting + later
        if not proved:
            checks += 1
            said = crate.check(sorted({body.function for body in bodies}), {}, kept)
            if not re.fullmatch(r"only=(\d+) proved=\1", said[-1]):
                raise Fault("\n".join([f"{crate.name}: these aren't proved as they stand:", *said[:6], said[-1]]))
    return checks


def make_libraries(names, proved):
    """Makes the libraries of these crates, or takes those that `rt ci` has left, which have no stamp."""
    if proved and all(os.path.isdir(library(name)) and not os.path.exists(os.path.join(library(name), "..", "stamp"))
                      for name in names):
        return
    for name in names:
        if subprocess.run(["rt", "lib"], cwd=os.path.join(TOP, "crates", name), check=False).returncode:
            raise Fault(f"rt lib of {name} has failed")


def main():
    parser = words(__doc__)
    parser.add_argument("--proved", action="store_true", help="behind `rt ci`, which has just proved all as it stands: "
                        "takes the libraries that it has left in the folders out/")
    parser.add_argument("names", metavar="NAME", nargs="*", help="a crate; all of them, if left out")
    given = parser.parse_args()
    if not USES.keys() >= set(given.names):
        parser.error(f"no crate: {', '.join(sorted(set(given.names) - USES.keys()))}")
    kit = os.path.dirname(subprocess.run(["rt", "doc"], stdout=subprocess.PIPE, text=True, check=True).stdout.strip())
    refused, faults, checks = [], [], 0

    def tell(line, is_fault=False):
        # In one piece, as several lanes tell.
        sys.stdout.write(f"{line}\n")
        sys.stdout.flush()
        (faults if is_fault else refused).append(line)

    try:
        tasks = [(crate, crate.bodies()) for crate in (Crate(kit, name) for name in given.names or USES)]
        tasks = sorted((task for task in tasks if task[1]), key=lambda task: -task[0].size())
        if not tasks:
            raise Fault("there is no wrong body")
        make_libraries(list({low: None for crate, _ in tasks for low in below(crate.name)}), given.proved)
    except Fault as fault:
        sys.exit(str(fault))
    signal.signal(signal.SIGTERM, lambda *_: sys.exit(1))
    with concurrent.futures.ThreadPoolExecutor(len(os.sched_getaffinity(0))) as lanes:
        try:
            for made in [lanes.submit(look, *task, given.proved, tell) for task in tasks]:
                try:
                    checks += made.result()
                except Fault as fault:
                    tell(str(fault), is_fault=True)
        except BaseException:
            lanes.shutdown(wait=False, cancel_futures=True)
            raise
    print(f"{len(refused)} wrong bodies refused in {checks} checks: {len(faults)} differences")
    sys.exit(1 if faults else 0)


if __name__ == "__main__":
    main()
