"""Calls of the program, and what the views have in common: options, messages, and the tools that they need."""
import argparse
import functools
import importlib.util
import json
import os
import re
import shutil
import signal
import subprocess
import sys
import tempfile
import textwrap

TOP = os.path.dirname(os.path.dirname(os.path.realpath(__file__)))
FIND_OPTIONS = "in", "out", "count", "budget", "steps", "input", "table", "leader"
COLUMNS = 80
# The status of a call whose latency table is refused.
BAD_TABLE = 6
# The values of the options that are no numbers and no files.
ADDRESS = re.compile("0x[0-9A-Fa-f]{1,8}")


class Refused(Exception):
    """A call that the program refuses: its fault line, and what that says."""

    def __init__(self, line, words):
        super().__init__(line, words)
        self.line, self.words = line, words

    def __str__(self):
        return f"{self.words or 'refused'} ({self.line})"


@functools.cache
def program():
    """The program that the variable RUMTSAFI of the environment names, or that `./rumtsafi` runs."""
    script = os.path.join(TOP, "rumtsafi")
    if os.environ.get("RUMTSAFI"):
        return os.path.abspath(os.environ["RUMTSAFI"])
    told = subprocess.run([script, "--version"], stdout=subprocess.PIPE, text=True, check=False).stdout
    found = re.search(r"^program (\S+),", told, re.M)
    return os.path.join(TOP, found[1]) if found else script


def call(*words):
    """What a call of the program prints, in bytes; it raises Refused where it is refused."""
    try:
        done = subprocess.run([program(), *words], stdin=subprocess.DEVNULL, stdout=subprocess.PIPE, check=False)
    except OSError as error:
        fail(f"{program()} can't be run: {error.strerror}")
    if done.returncode == 0:
        return done.stdout
    line = done.stdout.decode(errors="replace").rstrip()
    said = [explained(what, done, words) for what in ("fault", *(["hint"] if done.returncode == BAD_TABLE else []))]
    raise Refused(line or f"status {done.returncode}", ": ".join(filter(None, said)))


def explained(what, done, words):
    """What the script says in words of a call that is refused: of its fault, or what helps further."""
    said = subprocess.run(["awk", "-f", os.path.join(TOP, "script", "explain.awk"), "--", what, str(done.returncode),
                           *words], env={**os.environ, "TOP": TOP, "LC_ALL": "C"}, stdout=subprocess.PIPE,
                          input=done.stdout.replace(b"\0", b"") + b".\n", check=False).stdout.decode(errors="replace")
    return said.partition(": ")[2].rstrip()


def told(*words):
    """The text that a call of the program prints."""
    return call(*words).decode()


def run(*words):
    """The output of a run, and its end line without the word `end`."""
    printed = call("run", *words)
    start = printed.rindex(b"end ")
    return printed[:start], printed[start + 4:].decode().strip()


def disassembled(words):
    """The text of each of the words, as the program has it."""
    words = sorted(set(words))
    with tempfile.NamedTemporaryFile() as file:
        file.write(b"".join(word.to_bytes(4, "little") for word in words))
        file.flush()
        lines = told("dis", file.name).splitlines()
    return {word: line.split(" ", 1)[1] for word, line in zip(words, lines, strict=True)}


def as_json(value):
    """Prints what a view found as JSON; named tuples are objects by their fields."""
    def plain(part):
        if hasattr(part, "_asdict"):
            part = part._asdict()
        if isinstance(part, dict):
            return {str(name): plain(inner) for name, inner in part.items()}
        return [plain(inner) for inner in part] if isinstance(part, (list, tuple)) else part
    print(json.dumps(plain(value), indent=1, ensure_ascii=False))


def fail(message):
    """Ends the view by one line, with status 1."""
    print(f"{os.path.basename(sys.argv[0])}: {message}", file=sys.stderr)
    sys.exit(1)


def library(name, package):
    """A library for Python, which may be missing."""
    try:
        return importlib.import_module(name)
    except ImportError:
        return fail(f"Python's library {name} is missing for {sys.executable}: apt-get install {package}")


def has_library(name):
    """Whether a library for Python is there."""
    return importlib.util.find_spec(name) is not None


def tool(name, package=None):
    """A tool's name, which may be missing."""
    return name if shutil.which(name) else fail(f"{name} is missing: apt-get install {package or name}")


class Parser(argparse.ArgumentParser):
    """Reads a view's words: its own, and options of the program by their lines in docs/usage.txt."""

    def __init__(self, about):
        parts = [textwrap.fill(part, COLUMNS) for part in about.split("\n\n")]
        super().__init__(prog=f"views/{os.path.basename(sys.argv[0])}", description="\n\n".join(parts),
                         allow_abbrev=False, formatter_class=argparse.RawDescriptionHelpFormatter)
        self.shared = []

    def parse_args(self, *words, **more):
        """Reads the words, which are UTF-8, as those of the program are."""
        try:
            "".join(sys.argv[1:]).encode()
        except UnicodeEncodeError:
            fail("a word isn't UTF-8")
        return super().parse_args(*words, **more)

    def share(self, names, several=()):
        """Takes options of the program too, some of which may stand several times."""
        with open(os.path.join(TOP, "docs", "usage.txt"), encoding="utf-8") as file:
            lines = re.findall(r"^  --(\w+) (\w+) +(.*)$", file.read(), re.M)
        for name, word, about in lines:
            if name in names:
                again = "append" if name in (*several, "leader") else "store"
                # What `area` has to be given, a view may be given.
                self.add_argument(f"--{name}", metavar=word, help=about.removesuffix(" (has to be given)"),
                                  action=again, type=value_of(word, about))
                self.shared.append(name)

    def take_json(self):
        """Takes the option by which a view prints JSON."""
        self.add_argument("--json", action="store_true", help="prints what was found as JSON")

    def take_jobs(self):
        """Takes the option that says how many calls run at a time."""
        self.add_argument("--jobs", metavar="N", type=jobs_of, default=1, help="how many calls run at a time (1)")

    def words(self, given, leave_out=()):
        """The options of the program that were given, as its words."""
        found = []
        for name in self.shared:
            values = getattr(given, name)
            if name not in leave_out and values is not None:
                found += [word for value in (values if isinstance(values, list) else [values])
                          for word in (f"--{name}", value)]
        return found


def value_of(word, about):
    """What reads an option's value: a number in the range that its line tells, an address, or a file."""
    bounds = re.search(r"(\d+) (?:to|or) (\d+)", about)

    def read(text):
        if word == "N" and not (text.isdecimal() and int(bounds[1]) <= int(text) <= int(bounds[2])):
            raise argparse.ArgumentTypeError(f"'{text}' is no number from {bounds[1]} to {bounds[2]}")
        if word == "ADDR" and not ADDRESS.fullmatch(text):
            raise argparse.ArgumentTypeError(f"'{text}' is not 0x and one to eight hex digits")
        return text
    return read


def jobs_of(text):
    """How many calls run at a time."""
    if not (text.isdecimal() and 1 <= int(text) <= 4096):
        raise argparse.ArgumentTypeError(f"'{text}' is no number from 1 to 4096")
    return int(text)


def main(view):
    """Ends a script with the status of its view; a refusal or a file that fails makes one line."""
    sys.stderr = sys.stderr or open(os.devnull, "w", encoding="utf-8")
    try:
        if sys.stdout is None:
            fail("standard output is closed")
        try:
            status = view()
        finally:
            sys.stdout.flush()
        sys.exit(status)
    except Refused as refused:
        fail(refused)
    except BrokenPipeError:
        end_by(signal.SIGPIPE)
    except OSError as error:
        if error.filename is None:
            # What standard output didn't take would be tried again at the end.
            os.dup2(os.open(os.devnull, os.O_WRONLY), sys.stdout.fileno())
        fail(f"{error.filename}: {error.strerror}" if error.filename else error.strerror)
    except KeyboardInterrupt:
        end_by(signal.SIGINT)


def end_by(number):
    """Ends the view by a signal, as a tool that doesn't know it: by an interrupt, so that a shell's loop of calls ends,
    too, and where nobody reads on."""
    signal.signal(number, signal.SIG_DFL)
    signal.raise_signal(number)
