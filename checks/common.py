"""What the checks share: the words that they take, calls of the program in a folder, and how they end."""
import argparse
import os
import resource
import shutil
import subprocess
import sys
import tempfile

TOP = os.path.dirname(os.path.dirname(os.path.abspath(__file__)))
SAMPLES, SHIPPED = os.path.join(TOP, "samples"), os.path.join(TOP, "bin", "rumtsafi")
# The program of the crate `ci_folds`, which writes units and folded blocks, where the gate has built it.
FOLDS = os.path.join(TOP, "crates", "ci_folds", "out", "ci_folds")
# The seconds that a call may take, and how many differences are told.
LIMIT, TOLD = 60, 20


class Check:
    """A check under way: calls of the program in a folder of its own, and what differs."""

    def __init__(self, given, folder):
        self.given, self.program, self.folder, self.faults = given, given.program, folder, []

    def path(self, *names):
        """Where a file of the folder is."""
        return os.path.join(self.folder, *names)

    def read(self, name):
        return read(self.path(name))

    def write(self, name, data):
        """Writes bytes or a text, and gives where."""
        with open(self.path(name), "wb") as file:
            file.write(data.encode() if isinstance(data, str) else data)
        return self.path(name)

    def call(self, *words, **options):
        """A call of the program in the folder: what it prints, in bytes, and its status."""
        return called([self.program, *words], cwd=self.folder, **options)

    def need(self, holds, what):
        """Puts down what is wrong, unless this holds."""
        if not holds:
            self.faults.append(what)
        return holds

    def same(self, what, ours, due):
        self.need(ours == due, f"{what}: {ours!r} and not {due!r}")

    def least(self, counts, least):
        """Of each of these kinds so many have to be among what is compared."""
        for kind, count in counts.items():
            self.need(count >= least, f"only {count} of these, and not {least}: {kind}")


def called(words, timeout=LIMIT, text=False, errors="strict", **options):
    """What a call prints, in bytes or as a text, and its status. Of a text each byte is seen, a carriage return too."""
    if isinstance(options.get("input"), str):
        options["input"] = options["input"].encode()
    done = subprocess.run(words, **{"stdout": subprocess.PIPE, "check": False, "timeout": timeout, **options})
    if text:
        done.stdout, done.stderr = ((printed or b"").decode(errors=errors) for printed in (done.stdout, done.stderr))
    return done


def read(path):
    """The bytes of a file."""
    with open(path, "rb") as file:
        return file.read()


def text_of(name):
    """The text of a file of the repository."""
    return read(os.path.join(TOP, name)).decode(errors="replace")


def crates():
    """The crates of crates.txt, in its order, each with the libraries that it stands on."""
    lines = (line.partition("#")[0].partition(":") for line in text_of("crates.txt").splitlines())
    return {name.split()[0]: rest.split() for name, colon, rest in lines if colon}


def missing(packages):
    """A line that says which tools are not there, by the Debian packages that have them; None where all are."""
    absent = [tool for tool in packages if not shutil.which(tool)]
    return lacking(absent, [packages[tool] for tool in absent]) if absent else None


def lacking(names, packages):
    return f"skipped: {', '.join(names)} not found (Debian's {', '.join(dict.fromkeys(packages))})"


def explained(*words, printed=""):
    """What the script `rumtsafi` says of words, or of what a call printed."""
    return called(["awk", "-f", os.path.join(TOP, "script", "explain.awk"), "--", *words], input=f"{printed}.\n",
                  env={**os.environ, "TOP": TOP, "LC_ALL": "C"}, stderr=subprocess.STDOUT, text=True).stdout


def leave_no_dumps():
    """A program that ends by a signal leaves no dump of its memory."""
    resource.setrlimit(resource.RLIMIT_CORE, (0, resource.getrlimit(resource.RLIMIT_CORE)[1]))


def words(about):
    """What reads the words of a script, by its docstring."""
    name = sys.modules["__main__"].__spec__.name
    return argparse.ArgumentParser(prog=f"python3 -m {name}", description=about, allow_abbrev=False,
                                   formatter_class=argparse.RawDescriptionHelpFormatter)


def end(faults, compared, told=TOLD):
    """Tells what differs and what was compared, and ends with status 0 where nothing differs."""
    for fault in faults[:told]:
        print(fault)
    print(f"{compared}: {len(faults)} differences")
    sys.exit(1 if faults else 0)


def main(about, look, kind=Check, skipped=None, **others):
    """Runs a check: `look` takes a Check, or one of another kind, and gives in words what was compared. Where a tool is
    missing, the line `skipped` says so, and is all. Other programs than PROGRAM are given with where they are built."""
    parser = words(about)
    for name, place in {"program": SHIPPED, **others}.items():
        parser.add_argument(name, metavar=name.upper(), nargs="?", type=os.path.abspath, default=place,
                            help=f"{os.path.relpath(place, TOP)} if left out")
    given = parser.parse_args()
    if skipped:
        print(skipped)
        sys.exit(0)
    with tempfile.TemporaryDirectory() as folder:
        check = kind(given, folder)
        compared = look(check)
    end(check.faults, compared)
