"""What the checks of views/ share: calls of a view, the programs that views are tried on, and what is missing."""
import hashlib
import os
import shutil
import subprocess

from checks.common import SAMPLES, TOP, Check, called, lacking, main
from checks.tools import compiled

PYTHON, LIMIT = "/usr/bin/python3", 300
# Programs with picolibc, and what the profiled runs read.
PROGRAMS = "cipher", "matrix", "sort"
INPUT = os.path.join(compiled.PROGRAMS, "count.c")
NO_CUT = '#include "start.h"\nvoid run(void) { leave(0); }\n'
FILES = "old.elf", "new.elf", "units.v", "logs.txt", "report.txt"
# The greatest limits on inputs and outputs, as options.
GREATEST = "--in", "5", "--out", "3"

# A small library of cells: name, area, inputs and function; and the points of its tables.
CELLS = (("INV", 1, "A", "!A"), ("BUF", 2, "A", "A"), ("NAND2", 2, "AB", "!(A*B)"), ("NOR2", 2, "AB", "!(A+B)"))
AXES = 'index_1 ("0.01, 1"); index_2 ("0.01, 1");'
TABLES = " ".join(f'{name} (delays) {{ {AXES} values ("0.02, 0.1", "0.1, 0.2"); }}'
                  for name in ("cell_rise", "cell_fall", "rise_transition", "fall_transition"))


def library():
    """A small library of cells."""
    lines = ['library (small) { time_unit : "1ns"; capacitive_load_unit (1, pf); delay_model : table_lookup;',
             "lu_table_template (delays) { variable_1 : input_net_transition;",
             f"variable_2 : total_output_net_capacitance; {AXES} }}"]
    for name, area, pins, function in CELLS:
        sense = "positive_unate" if name == "BUF" else "negative_unate"
        inputs = " ".join(f"pin ({pin}) {{ direction : input; capacitance : 0.01; }}" for pin in pins)
        timing = " ".join(f'timing () {{ related_pin : "{pin}"; timing_sense : {sense}; {TABLES} }}' for pin in pins)
        lines.append(f'cell ({name}) {{ area : {area}; {inputs} pin (Y) {{ direction : output; '
                     f'function : "{function}"; max_capacitance : 1; {timing} }} }}')
    return "\n".join([*lines, "}", ""])


def missing(tools, libraries=()):
    """A line that says what is not there, or None: tools, each with the Debian package that has it, and libraries for
    Debian's Python."""
    lost = absent((), libraries)
    return compiled.missing({**tools, PYTHON: "python3"}) or (
        lacking(lost, [f"python3-{name}" for name in lost]) if lost else None)


def absent(tools, libraries):
    """Those of the tools, and of the libraries for Debian's Python, that are not there."""
    return [name for name in (*tools, PYTHON) if not shutil.which(name)] + [
        name for name in (libraries if os.path.exists(PYTHON) else ()) if subprocess.run(
            [PYTHON, "-c", f"import {name}"], stderr=subprocess.DEVNULL, check=False).returncode]


class Views(Check):
    """Calls of the views with one program, in one folder; and what is found wrong."""

    def __init__(self, given, folder):
        super().__init__(given, folder)
        self.count, self.environment = 0, {**os.environ, "RUMTSAFI": self.program}

    @staticmethod
    def view(name):
        """Where a view is."""
        return os.path.join(TOP, "views", name)

    def look(self, view, *words):
        """A call of a view: its status, what it prints, and what it says on standard error."""
        self.count += 1
        done = called([self.view(view), *words], LIMIT, cwd=self.folder, env=self.environment, stderr=subprocess.PIPE,
                      text=True)
        return done.returncode, done.stdout, done.stderr

    def told(self, *words):
        """What the program prints."""
        return self.call(*words, text=True, timeout=LIMIT).stdout

    def works(self, view, *words):
        """What a call prints that has to end with status 0."""
        status, printed, said = self.look(view, *words)
        self.need(status == 0, f"{view} {' '.join(words)}: status {status}, {said.strip()[-400:]}")
        return printed

    def refuses(self, view, *words):
        """A call that is refused ends with status 1, by one line that tells the fault in words."""
        status, printed, said = self.look(view, *words)
        self.need(status == 1 and not printed and said.count("\n") == 1 and "fault " in said,
                  f"{view} {' '.join(words)}: status {status}, {printed!r} and {said!r}")

    def wrong(self, view, *calls):
        """Each of these calls ends with status 2, and tells the usage."""
        for words in calls:
            status, printed, said = self.look(view, *words)
            self.need(status == 2 and not printed and said.startswith(f"usage: views/{view} "),
                      f"{view} {' '.join(words)}: status {status}, {printed!r} and {said!r}")

    def programs(self):
        """The executables by their names: samples, programs with picolibc, one without a cut; each with its input."""
        found = {name[:-4]: (path, INPUT) for name, path in compiled.samples()}
        for name in PROGRAMS:
            path = self.path(f"{name}.elf")
            subprocess.run([compiled.GCC, *compiled.TARGET, "-O2", os.path.join(compiled.PROGRAMS, f"{name}.c"),
                            compiled.SUPPORT, "-o", path], check=True)
            found[name] = path, INPUT
        subprocess.run([compiled.GCC, *compiled.TARGET[:3], "-O2", "-nostdlib", "-I", SAMPLES,
                        self.write("no_cut.c", NO_CUT), "-lgcc", "-o", self.path("no_cut.elf")], check=True)
        return {**found, "no_cut": (self.path("no_cut.elf"), INPUT)}

    def choose(self, name, path, *words):
        """A folder with the files of a choice."""
        os.makedirs(self.path(name), exist_ok=True)
        shutil.copy(path, self.path(name, FILES[0]))
        return self.told("find", *(os.path.join(name, file) for file in FILES), *words)

    def hashes(self, *paths):
        """What tells whether files have changed."""
        return {path: hashlib.sha256(self.read(path)).hexdigest() for path in paths}


def check(about, look, of, tools, libraries=()):
    """Runs a check of views, where nothing is missing for it."""
    def look_at(views):
        look(views)
        return f"{views.count} calls of {of}"

    main(about, look_at, Views, missing(tools, libraries))
