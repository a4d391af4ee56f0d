"""What the comparisons of the commands on one block share: the lines that these print, by options of all kinds."""
import collections
import random

from checks.common import Check
from checks.generators.blocks import LIMITS, some_table

# The limits on inputs and outputs that hold if left out.
USUAL = 3, 2


class Lines(Check):
    """What was compared, in counts, of a command that prints one line of these kinds for a block of the file in
    hand."""
    command, kinds = None, ()

    def __init__(self, given, folder):
        super().__init__(given, folder)
        self.source, self.counts = random.Random(1), collections.Counter()

    def some_settings(self):
        """Some table and some limits on inputs and outputs, and the options that tell them."""
        table, (inputs, outputs) = some_table(self.source), self.source.choice(LIMITS)
        options = {"in": inputs, "out": outputs}
        if (inputs, outputs) == USUAL and self.source.random() < 0.5:
            options = {}
        if not table.is_usual():
            options["table"] = self.write("table", table.text())
        return table, inputs, outputs, options

    def words(self, address, options):
        """The words that name a block and its options, spelt in some way."""
        return [word for key, value in {"at": f"0x{address:x}", **options}.items()
                for word in self.source.choice(((f"--{key}={value}",), (f"--{key}", f"{value}")))]

    def told(self, words):
        """The status of a call, and what it prints."""
        done = self.call(self.command, "file", *words, text=True, errors="replace")
        return done.returncode, done.stdout

    def same_line(self, name, words, wanted, status=0):
        self.same(f"{name}, {' '.join(words)}", self.told(words), (status, wanted))

    def count(self, line):
        self.counts[next(kind for kind in self.kinds if line.startswith(kind))] += 1

    def line(self, name, address, options, wanted, status=0):
        """Compares what the program prints of the block at an address."""
        self.count(wanted)
        self.same_line(name, self.words(address, options), wanted, status)

    def least_lines(self, least):
        """So many lines of each kind have to be due."""
        self.least({f"lines that begin with {kind}": self.counts[kind] for kind in self.kinds}, least)
