"""The files of a choice of cuts, read back: executables with their blocks, reports, and the blocks round by round."""
import re
import struct
from collections import Counter, namedtuple

import beside  # noqa: F401 (readers/ is found from here on)
from readers import executable
from readers import folds
from readers.folds import is_cput, is_cread, is_unit
from readers.instructions import mnemonic, ways, writes
from program import fail, told

# The files of a choice in a folder, in the order in which `find` has them.
NAMES = "old.elf", "new.elf", "units.v", "logs.txt", "report.txt"
# The type of a symbol that is a function.
FUNCTION = 2
# The registers by which calls return, and x0, by which a jump leads to one place.
OF_CALLS = 0, 1, 5
NUMBERS = r"((?: \d+)*)"
HEAD = re.compile(r"ci-report 1\nports (\d+) (\d+) count (\d+) budget (\d+) pad (\d+) read (\d+)\n"
                  r"profile (.*) steps (\d+) cost (\d+)\n")
BLOCK = re.compile(r"^block (\w{8}) length (\d+) entries (\d+)$", re.M)
CUT = re.compile(rf"^cut (\d+) block (\w{{8}}) unit (\d+) gain (\d+) entries (\d+) nodes{NUMBERS} word (\w{{8}})$",
                 re.M)
SKIP = re.compile(r"^skip (\d+) block (\w{8}) budget (\d+)$", re.M)
UNIT = re.compile(r"^unit (\d+) cycles (\d+) operations (\d+) uses (\d+)$", re.M)
LISTED = re.compile(rf"^block (\w{{8}}) length (\d+) live{NUMBERS}$", re.M)

Cut = namedtuple("Cut", "round leader unit gain entries nodes word")
Skip = namedtuple("Skip", "round leader budget")
Unit = namedtuple("Unit", "number cycles operations uses")
# A block of the program's listing: its addresses, and the registers that are live where it begins and after it.
Listed = namedtuple("Listed", "addresses live after")
# A cut's block before it was taken, its words behind that, and where its instructions stand in OLD: None for the words
# of earlier cuts.
Taken = namedtuple("Taken", "cut block folded places")


class Report:
    """A report of `find`."""

    def __init__(self, text):
        head, total = HEAD.match(text), re.search(r"^total (\d+)\n\Z", text, re.M)
        if not head or not total:
            fail("REPORT is no report of find")
        figures = head.groups()
        self.inputs, self.outputs, self.count, self.budget, self.pad, self.read = map(int, figures[:6])
        self.end, self.steps, self.cost = figures[6], int(figures[7]), int(figures[8])
        # By leader: the number of the block's instructions, and how often it was entered.
        self.blocks = {int(leader, 16): (int(length), int(entries)) for leader, length, entries in BLOCK.findall(text)}
        self.cuts = [Cut(int(number), int(leader, 16), int(unit), int(gain), int(entries),
                         [int(node) for node in nodes.split()], int(word, 16))
                     for number, leader, unit, gain, entries, nodes, word in CUT.findall(text)]
        self.skips = [Skip(int(number), int(leader, 16), int(budget)) for number, leader, budget in SKIP.findall(text)]
        self.units = [Unit(*map(int, figures)) for figures in UNIT.findall(text)]
        self.total = int(total[1])

    def saved(self):
        """The cycles that each unit saves: the gain of each of its cuts, times the entries of the cut's block."""
        return [sum(cut.gain * cut.entries for cut in self.cuts if cut.unit == unit.number) for unit in self.units]


def read(path):
    """The bytes of a file."""
    with open(path, "rb") as file:
        return file.read()


class Executable:
    """An executable, and its blocks as the program lists them, with these leaders too."""

    def __init__(self, path, leaders=()):
        listing = told("blocks", path, *(word for leader in leaders for word in ("--leader", f"0x{leader:x}")))
        self.image = executable.Image(read(path))
        found = {int(leader, 16): (int(length), {int(number) for number in live.split()})
                 for leader, length, live in LISTED.findall(listing)}
        anywhere = set().union(*(live for _, live in found.values()))
        self.blocks = {}
        for leader, (length, live) in found.items():
            last = leader + 4 * (length - 1)
            word = self.image.word(last)
            led = anywhere if mnemonic(word) == "jalr" else set().union(
                *(found[way][1] for way in ways(last, word) if way in found))
            self.blocks[leader] = Listed(range(leader, last + 4, 4), live, led)

    def words(self, leader):
        """The words of a block."""
        return words_at(self.image, self.blocks[leader].addresses)

    def graph(self, leader, words=None):
        """A block with its data-flow graph; of other words where these are given."""
        return folds.Block(words or self.words(leader), self.blocks[leader].after)

    def jumps_by_sums(self):
        """The addresses of the jumps that lead to a sum, as those of GCC do that take a word from a table of differences:
        an ADD of the same block made what the register holds, which is none of calls and returns."""
        found = []
        for leader, (addresses, *_) in self.blocks.items():
            last = self.image.word(addresses[-1])
            if mnemonic(last) != "jalr" or last >> 7 & 31 or last >> 15 & 31 in OF_CALLS:
                continue
            makers = [word for word in self.words(leader)[:-1] if last >> 15 & 31 in writes(word)]
            if makers and mnemonic(makers[-1]) == "add":
                found.append(addresses[-1])
        return sorted(found)


def symbols(data, kinds=None):
    """The symbols of an executable: addresses with names, those of these types where they are given."""
    _, _, sections = executable.read_header(data)
    rows = [struct.unpack_from("<10I", data, sections[0] + 40 * number) for number in range(sections[1])]
    for _, kind, _, _, offset, size, link, _, _, _ in rows:
        for at in range(offset, offset + size, 16) if kind == executable.SYMBOLS else ():
            name, value, _, info, _, section = struct.unpack_from("<IIIBBH", data, at)
            start = rows[link][4] + name
            if info & 15 in kinds if kinds else info & 15 <= FUNCTION and 0 < section < 0xFF00:
                yield value, data[start:data.index(b"\0", start)].decode(errors="replace")


def functions(data):
    """The functions of an executable: their addresses, ascending, each with its name."""
    return sorted(dict(symbols(data, (FUNCTION,))).items())


def words_at(image, addresses):
    """The words at addresses of an executable."""
    return [image.word(address) for address in addresses]


def cost(word, latencies, units):
    """The cycles of an instruction, or of a word of a unit, of which the cycles are given; `cread` and `cput` take the
    same."""
    if is_unit(word):
        return units[(word >> 25 & 3) * 8 + (word >> 12 & 7)]
    return latencies.read if is_cread(word) or is_cput(word) else latencies.latency(word)


def critical_path(block, cut, latencies):
    """The members along the greatest sum of delays, and the sum in thousandths of a cycle."""
    walks = {}
    for node in sorted(cut):
        inside = [walks[source] for source in block.sources[node] if source in walks]
        total, path = max(inside, key=lambda walk: walk[0], default=(0, []))
        walks[node] = (total + latencies.delay(block.words[node]), [*path, node])
    total, path = max(walks.values(), key=lambda walk: walk[0])
    return path, total


# `reads` is what the words cost that stand for further inputs and outputs.
Gain = namedtuple("Gain", "software hardware thousandths path reads pads total")


def gain(block, cut, latencies):
    """A cut's gain by its parts: software, hardware, what a `cput` and each `cread` cost and what no-ops cost."""
    path, thousandths = critical_path(block, cut, latencies)
    software, words = sum(latencies.latency(block.words[node]) for node in cut), block.use_length(cut)
    hardware = max(1, -(-thousandths // 1000))
    reads, pads = (words - 1) * latencies.read, (len(cut) - words) * latencies.pad
    return Gain(software, hardware, thousandths, path, reads, pads, software - hardware - reads - pads)


class Choice:
    """The files of a choice: its report, both executables, the texts of its units, and the cuts as they were taken."""

    def __init__(self, files, latencies, leaders=()):
        self.old_path, self.new_path, self.units_path, self.logs_path, report_path = files
        self.report, self.latencies = Report(read(report_path).decode(errors="replace")), latencies
        if (self.report.pad, self.report.read) != (latencies.pad, latencies.read):
            fail(f"REPORT is of another table, with pad {self.report.pad} and read {self.report.read}")
        listed = Executable(self.old_path).blocks
        self.old = Executable(self.old_path, sorted({*self.report.blocks, *leaders} - listed.keys()))
        try:
            self.new = executable.Image(read(self.new_path))
        except executable.Fault:
            fail(f"{self.new_path} is no executable")
        self.modules = modules(read(self.units_path).decode(errors="replace"))
        self.taken, self.words = [], {leader: self.old.words(leader) for leader in self.report.blocks}
        places = {leader: list(self.old.blocks[leader].addresses) for leader in self.report.blocks}
        for cut in self.report.cuts:
            block, members, own = self.old.graph(cut.leader, self.words[cut.leader]), set(cut.nodes), places[cut.leader]
            self.words[cut.leader] = block.folded(members, cut.unit)
            self.taken.append(Taken(cut, block, self.words[cut.leader], own))
            early, late = block.around(members)
            places[cut.leader] = [*(own[node] for node in early), *[None] * len(members), *(own[node] for node in late)]
        self.compare()

    def compare(self):
        """Ends the view where the files don't belong together."""
        cycles = {unit.number: unit.cycles for unit in self.report.units}
        entries = [(cut.entries, self.report.blocks.get(cut.leader, (0, 0))[1]) for cut in self.report.cuts]
        if any(one != other for one, other in entries) or sum(self.report.saved()) != self.report.total:
            fail("REPORT's entries, gains and total don't fit together")
        uses = Counter(cut.unit for cut in self.report.cuts)
        if any(unit.uses != uses[unit.number] for unit in self.report.units):
            fail("REPORT's cuts and the uses of its units don't fit together")
        for taken in self.taken:
            found = gain(taken.block, set(taken.cut.nodes), self.latencies)
            if (found.total, found.hardware) != (taken.cut.gain, cycles[taken.cut.unit]):
                fail(f"cut {taken.cut.round} gains {found.total} by this table, and {taken.cut.gain} by REPORT")
        for leader, words in self.words.items():
            if words_at(self.new, self.old.blocks[leader].addresses) != words:
                fail(f"NEW's block at {leader:08x} isn't OLD's with the cuts of REPORT folded")
        if len(self.modules) != len(self.report.units):
            fail("UNITS and REPORT have different numbers of units")

    def saved_by_instruction(self):
        """What each instruction of OLD has of the cycles saved: those of a cut are shared among its members, by their
        cycles before, so that none takes less than no cycle after, wherever the unit's word stands."""
        found = Counter()
        for cut, block, _, places in self.taken:
            cycles = [self.latencies.latency(block.words[node]) for node in cut.nodes]
            left, weight = cut.gain * cut.entries, sum(cycles)
            for node, own in zip(cut.nodes, cycles):
                part = left * own // weight
                found[places[node]] += part
                left, weight = left - part, weight - own
        return found

    def instructions(self):
        """The instructions of OLD in the run's blocks: the address, the entries, and the cycles of all before, after
        and saved."""
        saved = self.saved_by_instruction()
        for leader, (_, entries) in self.report.blocks.items():
            for address, word in zip(self.old.blocks[leader].addresses, self.old.words(leader), strict=True):
                before = entries * self.latencies.latency(word)
                yield address, entries, before, before - saved[address], saved[address]

    def cycles(self, leader, words):
        """The cycles of one run of a block of these words."""
        units = [unit.cycles for unit in self.report.units]
        return sum(cost(word, self.latencies, units) for word in words)


def modules(text):
    """The modules of a text of units as `find` writes it, each with its line of cycles."""
    return re.findall(r"^// cycles \d+\n.*?^endmodule\n", text, re.M | re.S)
