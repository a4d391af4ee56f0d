"""A plain reading of a choice of cuts by rounds, of the files that tell it, and of what is wrong with a log book first.
It shares nothing with the program, so that the checks can compare the two.

A cut is found by branches over the choices of a block's nodes, from the last node to the first, each taken in first. A
branch is given up where it holds no set that fits and gains more than the best one before it; the branches that aren't
given up and have a node to decide are what the budget counts.
"""
import re
from collections import namedtuple

from checks.oracles.blocks import Text, live_sets
from checks.oracles.operations import unit_of
from readers import executable
from readers.folds import Block, is_unit
from readers.instructions import mnemonic
from readers.latencies import KEYS
from readers.templates import unit_text

Plan = namedtuple("Plan", "inputs outputs count budget")
# Of a run: how often each address was reached, where its `jalr` led, and its end line without the word `end`.
Profile = namedtuple("Profile", "entries targets end")
# The first choices of a block: how many nodes are decided; the members; the nodes above and below one of them; the
# number of outputs; the sources that members read; the longest walk of operands; the members' latencies and number.
Prefix = namedtuple("Prefix", "decided cut above below outputs read delay latency size")
EMPTY = Prefix(0, 0, 0, 0, 0, 0, 0, 0, 0)
# A cut that was found, with its gain; `cut` is None where none gains anything, and `spent` where the budget is.
Found = namedtuple("Found", "cut gain spent")
# Of a log book: an entry's kind, the leader, what else the line says, and the log; an end's kind is "end".
Entry = namedtuple("Entry", "kind leader words tree")

NUMBER = "(?:0|[1-9][0-9]{0,6})"
SEARCH = rf"block [0-9a-f]{{8}} (?:best(?: {NUMBER})+\n[BOCIGF]+|none\n[BOCIGF]+|spent {NUMBER})\n"
BOOK = re.compile(rf"ci-log 1\n(?:{SEARCH})*(?:take [0-9a-f]{{8}} unit {NUMBER}\n{SEARCH})*end (?:none|count)\n")
ENTRY = re.compile(r"(?:block (\w{8}) (best|none|spent)|(take) (\w{8}) unit|(end))([^\n]*)\n([BOCIGF]+(?=\n))?")


def members(mask):
    """The numbers of the bits of a mask, ascending."""
    return [place for place in range(mask.bit_length()) if mask >> place & 1]


def mask_of(numbers):
    return sum(1 << number for number in set(numbers))


def count(mask):
    return bin(mask).count("1")


class Graph:
    """A block's data-flow graph by masks of nodes, within a plan's limits. A source that isn't a node is the number of
    a register, counted on from the number of nodes."""

    def __init__(self, words, live, table, plan):
        self.block, self.table, self.plan = Block(words, live), table, plan
        nodes = self.block.nodes
        self.live = self.block.live
        self.order = [node for node in reversed(nodes) if self.block.joins(node)]
        self.sources = [mask_of(source if source in nodes else len(nodes) + int(source[1:]) for source in sources)
                        for sources in self.block.sources]
        self.readers = [{node for node in nodes if self.sources[node] >> source & 1} for source in nodes]
        self.read_by = [mask_of(readers) for readers in self.readers]
        self.below = [mask_of(later) for later in self.block.behind]
        self.above = [mask_of(node for node in nodes if self.below[node] >> later & 1) for later in nodes]
        keys = {node: KEYS[mnemonic(words[node])] for node in self.order}
        self.latency = {node: table.latencies[key] for node, key in keys.items()}
        self.delay = {node: table.delays[key] for node, key in keys.items()}
        self.undecided = [mask_of(self.order[place:]) for place in range(len(self.order) + 1)]
        self.left = [sum(self.latency[node] for node in self.order[place:]) for place in range(len(self.order) + 1)]
        # The longest walk of operands from each node of the set in hand; a node's is renewed when it is taken in.
        self.walks = {}

    def taken(self, prefix):
        """The choices, with the next node in."""
        node = self.order[prefix.decided]
        inside = prefix.cut | 1 << node
        self.walks[node] = self.delay[node] + max(
            [self.walks[reader] for reader in self.readers[node] if prefix.cut >> reader & 1], default=0)
        is_output = node in self.live or self.read_by[node] & ~inside != 0
        return Prefix(prefix.decided + 1, inside, prefix.above | self.above[node], prefix.below | self.below[node],
                      prefix.outputs + is_output, prefix.read | self.sources[node],
                      max(prefix.delay, self.walks[node]), prefix.latency + self.latency[node], prefix.size + 1)

    def is_convex(self, prefix):
        return prefix.above & prefix.below & ~prefix.cut == 0

    def inputs(self, prefix):
        """The number of sources of members that can't become members any more."""
        return count(prefix.read & ~prefix.cut & ~self.undecided[prefix.decided])

    def further_words(self, prefix):
        """How many words the use has beside the unit word."""
        return max(prefix.outputs - 1, 0) + (self.inputs(prefix) > 3)

    def has_room(self, prefix):
        """Whether the members have a place for each word of the use."""
        return prefix.size >= 1 + self.further_words(prefix)

    def bound(self, prefix):
        """What no set with these first choices gains more than. Where all nodes are decided, the gain."""
        more = self.further_words(prefix)
        size = prefix.size + len(self.order) - prefix.decided
        return (prefix.latency + self.left[prefix.decided] - max(1, -(-prefix.delay // 1000))
                - more * self.table.read - (size - 1 - more) * self.table.pad)

    def may_fit(self, prefix):
        return (self.is_convex(prefix) and prefix.outputs <= self.plan.outputs
                and self.inputs(prefix) <= self.plan.inputs)

    def fits(self, prefix):
        """Whether the members fit, where all nodes are decided."""
        return (prefix.decided == len(self.order) and prefix.outputs >= 1 and self.may_fit(prefix)
                and self.has_room(prefix))

    def all_decided(self, cut):
        """The choices that make this set, or None where some node isn't eligible."""
        prefix = EMPTY
        for node in self.order:
            prefix = self.taken(prefix) if node in cut else left_out(prefix)
        return prefix if prefix.cut == mask_of(cut) else None

    def cycles(self, cut):
        return max(1, -(-self.all_decided(cut).delay // 1000))


def left_out(prefix):
    """The choices, with the next node out."""
    return prefix._replace(decided=prefix.decided + 1)


def best_cut(graph):
    """The best cut of a graph, found within the budget."""
    best, gain, branches = None, 0, 0
    waiting = [(EMPTY, False)]
    while waiting:
        prefix, is_in = waiting.pop()
        if is_in:
            prefix = graph.taken(prefix)
        if not graph.may_fit(prefix) or graph.bound(prefix) <= gain:
            continue
        if prefix.decided == len(graph.order):
            if graph.fits(prefix):
                best, gain = set(members(prefix.cut)), graph.bound(prefix)
            continue
        branches += 1
        if branches > graph.plan.budget:
            return Found(None, 0, True)
        waiting += [(left_out(prefix), False), (prefix, True)]
    return Found(best, gain, False)


class Judge:
    """Judges the logs of a graph's searches, where a cut is said to be best, or None."""

    def __init__(self, graph, best):
        self.graph = graph
        self.best = graph.all_decided(best) if best is not None else EMPTY
        self.gain = graph.bound(self.best) if best and self.best else 0
        self.is_wrong = best is not None and not (self.best and graph.fits(self.best) and self.gain > 0)
        self.has_best = best is not None

    def comes_after(self, prefix):
        """Whether the best takes the node in where the choices first differ from it; without a best, always."""
        decided = mask_of(self.graph.order[:prefix.decided])
        return not self.has_best or prefix.cut < self.best.cut & decided

    def is_before(self, prefix):
        return self.has_best and prefix.cut > self.best.cut

    def is_complete(self, prefix):
        return prefix.decided == len(self.graph.order)

    def is_within_outputs(self, prefix):
        return prefix.outputs <= self.graph.plan.outputs

    def is_within_inputs(self, prefix):
        return self.graph.inputs(prefix) <= self.graph.plan.inputs

    def may_hold_better(self, prefix):
        """Whether the bound doesn't rule out that a set with these first choices is better than the best."""
        bound = self.graph.bound(prefix)
        return bound > self.gain or bound == self.gain and not self.comes_after(prefix)

    def is_unfinished_or_better(self, prefix):
        """Whether a node has to be decided, or the members are a cut that is better than the best."""
        bound = self.graph.bound(prefix)
        return not self.is_complete(prefix) or self.graph.fits(prefix) and (
            bound > self.gain or bound == self.gain and self.is_before(prefix))

    def breaks(self, letter, prefix):
        """The rule that an item breaks, or 0."""
        rule, is_broken = {
            "O": (1, self.is_within_outputs), "C": (2, self.graph.is_convex), "I": (3, self.is_within_inputs),
            "G": (4, self.may_hold_better), "F": (5, self.is_unfinished_or_better), "B": (6, self.is_complete)}[letter]
        return rule if is_broken(prefix) else 0

    def first_wrong(self, tree):
        """The first item of a log that is wrong, and the rule that it breaks; or None."""
        if self.is_wrong:
            return 0, 7
        waiting = [(EMPTY, False)]
        for item, letter in enumerate(tree):
            prefix, is_in = waiting.pop()
            prefix = self.graph.taken(prefix) if is_in else prefix
            rule = self.breaks(letter, prefix)
            if rule:
                return item, rule
            if letter == "B":
                waiting += [(left_out(prefix), False), (prefix, True)]
        return None


class Choice:
    """The rounds over an executable, by the profile of a run, a plan and a table."""

    def __init__(self, data, profile, plan, table, named=()):
        self.data, self.profile, self.plan, self.table = data, profile, plan, table
        text = Text(executable.Image(data), {*named, *profile.targets})
        self.addresses = text.blocks()
        self.live = live_sets(text, self.addresses)[1]
        self.words = {leader: [text.words[address] for address in block] for leader, block in self.addresses.items()}
        self.lengths = {leader: len(words) for leader, words in self.words.items()}
        self.entered = sorted(leader for leader in self.addresses if profile.entries[leader])
        self.units, self.found, self.graphs = [], {}, {}
        # Of the book: its lines; the graphs of its searches, with what was found; and the lines of the report.
        self.lines, self.searches, self.report_lines = [], [], []
        self.takes, self.saved, self.folded, self.uses = 0, 0, set(), []
        self.finish = self.rounds()

    def search(self, leader):
        """Searches a block, and writes its entry."""
        graph = Graph(self.words[leader], self.live[leader], self.table, self.plan)
        found = best_cut(graph)
        self.graphs[leader], self.found[leader] = graph, found
        self.searches.append((graph, found))
        if found.spent:
            self.lines.append(Entry("spent", leader, [self.plan.budget], None))
            self.report_lines.append(f"skip {self.takes} block {leader:08x} budget {self.plan.budget}")
        else:
            self.lines.append(Entry("best" if found.cut else "none", leader, sorted(found.cut or ()), None))

    def due(self):
        """The leader of the block where most is saved, or None where no block has a cut."""
        savings = {leader: self.found[leader].gain * self.profile.entries[leader] for leader in self.entered
                   if self.found[leader].cut}
        return min(savings, key=lambda leader: (-savings[leader], leader), default=None)

    def rounds(self):
        """Makes all entries; gives the end."""
        for leader in self.entered:
            self.search(leader)
        while True:
            leader = self.due()
            if leader is None:
                return "none"
            unit = unit_of(self.graphs[leader], self.words[leader], self.found[leader].cut)
            if unit not in self.units:
                if len(self.units) == self.plan.count:
                    return "count"
                self.units.append(unit)
            self.take(leader, self.units.index(unit))
            self.search(leader)

    def take(self, leader, number):
        found, entries = self.found[leader], self.profile.entries[leader]
        block = self.graphs[leader].block
        word = next(word for word in block.use(found.cut, number) if is_unit(word))
        self.report_lines.append(
            f"cut {self.takes} block {leader:08x} unit {number} gain {found.gain} entries {entries} nodes "
            f"{' '.join(map(str, sorted(found.cut)))} word {word:08x}")
        self.lines.append(Entry("take", leader, [number], None))
        self.words[leader] = block.folded(found.cut, number)
        self.folded.add(leader)
        self.uses.append(number)
        self.takes, self.saved = self.takes + 1, self.saved + found.gain * entries

    def units_text(self):
        return "".join(unit_text(number, (unit.operations, unit.outputs, unit.cycles))
                       for number, unit in enumerate(self.units))

    def logs(self, trees):
        """The log book, where its searches have these logs."""
        trees, text = iter(trees), "ci-log 1\n"
        for kind, leader, words, _ in self.lines:
            tail = "".join(f" {word}" for word in words)
            text += f"take {leader:08x} unit{tail}\n" if kind == "take" else f"block {leader:08x} {kind}{tail}\n"
            text += f"{next(trees)}\n" if kind in ("best", "none") else ""
        return f"{text}end {self.finish}\n"

    def report(self):
        plan, table, run = self.plan, self.table, self.profile
        blocks = [f"block {leader:08x} length {self.lengths[leader]} entries {run.entries[leader]}"
                  for leader in self.entered]
        units = [f"unit {number} cycles {unit.cycles} operations {len(unit.operations)} uses {self.uses.count(number)}"
                 for number, unit in enumerate(self.units)]
        lines = ("ci-report 1", f"ports {plan.inputs} {plan.outputs} count {plan.count} budget {plan.budget} "
                 f"pad {table.pad} read {table.read}", f"profile {run.end}", *blocks, *self.report_lines, *units,
                 f"total {self.saved}")
        return "".join(f"{line}\n" for line in lines)

    def new_file(self):
        """The executable with the folded blocks in place."""
        data, places = bytearray(self.data), text_places(self.data)
        for leader in self.folded:
            for address, word in zip(self.addresses[leader], self.words[leader]):
                at = places(address)
                data[at:at + 4] = word.to_bytes(4, "little")
        return bytes(data)

    def summary(self):
        spent = sum(found.spent for _, found in self.searches)
        return f"cuts {self.takes} units {len(self.units)} skipped {spent} gain {self.saved}\n"

    def verdict(self, book):
        """What `check` prints of a text that may be a log book, with the right units and the right new file. Of a text
        that isn't one, how the line begins."""
        if not is_book(book):
            return "fault 10 log "
        entries, takes, searches = read_book(book), 0, iter(self.searches)
        for due, entry in zip([*self.lines, Entry("end", 0, [self.finish], None)], entries):
            graph, found = next(searches) if due.kind in ("best", "none", "spent") else (None, None)
            item, rule = wrong(due, entry, graph, found)
            if rule:
                return f"fault 11 rejected {takes} {due.leader:08x} {item} {rule}\n"
            takes += entry.kind == "take"
        return "accepted\n"


def wrong(due, entry, graph, found):
    """The item and the number of the rule by which an entry is wrong, or zeros, where another one is due."""
    reason = {"take": 9, "end": 10}.get(due.kind, 8)
    if graph is None:
        return 0, 0 if (entry.kind, entry.leader, entry.words) == due[:3] else reason
    if entry.kind not in ("best", "none", "spent") or entry.leader != due.leader:
        return 0, reason
    if entry.kind == "spent":
        return 0, 0 if found.spent and entry.words == due.words else reason
    return Judge(graph, set(entry.words) if entry.kind == "best" else None).first_wrong(entry.tree) or (0, 0)


def is_whole(tree):
    """Whether letters are one tree in preorder, in which B has two children and the others have none."""
    due = 1
    for letter in tree:
        if due == 0:
            return False
        due += 1 if letter == "B" else -1
    return due == 0


def is_book(text):
    """Whether a text is a log book."""
    if not BOOK.fullmatch(text):
        return False
    entries = read_book(text)
    nodes = [entry.words for entry in entries if entry.kind == "best"]
    return (all(words == sorted(set(words)) and words[-1] < 256 for words in nodes)
            and all(entry.words[0] < 32 for entry in entries if entry.kind == "take")
            and all(is_whole(entry.tree) for entry in entries if entry.tree))


def read_book(book):
    """The entries of a log book, and its end."""
    entries = []
    for searched, found, take, taken, end, words, tree in ENTRY.findall(book):
        kind = found or take or end
        words = words.split()
        entries.append(Entry(kind, int(searched or taken or "0", 16),
                             words if kind == "end" else [int(word) for word in words], tree))
    return entries


def trees_of(book):
    """The logs of a book, in their order."""
    return [entry.tree for entry in read_book(book) if entry.tree]


def text_places(data):
    """Where in the file the bytes of a text's address stand."""
    _, headers, sections = executable.read_header(data)
    text = executable.read_text(data, headers, sections, executable.read_segments(data, headers))

    def place(address):
        return next(offset + address - start for start, offset, size in text if start <= address < start + size)
    return place
