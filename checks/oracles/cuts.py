"""A naive reading of what the best cut of a block is, and of how much budget the search for it takes: all sets of
eligible instructions and all prefixes of their choices are tried. And a naive reading of what is wrong first in a log
of the search, by the same sets. It shares nothing with the program, so that the checks can compare the two."""
import itertools
from collections import namedtuple

from readers.instructions import ends_block, mnemonic, reads, writes
from readers.latencies import KEYS, MEMORY, ROWS, may_join


class Table:
    """Latencies and delays by the keys of the latency table, the latency of `cread`, and the cost of a no-op in a
    folded block."""

    def __init__(self):
        self.latencies = {row.key: row.latency for row in ROWS}
        self.delays = {row.key: row.delay for row in ROWS}
        self.read, self.pad = 1, 0

    def text(self):
        """The table as a file."""
        parts = {"software": self.latencies, "hardware": self.delays}
        return f"read = {self.read}\npad = {self.pad}\n" + "".join(
            f"{title}.{key} = {figure}\n" for title, figures in parts.items() for key, figure in figures.items())

    def is_usual(self):
        return vars(self) == vars(Table())


# What is told of a set of nodes: whether it is convex; the sources that it reads from outside; the number of its
# outputs; the cycles of its hardware; and its gain.
Facts = namedtuple("Facts", "convex inputs outputs cycles gain")


class Graph:
    """The data-flow graph of a block, by its words, the registers that are live after it and a table. Nodes are numbers
    from 0; a source is a node, or the name of a register at entry."""

    def __init__(self, words, live, table):
        self.table, self.size = table, len(words)
        self.key = [KEYS.get(mnemonic(word)) for word in words]
        self.order = [node for node in reversed(range(self.size)) if may_join(words[node])]
        self.sources, writer = [], {}
        for node, word in enumerate(words):
            self.sources.append({writer.get(register, f"x{register}") for register in reads(word)})
            writer.update((register, node) for register in writes(word))
        self.live = {writer[register] for register in live if register in writer}
        self.readers = [{node for node in range(self.size) if source in self.sources[node]}
                        for source in range(self.size)]
        self.below = [set() for _ in words]
        for node in reversed(range(self.size)):
            for later in range(node + 1, self.size):
                if self.is_arc(words, node, later):
                    self.below[node] |= {later} | self.below[later]
        self.above = [{node for node in range(self.size) if later in self.below[node]} for later in range(self.size)]

    def is_arc(self, words, node, later):
        """Whether an arc leads from a node to a later one."""
        true = node in self.sources[later]
        anti = reads(words[node]) & writes(words[later])
        output = writes(words[node]) & writes(words[later])
        memory = mnemonic(words[node]) in MEMORY and mnemonic(words[later]) in MEMORY
        control = later == self.size - 1 and ends_block(words[later])
        return bool(true or anti or output or memory or control)

    def is_convex(self, cut):
        """Whether no walk along arcs leads from a member through another node to a member."""
        return not any(self.above[node] & cut and self.below[node] & cut for node in range(self.size)
                       if node not in cut)

    def outputs(self, cut):
        """The number of members whose value is live after the block or read by another node."""
        return sum(node in self.live or not self.readers[node] <= cut for node in cut)

    def cycles(self, cut):
        """The cycles that the longest walk of operands inside a set takes, rounded up, and at least one."""
        walks = {}
        for node in sorted(cut):
            walks[node] = self.table.delays[self.key[node]] + max(
                [walks[source] for source in self.sources[node] if source in walks], default=0)
        return max(1, -(-max(walks.values(), default=0) // 1000))

    def gain(self, nodes, cycles, inputs, outputs):
        """The formula of the gain. The latencies are those of the nodes."""
        more = further_words(inputs, outputs)
        return (sum(self.table.latencies[self.key[node]] for node in nodes) - cycles - more * self.table.read
                - (len(nodes) - 1 - more) * self.table.pad)

    def taken(self, choice):
        """The nodes that a choice takes in; it decides the eligible ones from the last to the first."""
        return {node for node, taken in zip(self.order, choice) if taken}

    def facts(self, cut):
        inputs = set().union(*(self.sources[node] for node in cut)) - cut
        outputs, cycles = self.outputs(cut), self.cycles(cut)
        return Facts(self.is_convex(cut), inputs, outputs, cycles, self.gain(cut, cycles, len(inputs), outputs))


def further_words(inputs, outputs):
    """How many words a use has beside the unit word: each output but the first takes one, and so do the fourth and the
    fifth input together."""
    return max(outputs - 1, 0) + (inputs > 3)


def choices(count):
    """All choices on so many nodes. Of two choices, that one comes first which takes the node in where they first
    differ."""
    return itertools.product((True, False), repeat=count)


class Search:
    """The best cut of a graph within limits, the budget that it takes, and what is wrong first in a log."""

    def __init__(self, graph, inputs, outputs):
        self.graph, self.inputs, self.outputs = graph, inputs, outputs
        self.facts = {choice: graph.facts(graph.taken(choice)) for choice in choices(len(graph.order))}
        self.gains = {choice: facts.gain for choice, facts in self.facts.items()
                      if facts.convex and len(facts.inputs) <= inputs and 1 <= facts.outputs <= outputs
                      and sum(choice) >= 1 + further_words(len(facts.inputs), facts.outputs)}

    def best(self):
        """The line that tells the best cut: among those that fit and gain most, the one that comes first."""
        greatest = max(self.gains.values(), default=0)
        if greatest <= 0:
            return "no cut\n"
        first = next(choice for choice in self.facts if self.gains.get(choice) == greatest)
        return " ".join(("cut", *map(str, sorted(self.graph.taken(first))), f"gain {greatest}\n"))

    def settled(self, prefix):
        """The facts of the nodes that are taken in where the last nodes alone are decided, as the prefix says; but of
        their inputs those that can't be taken in any more, and the bound in place of the gain."""
        undecided = set(self.graph.order[len(prefix):])
        facts = self.facts[prefix + (False,) * len(undecided)]
        inputs, nodes = facts.inputs - undecided, self.graph.taken(prefix) | undecided
        bound = self.graph.gain(nodes, facts.cycles, len(inputs), facts.outputs)
        return facts._replace(inputs=inputs, gain=bound)

    def is_open(self, prefix):
        """Whether the search has to go on where the last nodes alone are decided, as the prefix says."""
        facts = self.settled(prefix)
        if not facts.convex or facts.outputs > self.outputs or len(facts.inputs) > self.inputs:
            return False
        reached = max((gain for choice, gain in self.gains.items() if choice[:len(prefix)] > prefix), default=0)
        return facts.gain > max(0, reached)

    def need(self):
        """The number of prefixes that are open and leave a node undecided."""
        return sum(self.is_open(prefix) for decided in range(len(self.graph.order)) for prefix in choices(decided))

    def breaks(self, letter, prefix, best):
        """The number of the rule that an item of a log breaks at a prefix, by the choice that is said to be best, or
        None; 0 where it breaks none."""
        facts, gain, is_whole = self.settled(prefix), self.gains.get(best, 0), len(prefix) == len(self.graph.order)
        comes_after, is_before = best is None or prefix < best[:len(prefix)], best is not None and prefix > best
        rule, is_broken = {
            "O": (1, facts.outputs <= self.outputs), "C": (2, facts.convex), "I": (3, len(facts.inputs) <= self.inputs),
            "G": (4, facts.gain > gain or facts.gain == gain and not comes_after),
            "F": (5, not is_whole or self.gains.get(prefix, 0) > gain or self.gains.get(prefix) == gain and is_before),
            "B": (6, is_whole)}[letter]
        return rule if is_broken else 0

    def first_wrong(self, cut, tree):
        """Of a log that is one whole tree: the first item that is wrong where a cut is said to be the best, or None,
        and the number of the rule that it breaks; or None."""
        best = None if cut is None else tuple(node in cut for node in self.graph.order)
        if cut is not None and (self.graph.taken(best) != set(cut) or self.gains.get(best, 0) <= 0):
            return 0, 7
        waiting = [()]
        for item, letter in enumerate(tree):
            prefix = waiting.pop()
            rule = self.breaks(letter, prefix, best)
            if rule:
                return item, rule
            if letter == "B":
                waiting += [prefix + (False,), prefix + (True,)]
        return None
