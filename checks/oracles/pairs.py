"""A naive reading of what the best pair of cuts of a block is, and of how much budget the search for it takes: all
pairs of sets that fit and all prefixes of labels are tried. It stands on the naive reading of one cut, and shares
nothing with the program, so that the checks can compare the two."""
import itertools
from bisect import bisect_left

from checks.oracles.cuts import Search, further_words

# The labels of a node, in the order of pairs: it is in the first set, in the second, or out.
LABELS = FIRST, SECOND, OUT = range(3)


def line_of(first, second, gain):
    """The line that tells a pair."""
    return " ".join(("pair", *map(str, sorted(first)), "and", *map(str, sorted(second)), f"gain {gain}\n"))


class Pairs:
    """The pairs of cuts of a graph within limits, and the budget that the search for the best of them takes."""

    def __init__(self, graph, inputs, outputs):
        self.graph, self.inputs, self.outputs = graph, inputs, outputs
        self.cuts = Search(graph, inputs, outputs)
        fitting = [(choice, graph.taken(choice), gain) for choice, gain in self.cuts.gains.items()]
        # The pairs by their labels, from the last eligible node to the first, in the order of pairs; and of each the
        # greatest gain of those up to it.
        self.gains = dict(sorted((labels_of(first, second), gain + other)
                                 for first, members, gain in fitting for second, others, other in fitting
                                 if self.fit_together(members, others)))
        self.labels, self.greatest = list(self.gains), list(itertools.accumulate(self.gains.values(), max))

    def leads(self, here, there):
        """Whether a walk leads from a member of one set to one of another."""
        return any(self.graph.below[node] & there for node in here)

    def cross(self, first, second):
        return self.leads(first, second) and self.leads(second, first)

    def fit_together(self, first, second):
        """Whether two sets, each of which fits, are a pair."""
        return not first & second and max(first) > max(second) and not self.cross(first, second)

    def labelled(self, labels, which):
        """The nodes that have a label, where the last nodes alone may be labelled."""
        return self.graph.taken([label == which for label in labels])

    def best(self):
        """The line that tells the best pair: among those that gain most, the one that comes first."""
        greatest = max(self.gains.values(), default=0)
        if greatest <= 0:
            return "no pair\n"
        labels = next(labels for labels, gain in self.gains.items() if gain == greatest)
        return line_of(self.labelled(labels, FIRST), self.labelled(labels, SECOND), greatest)

    def bound(self, prefix, first, second):
        """What no pair gains more than that goes on from the labels of the last nodes. The facts are those of what is
        in either set."""
        table = self.graph.table
        nodes = [node for node, label in zip(self.graph.order, prefix) if label != OUT]
        nodes += self.graph.order[len(prefix):]
        more = sum(further_words(len(facts.inputs), facts.outputs) for facts in (first, second))
        return (sum(table.latencies[self.graph.key[node]] for node in nodes) - first.cycles - second.cycles
                - more * table.read - (len(nodes) - 2 - more) * table.pad)

    def is_open(self, prefix):
        """Whether the search has to go on where the last nodes alone are labelled, as the prefix says."""
        first, second = self.labelled(prefix, FIRST), self.labelled(prefix, SECOND)
        is_mirrored = bool(second) and max(first | second) not in first
        if is_mirrored or self.cross(first, second):
            return False
        both = [self.cuts.settled(tuple(label == which for label in prefix)) for which in (FIRST, SECOND)]
        if not all(facts.convex and facts.outputs <= self.outputs and len(facts.inputs) <= self.inputs
                   for facts in both):
            return False
        before = bisect_left(self.labels, prefix)
        reached = max(0, self.greatest[before - 1]) if before else 0
        return self.bound(prefix, *both) > reached

    def need(self):
        """The number of prefixes that are open and leave a node undecided."""
        return sum(self.is_open(prefix) for decided in range(len(self.graph.order))
                   for prefix in itertools.product(LABELS, repeat=decided))

    def most(self):
        """The number of all prefixes that leave a node undecided, which no need is above."""
        return sum(len(LABELS) ** decided for decided in range(len(self.graph.order)))


def labels_of(first, second):
    """The labels of a pair of choices."""
    return tuple(FIRST if taken else SECOND if other else OUT for taken, other in zip(first, second))
