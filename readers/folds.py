"""A naive reading of what a folded block is, by sets of nodes and all walks along the arcs of its graph, where words
may be units with their `cput` and `cread`. It shares nothing with the program, so that the checks can compare the
two."""
from readers import instructions
from readers.instructions import mnemonic
from readers.latencies import MEMORY, NO_OPERATION, may_join

# The opcodes of unit words, and of `cread` and `cput`.
UNIT, HIDDEN = 0x0B, 0x2B
# What the words of `cread` and `cput` are but for the bits of their operands: rd and the lowest bit of the index, and
# rs1 and rs2.
CREAD, CREAD_FIELDS = 0x0000002B, 0x00100F80
CPUT, CPUT_FIELDS = 0x0000102B, 0x01FF8000


def is_unit(word):
    return word & 0x7F == UNIT


def is_cread(word):
    return word & ~CREAD_FIELDS == CREAD


def is_cput(word):
    return word & ~CPUT_FIELDS == CPUT


def unit_word(number, target, sources):
    """The word of a unit, with x0 for each source that is missing."""
    first, second, third = [*sources, 0, 0, 0][:3]
    return third << 27 | number // 8 << 25 | second << 20 | first << 15 | number % 8 << 12 | target << 7 | UNIT


def cread_word(target, index=0):
    """The word that reads the hidden result of an index, 0 or 1."""
    return index << 20 | target << 7 | CREAD


def cput_word(first, second):
    """The word that passes two registers as the hidden operands."""
    return second << 20 | first << 15 | CPUT


def operands(word):
    """The registers that a word reads, in their order."""
    if is_unit(word):
        return word >> 15 & 31, word >> 20 & 31, word >> 27
    if mnemonic(word) == "ecall":
        return 10, 11, 12, 17
    if is_cput(word):
        return word >> 15 & 31, word >> 20 & 31
    read = instructions.reads(word)
    return [field for field in (word >> 15 & 31, word >> 20 & 31) if field in read]


def writes(word):
    """The register that a word writes, in a set; none where it writes x0 or nothing."""
    return {word >> 7 & 31} - {0} if is_unit(word) or is_cread(word) else instructions.writes(word)


def stay_together(first, second):
    """Whether a word directly behind another belongs to the same use of a unit."""
    return is_cput(first) and is_unit(second) or (is_unit(first) or is_cread(first)) and is_cread(second)


class Block:
    """A block of words, after which some registers are live. Nodes are numbers from 0. A source is a node, or the name
    of a register at entry."""

    def __init__(self, words, live):
        self.words, self.nodes = words, range(len(words))
        # What each word reads, writes, and whether it accesses memory.
        self.reads, self.writes = [operands(word) for word in words], [writes(word) for word in words]
        self.accesses = [mnemonic(word) in MEMORY for word in words]
        self.sources, writer = [], {}
        for node in self.nodes:
            self.sources.append({writer.get(register, f"x{register}"): register for register in self.reads[node]})
            writer.update((register, node) for register in self.writes[node])
        self.live = {writer[register] for register in live if register in writer}
        self.arcs = self.all_arcs()
        self.behind = self.all_behind()

    def own_arcs(self, node):
        """The later nodes that have to stay behind a node for what they read, write or access. Arcs to the instruction
        that ends a block are left out, since no walk goes on from there."""
        named = self.writes[node].union(self.reads[node])
        return {later for later in self.nodes[node + 1:] if node in self.sources[later] or named & self.writes[later]
                or self.accesses[node] and self.accesses[later]}

    def uses(self):
        """The nodes of each use of a unit, in their order."""
        found = []
        for node in self.nodes:
            if node and stay_together(self.words[node - 1], self.words[node]):
                found[-1].append(node)
            elif is_unit(self.words[node]) or is_cput(self.words[node]):
                found.append([node])
        return found

    def all_arcs(self):
        """Those of each node, and those by which the words of each use of a unit move together: what leaves one of them
        leaves each. Arcs into one enter the first too, but are left out here, since they add no walk between other
        nodes."""
        arcs = [self.own_arcs(node) for node in self.nodes]
        for use in self.uses():
            leaving = set().union(*(arcs[node] for node in use)) - set(use)
            for place, node in enumerate(use):
                arcs[node] = leaving.union(use[place + 1:])
        return arcs

    def all_behind(self):
        """The nodes to which walks lead from each node. Arcs lead to later nodes."""
        behind = [set() for _ in self.nodes]
        for node in reversed(self.nodes):
            for later in sorted(self.arcs[node]):
                if later not in behind[node]:
                    behind[node] |= {later} | behind[later]
        return behind

    def is_convex(self, cut):
        return not any(self.behind[node] & cut and any(node in self.behind[member] for member in cut)
                       for node in self.nodes if node not in cut)

    def inputs(self, cut):
        """The registers of the inputs, numbered by their first use."""
        found = {}
        for node in sorted(cut):
            for source, register in self.sources[node].items():
                if source not in cut:
                    found.setdefault(source, register)
        return list(found.values())

    def outputs(self, cut):
        """The members whose values are live after the block, or read by other nodes, in their order."""
        return [node for node in sorted(cut) if node in self.live
                or any(node in self.sources[other] for other in self.nodes if other not in cut)]

    def fits(self, cut):
        return (all(self.joins(node) for node in cut) and self.is_convex(cut) and len(self.inputs(cut)) <= 5
                and 1 <= len(self.outputs(cut)) <= 3 and len(cut) >= self.use_length(cut))

    def joins(self, node):
        return self.words[node] & 0x7F not in (UNIT, HIDDEN) and may_join(self.words[node])

    def use_length(self, cut):
        """The number of the words by which the unit of a cut is used."""
        return (len(self.inputs(cut)) > 3) + max(len(self.outputs(cut)), 1)

    def use(self, cut, number):
        """These words: a `cput` where there are more than three inputs, the unit word of this number, and a `cread` for
        each output behind the first."""
        inputs, outputs = self.inputs(cut), [next(iter(self.writes[node])) for node in self.outputs(cut)]
        passed = [cput_word(*[*inputs[3:], 0][:2])] if len(inputs) > 3 else []
        return [*passed, unit_word(number, outputs[0], inputs),
                *(cread_word(register, index) for index, register in enumerate(outputs[1:]))]

    def around(self, cut):
        """The nodes that stand in front of the members' places in the folded block, and those that stand behind."""
        others = [node for node in self.nodes if node not in cut]
        early = [node for node in others if self.behind[node] & cut]
        return early, [node for node in others if node not in early]

    def folded(self, cut, number):
        """The words of the folded block, where the unit of this number stands for the members."""
        early, late = self.around(cut)
        use = self.use(cut, number)
        return [*(self.words[node] for node in early), *use, *[NO_OPERATION] * (len(cut) - len(use)),
                *(self.words[node] for node in late)]
