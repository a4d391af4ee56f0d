"""A plain reading of what a renamed block and a renamed executable are, by sets of nodes and of registers. It shares
nothing with the program, so that the checks can compare the two.

Nodes are numbers from 0. The value of a node is local where the node doesn't end the block and writes a register, the
value isn't live after the block, and no environment call reads it. It is tied where the node reads what its own
register held before, another node writes that register, or an earlier one reads it. A register is free where no node
reads or writes it and it isn't live after the block.
"""
from checks.oracles.blocks import Text, live_sets
from checks.oracles.choices import text_places
from readers import executable
from readers.instructions import TWO_OPERANDS, ends_block, mnemonic, reads, writes

# Where the fields of registers stand in a word.
RESULT, FIRST, SECOND = 7, 15, 20


def operand_fields(word):
    """Where in a word the fields of the registers stand that it reads; an environment call has none."""
    name = mnemonic(word)
    if name in TWO_OPERANDS:
        return FIRST, SECOND
    return (FIRST,) if name != "ecall" and reads(word) else ()


def with_field(word, place, register):
    """A word with another register in one of its fields."""
    return word & ~(31 << place) | register << place


def with_operands(word, old, new):
    """A word in which each operand that is one of these registers is another one."""
    for place in operand_fields(word):
        if word >> place & 31 in old:
            word = with_field(word, place, new)
    return word


class Block:
    """A block in the course of its renaming, after which some registers are live. `values` is how many of its values
    have been renamed so far, `called` how many weren't only because an environment call reads them, and `crowded` how
    many only because no register was free."""

    def __init__(self, words, after):
        self.after, self.values, self.called, self.crowded = set(after), 0, 0, 0
        self.take(words)

    def take(self, words):
        """Takes the block's words: what each of them reads and writes; for each register that one reads, which node
        wrote it last, or None; and the same of each register that is written, behind the last node."""
        self.words, self.reads, self.writes = list(words), list(map(reads, words)), list(map(writes, words))
        self.sources, self.last = [], {}
        for node, read in enumerate(self.reads):
            self.sources.append({register: self.last.get(register) for register in read})
            self.last.update(dict.fromkeys(self.writes[node], node))

    def is_inner(self, node):
        """Whether the node doesn't end the block and writes a register, and the value isn't live after the block."""
        return (not ends_block(self.words[node]) and bool(self.writes[node])
                and all(self.last.get(register) != node for register in self.after))

    def is_called(self, node):
        """Whether an environment call reads the value."""
        return any(mnemonic(word) == "ecall" and node in read.values() for word, read in zip(self.words, self.sources))

    def is_tied(self, node):
        own = self.writes[node]
        return (any(own & read for read in self.reads[:node + 1])
                or any(own & written for place, written in enumerate(self.writes) if place != node))

    def free(self):
        """The free registers, in ascending order."""
        named = set().union(*self.reads, *self.writes)
        return [register for register in range(1, 32) if register not in named | self.after]

    def go_through(self, node):
        """Renames the value of a node, where that is due."""
        if not self.is_inner(node) or not self.is_tied(node):
            return
        if self.is_called(node):
            self.called += 1
            return
        free = self.free()
        if not free:
            self.crowded += 1
            return
        words = [with_operands(word, {register for register, source in read.items() if source == node}, free[0])
                 for word, read in zip(self.words, self.sources)]
        words[node] = with_field(words[node], RESULT, free[0])
        self.take(words)
        self.values += 1

    def rename(self):
        for node in range(len(self.words)):
            self.go_through(node)
        return self


class File:
    """An executable, and the one in which all its blocks are renamed, by the leaders that are named beside those that
    it has by itself. `blocks` are the addresses of the words of each, and `renamed` the blocks that come of them, by
    their leaders; `live` are the registers that are live at each leader, and `after` those after each block."""

    def __init__(self, data, named=()):
        self.data, self.text = data, Text(executable.Image(data), set(named))
        self.blocks = self.text.blocks()
        self.live, self.after = live_sets(self.text, self.blocks)
        self.renamed = {leader: Block(self.words(leader), self.after[leader]).rename() for leader in self.blocks}

    def words(self, leader):
        """The words of a block as they were."""
        return [self.text.words[address] for address in self.blocks[leader]]

    def changed(self):
        """The leaders of the blocks of which some value is renamed, in ascending order."""
        return sorted(leader for leader, block in self.renamed.items() if block.values)

    def line(self):
        """What `rename` prints."""
        return f"renamed {sum(block.values for block in self.renamed.values())} blocks {len(self.changed())}\n"

    def new(self):
        """The bytes of the new executable."""
        data, place = bytearray(self.data), text_places(self.data)
        for leader in self.changed():
            for address, word in zip(self.blocks[leader], self.renamed[leader].words):
                at = place(address)
                data[at:at + 4] = word.to_bytes(4, "little")
        return bytes(data)
