"""A naive reading of what leaders, blocks and live registers are, by sets of addresses and of registers. It shares
nothing with the program, so that the checks can compare the two."""
from readers.instructions import ends_block, mnemonic, reads, ways, writes

LONGEST = 256
CUSTOM_OPCODES = (0x0B, 0x2B)


class Text:
    """The words of an image by their addresses, and what the image and the user say of leaders."""

    def __init__(self, image, named):
        self.image, self.named = image, named
        self.words = {address: image.word(address) for start, past in image.ranges for address in range(start, past, 4)}

    def counts(self, addresses):
        """Those of the addresses that are a multiple of four in the text."""
        return {address % 2 ** 32 for address in addresses} & self.words.keys()

    def ways(self, address):
        """Where the instruction at an address may lead, but for a JALR, which may lead to any leader."""
        return ways(address, self.words[address])

    def data_words(self):
        """The values of the words that are loaded from the file and have no byte of the text."""
        return {self.image.word(address) for address in self.image.loaded if address % 4 == 0
                and address not in self.words} - {None}

    def marks(self):
        """The leaders but those that follow the last instruction of a full block."""
        jumps = {way for address, word in self.words.items() if word & 0x7F in (0x63, 0x6F)
                 for way in self.ways(address)}
        behind_ends = {address + 4 for address, word in self.words.items() if ends_block(word)}
        pasts = {past for _, past in self.image.ranges}
        meetings = {start for start, _ in self.image.ranges if start in pasts}
        return self.counts({self.image.entry} | jumps | behind_ends | meetings | set(self.image.symbols)
                           | self.data_words() | set(self.named))

    def custom(self):
        """The first address with a word of a custom opcode, or None."""
        return min((address for address, word in self.words.items() if word & 0x7F in CUSTOM_OPCODES), default=None)

    def blocks(self):
        """The blocks by their leaders, each a list of addresses."""
        marks, blocks = self.marks(), {}
        for start, past in self.image.ranges:
            block = None
            for address in range(start, past, 4):
                if address in marks or block is not None and len(block) == LONGEST:
                    block = blocks[address] = []
                if block is not None:
                    block.append(address)
        return blocks


def live_sets(text, blocks):
    """The registers that are live at each leader, and those that are live after its block. The first are the least sets
    of which each has what its block reads first, and what its block doesn't write of the sets of its successors; the
    second are what these successors have together."""
    first, written, successors = {}, {}, {}
    for leader, block in blocks.items():
        first[leader], written[leader] = set(), set()
        for address in block:
            first[leader] |= reads(text.words[address]) - written[leader]
            written[leader] |= writes(text.words[address])
        last = block[-1]
        successors[leader] = None if mnemonic(text.words[last]) == "jalr" else text.counts(text.ways(last))
    live, after, grows = {leader: set() for leader in blocks}, {}, True
    while grows:
        grows, anywhere = False, set().union(*live.values())
        for leader in reversed(blocks):
            ways = successors[leader]
            after[leader] = anywhere if ways is None else set().union(*(live[way] for way in ways))
            grown = live[leader] | first[leader] | (after[leader] - written[leader])
            grows |= grown != live[leader]
            live[leader] = grown
    return live, after
