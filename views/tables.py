"""Jump tables of differences, as GCC makes them by `-mcmodel=medany` and `-fPIC`: a word of one tells how far a place
of the text lies from the table's start, and the code adds the word to the address of that.

A table is sought at each address that the code makes: by a constant that is added to the result of LUI or AUIPC, in the
order of the text, or to the pointer to small data. It goes on while its words lead to instructions, and to where
another address begins. So other data may seem to be a table: its leaders only cost cuts. What isn't found is a table
whose address is made otherwise, or whose words are differences from another place, as those of labels as values are."""
from collections import namedtuple

import beside  # noqa: F401 (readers/ is found from here on)
from readers.instructions import mnemonic, writes

GLOBAL_POINTER, ALL_BITS = 3, 2 ** 32 - 1

# A table: its address, and where its words lead, one after another.
Table = namedtuple("Table", "address targets")


def made(image):
    """The addresses that the code of an executable makes."""
    found, pointers, distances, uppers = set(), set(), set(), {}
    for address in (address for start, past in image.ranges for address in range(start, past, 4)):
        word = image.word(address)
        name, register, base = mnemonic(word), word >> 7 & 31, word >> 15 & 31
        constant = (word >> 20) - (word >> 31 << 12)
        if name == "addi" and base in uppers:
            (pointers if register == GLOBAL_POINTER else found).add(uppers[base] + constant & ALL_BITS)
        elif name == "addi" and base == GLOBAL_POINTER:
            distances.add(constant)
        for written in writes(word):
            uppers.pop(written, None)
            if name in ("lui", "auipc"):
                uppers[written] = (word & 0xFFFFF000) + (address if name == "auipc" else 0)
    return found | {pointer + distance & ALL_BITS for pointer in pointers for distance in distances}


def leads(image, table, address):
    """Where a word of a table leads, if to an instruction."""
    word = image.word(address)
    target = None if word is None else table + word & ALL_BITS
    is_there = target is not None and target % 4 == 0 and any(start <= target < past for start, past in image.ranges)
    return target if is_there else None


def tables(image):
    """The tables of an executable, by their addresses."""
    addresses, found = made(image), []
    for table in sorted(address for address in addresses if address % 4 == 0):
        targets, address = [], table
        while (address == table or address not in addresses) and (target := leads(image, table, address)) is not None:
            targets.append(target)
            address += 4
        if targets:
            found.append(Table(table, targets))
    return found


def leaders(found):
    """Where tables lead, ascending."""
    return sorted({target for table in found for target in table.targets})


def jumps_and_tables(executable):
    """The jumps of an executable that lead to sums, and its tables, which it has for such jumps only."""
    jumps = executable.jumps_by_sums()
    return jumps, tables(executable.image) if jumps else []


def blind_jumps(old):
    """The jumps that lead to sums, where there are more of them than tables, or a table leads to where no block begins;
    and else none."""
    jumps, found = jumps_and_tables(old)
    return jumps if len(found) < len(jumps) or set(leaders(found)) - old.blocks.keys() else []
