"""Writes the graph of a block for search.c.

    python3 -m benchmarks.graphs FILE [ADDRESS]

FILE has the words of a block; with ADDRESS it is an executable, and the block begins there. The graph is made from the
block's words by checks/oracles/cuts.py, and its live registers by checks/oracles/blocks.py, which share nothing with
the program.
"""
import struct
import sys

from checks.oracles.blocks import Text, live_sets
from checks.oracles.cuts import Graph, Table
from readers import executable

ENTRY = 256


def text_of(graph):
    """A graph as search.c reads it."""
    table, joining = graph.table, set(graph.order)
    lines = [f"{graph.size} {table.read} {table.pad}"]
    for node in range(graph.size):
        sources = sorted(source if isinstance(source, int) else ENTRY + int(source[1:])
                         for source in graph.sources[node])
        figures = ((table.latencies[graph.key[node]], table.delays[graph.key[node]]) if node in joining else (0, 0))
        lines.append(" ".join(map(str, (int(node in joining), *figures, int(node in graph.live), len(sources), *sources,
                                        len(graph.above[node]), *sorted(graph.above[node])))))
    return "\n".join(lines) + "\n"


def blocks_of(file):
    """The words of each block of an executable and the registers that are live after it, by its address."""
    with open(file, "rb") as opened:
        text = Text(executable.Image(opened.read()), [])
    blocks = text.blocks()
    _, after = live_sets(text, blocks)
    return {leader: ([text.words[address] for address in block], after[leader]) for leader, block in blocks.items()}


def main():
    if len(sys.argv) == 3:
        words, live = blocks_of(sys.argv[1])[int(sys.argv[2], 0)]
    else:
        with open(sys.argv[1], "rb") as file:
            data = file.read()
        words, live = struct.unpack(f"<{len(data) // 4}I", data), range(1, 32)
    print(text_of(Graph(words, live, Table())), end="")


if __name__ == "__main__":
    main()
