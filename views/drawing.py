"""Pictures of data-flow graphs, by Graphviz: a block with a cut, as a text for `dot` or as an SVG."""
import html
import re
import subprocess

import beside  # noqa: F401 (readers/ is found from here on)
from readers.instructions import mnemonic
from readers.latencies import MEMORY
from program import disassembled, tool

# Colours by the kind of a part, in light and in dark surroundings: what fills it, and its lines and letters.
COLOURS = {"member": (("#cfe8ff", "#0b4a80"), ("#123a5c", "#9fd0ff")),
           "value": (("#fff3d1", "#6b4a00"), ("#40330f", "#ffdf94")),
           "memory": (("#e6e2f5", "#4a3a86"), ("#2f2850", "#c9bdf7")),
           "other": (("#f1f3f5", "#495057"), ("#2a2f35", "#c3cad1"))}
PAPER, LINE = ("#ffffff", "#15191e"), ("#5c636a", "#98a2ac")


def style():
    """The colours of a picture, for light and for dark surroundings."""
    def rules(place):
        ink = COLOURS["member"][place][1]
        parts = [f".paper{{fill:{PAPER[place]}}}.edge path{{stroke:{LINE[place]}}}"
                 f".edge polygon{{fill:{LINE[place]};stroke:{LINE[place]}}}"
                 f".cluster path{{stroke:{ink}}}.graph>text{{fill:{ink}}}"
                 f".edge text{{fill:{LINE[place]};stroke:{PAPER[place]}}}"]
        for kind, colours in COLOURS.items():
            fill, ink = colours[place]
            parts.append(f".{kind} path,.{kind} polygon,.{kind} ellipse{{fill:{fill};stroke:{ink}}}"
                         f".{kind} text{{fill:{ink}}}")
        return "".join(parts)
    halo = ".edge text{paint-order:stroke;stroke-width:4px;stroke-linejoin:round}"
    always = "svg text{font-family:sans-serif;text-anchor:middle}.edge path{fill:none}.cluster path{fill:transparent}"
    return f"{always}{halo}{rules(0)}@media (prefers-color-scheme:dark){{{rules(1)}}}"


def label(text):
    """What stands in a node: the operation, with its constant."""
    name, *words = text.replace(",", " ").replace("(", " ").replace(")", " ").split()
    constants = [word for word in words if not re.fullmatch(r"x\d+", word)]
    if name == "ci":
        return f"unit {words[0]}"
    return " ".join([name, *constants])


def kind_of(node, word, cut):
    """The kind of a node, by which it is drawn."""
    if node in cut:
        return "member"
    return "memory" if mnemonic(word) in MEMORY else "other"


class Drawing:
    """A block with its cut, as a graph in the language of `dot`: all of it, or the cut with what is next to it."""

    def __init__(self, block, cut, title, path=(), is_whole=False):
        self.block, self.cut, self.title, self.is_whole = block, cut, title, is_whole
        self.path = set(zip(path, path[1:]))
        self.texts = disassembled(block.words)
        # Arcs with the registers by which their values go.
        self.edges = {(source, node): f"x{register}" for node in block.nodes
                      for source, register in block.sources[node].items()
                      if register != 0 and (is_whole or node in cut or source in cut)}
        self.shown = list(block.nodes) if is_whole else sorted(cut.union(*self.edges) & set(block.nodes))

    def node(self, node):
        """The line of a node."""
        word = self.block.words[node]
        return (f'n{node} [label="{node}: {label(self.texts[word])}", class={kind_of(node, word, self.cut)}, '
                f'shape=box, style="{"filled,rounded" if node in self.cut else "filled"}"];')

    def ranks(self):
        """What the cut reads stands above it, and what reads it below, where no more is shown."""
        reads = {source for source, node in self.edges if node in self.cut} - self.cut
        below = [f"n{node}" for node in self.shown if node not in self.cut and node not in reads]
        rows = {"source": [self.name(source) for source in sorted(reads, key=str)],
                "sink": below + [f"out{node}" for node in self.block.outputs(self.cut) if node in self.block.live]}
        if self.is_whole:
            return []
        return [f"  {{rank={rank}; {'; '.join(names)}}}" for rank, names in rows.items() if names]

    def look(self, source, node):
        """How an arc is drawn: bold on the critical path, and with its register where a value enters or leaves."""
        crosses = source in self.block.nodes and (source in self.cut) != (node in self.cut) and self.cut
        label = f', label="{self.edges[source, node]}", fontname="Helvetica", fontsize=10' if crosses else ""
        return "class=arc" + (", penwidth=2.6" if (source, node) in self.path else "") + label

    def name(self, source):
        """How a node or a register is named in the text."""
        return f"n{source}" if source in self.block.nodes else source

    def dot(self):
        """The graph as a text."""
        value = "class=value, shape=ellipse, style=filled"
        members = [f"    {self.node(node)}" for node in self.shown if node in self.cut]
        lines = ["digraph block {", "  graph [bgcolor=transparent, nodesep=0.2, ranksep=0.32, margin=0.1];",
                 '  node [fontname="Helvetica", fontsize=11, height=0.3, margin="0.1,0.04"];',
                 "  edge [arrowsize=0.6];",
                 f'  label="{self.title}"; labelloc=b; labeljust=l; fontname="Helvetica"; fontsize=12;',
                 '  subgraph cluster_cut {', '    label=""; margin=12; style=rounded;', *members, "  }",
                 *(f"  {self.node(node)}" for node in self.shown if node not in self.cut)]
        registers = sorted({source for source, _ in self.edges if source not in self.block.nodes})
        lines += [f'  {register} [label="{register}", {value}];' for register in registers]
        lines += [f"  {self.name(source)} -> n{node} [{self.look(source, node)}];" for source, node in self.edges]
        for node in self.block.outputs(self.cut):
            if node in self.block.live:
                register = f"x{self.block.words[node] >> 7 & 31}"
                lines += [f'  out{node} [label="{register} after", {value}];', f"  n{node} -> out{node} [class=arc];"]
        return "\n".join([*lines, *self.ranks(), "}", ""])

    def svg(self, about, is_alone=True):
        """The graph as a picture, which says in words what it shows; with its colours, where it stands alone."""
        return svg(self.dot(), about, f"<style>{style()}</style>\n" if is_alone else "")


def short(text):
    """A picture in fewer bytes: without what `style` says of all pictures, and with whole numbers in its lines."""
    text = re.sub(r' (fill|stroke|font-family|text-anchor)="[^"]*"', "", text)
    text = re.sub(r' (d|points)="([^"]*)"', lambda part: f' {part[1]}="{whole(part[2])}"', text)
    text = re.sub(r'(font-size="\d+)\.00"', r'\1"', text)
    return text.replace('<g class="graph" transform="scale(1 1) rotate(0) ', '<g class="graph" transform="')


def whole(numbers):
    """Places in whole points."""
    return re.sub(r"-?\d+\.\d+", lambda number: str(round(float(number[0]))), numbers)


def svg(dot, about, colours):
    """The picture of a graph, with words for those who don't see it."""
    done = subprocess.run([tool("dot", "graphviz"), "-Tsvg"], input=dot, stdout=subprocess.PIPE, text=True, check=True)
    text = done.stdout[done.stdout.index("<svg"):]
    text = re.sub(r"<!--.*?-->\n?", "", text, flags=re.S)
    text = re.sub(r"<title>[^<]*</title>\n?", "", text)
    text = short(re.sub(r' id="\w+"', "", text))
    width, height, box = re.search(r'<svg width="(\d+)pt" height="(\d+)pt"\s+viewBox="([^"]+)"', text).groups()
    x, y = box.split()[:2]
    about = html.escape(about)
    head = (f'<svg xmlns="http://www.w3.org/2000/svg" role="img" aria-label="{about}" width="{width}" '
            f'height="{height}" viewBox="{box}">\n<title>{about}</title>\n{colours}'
            f'<rect class="paper" x="{x}" y="{y}" width="100%" height="100%" rx="8"/>')
    return re.sub(r"<svg[^>]*>", lambda _: head, text, count=1)
