"""Compares two figures in docs/ARCHITECTURE.md with crates.txt and the modules of crates. That of the layers has a row
for each crate, those of the highest layer first, with its layer and the modules of its src/. That of the modules has a
row for each module of a crate with code, in the order of crates.txt, with the first sentence that it says of itself.

A crate that stands on no other is in layer 1, and each other one in the layer above the highest that it stands on.
With `--write` the figures are made anew. It ends with status 1 where a figure is another one, where a module says
nothing of itself, and where crates.txt names a crate in a circle.
"""
import os
import re
import textwrap

from checks.common import TOP, crates, end, text_of, words

DOCUMENT = "docs/ARCHITECTURE.md"
# Crates that have no code but tests.
TESTS = "ci_tests", "ci_text_tests", "ci_search_tests", "ci_unit_tests", "ci_program_tests", "ci_call_tests"


def layers(below):
    """The layers from the lowest on, each as the list of its crates in the order of crates.txt, and the crates that are
    in none."""
    done, found = set(), []
    while layer := [name for name in below if name not in done and done.issuperset(below.keys() & below[name])]:
        found.append(layer)
        done.update(layer)
    return found, [name for name in below if name not in done]


def modules(crate, whole=False):
    """The modules of a crate; all of them, or those that stand in no other."""
    top = os.path.join(TOP, "crates", crate, "src")
    files = sorted(os.path.relpath(os.path.join(folder, name), top) for folder, _, names in os.walk(top)
                   for name in names if whole or folder == top)
    return [name.removesuffix(".rt") for name in files if name.endswith(".rt") and name != "lib.rt"]


def row(layer, crate):
    """A crate with its layer and its modules."""
    return textwrap.fill(" ".join(modules(crate)), 100, initial_indent=f"{layer}  {crate:16}  ",
                         subsequent_indent=" " * 21) + "\n"


def sentence(crate, module):
    """The first sentence that a module says of itself."""
    said = re.match(r"(?://!.*\n)*", text_of(f"crates/{crate}/src/{module}.rt"))[0].replace("//!", " ")
    return re.split(r"(?<=[.]) |(?<=[.])$", " ".join(said.split()))[0]


def figures(found):
    """The figures by name, and the modules that say nothing of themselves."""
    said = {f"{crate}/{module}": sentence(crate, module)
            for crate in crates() if crate not in TESTS for module in modules(crate, whole=True)}
    made = {
        "layers": "".join(row(number, crate) for number, layer in reversed(list(enumerate(found, 1)))
                          for crate in layer),
        "modules": "".join(textwrap.fill(text, 110, initial_indent=f"{name:26}  ", subsequent_indent=" " * 28) + "\n"
                           for name, text in said.items()),
    }
    return made, [f"crates/{name.replace('/', '/src/', 1)}.rt says nothing of itself" for name, text in said.items()
                  if not text]


def main():
    parser = words(__doc__)
    parser.add_argument("--write", action="store_true", help="makes the figures anew")
    write = parser.parse_args().write
    found, circle = layers(crates())
    made, faults = figures(found)
    faults += [f"crates.txt: {name} stands in a circle" for name in circle]
    text = text_of(DOCUMENT)
    for name, figure in made.items():
        place = re.compile(rf"(?<=<!-- {name} -->\n```text\n).*?(?=```\n<!-- /{name} -->\n)", re.S)
        if not write and place.findall(text) != [figure]:
            faults.append(f"{DOCUMENT} has another figure of the {name}: call {parser.prog} --write")
        text = place.sub(lambda _, figure=figure: figure, text)
    if write:
        with open(os.path.join(TOP, DOCUMENT), "w", encoding="utf-8") as file:
            file.write(text)
    end(faults, f"{len(found)} layers")


main()
