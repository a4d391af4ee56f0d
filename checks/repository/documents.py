"""Looks at the documents: that what they name is there, and that they keep their form.

The documents are README.md, CONTRIBUTING.md and those of docs/. In each, outside fenced blocks, a file that is named
between backquotes has to be one of the repository's, by its path or the end of it, and a name of a definition, a
function, a type, a crate or a must-fail edit has to stand somewhere in its sources. So a name that was changed is found
wherever the documents say it. No line has more than 120 columns, but in fenced blocks, and README.md has at most 250
lines.
"""
import os
import re

from checks.common import TOP, end, text_of, words

LEFT_OUT = {".git", "out", "__pycache__"}
SOURCES = (".rt", ".antt", ".py", ".sh", ".txt", ".tsv", ".c", ".h", ".v")
FILE = re.compile(r"[\w./-]+\.(?:antt|rt|py|sh|md|tsv)")
NAME = re.compile(r"\w+(?:-\w+)*")
# Names of the toolchain's library that the sources don't say.
FOREIGN = {"try_get_matches_from_mut"}
COLUMNS, README_LINES = 120, 250


def walk():
    """The paths of the repository's files."""
    for folder, folders, files in os.walk(TOP):
        folders[:] = [name for name in folders if name not in LEFT_OUT]
        for name in files:
            yield os.path.relpath(os.path.join(folder, name), TOP)


def names_in(paths):
    """All words of the sources, and the names of files without their endings."""
    found = set(FOREIGN)
    for path in paths:
        found.add(os.path.splitext(os.path.basename(path))[0])
        if path.endswith(SOURCES):
            found.update(re.findall(r"\w+", text_of(path)))
    return found


def is_a_name(word):
    """Whether a word is spelt as a name of the sources is, and no plain word, sample or placeholder."""
    return bool(NAME.fullmatch(word)) and ("_" in word or bool(re.match(r"[A-Z]\w*[a-z]", word)))


def without_fences(text):
    """A text with its fenced blocks emptied, line by line."""
    return re.sub(r"^ *```.*?^ *```$", lambda block: "\n" * block.group().count("\n"), text, flags=re.M | re.S)


def cited(document, text, paths, names):
    """The files and names that a document cites and the repository hasn't."""
    for found in re.finditer(r"`([^`\n]+)`", text):
        word, place = found.group(1), f"{document}:{text[:found.start()].count(chr(10)) + 1}"
        if FILE.fullmatch(word) and not re.search(r"\bNAME\b|/C/", word):
            if not any(path == word or path.endswith("/" + word) for path in paths):
                yield f"{place}: no file {word}"
        elif is_a_name(word) and not set(word.split("-")) - {""} <= names:
            yield f"{place}: no source says {word}"


def main():
    words(__doc__).parse_args()
    paths = sorted(walk())
    names, faults = names_in(paths), []
    documents = ["README.md", "CONTRIBUTING.md"] + [path for path in paths if re.fullmatch(r"docs/\w+\.md", path)]
    for document in documents:
        text = without_fences(text_of(document))
        faults += cited(document, text, paths, names)
        faults += [f"{document}:{number}: {len(line)} columns" for number, line in enumerate(text.splitlines(), 1)
                   if len(line) > COLUMNS]
    length = len(text_of("README.md").splitlines())
    if length > README_LINES:
        faults.append(f"README.md has {length} lines")
    end(faults, f"{len(documents)} documents", len(faults))


main()
