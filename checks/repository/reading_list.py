"""Tells what a reader has to believe of each claim of README.md, and compares its size with README.md.

A claim is `contract`, the whole contract of the top call (`run` of ci_find); `headline`, its clause of this name; or
the number of a point of README.md's "What you can rely on". What a claim reaches is what its clauses name, what that
names, and so on: definitions, by item, and what the code declares, by its comments, types and contract and the value by
which it is modelled. A point that speaks of some commands alone needs only the cases of these in the table of what
commands do. What the toolchain's library and its ports define isn't counted.

Without `--claim`, the size of each claim is printed, and the names of all definitions are looked up. With it, what the
claim reaches is printed file by file, each behind those that it stands on.

It ends with status 1 where a name leads nowhere or into a proof, where a claim reaches an item of `specs/private/`,
where the first comment of a file says something else than its folder of whom it is for, where the points of README.md
aren't those of this script, where a clause of the contract carries none of them, and where README.md has other sizes;
and where a made-up change of a definition isn't noticed.
"""
import dataclasses
import re

from checks.common import end, text_of, words
from checks.repository import reached
from checks.repository.definitions import Fault

RUN = "crates/ci_find/src/lib.rt", "run"
# The table of what commands do, of which a claim may need the cases of some commands alone.
COMMANDS = "crates/ci_find/specs/Commands.antt", "call_by"
# The folder of the definitions that serve private contracts, models or lemmas, and how their first comments say so.
PRIVATE = "/specs/private/"
TOLD_PRIVATE = "For private contracts: "
CHOICES = "Find", "Check"
LAWS = "crates/ci_find/src/laws.rt"
RUNS = "crates/ci_runs/src/laws.rt"
RENAMED = ((RUNS, "renamed_files_analyse_alike"), (RUNS, "renamed_files_run_in_step"),
           (RUNS, "renamed_choices_run_alike"))
READERS = "Best", "Pair", "Blocks", "Run", *CHOICES, "Area", "Rename"


@dataclasses.dataclass
class Claim:
    """The clauses of the top call that carry a claim, all of them where none are named; the commands that it speaks of,
    all of them where none are named; and other functions that carry it, too."""
    clauses: tuple = None
    commands: tuple = None
    others: tuple = ()


# How a call ends, by the calls that it made.
ENDS = "called", "put", "ends_by"

CLAIMS = {
    "contract": Claim(),
    "headline": Claim(("headline",)),
    "1": Claim(ENDS, ("Find",)),
    "2": Claim(ENDS, CHOICES, ((LAWS, "check_accepts_choices"),)),
    "3": Claim(("headline", "headline_over_files")),
    "4": Claim(ENDS, ("Best", "Pair")),
    "5": Claim(ENDS, ("Best", "Pair", "Find", "Area")),
    "6": Claim(ENDS, ("Best", "Pair")),
    "7": Claim(ENDS, ("Blocks",)),
    "8": Claim(ENDS, ("Run",)),
    "9": Claim(ENDS, ("Asm", "Dis"), (("crates/ci_asm/src/disassembler.rt", "show"),)),
    "10": Claim(ENDS, ("Eval",)),
    "11": Claim(ENDS, ("Relog",)),
    "12": Claim(ENDS, ("Gates", "Geval", "Area")),
    "13": Claim(ENDS, READERS),
    "14": Claim((*ENDS, "cause", "ends", "due", "statuses", "complete", "printed")),
    "15": Claim(("no_write", "writes", "files_stay", "left")),
    "16": Claim((*ENDS, "first_files", "ends", "complete", "left")),
    "17": Claim((*ENDS, "renamed", "renamed_over_files"), ("Rename",), RENAMED),
}


def find(reader, claim):
    """What a claim reaches."""
    roots = [("clauses", *RUN, claim.clauses), *(("code", *other) for other in claim.others)]
    return reached.Reached(reader, roots, {COMMANDS: claim.commands} if claim.commands else {})


def unresolved(reader):
    """What is wrong with the imports and the names of all files of definitions."""
    for file in reader.sources.all_definitions():
        try:
            definitions = reader.sources.definitions(file)
            for path, pairs, alias in definitions.imports:
                for name in [name for name, _ in pairs] or [None] * bool(alias):
                    reader.sources.target(path, name)
        except Fault as fault:
            yield f"{file}: {fault}"
            continue
        for name in definitions.items:
            try:
                yield from (text for kind, text, _ in reader.named(file, name) if kind == "fault")
            except Fault as fault:
                yield str(fault)


def private(found):
    """What is reached of files of `specs/private/`, which are for nobody above."""
    for file in sorted({file for file, _ in found.items}):
        if PRIVATE in file:
            names = ", ".join(sorted(name for other, name in found.items if other == file))
            yield f"{file} isn't for public contracts: {names}"


def misplaced(reader, files):
    """The files of definitions whose first comment says something else than their folder of whom they are for."""
    for file in sorted(files):
        if (PRIVATE in file) != reader.sources.definitions(file).comment.startswith(TOLD_PRIVATE):
            yield f"{file} says by its first comment something else than by its folder of whom it is for"


def points(found):
    """What README.md says that isn't so of its points, and of the sizes of the contract and of the headline."""
    text = " ".join(text_of("README.md").split())
    numbers = re.findall(r"^(\d+)\. ", text_of("README.md"), re.M)
    if numbers != [name for name in CLAIMS if name.isdigit()]:
        yield f"README.md has the points {', '.join(numbers)}"
    of_all, of_headline = ([f"{len(part):,}" for part in (one.items, one.declared)]
                           + [f"{sum(part.values()):,}" for part in (one.items, one.declared)]
                           for one in (found["contract"], found["headline"]))
    said = (f"in all {of_all[0]} definitions with {of_all[2]} lines, and {of_all[1]} declarations with {of_all[3]}; "
            f"for the headline {of_headline[0]} with {of_headline[2]}, and {of_headline[1]} with {of_headline[3]}.")
    if said not in text:
        yield f"README.md doesn't say '{said}'"


def uncarried(reader, contract):
    """What of the contract of the top call carries no point, and whether it still has the table of commands."""
    carrying = {clause for name, claim in CLAIMS.items() if name.isdigit() for clause in claim.clauses}
    for clause in reader.sources.code(RUN[0]).clauses(RUN[1]):
        if clause[0] not in carrying:
            yield f"the clause {clause[0]} of `{RUN[1]}` carries no point of README.md"
    if COMMANDS not in contract.items:
        yield f"the contract doesn't reach {COMMANDS[1]} of {COMMANDS[0]}"


def counts(reader, found):
    """How many items are reached, with how many lines, and how many names lead nowhere and how many files are misplaced."""
    files = {file for file, _ in found.items}
    return len(found.items), sum(found.items.values()), len(found.faults), len(list(misplaced(reader, files)))


def untold(reader, found):
    """What is told wrongly where a definition is changed: some record that the headline reaches, and its file."""
    file, record = next(place for place in sorted(found.items) for item in
                        [reader.sources.definitions(place[0]).items[place[1]]]
                        if item.kind == "record" and not item.sections)
    text = reader.sources.text(file)
    lines, last = text.splitlines(), reader.sources.definitions(file).items[record].last
    field = "\n".join([*lines[:last + 1], "  pub added_field : added_item", *lines[last + 1:], ""])
    item = "\n-- an item that is made up\nabbrev pub added_item : Type 0\nadded_item = Type 0\n"
    for changed, expected, said in (
            (text, (0, 0, 0, 0), "no change at all"),
            (text + item, (0, 0, 0, 0), "a definition that nothing names"),
            (field + item, (1, 4, 0, 0), "a definition that a field names"),
            (field, (0, 1, 1, 0), "a field that names nothing"),
            (f"-- {TOLD_PRIVATE}what is made up.\n{text}", (0, 0, 0, 1), "a file that is for private contracts")):
        other = reached.Reader(reached.Sources({file: changed}))
        after = find(other, CLAIMS["headline"])
        told = tuple(there - here for there, here in zip(counts(other, after), counts(reader, found)))
        if told != expected:
            yield f"of {said} in {file} {told} is told, in place of {expected}"


def lowest_first(sources):
    """The crates, each behind those that it stands on."""
    done = []

    def visit(crate):
        if crate in sources.crates and crate not in done:
            for other in sources.crates[crate]:
                visit(other)
            done.append(crate)

    for crate in sources.crates:
        visit(crate)
    return done


def in_order(sources, found):
    """The files of what is reached, each behind those that it stands on, and the code of a crate before its
    definitions."""
    crates, files, done = lowest_first(sources), {file for file, _ in found.items}, []

    def visit(file):
        if file in files and file not in done:
            for path, _, _ in sources.definitions(file).imports:
                visit(f"crates/{path.removeprefix('Rattle.').replace('.', '/')}.antt")
            done.append(file)

    for file in sorted(files):
        visit(file)
    code = sorted({file for file, _ in found.declared})
    return sorted(code + done, key=lambda file: crates.index(file.split("/")[1]))


def show(sources, found):
    """Prints what is reached, file by file: where each item begins, how many lines it has, and its name."""
    for file in in_order(sources, found):
        if file.endswith(".rt"):
            names = [(sources.code(file).span(name)[0] + 1, lines, name)
                     for (other, name), lines in found.declared.items() if other == file]
        else:
            names = [(sources.definitions(file).items[name].first + 1, lines, name)
                     for (other, name), lines in found.items.items() if other == file]
        lines = sum(lines for _, lines, _ in names)
        print(f"{file}: {len(names)} items with {lines} of {len(sources.text(file).splitlines())} lines")
        for first, lines, name in sorted(names):
            print(f"  {first:4} {lines:4} {name}")
    print(f"of the toolchain's library and ports: {', '.join(sorted(found.library))}")


def summary(sources, found):
    """Prints the sizes of claims."""
    print("claim     definitions  lines  declarations  lines  files of definitions  their lines")
    for name, one in found.items():
        files = {file for file, _ in one.items}
        whole = sum(len(sources.text(file).splitlines()) for file in files)
        print(f"{name:9} {len(one.items):11,} {sum(one.items.values()):6,} {len(one.declared):13} "
              f"{sum(one.declared.values()):6,} {len(files):21} {whole:12,}")


def main():
    parser = words(__doc__)
    parser.add_argument("--claim", choices=CLAIMS, help="print what this claim reaches")
    chosen = parser.parse_args().claim
    reader = reached.Reader(reached.Sources())
    found = {name: find(reader, claim) for name, claim in CLAIMS.items() if chosen in (None, name)}
    faults = [fault for one in found.values() for fault in (*one.faults, *private(one))]
    if chosen:
        show(reader.sources, found[chosen])
    summary(reader.sources, found)
    if not chosen:
        faults += [*unresolved(reader), *misplaced(reader, reader.sources.all_definitions()), *points(found),
                   *uncarried(reader, found["contract"]),
                   *untold(reader, found["headline"])]
    end([*dict.fromkeys(faults)], f"{len(found)} claims looked at")


main()
