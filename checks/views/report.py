"""Compares the pages that `views/report` makes with REPORT and with what the program says.

Pages are made of choices for samples and for programs that GCC compiled, by the usual limits on inputs and outputs and
by the greatest ones, one without a cut, one with a skipped block and one with a log book of version 2. The numbers on
top, of blocks, of cuts and of units have to be those of REPORT, with the units by what they save, which sums up to its
total, and what a unit's expressions give has to be what `eval` prints. Where there is room for half of the gates, the
units that stay and what they save have to be those of `area`'s line, and the gates of each those of `gates`. Of a
program with debug information the cycles by function and by line have to sum up, and a function's name does for its
address. A page may ask for nothing from outside and have no script; its parts have to be well nested, named and
described. Chromium opens two pages at two widths, where nothing may stand out on the right side. Files that are no
choice are refused; wrong calls end with the usage and status 2.
"""
import html.parser
import json
import os
import random
import re
import shutil
import subprocess

from checks.common import SAMPLES, TOP, text_of
from checks.oracles.expressions import values
from checks.tools import compiled
from checks.views import viewing
from readers import executable
from readers.corners import vectors

CHROMIUM, WIDTHS, SHOWN = "chromium", (1200, 500), ("sha256", "matrix")
# Parts that stand apart from what is before them, and those that have no end.
CELLS = {"td", "th", "dt", "dd", "span", "summary"}
VOID = {"meta", "br", "hr", "img", "input", "link"}
MEASURE = ("<script>const page = document.documentElement;"
           "document.title = `width ${page.scrollWidth} of ${page.clientWidth}`</script></body>")
VECTORS = 3
# A program with an inlined function, at this line, and a table whose address is a constant of its loop.
MIXED = 6
LINES = """#include "start.h"
unsigned table[64];

static inline unsigned mix(unsigned hash)
{
    return ((hash << 7 | hash >> 25) ^ 0x5a5a5a5a) * 5 + table[hash & 63];
}

void run(void)
{
    unsigned hash = 1;
    for (int at = 0; at < 1000; at++)
        hash = mix(hash + at);
    leave(hash);
}
"""
# How many words a row of a block has at most, and the greatest page, in bytes, of a choice with many cuts.
ROW, LARGEST = 12, 500000
# How many blocks a page shows, where there are as many.
MOST = 128
# Two sums, two operations of xor and two of or, each with a fence behind; three stores and a break. By this budget the
# searches for cuts end, and that for the best of the three units within this limit doesn't.
THREE_UNITS = (0x00B502B3, 0x00C282B3, 0x0FF0000F, 0x00B543B3, 0x00C3C3B3, 0x0FF0000F, 0x00B56333, 0x00C36333,
               0x0FF0000F, 0x00512023, 0x00712423, 0x00612223, 0x00100073)
LITTLE = {"--budget": "2", "--limit": "448"}


class Parts(html.parser.HTMLParser):
    """The parts of a page: whether they are well nested, their texts by their names, and what they refer to."""

    def __init__(self):
        super().__init__()
        self.open, self.texts, self.faults, self.refers, self.all = [], {}, [], set(), ""

    def handle_starttag(self, tag, attrs):
        self.handle_data(" " if tag in CELLS else "")
        given = dict(attrs)
        name = given.get("id", "")
        if name in self.texts:
            self.faults.append(f"two parts are named {name}")
        if name:
            self.texts[name] = ""
        self.refers |= {given[key].lstrip("#") for key in ("aria-labelledby", "href") if key in given}
        outside = [value for key, value in given.items() if key in ("src", "href") and not value.startswith("#")]
        if tag in ("script", "link", "iframe") or outside:
            self.faults.append(f"{tag} with {outside}")
        if tag == "th" and "scope" not in given or tag == "svg" and not given.get("aria-label"):
            self.faults.append(f"{tag} that isn't described: {given}")
        if tag not in VOID:
            self.open.append((tag, name))

    def handle_startendtag(self, tag, attrs):
        pass

    def handle_endtag(self, tag):
        if not self.open or self.open.pop()[0] != tag:
            self.faults.append(f"an end of {tag} where another is due")

    def handle_data(self, data):
        self.all += data
        for _, name in self.open:
            if name:
                self.texts[name] += data


def parts_of(views, name):
    """The texts of a page's parts by their names, all that it says, and its source."""
    text, parts = views.read(os.path.join(name, "report.html")).decode(), Parts()
    parts.feed(text)
    parts.close()
    lost = parts.refers - parts.texts.keys()
    views.need(not (parts.faults or parts.open or lost), f"page of {name}: {parts.faults[:5]}, {parts.open}, {lost}")
    views.need("http:" not in text.replace("http://www.w3.org/2000/svg", "") and "https:" not in text, f"{name}: links")
    return parts.texts, parts.all, text


def words(text):
    """The words of a text, with numbers as REPORT has them."""
    return re.sub(r"(?<=\d),(?=\d{3})", "", text).split()


def compare_page(views, name):
    """Compares a page's numbers with REPORT's."""
    texts, said, text = parts_of(views, name)
    report = views.read(os.path.join(name, "report.txt")).decode()
    cost, total = (int(re.search(rf"{word} (\d+)$", report, re.M)[1]) for word in ("cost", "total"))
    counted = {name: len(re.findall(rf"^{line} ", report, re.M))
               for name, line in (("units", "unit"), ("cuts", "cut"), ("skipped", "skip"))}
    for part, due in {"cost-before": cost, "cost-after": cost - total, "saved": total, **counted}.items():
        views.need(words(texts.get(part, "")) == [str(due)], f"{name}: {part} is {texts.get(part)} and not {due}")
    cycles = words(said)
    blocks = re.findall(r"^block (\w+) length (\d+) entries (\d+)$", report, re.M)
    rows = {}
    for at, word in enumerate(cycles):
        rows.setdefault(word, []).append([part for part in cycles[at + 1:at + ROW] if part.isdigit()][:2])
    shown = [leader for leader, length, entries in blocks if [length, entries] in rows.get(leader, ())]
    views.need(len(shown) >= min(len(blocks), MOST), f"{name}: {len(shown)} of {len(blocks)} blocks are shown")
    for number, leader, unit, gain, entries, nodes in re.findall(
            r"^cut (\d+) block (\w+) unit (\d+) gain (\d+) entries (\d+) nodes([ \d]+) word", report, re.M):
        shown = " ".join(words(texts[f"cut-{number}"]))
        count, saved = len(nodes.split()), int(gain) * int(entries)
        due = (f"Cut {number}: {count} operation", leader, f"gain {gain} × {entries} entries = {saved} cycle",
               f"pad = {gain} ", f"save {saved} cycle")
        views.need(f"module ci_{unit}(" in texts[f"card-{unit}"] and texts[f"cut-{number}"] in texts[f"card-{unit}"],
                   f"{name}: the card of unit {unit} lacks cut {number} or the unit")
        views.need(all(part in shown for part in due), f"{name}: cut {number} is {shown[:400]}, and not {due}")
    compare_units(views, name, texts, report)
    views.need("accepted" in said, f"{name}: not accepted")
    views.need(len(text) < LARGEST, f"{name}: the page has {len(text)} bytes")


def compare_units(views, name, texts, report):
    """Compares the rows of units with the lines of REPORT: each sum and share, and their order."""
    cost, total = (int(re.search(rf"{word} (\d+)$", report, re.M)[1]) for word in ("cost", "total"))
    saved = {}
    for unit, gain, entries in re.findall(r"^cut .* unit (\d+) gain (\d+) entries (\d+) ", report, re.M):
        saved.setdefault(unit, []).append(int(gain) * int(entries))
    due, so_far = {}, 0
    for place, unit in enumerate(sorted(saved, key=lambda unit: (-sum(saved[unit]), int(unit))), 1):
        cycles, operations = re.search(rf"^unit {unit} cycles (\d+) operations (\d+) ", report, re.M).groups()
        mine = sum(saved[unit])
        so_far += mine
        due[f"unit-{unit}"] = (f"{unit} {len(saved[unit])} {operations} {cycles} {mine} {100 * mine / cost:.1f} % "
                               f"{place} {so_far} {100 * so_far / cost:.1f} %")
    found = {part: " ".join(words(text)) for part, text in texts.items() if re.fullmatch(r"unit-\d+", part)}
    views.need(list(found.items()) == list(due.items()) and so_far == total, f"{name}: units are {found} and not {due}")


def gates_of(views, name):
    """The gates of each unit of a choice."""
    views.told("gates", os.path.join(name, "units.v"), "netlists")
    return [int(gates) for gates in re.findall(r"^netlist \d+ gates (\d+)$", views.read("netlists").decode(), re.M)]


def compare_room(views, name, gates, limit, options):
    """Compares which units stay by a page with what `area` prints."""
    line = views.told("area", os.path.join(name, "old.elf"), "--limit", limit, *options)
    need, saved, stay = re.fullmatch(r"area (\d+) gain (\d+) units(.*)\n", line).groups()
    texts, said, _ = parts_of(views, name)
    is_told = not gates or f"need {need} of {sum(gates)} gate" in " ".join(words(said))
    views.need(is_told and words(texts.get("saved-within", "")) == [saved], f"{name}: {texts} and not {line}")
    found = {part[5:]: words(text)[1:3] for part, text in texts.items() if part.startswith("room-")}
    due = {str(number): ["yes" if str(number) in stay.split() else "no", str(area)]
           for number, area in enumerate(gates)}
    views.need(found == due, f"{name}: units that stay are {found} and not {due}")


def compare_expressions(views, name, source):
    """Compares what the expressions of each unit give with what `eval` prints."""
    source_text = parts_of(views, name)[2]
    found = dict(re.findall(r'aria-label="What unit (\d+) computes">(.*?)</pre>', source_text, re.S))
    for number, lines in found.items():
        lines = html.unescape(lines).strip().splitlines()
        for vector in source.sample(vectors(source), VECTORS):
            a, b, c, d, e = (f"0x{word:x}" for word in vector)
            due = views.told("eval", os.path.join(name, "units.v"), number, a, b, c, "--d", d, "--e", e)
            # A narrow unit has two results.
            found = " ".join(f"{word:08x}" for word in values(lines, vector)[:len(due.split())]) + "\n"
            views.need(found == due, f"{name}: unit {number} of {vector} gives {found} and not {due}: {lines}")


def compare_widths(views, name):
    """Opens a page at two widths: nothing may need more room."""
    page = views.read(os.path.join(name, "report.html")).decode()
    measured = views.write("measured.html", page.replace("</body>", MEASURE))
    for width in WIDTHS:
        done = subprocess.run([CHROMIUM, "--headless", "--no-sandbox", "--disable-gpu", f"--window-size={width},900",
                               f"--user-data-dir={views.path('chromium')}", "--dump-dom", measured],
                              stdout=subprocess.PIPE, stderr=subprocess.DEVNULL, text=True, timeout=120, check=False)
        found = re.search("<title>width ([0-9]+) of ([0-9]+)</title>", done.stdout)
        if views.need(found, f"{name}: Chromium opens no page at {width}"):
            views.need(int(found[1]) <= int(found[2]), f"{name}: a width of {found[1]} where there are {found[2]}")


def compare_source(views):
    """Compares the functions and lines of a program with debug information, and what is told of one function."""
    with open(views.path("lines.c"), "w", encoding="ascii") as file:
        file.write(LINES)
    subprocess.run([compiled.GCC, *compiled.TARGET[:3], "-g", "-O2", "-nostdlib", "-I", SAMPLES, "lines.c", "-lgcc",
                    "-o", "lines.elf"], cwd=views.folder, check=True)
    views.choose("lines", "lines.elf" if os.path.isabs("lines.elf") else views.path("lines.elf"))
    found = json.loads(views.works("report", "lines", "--json"))
    cost, total = found["report"]["cost"] if isinstance(found["report"], dict) else 0, found["after"]
    sums = {kind: [sum(row[name] for row in found[f"by_{kind}"]) for name in ("before", "after")]
            for kind in ("function", "line")}
    for kind, (before, after) in sums.items():
        views.same(f"cycles by {kind}", (before, after), (cost, total))
    lines = {row["name"]: row["before"] for row in found["by_line"]}
    views.need(any(name.startswith(f"lines.c:{MIXED} mix") for name in lines), f"no line of mix in {lines}")
    views.need("mix" not in [row["name"] for row in found["by_function"]], "an inlined function counts as one")
    told = [card["serves"] for card in found["cards"]]
    views.need(told and all("run" in words and "isn't here" not in words for words in told), f"served is {told}")
    views.need(any(" is the address of table" in words for words in told), f"no address of table in {told}")
    views.works("report", "lines", "--at", "run", "--page", "one.html")
    status, _, said = views.look("report", "lines", "--at", "no_such")
    views.need(status == 1 and said.count("\n") == 1 and "no function no_such" in said, f"no function: {said}")
    views.same("a block by the name of its function", *(views.works("block", "lines.elf", place) for place in (
        "run", next(f"0x{block['leader']:08x}" for block in sorted(found["blocks"], key=lambda row: row["leader"])
                    if block["function"] == "run"))))


def compare_jumps(views):
    """Where a table of differences leads to where no block begins its jump is told, on the page and by a line, and else
    none is: where the table has addresses, or its places are leaders."""
    views.write("jumps.c", re.search(r"```c kinds.c\n(.*?)```", text_of("docs/GUIDE.md"), re.S)[1])
    path = views.path("jumps.elf")
    for options, count in ((["-mcmodel=medlow"], 0), (["-mcmodel=medany", "-fno-jump-tables"], 0), (["-fPIC"], 1),
                           (["-mcmodel=medany"], 1)):
        subprocess.run([compiled.GCC, *compiled.TARGET[:3], "-O2", *options, "-nostdlib", "-I", SAMPLES,
                        views.path("jumps.c"), "-o", path], check=True)
        compare_told(views, path, count)
    compare_told(views, path, 0, *views.works("leaders", path).split())


def compare_told(views, path, count, *leaders):
    """Of a choice with these leaders so many jumps are told."""
    views.choose("jumps", path, *leaders)
    status, printed, said = views.look("report", "jumps", "--json", *leaders)
    told = json.loads(printed)["jumps_by_sums"]
    views.same(f"what is told of jumps by {leaders}", (status, len(told), said.count("lead to sums")),
               (0, count, count))
    views.works("report", "jumps", *leaders)
    texts, said, _ = parts_of(views, "jumps")
    views.need(("sums" in texts) == (count > 0) and all(address in said for address in told), f"{told} on the page")
    listed = views.told("blocks", path, *leaders)
    ends = {f"{int(leader, 16) + 4 * int(length) - 4:08x}" for leader, length in
            re.findall(r"^block (\w+) length (\d+)", listed, re.M)}
    views.need(ends.issuperset(told), f"{told} ends no block")


def look(views):
    """Looks at the pages of all programs."""
    source = random.Random(1)
    choices = [(name + tail, path, given, options) for name, (path, given) in views.programs().items()
               for tail, options in (("", ()), ("-greatest", viewing.GREATEST))]
    for name, path, given, options in choices:
        views.choose(name, path, "--input", given, *options)
        before = views.hashes(*(os.path.join(name, file) for file in viewing.FILES))
        gates = gates_of(views, name)
        limit = str(sum(gates) // 2)
        views.works("report", name, "--input", given, "--limit", limit)
        compare_page(views, name)
        compare_room(views, name, gates, limit, ["--input", given, *options])
        compare_expressions(views, name, source)
        views.need(views.hashes(*before) == before, f"the files of {name} were changed")
    sample = os.path.join(SAMPLES, "sha256.elf")
    views.choose("skipped", sample, "--budget", "2000")
    views.works("report", *(os.path.join("skipped", name) for name in viewing.FILES), "--page", "skipped/report.html")
    compare_page(views, "skipped")
    said = " ".join(words(parts_of(views, "skipped")[1]))
    views.need("--budget 8000 3098" in said, "the skipped block lacks its budget")
    views.need(0 < said.index("Skipped blocks The search") < said.index("By function, as symbols"), "skips come later")
    views.need(" --budget 8000" in said and " skipped " in said, "no call, or no mark, of a skipped block")
    compare_source(views)
    compare_jumps(views)
    views.need("saved-within" not in parts_of(views, "skipped")[0], "a limit that wasn't given")
    views.write("three.elf", executable.frame(THREE_UNITS, values=[]))
    views.choose("little", views.path("three.elf"), "--budget", LITTLE["--budget"])
    views.works("report", "little", "--limit", LITTLE["--limit"])
    texts, said, _ = parts_of(views, "little")
    views.need("isn't known" in said and "saved-within" not in texts,
               "a search for the best set that is given up")
    views.choose("packed", sample, "--input", viewing.INPUT, "--log", "2")
    views.works("report", "packed", "--input", viewing.INPUT, "--limit", str(sum(gates_of(views, "sha256")) // 2))
    views.same("the page by a log book in version 2", *(
        re.sub(b"packed|sha256", b"", views.read(os.path.join(name, "report.html"))) for name in ("packed", "sha256")))
    for name in SHOWN:
        compare_widths(views, name)
    views.choose("refused", os.path.join(TOP, "README.md"))
    status, _, said = views.look("report", "refused")
    views.need(status == 1 and said.count("\n") == 1, f"refused: {status} {said}")
    status, _, said = views.look("report", "crc32")
    views.need(status == 1 and "give --input" in said, f"another input: {status} {said}")
    shutil.copytree(views.path("sha256"), views.path("no_new"))
    for text in ("", "no executable", views.read("sha256/new.elf")[:100]):
        views.write("no_new/new.elf", text)
        for view, *more in (("report", "--input", viewing.INPUT), ("callgrind",)):
            views.same("what is said of a NEW that is none", views.look(view, "no_new", *more),
                       (1, "", f"{view}: no_new/new.elf is no executable\n"))
    views.write("no_table", "read = [")
    views.refuses("report", "sha256", "--table", "no_table")
    views.need("has to be given" not in " ".join(views.works("report", "--help").split()), "--limit may be left out")
    views.wrong("report", (), ("a", "b"), ("sha256", "--out", "4"), ("sha256", "--page", "sha256/new.elf"),
                ("sha256", "--limit", "4294967296"))


viewing.check(__doc__, look, "views/report", {"dot": "graphviz", CHROMIUM: CHROMIUM}, ("jinja2",))
