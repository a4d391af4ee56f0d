"""Reads files of definitions (`specs/*.antt`), item by item: what each item names.

An item is a definition with its clauses, a record with its fields, or a data type with its constructors. A name in it
is a local variable, a keyword, a word that the language has built in, an item or a constructor of the same file, or
what a `use` line brings in.
"""
import dataclasses
import re
import textwrap

# What no `use` line brings in.
KEYWORDS = set("as data elim in let module record unfolding where λ = : | → × ↦".split())
BUILT_IN = set("Type Unit tt absurd ⊥ ¬ refl _ IsProp IsSet "
               "rw simp search assumption cc omega grind hlevel first_of".split())
TOKEN = re.compile(r'(?P<space>\s+|--.*|\{-.*?-\})|(?P<text>"(?:\\.|[^"\\])*")|(?P<mark>[(){}.;,@])'
                   r'|«(?P<escaped>[^»]*)»|(?P<name>[^\s(){}.;,@"«»]+)', re.S)
IMPORT = re.compile(r"^[ \t]*(?:ghost |pub )?use ([\w.\-]+?)(?:\.\{([^}]*)\})?(?: as (\w+))?;?[ \t]*$", re.M)
STARTS = re.compile(r"(?:(?:pattern|unfoldable|abbrev|pub|axiom) )*(?P<kind>record |data )?(?P<name>[^\s(){}.;,@\"]+)")
HEAD = re.compile(r"(pattern|unfoldable|abbrev|pub|axiom|record|data) |[^\s(){}.;,@\"]+( \{[^}=]*\})? :(\s|$)")
# A number, or what stands for a quoted text.
NO_NAME = re.compile(r'\d\w*|"')
CLOSING = {"(": ")", "{": "}", "[": "]"}


class Fault(Exception):
    """What is wrong with a file of definitions, or with the code."""


@dataclasses.dataclass
class Token:
    """A word or a mark of a text. It is behind a space, or it isn't."""
    word: str
    spaced: bool
    escaped: bool = False


@dataclasses.dataclass
class Group:
    """What stands between two brackets."""
    kind: str
    nodes: list


@dataclasses.dataclass
class Item:
    """An item of a file: its name, its kind ("", "record" or "data"), the lines that it takes with the comments above
    it, its parts (the text of each: its head, and then its clauses, fields or constructors), the heads of the sections
    in which it stands, and its constructors."""
    name: str
    kind: str
    first: int
    last: int
    parts: list
    sections: list
    constructors: list = dataclasses.field(default_factory=list)

    def lines(self, cases=None):
        """How many lines it takes, without the clauses whose first argument begins with none of the cases."""
        clauses = [part for part in self.parts[1:] if not part.startswith("unfolding ")]
        left_out = [] if cases is None else [part for part in clauses if case_of(part) not in cases]
        return self.last + 1 - self.first - sum(part.count("\n") + 1 for part in left_out)


def tokens(text):
    """The words and marks of a text."""
    found, place, spaced = [], 0, True
    while place < len(text):
        match = TOKEN.match(text, place)
        if match is None:
            raise Fault(f"no word begins at '{text[place:place + 20]}'")
        place = match.end()
        if match["space"]:
            spaced = True
            continue
        if match["escaped"]:
            found.append(Token(match["escaped"], spaced, True))
        elif not match["text"]:
            found.append(Token(match["mark"] or match["name"], spaced))
        else:
            found.append(Token('"', spaced, True))
        spaced = False
    return found


def tree(words):
    """The words with what stands in brackets as groups."""
    stack = [Group("", [])]
    for word in words:
        if not word.escaped and word.word in CLOSING:
            stack.append(Group(word.word, []))
        elif not word.escaped and word.word in CLOSING.values():
            group = stack.pop()
            if CLOSING.get(group.kind) != word.word:
                raise Fault(f"'{word.word}' closes no bracket")
            stack[-1].nodes.append(group)
        else:
            stack[-1].nodes.append(word)
    if len(stack) != 1:
        raise Fault("a bracket stays open")
    return stack[0].nodes


def is_word(node, *words):
    """Whether a node is one of these words."""
    return isinstance(node, Token) and not node.escaped and node.word in words


def split(nodes, word):
    """The nodes between the places where a word stands."""
    parts = [[]]
    for node in nodes:
        if is_word(node, word):
            parts.append([])
        else:
            parts[-1].append(node)
    return parts


def position(nodes, *words):
    """The place of the first of some words among the nodes, or None."""
    return next((n for n, node in enumerate(nodes) if is_word(node, *words)), None)


def is_projection(nodes, n):
    """Whether a dot stands at a place, with a field behind it: no space is around it, where the one of a `λ` has one
    behind it."""
    return is_word(nodes[n], ".") and n + 1 < len(nodes) and isinstance(nodes[n + 1], Token) and not nodes[n + 1].spaced


class Walk:
    """Goes over terms, and hands each name that is no local variable to `refer`, with the names behind it that lead
    through modules. `leads(name)` is how many names behind it do so; `builds(names)` whether they name a
    constructor."""

    def __init__(self, refer, leads, builds):
        self.refer, self.leads, self.builds = refer, leads, builds

    def path(self, nodes, n):
        """The name at a place, with the names behind it that lead on, and the place behind them."""
        names = [nodes[n].word]
        for _ in range(self.leads(names[0])):
            if n + 2 < len(nodes) and is_projection(nodes, n + 1):
                names.append(nodes[n + 2].word)
                n += 2
        return tuple(names), n + 1

    def term(self, nodes, scope):
        """Goes over a term, in the scope of some local variables. Answers the scope at its end."""
        scope = set(scope)
        n = 0
        while n < len(nodes):
            node = nodes[n]
            if isinstance(node, Group):
                self.group(node, scope)
                n += 1
            elif is_word(node, "λ"):
                n = self.binders(nodes, n + 1, scope)
            elif is_word(node, "let"):
                n = self.local(nodes, n + 1, scope)
            elif is_word(node, "record"):
                n = self.record(nodes, n + 1, scope)
            elif is_projection(nodes, n):
                n += 2
            elif node.word in scope or is_word(node, ",", *KEYWORDS) or NO_NAME.fullmatch(node.word):
                n += 1
            else:
                names, n = self.path(nodes, n)
                self.refer(names)
        return scope

    def group(self, group, scope):
        """Goes over what stands in brackets. Names before a colon are bound from there on."""
        nodes = group.nodes
        colon = position(nodes, ":")
        if group.kind == "[":
            for case in split(nodes, "|"):
                self.case(case, scope)
        elif colon is not None and position(nodes[:colon], "λ", "let", ",") is None:
            self.term(nodes[colon + 1:], scope)
            scope.update(node.word for node in nodes[:colon])
        elif group.kind == "{":
            for part in split(nodes, ";"):
                equals = position(part, "=")
                if equals is not None:
                    self.term(part[equals + 1:], scope)
                else:
                    scope.update(node.word for node in part if isinstance(node, Token))
        else:
            for part in split(nodes, ","):
                self.term(part, scope)

    def case(self, nodes, scope):
        """Goes over a case of an `elim`, or over terms in brackets."""
        arrow = position(nodes, "↦")
        if arrow is None:
            self.term(nodes, scope)
            return
        inner = set(scope)
        self.pattern(nodes[:arrow], inner)
        self.term(nodes[arrow + 1:], inner)

    def binders(self, nodes, n, scope):
        """Binds the names from a place up to the dot of a `λ`. Answers the place behind it."""
        while not is_word(nodes[n], "."):
            if isinstance(nodes[n], Group) and position(nodes[n].nodes, ":") is not None:
                self.group(nodes[n], scope)
            else:
                self.bind(nodes[n], scope)
            n += 1
        return n + 1

    def bind(self, node, scope):
        """Binds the names of a node."""
        if isinstance(node, Group):
            for inner in node.nodes:
                self.bind(inner, scope)
        else:
            scope.add(node.word)

    def local(self, nodes, n, scope):
        """Goes over what a `let` binds, up to its `in`, and binds it. Answers the place behind it."""
        depth, end = 1, n
        while True:
            depth += is_word(nodes[end], "let") - is_word(nodes[end], "in")
            if depth == 0:
                break
            end += 1
        part = nodes[n:end]
        equals, colon = position(part, "="), position(part, ":")
        head = equals if colon is None else min(equals, colon)
        if colon is not None and colon < equals:
            self.term(part[colon + 1:equals], scope)
        self.term(part[equals + 1:], scope)
        for node in part[:head]:
            self.bind(node, scope)
        return end + 1

    def record(self, nodes, n, scope):
        """Goes over a value of a record: another value, where one stands before the fields, and the fields. Answers the
        place behind it."""
        fields = next(k for k in range(n, len(nodes)) if isinstance(nodes[k], Group) and nodes[k].kind == "{")
        self.term(nodes[n:fields], scope)
        for field in split(nodes[fields].nodes, ";"):
            equals = position(field, "=")
            if equals is not None:
                self.term(field[equals + 1:], scope)
        return fields + 1

    def pattern(self, nodes, scope):
        """Goes over patterns, and binds their variables."""
        n = 0
        while n < len(nodes):
            node = nodes[n]
            if isinstance(node, Group):
                equals = position(node.nodes, "=")
                self.pattern(node.nodes if equals is None else node.nodes[equals + 1:], scope)
                n += 1
            elif is_word(node, ",", "_") or NO_NAME.fullmatch(node.word):
                n += 1
            else:
                names, after = self.path(nodes, n)
                if self.builds(names):
                    self.refer(names)
                elif len(names) > 1:
                    raise Fault(f"'{'.'.join(names)}' in a pattern is no constructor")
                else:
                    scope.add(node.word)
                n = after

    def clause(self, text, scope):
        """Goes over a clause of a definition, whose head is its name, and over what it defines behind a `where`."""
        text, _, block = re.sub(r"\n *where\n", "\0", text, count=1).partition("\0")
        nodes = tree(tokens(text))
        equals = position(nodes, "=")
        inner = set(scope)
        self.pattern(nodes[:equals], inner)
        local = Definitions("where", textwrap.dedent(block)) if block else None
        inner.update(local.items if local else ())
        self.term(nodes[equals + 1:], inner)
        for item in local.items.values() if local else ():
            self.item(item, inner)

    def item(self, item, scope, cases=None):
        """Goes over an item; of one with `cases`, only over its head and the clauses whose first argument begins with
        one of these."""
        scope = set(scope)
        for _, section in item.sections:
            scope = self.term(tree(tokens(section)), scope)
        head = tokens(item.parts[0])
        start = next(n for n, word in enumerate(head) if word.word == item.name)
        inner = self.term(tree(head[start + 1:]), scope)
        for part in item.parts[1:]:
            if item.kind:
                self.member(item, tree(tokens(part)), inner)
            elif part.startswith("unfolding "):
                self.term(tree(tokens(part))[1:], scope)
            elif cases is None or case_of(part) in cases:
                self.clause(part, scope)

    def member(self, item, nodes, scope):
        """Goes over a field of a record, which those behind it may name, or over a constructor."""
        colon = position(nodes, ":")
        self.term(nodes[colon + 1:], scope)
        if item.kind == "record":
            scope.update(node.word for node in nodes[:colon])


def case_of(clause):
    """The word with which the first argument of a clause begins."""
    node = tree(tokens(clause))[1]
    while isinstance(node, Group):
        node = node.nodes[0]
    return node.word


class Definitions:
    """A file of definitions: its first comment, its imports, and its items by name."""

    def __init__(self, name, text):
        self.name = name
        self.lines = text.splitlines()
        self.comment = " ".join(line[2:].strip() for line in re.match(r"(?:--.*\n)*", text).group().splitlines())
        self.imports = list(imports(text))
        self.items = {}
        self.named = {}
        self.read()
        for item in self.items.values():
            for word in (item.name, *item.constructors):
                self.named[word] = item

    def read(self):
        """Finds the items."""
        sections, item, comment = [], None, None
        for n, line in enumerate(self.lines):
            indent = len(line) - len(line.lstrip())
            while line.strip() and sections and indent < sections[-1][0]:
                sections.pop()
                item = None
            base = sections[-1][0] if sections else 0
            if not line.strip():
                comment = None
            elif indent > base and item is not None:
                self.go_on(item, line, n, base)
            elif line.lstrip().startswith("--"):
                comment = n if comment is None else comment
            elif re.match(r"(pub )?(use|mod) |infix[lr]? ", line.lstrip()):
                item = comment = None
                if "use " in line and not IMPORT.match(line):
                    raise Fault(f"{self.name}:{n + 1}: this import isn't understood")
            elif line.lstrip().startswith("module "):
                item = None
                sections.append((base + 2, n, line))
            elif indent > base and sections and item is None:
                sections[-1] = (sections[-1][0], sections[-1][1], sections[-1][2] + " " + line)
            else:
                item = self.begin(item, line, n if comment is None else comment, n, [s[1:] for s in sections])
                comment = None

    def begin(self, item, line, first, n, sections):
        """A line that begins an item, or a clause of the present one. Answers the item."""
        line = line.strip()
        start = STARTS.match(line)
        head = HEAD.match(line)
        if head is None and item is not None and line[0] in CLOSING.values():
            item.parts[-1] += "\n" + line
            item.last = n
            return item
        if head is None:
            if item is None:
                raise Fault(f"{self.name}:{n + 1}: no item begins here")
            item.parts.append(line)
            item.last = n
            return item
        kind = (start["kind"] or "").strip()
        if start["name"] in self.items:
            raise Fault(f"{self.name}:{n + 1}: there are two items {start['name']}")
        item = Item(start["name"], kind, first, n, [line], sections)
        self.items[item.name] = item
        return item

    def go_on(self, item, line, n, base):
        """A further line of an item: one of a field or constructor begins a part, where it stands right below the
        head."""
        item.last = n
        if line.lstrip().startswith("--"):
            return
        begins = item.kind and len(line) - len(line.lstrip()) == base + 2 and self.is_headed(item)
        if begins:
            item.parts.append(line.strip())
            if item.kind == "data":
                item.constructors += re.match(r"[^:]*", line).group().split()
        else:
            item.parts[-1] += "\n" + line

    def is_headed(self, item):
        """Whether the head of a record or of a data type is complete."""
        return bool(re.search(r"\bwhere\s*$", item.parts[0]))


def imports(text):
    """The imports of a text: each a path, the names that it brings in with what they are called here, and the name
    that the module has here, if it has one."""
    for path, names, alias in IMPORT.findall(text):
        brought = [name.split() for name in names.split(",") if name.strip()]
        pairs = [(name[0].strip("«»"), name[-1].strip("«»")) for name in brought]
        yield path, pairs, alias or (None if names else path.split(".")[-1])


def pieces(name):
    """What stands for a name in a term: the name, and of an operator the words between its places."""
    return {name, *(piece for piece in name.split("◌") if piece)} if "◌" in name else {name}
