"""What a claim of the code reaches: the definitions that its clauses name, those that these name, and so on.

What is reached is an item of a file of definitions, or one that the code declares. A name that leads nowhere is a
fault, and so is one that leads into a proof. What the toolchain's library and its ports define is only named.
"""
import functools
import os
import re

from checks.common import TOP, crates, text_of
from checks.repository import definitions
from checks.repository.definitions import Fault

# The modules of definitions that the toolchain makes of what the code declares.
OF_THE_CODE = ("declared", "contracts")
DECLARED = (r"^(?:pub(?:\([a-z]+\))? )?(?:unsafe )?(?:const )?"
            r"(?P<kind>struct|enum|trait|const|static|type|fn) %s\b")
# The endings of the names of impls that are derived.
DERIVED = re.compile(r"(PartialEq|Eq|Clone|Copy|Debug|Drop|PartialOrd|Ord|Hash|Default)$")
CLAUSE = re.compile(r"\b(?:(?:requires|ensures)(?: (?P<name>\w+))?|ghost (?P<ghost>\w+):) \{")
VARIANT = re.compile(r" {4}([A-Z]\w*)(?=[,({ ]|$)")
# The types, traits and constructors of Rust and its library that declarations name.
OF_RUST = set("Self Option Some None Result Ok Err Vec String Box Global Drop Copy Clone Sized Ordering".split())


class Sources:
    """The repository's crates with their files of definitions and of code. `changed` has the texts of files that are to
    be read in place of what stands there."""

    def __init__(self, changed=None):
        self.changed = changed or {}
        self.crates = crates()
        self.text = functools.lru_cache(maxsize=None)(lambda name: self.changed.get(name) or text_of(name))
        self.definitions = functools.lru_cache(maxsize=None)(self.definitions_of)
        self.code = functools.lru_cache(maxsize=None)(lambda name: Code(name, self.text(name)))
        self.declaring = functools.lru_cache(maxsize=None)(self.declaring_of)

    def has(self, name):
        """Whether there is a file of this name."""
        return name in self.changed or os.path.isfile(os.path.join(TOP, name))

    def definitions_of(self, name):
        """The file of definitions of this name."""
        return definitions.Definitions(name, self.text(name))

    def all_definitions(self):
        """The names of all files of definitions, without those that only list others."""
        for crate in self.crates:
            for folder in (f"crates/{crate}/specs", f"crates/{crate}/specs/private"):
                if os.path.isdir(os.path.join(TOP, folder)):
                    yield from (f"{folder}/{file}" for file in sorted(os.listdir(os.path.join(TOP, folder)))
                                if file.endswith(".antt") and file not in ("Lib.antt", "private.antt"))

    def declaring_of(self, crate, name, module=()):
        """The file of a crate's code that declares an item: that of the module, or, of none, the only one; or None."""
        folder = f"crates/{crate}/src"
        stem = "/".join([folder, *module])
        for file in (f"{stem}.rt", f"{stem}/mod.rt", f"{folder}/lib.rt")[:2 if module else 3]:
            if self.has(file) and self.code(file).declares(name):
                return file
        found = []
        for path, _, files in sorted(os.walk(os.path.join(TOP, folder))):
            for file in sorted(file for file in files if file.endswith(".rt")):
                code = os.path.relpath(os.path.join(path, file), TOP)
                if self.code(code).declares(name):
                    found.append(code)
        if len(found) > 1 and not module:
            raise Fault(f"{name} is declared in {' and in '.join(found)}")
        return found[0] if found and not module else None

    def target(self, path, name):
        """What a name of a module of definitions is: ("spec", file, item), ("code", file, item) or ("library", path,
        name). None stands for the module itself."""
        crate, *parts = path.removeprefix("Rattle.").split(".")
        if not path.startswith("Rattle.") or crate not in self.crates:
            return "library", path, name
        if parts[0] == "specs" and len(parts) > 1 and parts[1] in OF_THE_CODE:
            return self.declared(crate, parts[2:], path, name)
        file = f"crates/{crate}/{'/'.join(parts)}.antt"
        if not self.has(file):
            raise Fault(f"there is no module {path}")
        if parts[0] != "specs":
            return "proof", file, name
        if name is None:
            return "module", file, None
        if name not in self.definitions(file).named:
            raise Fault(f"{path} has no {name}")
        return "spec", file, self.definitions(file).named[name].name

    def declared(self, crate, parts, path, name):
        """What a name is of a module that the toolchain makes of the code: the item that the code declares."""
        while parts[-1] in ("TheVariants", "TheImpl", "Laws"):
            variants = parts[-1] == "TheVariants"
            parts = parts[:-1]
            if variants and name is not None and not self.is_variant(crate, parts, name):
                raise Fault(f"{path} has no {name}")
        if parts[-1] == "TheConstants":
            parts = [*parts[:-1], name]
        *module, last = parts
        for word in (last, DERIVED.sub("", last)):
            file = self.declaring(crate, word, tuple(module))
            if file:
                return "code", file, word
        raise Fault(f"the code of {crate} declares no {last} for {path}")

    def is_variant(self, crate, parts, name):
        """Whether a type of the code has a variant of this name."""
        file = self.declaring(crate, parts[-1], tuple(parts[:-1]))
        return bool(file) and name in self.code(file).variants(parts[-1])


class Code:
    """A file of code: what it declares, and what it imports."""

    def __init__(self, name, text):
        self.name, self.lines, self.text = name, text.splitlines(), text
        self.imports = list(definitions.imports(text))

    @functools.lru_cache(maxsize=None)
    def declares(self, name):
        """Whether the file declares an item of this name."""
        return bool(re.search(DECLARED % re.escape(name), self.text, re.M))

    @functools.lru_cache(maxsize=None)
    def span(self, name):
        """The first line of the declaration of a name, with its comments and attributes, and the line behind its last
        one, which is that before the body of a function."""
        declared = re.search(DECLARED % re.escape(name), self.text, re.M)
        first = last = self.text.count("\n", 0, declared.start())
        ends = r"\{" if declared["kind"] == "fn" else r"[})\]]"
        if not re.search(r"[;}]$", self.lines[first]):
            last = next(n for n in range(first + 1, len(self.lines)) if re.match(ends, self.lines[n]))
        while first > 0 and re.match(r"///|#\[", self.lines[first - 1]):
            first -= 1
        return first, last + (declared["kind"] != "fn")

    @functools.lru_cache(maxsize=None)
    def models(self, name):
        """The lines that say by which value a type is modelled."""
        model = re.search(r"^impl(?:<.*?>)? Model for %s\b.*?^}" % re.escape(name), self.text, re.M | re.S)
        return tuple(re.findall(r"^ *ghost Value = .*", model.group(), re.M)) if model else ()

    @functools.lru_cache(maxsize=None)
    def clauses(self, name):
        """The clauses of the declaration of a name: of each its name, its term, its first line with the comments above
        it, and the line behind its last one."""
        first, end = self.span(name)
        text, found = "\n".join(self.lines[first:end]), []
        for match in CLAUSE.finditer(text):
            depth, last = 1, match.end()
            while depth:
                depth += (text[last] == "{") - (text[last] == "}")
                last += 1
            begin = first + text.count("\n", 0, match.start())
            after = first + text.count("\n", 0, last) + 1
            while re.match(r" *// ", self.lines[begin - 1]):
                begin -= 1
            found.append((match["name"] or match["ghost"] or "", text[match.end():last - 1], begin, after))
        return tuple(found)

    def outside(self, name):
        """The lines of the declaration of a name that are no comment, attribute or clause."""
        first, end = self.span(name)
        inside = {n for _, _, begin, after in self.clauses(name) for n in range(begin, after)}
        return [self.lines[n] for n in range(first, end)
                if n not in inside and not re.match(r" *(//|#\[)", self.lines[n])]

    def variants(self, name):
        """The variants of an enum."""
        return {match[1] for line in self.outside(name) if (match := VARIANT.match(line))}

    @functools.lru_cache(maxsize=None)
    def brought(self):
        """The names that `use` items bring in, each with its path."""
        found = {}
        for match in re.finditer(r"^(?:pub )?use ([^;]+);", self.text, re.M):
            head, _, names = re.sub(r"\s+", "", match[1].replace(" as ", "=")).partition("{")
            for name in (names.rstrip("}") or head.rpartition("::")[2]).split(","):
                path, _, called = name.partition("=")
                if path:
                    stem = head if names else head.rpartition("::")[0]
                    found[called or path.rpartition("::")[2]] = [*stem.strip(":").split("::"), *path.split("::")]
        return found


class Scope:
    """What the names of a file stand for: its own items, what its `use` lines bring in, and the modules that these
    name."""

    def __init__(self, sources, imports, own=None, more=None):
        self.sources = sources
        self.names, self.modules = {}, {}
        for path, pairs, alias in imports:
            if alias:
                self.modules[alias] = path
            for name, called in pairs:
                for piece in definitions.pieces(called):
                    self.names[piece] = (path, name)
        self.own = own or {}
        self.more = more or (lambda name: None)

    def leads(self, name):
        """How many names behind this one lead through modules."""
        return 1 if name in self.modules and name not in self.own else 0

    def target(self, names):
        """What a name, or a module and a name, is; None for what the language has built in."""
        first = names[0]
        if len(names) > 1:
            return self.sources.target(self.modules[first], names[1])
        if first in self.own:
            return self.own[first]
        if first in self.names:
            return self.sources.target(*self.names[first])
        more = self.more(first)
        if more:
            return more
        if first in definitions.BUILT_IN:
            return None
        raise Fault(f"nothing is called '{first}'")

    def builds(self, names):
        """Whether a name in a pattern is that of a constructor."""
        if len(names) == 1 and names[0] not in self.own and names[0] not in self.names:
            return names[0] in ("tt", "[]")
        target = self.target(names)
        if target is None:
            return True
        kind, place, name = target
        if kind == "library":
            return True
        if kind == "code":
            return True
        item = self.sources.definitions(place).items[name]
        return names[-1] in item.constructors or names[-1] not in self.sources.definitions(place).named


class Reader:
    """Tells what items name."""

    def __init__(self, sources):
        self.sources = sources
        self.scope = functools.lru_cache(maxsize=None)(self.scope_of)
        self.named = functools.lru_cache(maxsize=None)(self.named_by)

    def scope_of(self, name):
        """The names of a file of definitions."""
        file = self.sources.definitions(name)
        own = {piece: ("spec", name, item.name) for word, item in file.named.items()
               for piece in definitions.pieces(word)}
        return Scope(self.sources, file.imports, own)

    def code_scope(self, file):
        """The names of a file of code."""
        return Scope(self.sources, self.sources.code(file).imports, more=lambda name: self.rust(file, name))

    def rust(self, file, name):
        """What a name of Rust is in a file of code; None for one that no crate of the repository declares."""
        code = self.sources.code(file)
        if code.declares(name):
            return "code", file, name
        if name in code.brought():
            crate, *module, word = code.brought()[name]
            crate = file.split("/")[1] if crate == "crate" else crate
            if crate not in self.sources.crates:
                return "library", crate, name
            found = self.sources.declaring(crate, word, tuple(module)) or self.sources.declaring(crate, word)
            if found:
                return "code", found, word
        if name in OF_RUST:
            return "library", "std", name
        raise Fault(f"nothing is called '{name}'")

    def code_named_by(self, file, name, clauses=None):
        """What a declaration of the code names: by its types, by its clauses, or just by those of some names, and by
        the value by which it is modelled."""
        code, found, scope = self.sources.code(file), [], self.code_scope(file)
        outside = "\n".join(VARIANT.sub("", line) for line in code.outside(name))
        taken = [clause for clause in code.clauses(name) if clauses is None or clause[0] in clauses]
        local = {"self", "result", *re.findall(r"\b(\w+):", outside), *re.findall(r"\b[A-Z]\b", outside)}
        local |= {clause[0] for clause in code.clauses(name)}
        try:
            for word in sorted(set(re.findall(r"\b[A-Z]\w+", outside)) - {name}):
                found.append(self.rust(file, word))
            for text in [*(clause[1] for clause in taken), *(re.search(r"\{(.*)\}", m)[1] for m in code.models(name))]:
                self.walk(scope, f"{file}: {name}", found).term(definitions.tree(definitions.tokens(text)), local)
        except Fault as fault:
            raise Fault(f"{file}: {name}: {fault}") from fault
        missing = set(clauses or ()) - {clause[0] for clause in taken}
        if missing:
            raise Fault(f"{file}: {name} has no clause {', '.join(sorted(missing))}")
        return tuple(dict.fromkeys(found))

    def walk(self, scope, place, found):
        """A walk that collects what is named, and ("fault", text, None) for a name that leads nowhere."""
        def refer(names):
            try:
                target = scope.target(names)
            except Fault as fault:
                target = "fault", f"{place}: {fault}", None
            if target:
                found.append(target)
        return definitions.Walk(refer, scope.leads, scope.builds)

    def named_by(self, name, item_name, cases=None):
        """What an item of a file of definitions names; of one with `cases`, only by its head and by the clauses whose
        first argument begins with one of these."""
        item, place, found = self.sources.definitions(name).items[item_name], f"{name}: {item_name}", []
        try:
            self.walk(self.scope(name), place, found).item(item, (), cases)
            missing = set(cases or ()) - {definitions.case_of(part) for part in item.parts[1:]}
        except Fault as fault:
            raise Fault(f"{place}: {fault}") from fault
        if missing:
            raise Fault(f"{place} has no case {', '.join(sorted(missing))}")
        return tuple(dict.fromkeys(found))


class Reached:
    """What is reached from some roots. A root is what is named, as ("spec", file, item), or ("clauses", file, name,
    clauses) for some clauses of a declaration of the code. `cases` has items of which only some clauses are looked at,
    each with the words with which the first arguments of these begin."""

    def __init__(self, reader, roots, cases=None):
        self.reader, self.cases = reader, cases or {}
        self.items, self.declared, self.library, self.faults = {}, {}, set(), []
        waiting = list(roots)
        while waiting:
            try:
                waiting.extend(self.look(waiting.pop()))
            except Fault as fault:
                self.faults.append(str(fault))

    def look(self, target):
        """Counts what is named, and answers what this names."""
        kind, file, name = target[:3]
        if kind == "fault":
            self.faults.append(file)
        elif kind == "library":
            self.library.add(file.removeprefix("Rattle."))
        elif kind == "proof":
            self.faults.append(f"{file} is a proof")
        elif kind == "spec" and (file, name) not in self.items:
            cases = self.cases.get((file, name))
            self.items[file, name] = self.spec_lines(file, name, cases)
            return self.reader.named(file, name, cases)
        elif kind in ("code", "clauses") and (file, name) not in self.declared:
            clauses = target[3] if kind == "clauses" else None
            self.declared[file, name] = self.code_lines(file, name, clauses)
            return self.reader.code_named_by(file, name, clauses)
        return ()

    def spec_lines(self, file, name, cases):
        """The numbers of the lines of an item, or of its head and of some of its clauses."""
        item = self.reader.sources.definitions(file).items[name]
        return item.lines(cases)

    def code_lines(self, file, name, clauses):
        """The number of lines of a declaration, or of its signature and of some of its clauses."""
        code = self.reader.sources.code(file)
        first, end = code.span(name)
        if clauses is None:
            return end - first + len(code.models(name))
        taken = sum(after - begin for word, _, begin, after in code.clauses(name) if word in clauses)
        return taken + len(code.outside(name))
