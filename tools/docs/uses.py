"""Finds in the functions of a source which public calls they name: by the path of a function, and by the type of what a method
is called on. The types come from parameters, paths and results; a call on a value of another type, or of one that is not known, is
left out."""
import re
from dataclasses import dataclass, field

from functions import functions_of, plain
from items import Item, read_items
from made import TOP, module_file, modules_of
from sources import CRATES, bare, read, used_paths
from tokens import lex, partners, parts, skip_angles

# The calls of std that return what an `Option` or a `Result` has.
UNWRAPPED = {"unwrap", "expect", "unwrap_or", "unwrap_or_default", "unwrap_or_else"}
ERRORS = {"unwrap_err", "expect_err"}


def head_of(kind):
    """The name of a type, without references and parameters."""
    found = re.match(r"[&*\s]*(?:\w+::)*(\w+)", simple(kind or ""))
    return found[1] if found else ""


def simple(kind):
    """A type without lifetimes, spaces and `mut`."""
    return plain(re.sub(r"\bmut\b", "", kind))


def inside(kind, at=0):
    """A parameter of a type: what an `Option` or a `Result` has."""
    _, opening, rest = (kind or "").partition("<")
    found = parts(lex(rest[:-1])) if opening and rest.endswith(">") else []
    groups, depth = [[]], 0
    for token in (it for part in found for it in [*part, None]):
        groups[-1] += [token.text] if token else [","] if depth else []
        depth += {"<": 1, ">": -1, ">>": -2}.get(token.text, 0) if token else 0
        groups += [[]] if not token and not depth else []
    return "".join(groups[at]) if at < len(groups) else ""


@dataclass
class Known:
    """What the libraries declare."""
    methods: dict = field(default_factory=dict)  # (type, name) -> (call, result)
    functions: dict = field(default_factory=dict)  # path -> (call, result)
    types: dict = field(default_factory=dict)  # path of a type -> its name
    aliases: dict = field(default_factory=dict)  # name of an alias -> the type that it names
    fields: dict = field(default_factory=dict)  # (crate, type, field) -> its type
    results: dict = field(default_factory=dict)  # (crate, module, function) -> its result

    def method(self, kind, name):
        """The call of a method, and its result, by the type that it is called on."""
        head, seen = head_of(kind), set()
        while head and head not in seen:
            if (head, name) in self.methods:
                return self.methods[head, name]
            seen.add(head)
            head = head_of(self.aliases.get(head, ""))
        return None

    def read_helpers(self, crate):
        """Reads the fields and the functions of a crate that uses the libraries."""
        for path, items in modules_of(crate).items():
            for item in items:
                for it in item.inner if item.kind == "struct" else []:
                    name, _, kind = it.head.partition(": ")
                    self.fields[crate, item.name, name.split(" ")[-1]] = kind
            for it in functions_of("", read(module_file(crate, path))):
                if not it.block:
                    self.results[crate, path, it.name] = simple(it.result)

    def helper(self, crate, module, names):
        """The result of a function of a crate that uses the libraries, by its path from a module."""
        while names[0] in ("super", "crate"):
            module, names = (module[:-1] if names[0] == "super" else ()), names[1:]
        if len(names) == 1:
            return self.results.get((crate, module, names[0]), "")
        crate, *path, name = names
        re_exported = [kind for (of, _, it), kind in self.results.items() if (of, it) == (crate, name)]
        return self.results.get((crate, tuple(path), name), re_exported[0] if len(re_exported) == 1 else "")


class Scan:
    """The calls that one function names."""

    def __init__(self, known, place, imports, function, text):
        self.known, self.imports, self.found = known, imports, []
        self.crate, self.module = place
        self.tokens = lex(text[function.opens : function.end])
        self.pairs = partners(self.tokens)
        self.bounds = dict(re.findall(r"(\w+): (?:impl )?(\w+)", text[function.start : function.opens]))
        self.owner, self.matched = head_of(function.owner), ""
        self.types = {name: simple(kind) for name, kind in function.params}
        self.types["self"] = self.owner if function.receiver else ""
        self.walk()

    def word(self, i):
        return self.tokens[i].text if 0 <= i < len(self.tokens) else ""

    def walk(self):
        """Looks at each place where a value may begin, and remembers what names stand for."""
        for i, token in enumerate(self.tokens):
            if token.text == "let":
                self.bind(i)
            elif token.text == "match":
                self.matched = self.value(i + 1, False)[0]
            elif token.text in ("Ok", "Some", "Err") and self.word(i + 1) == "(":
                at = i + 2 + (self.word(i + 2) == "mut")
                if [self.word(at + 1), self.word(at + 2)] == [")", "=>"]:
                    self.types[self.word(at)] = inside(self.matched, token.text == "Err")
            elif token.text == "for" or token.text == "|":
                self.types[self.word(i + 1)] = ""
            elif token.kind == "word" and self.word(i - 1) not in (".", "::"):
                self.value(i, True)

    def bind(self, i):
        """The type of the name that a `let` binds."""
        i += 1
        wrapper = self.word(i) if self.word(i) in ("Some", "Ok", "Err") and self.word(i + 1) == "(" else ""
        i += 2 if wrapper else 0
        i += self.word(i) == "mut"
        name, at = self.word(i), i + (2 if wrapper else 1)
        if self.word(at) == ":" and "=" in (later := [it.text for it in self.tokens[at : at + 30]]):
            self.types[name] = simple(" ".join(later[1 : later.index("=")]))
        elif self.word(at) == "=":
            kind = self.value(at + 1, False)[0]
            self.types[name] = inside(kind, wrapper == "Err") if wrapper else kind

    def value(self, i, is_noted):
        """The type of the value that begins at a token, and the index after it."""
        while self.word(i) in ("&", "mut", "*", "("):
            i += 1
        if not re.match(r"[A-Za-z_]", self.word(i)):
            return "", i + 1
        kind, i = self.path(i, is_noted)
        while True:
            if self.word(i) == "?":
                kind, i = inside(kind), i + 1
            elif self.word(i) == ".":
                kind, i = self.member(kind, i + 1, is_noted)
            else:
                return kind, i

    def path(self, i, is_noted):
        """The type of a path, or of what a call of it returns."""
        names, i = [self.word(i)], i + 1
        while self.word(i) == "::":
            i += 1
            if self.word(i) == "<":
                i = skip_angles(self.tokens, i)
            else:
                names, i = [*names, self.word(i)], i + 1
        names = [self.owner] if names == ["Self"] else [self.owner, *names[1:]] if names[0] == "Self" else names
        if self.word(i) == "(":
            return self.result(names, is_noted), self.pairs.get(i, i) + 1
        if len(names) == 1:
            return self.types.get(names[0], ""), i
        return self.type_of(names[:-1]), i

    def whole(self, names):
        return "::".join([*self.imports.get(names[0], (names[0],)), *names[1:]])

    def type_of(self, names):
        """The type that a path names; that of a parameter is its bound."""
        path = self.whole(names)
        return self.known.types.get(path) or (names[-1] if self.owner == names[-1] else self.bounds.get(names[-1], ""))

    def result(self, names, is_noted):
        """The type that a call of a path returns."""
        path = self.whole(names)
        found = self.known.functions.get(path)
        if not found and len(names) > 1:
            found = self.known.method(self.type_of(names[:-1]), names[-1])
        if found:
            self.found += [found[0]] if is_noted else []
            kind = self.type_of(names[:-1]) if len(names) > 1 else ""
            return re.sub(r"\bSelf\b", kind, found[1])
        return self.known.helper(self.crate, self.module, path.split("::"))

    def member(self, kind, i, is_noted):
        """The type of a field, or of what a method returns."""
        name, head = self.word(i), head_of(kind)
        at = skip_angles(self.tokens, i + 2) if self.word(i + 1) == "::" else i + 1
        if self.word(at) != "(":
            return self.known.fields.get((self.crate, head, name), ""), at
        end = self.pairs.get(at, at) + 1
        if head in ("Option", "Result") and name in UNWRAPPED | ERRORS:
            return inside(kind, name in ERRORS), end
        found = self.known.method(kind, name) or self.known.method(self.bounds.get(head, ""), name)
        if not found:
            return kind if name in ("as_mut", "as_ref") else "", end
        self.found += [found[0]] if is_noted else []
        return re.sub(r"\bSelf\b", head, found[1]), end


def imports_of(items):
    """The path of each name that the `use` lines of a file bring."""
    found = {}
    for item in items:
        if item.kind == "use":
            head = re.sub(r"^(pub(\(\w+\))? )?", "pub ", item.head)
            if "*" not in head and " as " not in head and head.count("{") <= 1:
                paths = [path[:-1] if path[-1] == "self" else path for path in used_paths(Item("use", "", head))]
                found.update({path[-1]: path for path in paths})
    return found


@dataclass(frozen=True)
class Place:
    """A function that names a call."""
    name: str
    file: str
    line: int


def named_in(known, crate):
    """The functions of a crate that name public calls: pairs of a place and the calls."""
    for path, items in modules_of(crate).items():
        file = module_file(crate, path)
        text, imports = read(file), imports_of(items)
        for function in functions_of("", text):
            found = Scan(known, (crate, path), imports, function, text).found
            owner = [bare(function.owner)] if function.block else []
            names = [it for it in path if it != "tests"] if crate.startswith("tests_") else path
            name = "::".join([crate, *names, *owner, function.name])
            yield Place(name, str(file.relative_to(TOP)), text.count("\n", 0, function.named) + 1), found


def crates_of(*patterns):
    """The crates whose names fit the patterns."""
    return sorted({it.parent.name for pattern in patterns for it in CRATES.glob(f"{pattern}/src")})
