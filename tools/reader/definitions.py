"""Reads the definitions of the crates, in specs/: the text of each, and which definitions a text names."""
import re
from dataclasses import dataclass, field
from functools import cache

from sources import CRATES, read

PRIVATE = "private"
BEGINS = re.compile(r"(?:abbrev |unfoldable )?pub (?:(record|data) )?([^\s:({]+)(?=\s*[:({]|$)")
NOT_BEGINS = re.compile(r"(?:pub )?(use|mod) ")
PART = re.compile(r" +(?:pub )?(\S+) :(?: |$)")
WORD = re.compile(r"[^\s(){}\[\];,]+")
# What names no definition: a literal, and the name of a field in a value of a record.
NAMELESS = re.compile(r'"(?:[^"\\]|\\.)*"|(?<=[{;])\s*\S+ =(?=\s)')
# What binds names: an abstraction, and parameters in brackets.
BINDERS = re.compile(r"λ ([^.(){}:]+)\.\s|[({]([^(){}:]+) :\s")


@dataclass
class Definition:
    """A definition of a file of specs/."""
    module: str
    name: str
    kind: str = ""  # `record`, `data` or nothing
    comment: str = ""
    is_private: bool = False  # after the line that says that only private functions cite what follows
    section: str = ""  # the head of the `module` around it
    lines: list = field(default_factory=list)  # without blanks and comments
    parts: list = field(default_factory=list)  # the fields of a record, or the constructors of data

    def add(self, line):
        """Adds a line of its text."""
        part = PART.match(line) if self.kind and self.lines else None
        self.parts += [part[1]] if part else []
        self.lines.append(line)

    @property
    def path(self):
        """Its path, without what all paths begin with."""
        return f"{self.module.removeprefix('Rattle.')}.{self.name}"

    def words(self):
        """The words of its text and of the module around it, except the names that these bind."""
        bound = self.arguments() | ({*self.parts} if self.kind == "record" else set())
        return free_words(" ".join([self.section, *self.lines]), bound)

    def arguments(self):
        """The words before the `=` of each of its equations."""
        words, is_head = set(), False
        for line in self.lines:
            is_head = is_head or line.startswith(f"{self.name} ")
            if is_head:
                head, equals, _ = f"{line} ".partition(" = ")
                words |= {word for word in WORD.findall(head) if "." not in word}
                is_head = not equals
        return words


@dataclass
class File:
    """A file of specs/: its definitions, in order, and its `use` lines."""
    definitions: list = field(default_factory=list)
    uses: list = field(default_factory=list)

    def named(self, name):
        """The definition with a name, or the data with a constructor of that name."""
        with_part = [it for it in self.definitions if it.kind == "data" and name in it.parts]
        return next((it for it in self.definitions if it.name == name), with_part[0] if with_part else None)


def read_file(file, module=""):
    """Reads a file of specs/, which has the path `module`."""
    found, current, comment, section, is_private, indent = File(), None, [], "", False, 0
    for line in read(file).splitlines():
        text = line.strip()
        if text.startswith("--"):
            is_private = is_private or text.startswith("-- ----") and PRIVATE in text
            comment = [] if text.startswith("-- ----") else [*comment, text[len("--") :].strip()]
            continue
        if line[:1].strip():  # a line in no `module`, or its head
            section, current = (text, None) if text.startswith("module ") else ("", None if section else current)
            indent = 2 if section else 0
        begins = BEGINS.match(text)
        if NOT_BEGINS.match(line):
            found.uses += [line] if "use " in line else []
        elif begins and line == " " * indent + text:
            current = Definition(module, begins[2], begins[1] or "", " ".join(comment), is_private, section)
            found.definitions.append(current)
            current.add(text)
        elif current and text:
            current.add(line[indent:].rstrip())
        elif section != text:
            section += f" {text}" if section and not current else ""
            indent = 4 if text == "where" else indent  # the head ends in a line of its own
        comment = []
    return found


def read_definitions(file):
    """The definitions of a file of specs/ that public clauses may use: pairs of a name and its comment."""
    return [(it.name, it.comment) for it in read_file(file).definitions if it.comment and not it.is_private]


def head_comment(file):
    """The comment at the head of a file of specs/, as one line."""
    lines = []
    for line in read(file).splitlines():
        if not line.startswith("--"):
            break
        lines.append(line[len("--") :].strip())
    return " ".join(lines)


# The names in a text

def free_words(text, bound=frozenset()):
    """The words of a text, except these names and those that it binds itself."""
    text = NAMELESS.sub("", text)
    bound = {name for groups in BINDERS.findall(text) for name in " ".join(groups).split()} | bound
    return [word for word in WORD.findall(text) if word.partition(".")[0] not in bound]


def used_words(line):
    """The path of a `use` line, and the words that it brings, each with how it is written in the line."""
    path, _, names = re.sub(r"^(?:ghost |pub )?use ", "", line).partition(".{")
    if not names:
        path, _, alias = path.partition(" as ")
        return path, [(alias or path.rpartition(".")[2], "")]
    return path, [(n.rpartition(" as ")[2], n) for n in (n.strip() for n in names.rstrip("}").split(","))]


@cache
def brought_by(uses):
    """What each word stands for that `use` lines bring: a path, and the name there, which is empty for the path itself."""
    return {word.strip("◌"): (path, written.partition(" as ")[0]) for path, names in map(used_words, uses) for word, written in names}


def re_exports(crates=CRATES):
    """The crate that each re-exported file of definitions comes from, by the crate that re-exports it."""
    origins = {}
    for lib in sorted(crates.glob("*/specs/Lib.antt")):
        for origin, name in re.findall(r"^pub use Rattle\.(\w+)\.specs\.(\w+)$", read(lib), re.MULTILINE):
            origins[lib.parent.parent.name, name] = origin
    return origins


class Definitions:
    """The definitions of all crates."""

    def __init__(self, crates=CRATES):
        self.files, self.origins = {}, re_exports(crates)
        for file in sorted(crates.glob("*/specs/**/*.antt")):
            crate, _, *path = file.relative_to(crates).with_suffix("").parts
            module = ".".join(["Rattle", crate, "specs", *path])
            self.files[module] = read_file(file, module)

    def named(self, module, name):
        """The definition with a name in a module, which a crate may re-export; none if it is not of this repository.
        The module can be data, whose constructors are named in it."""
        if not module.startswith("Rattle."):
            return None
        _, crate, *path = module.split(".")
        while path[1:] and (crate, path[1]) in self.origins:
            crate = self.origins[crate, path[1]]
        module = ".".join(["Rattle", crate, *path])
        if module in self.files:
            return self.files[module].named(name)
        around, _, data = module.rpartition(".")
        return self.files[around].named(data) if around in self.files else None

    def of_words(self, words, uses, own=None):
        """The definitions that these words name, by the `use` lines in scope and the file that the words are in."""
        brought = brought_by(tuple(uses))
        for word in words:
            first, _, rest = word.partition(".")
            found = own.named(first) if own else None
            if not found and first in brought:
                path, name = brought[first]
                found = self.named(path, name or rest.partition(".")[0])
            if found:
                yield found

    def reached(self, text, uses):
        """The definitions that a text names, and those that the text of each of them reaches, sorted by path."""
        found, waiting = {}, [*self.of_words(free_words(text), uses)]
        while waiting:
            it = waiting.pop()
            if it.path not in found:
                found[it.path] = it
                file = self.files[it.module]
                waiting += self.of_words(it.words(), file.uses, file)
        return [found[path] for path in sorted(found)]
