"""Compares the contracts of public calls at a REVISION with those of now: their clauses, and what these reach.

A call is a public function of a library or a function of a public trait. The `impl` of a trait for a type is listed as
CRATE::TYPE::TRAIT, with its ghost members and the clauses of its functions. A call differs if it is gone or new, if one of
its clauses is gone, new or changed, or if the text of a definition that they reach has changed. Texts are compared word by
word, without whitespace and comments, and a word that names a definition as the path of that definition; a word of std is
compared by its name alone. What a ghost member of a trait is for a type is compared at the `impl`, and not at the calls
whose clauses name it.

Names that moved are in moved.txt, in the folder of this file: the name itself, or that of the type, the module or the crate
that it was in. A definition or a call that is gone has also moved if just one with its name is new."""
import io
import re
import subprocess
import tarfile
import tempfile
from collections import Counter
from dataclasses import dataclass, field
from pathlib import Path

from definitions import BINDERS, Definitions, used_words
from items import Wrong
from made import TOP
from sources import CRATES, exported, impl_name, read, read_modules, without_braces

MOVED = Path(__file__).resolve().parent / "moved.txt"
# Crates of tests and measurements, whose functions are not calls.
TESTS = re.compile(r"(tests_\w+|bench_\w+|testing|exports|measured|soak)$")
TOKEN = re.compile(r'"(?:[^"\\]|\\.)*"|[(){}\[\];,]|[^\s(){}\[\];,]+')


# The contracts of a folder of crates

@dataclass
class Call:
    """A call: its clauses by their labels, and the ghost uses in scope at it."""
    clauses: dict = field(default_factory=dict)
    uses: tuple = ()


def calls_in(crate, modules):
    """The calls of a crate, by their names."""
    found, public = {}, {id(item) for _, item in exported(modules) if item}

    def add(name, clauses, item):
        while name in found:  # of another `impl` of the type
            name += "'"
        found[name] = Call(dict(clauses), tuple(item.words))

    for path, item in ((path, item) for path, items in modules.items() for item in items):
        if item.kind == "fn" and id(item) in public:
            add("::".join([crate, *path, item.name]), item.clauses, item)
        elif item.kind == "impl" or item.kind == "trait" and id(item) in public:
            of_trait, of_type = impl_name(item) if item.kind == "impl" else ("", item.name)
            owner = "::".join([crate, of_type, *([of_trait] if of_trait else [])])
            ghosts = [it for it in item.inner if it.kind == "ghost"]
            if ghosts:
                add(owner, ((f"ghost {it.name}", without_braces(it.head)) for it in ghosts), ghosts[0])
            for it in (it for it in item.inner if it.kind == "fn"):
                if item.kind == "trait" or it.public or of_trait and it.clauses:
                    add(f"{owner}::{it.name}", it.clauses, it)
    return found


class Contracts:
    """The calls and the definitions of a folder of crates, by their names. `new_names` has those that moved."""

    def __init__(self, crates):
        self.files, self.calls, self.new_names = Definitions(crates), {}, {}
        self.brought, self.tokens_by_path = {}, {}
        for root in sorted(crates.glob("*/src/lib.rt")):
            crate = root.parents[1].name
            if not TESTS.match(crate):
                self.calls.update(calls_in(crate, read_modules(crate, crates)))
        self.definitions = {it.path: it for file in self.files.files.values() for it in file.definitions}

    def new_name(self, name):
        return self.new_names.get(name, name)

    def named(self, word, uses, own=None):
        """The definition that a word names, by its file and the `use` lines in scope, or the name that it stands for."""
        first, _, rest = word.partition(".")
        if found := own.named(first) if own else None:
            return found
        if uses not in self.brought:
            words = [(path, *names) for path, words in map(used_words, uses) for names in words]
            self.brought[uses] = {word.strip("◌"): (path, name.partition(" as ")[0]) for path, word, name in words}
        if first not in self.brought[uses]:
            return word
        path, name = self.brought[uses][first]
        return self.files.named(path, name or rest.partition(".")[0]) or ".".join(filter(None, [name, rest])) or word

    def tokens(self, text, uses, own=None, bound=frozenset()):
        """The words of a text; in place of one that names a definition, that definition."""
        bound = {name for groups in BINDERS.findall(text) for name in " ".join(groups).split()} | bound
        for word in TOKEN.findall(text):
            is_name = word[0] not in '"(){}[];,' and word.partition(".")[0] not in bound
            yield self.named(word, uses, own) if is_name else word

    def tokens_of(self, it):
        """The tokens of a definition and of the module around it."""
        if it.path not in self.tokens_by_path:
            file = self.files.files[it.module]
            bound = it.arguments() | ({*it.parts} if it.kind == "record" else set())
            text = " ".join([it.section, *it.lines])
            self.tokens_by_path[it.path] = [*self.tokens(text, tuple(file.uses), file, frozenset(bound))]
        return self.tokens_by_path[it.path]

    def meaning(self, tokens):
        """Tokens as a text that is the same if they say the same: a definition is its new path."""
        return " ".join(it if isinstance(it, str) else self.new_name(it.path) for it in tokens)

    def clauses(self, call):
        """The text and the meaning of each clause of a call, by its label."""
        return {label: (text, self.meaning(self.tokens(text, call.uses))) for label, text in call.clauses.items()}

    def reached(self, call):
        """The new paths of the definitions that the clauses of a call reach."""
        found, waiting = {}, [it for text in call.clauses.values() for it in self.tokens(text, call.uses)]
        while waiting:
            it = waiting.pop()
            if not isinstance(it, str) and it.path not in found:
                found[it.path] = it
                waiting += self.tokens_of(it)
        return {self.new_name(path) for path in found}


# What moved

def moved_names(text):
    """The old names that a table lists, each with the new one."""
    return dict(line.split() for line in text.splitlines() if line and not line.startswith("#"))


def by_table(name, listed, dot):
    """The new name of one that is gone, by a table that lists it or what it was in; or none."""
    parts = name.split(dot)
    for n in range(len(parts), 0, -1):
        if found := listed.get(dot.join(parts[:n])):
            return dot.join([found, *parts[n:]])
    return None


def new_names(old, new, listed, dot, key):
    """The new names of those that moved: by the table, or because just one that is new has the same key."""
    found = {it: listed[it] for it in old if it in listed}
    found |= {it: by_table(it, listed, dot) for it in old if it not in new and by_table(it, listed, dot)}
    gone = [it for it in old if found.get(it, it) not in new]
    come = [it for it in new if it not in old and it not in found.values()]
    gone_keys, come_keys = Counter(map(key, gone)), {key(it): it for it in come}
    once = [name for name, n in Counter(map(key, come)).items() if n == 1]
    return found | {it: come_keys[key(it)] for it in gone if gone_keys[key(it)] == 1 and key(it) in once}


# What differs

NONE = ("", "")


@dataclass
class Difference:
    """A call by its old and its new name: its clauses, each by its text and meaning at both times, and the definitions
    that it reaches whose text differs."""
    old: str
    new: str
    clauses: dict
    definitions: list

    def brief(self):
        """What differs, as a line, or nothing."""
        kinds = {(True, True): "changed", (True, False): "gone", (False, True): "new"}
        if not self.old or not self.new:
            return f"{self.old}: gone" if self.old else f"{self.new}: new"
        said = [f"{label} {kinds[a != NONE, b != NONE]}" for label, (a, b) in self.clauses.items() if a[1] != b[1]]
        said += [f"definition {path} changed" for path in self.definitions]
        moved = "" if self.old == self.new else f" (was {self.old})"
        return f"{self.new}{moved}: {', '.join(said)}" if said else ""


class Comparison:
    """The contracts of two times. `listed` has names that moved."""

    def __init__(self, old, new, listed):
        self.old, self.new = old, new
        last = lambda path: path.rpartition(".")[2]  # noqa: E731
        in_any_crate = lambda name: name.partition("::")[2]  # noqa: E731
        old.new_names = new_names(old.definitions, new.definitions, listed, ".", last)
        old.new_names |= new_names(old.calls, new.calls, listed, "::", in_any_crate)
        self.old_definitions = {old.new_name(path): it for path, it in old.definitions.items()}

    def pairs(self, only=None):
        """The old and the new name of each call, or of those that a name may mean."""
        pairs = [(name, self.old.new_name(name)) for name in self.old.calls]
        pairs = [(old, new if new in self.new.calls else "") for old, new in pairs]
        pairs += [("", new) for new in {*self.new.calls} - {new for _, new in pairs}]
        is_meant = lambda name: not only or name and f"::{name}".endswith(f"::{only}")  # noqa: E731
        return sorted(filter(lambda pair: any(map(is_meant, pair)), pairs), key=lambda pair: (pair[1] or pair[0], pair))

    def texts(self, path):
        """The text and the meaning of a definition at both times."""
        sides = [(self.old, self.old_definitions), (self.new, self.new.definitions)]
        read = lambda side, it: ("\n".join(it.lines), side.meaning(side.tokens_of(it)))  # noqa: E731
        return [read(side, found[path]) if path in found else NONE for side, found in sides]

    def reached(self, pair):
        """The definitions that the clauses of a call reach at either time."""
        sides = zip((self.old, self.new), pair)
        return set().union(*(side.reached(side.calls.get(name, Call())) for side, name in sides))

    def difference(self, pair):
        a, b = (side.clauses(side.calls.get(name, Call())) for side, name in zip((self.old, self.new), pair))
        texts = [(path, *self.texts(path)) for path in sorted(self.reached(pair) if all(pair) else ())]
        changed = [path for path, old, new in texts if NONE not in (old, new) and old[1] != new[1]]
        return Difference(*pair, {label: (a.get(label, NONE), b.get(label, NONE)) for label in a | b}, changed)


def lines_of(label, old, new):
    """A text at both times, or once if it means the same."""
    sides = [(" ", new[0])] if old[1] == new[1] else [("-", old[0]), ("+", new[0])]
    return [f"  {label}", *(f"    {sign} {line}" for sign, text in sides for line in text.splitlines())]


def report(comparison, only=None):
    """Each call with its clauses, and then the definitions: those that differ, or all that calls with a name reach."""
    lines, paths = [], set()
    for pair in comparison.pairs(only):
        it = comparison.difference(pair)
        lines += [it.brief() or f"{it.new}: the same"]
        lines += [line for label, texts in it.clauses.items() for line in lines_of(label, *texts)]
        paths |= comparison.reached(pair) if only else {*it.definitions}
    lines += ["definitions"] if paths else []
    return lines + [line for path in sorted(paths) for line in lines_of(path, *comparison.texts(path))]


def in_brief(comparison, only=None):
    """A line for each call that differs."""
    return [line for line in (comparison.difference(pair).brief() for pair in comparison.pairs(only)) if line]


# The command

def crates_at(revision, folder):
    """The folder of the crates at a revision, whose sources and definitions are written into a folder."""
    paths = [":(glob)crates/*/src/**", ":(glob)crates/*/specs/**"]
    asked = subprocess.run(["git", "archive", revision, "--", *paths], cwd=TOP, capture_output=True)
    if asked.returncode:
        raise Wrong(f"{revision}: {asked.stderr.decode().strip()}")
    with tarfile.open(fileobj=io.BytesIO(asked.stdout)) as files:
        files.extractall(folder)
    return Path(folder) / "crates"


def run(revision, only=None, is_brief=False):
    """Prints the comparison. Returns the status."""
    with tempfile.TemporaryDirectory() as folder:
        comparison = Comparison(Contracts(crates_at(revision, folder)), Contracts(CRATES), moved_names(read(MOVED)))
    if only and not comparison.pairs(only):
        raise Wrong(f"{only}: no public call")
    print("\n".join((in_brief if is_brief else report)(comparison, only)))
    return 0
