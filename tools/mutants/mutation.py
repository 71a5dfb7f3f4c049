"""Writes the mutants of a crate into a copy of the repository, and judges them by what the check prints, over the libraries as
they are built.

A mutant of a free function or of an inherent method is written after the function, under a name of its own, with the
function's clauses and a copy of its proof files. So one check judges many, and no caller has to be proved again. A method of
a trait is replaced: one mutant of each such function in a round. The same is done with a function whose unchanged body, the
control, is not proved under another name."""
import collections
import random
import re
import shutil
from functools import cache

import libraries
from built import Built, Checks
from devices import DeviceOperators
from operators import Operators
from functions import Names, functions_of
from tokens import angles

# The verdicts. `open`: a goal without a proof by hand is not proved. `answer`: a proof by hand does not prove its goal.
# `misfit`: only a proof by hand fails that names something the mutant lacks, which says little of the contract. `unread`: it
# does not compile. `unknown`: the prover gave up.
KINDS = ["open", "answer", "misfit", "survived", "unknown", "unread"]
JUDGED = ["open", "answer", "misfit", "survived"]
# An open goal, by its place and name; a proof file that fails, by the path of its function.
OPEN = re.compile(r"^(?:note: )?(?:\./)?(src/\S+\.rt):(\d+):\d+: (.*?)\(`([^`]+)`\)(.*)")
FAILED = re.compile(r"^(?:\./)?proofs/(\S+)/(\w+)\.antt:\d+:\d+: error: (.*)")
MISFIT = re.compile(
    r"^`[^`]*`: (`[^`]*`: )?(record|module) |has no field|has no `|which was not admitted|unknown name|cannot find"
)
# How long one check may take, in seconds, before its mutants are judged in halves.
MOST_SECONDS = 1800


@cache
def names_in(settings, texts):
    """What mutants are made from, of the sources of all crates."""
    names = settings.names() if settings else Names()
    for text in texts:
        names.read(text)
    return names


class Crate:
    """A crate of the copy."""

    def __init__(self, copy, name, settings=None):
        self.folder, self.name = copy / "crates" / name, name
        self.sources = {
            str(it.relative_to(self.folder)): it.read_text(encoding="utf-8")
            for it in sorted(self.folder.glob("src/**/*.rt"))
            if "tests" not in it.relative_to(self.folder).parts and it.name != "tests.rt"
        }
        self.functions = [f for file, text in self.sources.items() for f in functions_of(file, text)]
        self.symbols, self.made, self.checks = {}, [], None
        files = [it for it in sorted(copy.glob("crates/*/src/**/*.rt")) if not it.relative_to(copy / "crates").parts[0].startswith("tests_")]
        self.names = names_in(settings, tuple(it.read_text(encoding="utf-8") for it in files))

    def mutants(self):
        found = [m for f in self.functions for m in mutants_of(f, self.sources[f.file], self.names)]
        for number, m in enumerate(found):
            m.number = number
        return found

    def body(self, function):
        return self.sources[function.file][function.start : function.end]

    def is_public(self, function):
        """Whether callers of the crate may call it: it is `pub`, or a method of a trait."""
        return function.in_trait or bool(re.search(r"(?m)^\s*pub (const )?fn\b", self.sources[function.file][function.start : function.opens]))

    # Which symbol of the prover a function has

    def begin(self, scratch):
        """Learns the symbols of the functions: from the library as it is built and proved, or by a check. Returns whether the
        crate is proved."""
        built = Built(self.name) if libraries.are_built([self.name]) else None
        self.checks = Checks(self.name, self.folder, scratch, built)
        if built:
            self.symbols = dict.fromkeys(built.symbols, "proved")
            return True
        said = self.checks.check([])
        self.symbols = dict(re.findall(rf"(?m)^fn ({self.name}::\S+): (.*)", said))
        return "logic=proved" in said

    def symbol_of(self, function):
        """The symbol of a function, or none if more than one could be it."""
        path = re.sub(r"^src/|\.rt$", "", function.file).split("/")
        module = [] if path in (["lib"], ["main"]) else path
        if not function.block:
            found = [s for s in self.symbols if s.split("::")[1:] == [*module, function.name]]
            return found[0] if len(found) == 1 else None
        head = re.sub(r"^(impl|trait)\s*", "", function.block)
        generic = angles(head)
        own = {it for it in re.findall(r"[<,]\s*(?:const )?(\w+)", generic)}
        head = re.sub(r"\swhere\s.*", "", head[len(generic) :].strip(), flags=re.S)
        trait, _, owner = head.rpartition(" for ")
        found = [s for s in self.symbols if s.endswith(f"::{function.name}") and "::fn::" not in s]
        if trait:
            name = camel(owner, own) + camel(re.sub(r"^(\w+::)+", "", trait), own)
            found = [s for s in found if s.split("::")[1:-2] == module]
            # The prover writes `Any` for a parameter where the name would otherwise be that of another item.
            found = [s for s in found if s.split("::")[-2].replace("Any", "") == name] or [
                s for s in found if name.startswith(s.split("::")[-2])
            ]
        else:
            of_type = owner or head
            whole = "+".join(re.findall(r"\b[A-Za-z]\w*", re.sub(r"'\w+", "", of_type)))
            here = [s for s in found if s.split("::")[1:-2] == module]
            # An impl for some types of a parameter has these in its name, and that of an alias has the name of its type.
            found = (
                [s for s in found if s.split("::")[-2] == re.match(r"\w*", of_type)[0]] or [s for s in here if s.split("::")[-2] == whole] or here
            )
        return found[0] if len(found) == 1 else None

    def proofs_of(self, symbol):
        return self.folder / "proofs" / "/".join(symbol.split("::")[1:])

    def has_proofs(self, function):
        symbol = self.symbol_of(function)
        return bool(symbol) and self.proofs_of(symbol).is_dir()

    # Writing mutants

    def write(self, mutants, in_place):
        """Writes the sources with these mutants and no others."""
        self.clear()
        for file, text in self.sources.items():
            here = [m for m in mutants if m.function.file == file]
            new = self.written(text, sorted(here, key=lambda m: (m.function.opens, m.number)), in_place)
            if new != (self.folder / file).read_text(encoding="utf-8"):
                (self.folder / file).write_text(new, encoding="utf-8")
        for m in [] if in_place else mutants:
            self.copy_proofs(m)

    def written(self, text, mutants, in_place):
        """The text of a file with its mutants."""
        new, at = "", 0
        for m in mutants:
            f = m.function
            if in_place:
                new += text[at : f.opens]
                first = new.count("\n") + 1
            else:
                head, named = text[f.start : f.opens], f.named - f.start
                new += text[at : f.end] + "\n\n"
                first = new.count("\n") + 1
                new += head[:named] + m.name + head[named + len(f.name) :]
            new += changed(text, f, m.edits)
            m.lines = (f.file, first, new.count("\n") + 1)
            at = f.end
        return new + text[at:]

    def copy_proofs(self, mutant):
        """Copies the proof files of the function for the mutant's name."""
        if not self.has_proofs(mutant.function):
            return
        by_hand = self.proofs_of(self.symbol_of(mutant.function))
        to = by_hand.with_name(mutant.name)
        to.mkdir()
        self.made.append(to)
        for it in by_hand.glob("*.antt"):
            was = f".{'.'.join(it.parent.relative_to(self.folder / 'proofs').parts)}."
            now = f"{was[: -len(mutant.function.name) - 1]}{mutant.name}."
            text = it.read_text(encoding="utf-8").replace(f"proofs{was}", f"proofs{now}")
            (to / it.name).write_text(text, encoding="utf-8")

    def clear(self):
        for it in self.made:
            shutil.rmtree(it, ignore_errors=True)
        self.made = []

    # Judging mutants

    def judge(self, mutants, in_place):
        """Checks these mutants, and gives each its kind. Those that do not compile are left out, and the others are checked
        again; if a check takes too long, its mutants are judged in halves."""
        left = list(mutants)
        while left:
            self.write(left, in_place)
            names = [self.symbol_of(m.function) if in_place else m.name for m in left]
            said = self.checks.check(names, MOST_SECONDS)
            if said and re.search(r"(?m)^(only=|rattle: no verdict)", said):
                give_kinds(left, said, names)
                return
            wrong = self.unread(left, said) if said else set()
            if not wrong and len(left) == 1:
                left[0].kind, left[0].why = ("unread", said.strip()[-200:]) if said else ("unknown", "time")
                return
            if not wrong:
                half = len(left) // 2
                self.judge(left[:half], in_place)
                self.judge(left[half:], in_place)
                return
            left = [m for m in left if id(m) not in wrong]

    def unread(self, mutants, said):
        """The mutants that do not compile, by the lines of the errors; each gets its kind."""
        wrong = set()
        for file, line, why in re.findall(r"(?m)^(?:\./)?(src/\S+\.rt):(\d+):\d+: error(?:\[\S*\])?:? ?(.*)", said):
            for m in mutants:
                if m.lines[0] == file and m.lines[1] <= int(line) <= m.lines[2]:
                    m.kind, m.why = "unread", why[:160]
                    wrong.add(id(m))
        return wrong


def mutants_of(function, text, names):
    """The mutants of a function of a source."""
    operators = Operators(function, text, names)
    operators.all()
    DeviceOperators(operators).all()
    return operators.made


def changed(text, function, edits):
    """The body of a function after edits."""
    body, at = "", function.opens
    for start, end, new in edits:
        body += text[at:start] + new
        at = end
    return body + text[at : function.end]


def camel(text, generic):
    """How a symbol writes a type or a trait: `&'a [u8]` as `RefSliceU8`."""
    words = re.findall(r"&|\[|(?<!')\b[A-Za-z]\w*", re.sub(r"'\w+|\bmut\b|\bdyn\b", "", text))
    return "".join({"&": "Ref", "[": "Slice"}.get(it, it[0].upper() + it[1:]) for it in words if it not in generic)


def give_kinds(mutants, said, names):
    """Gives each mutant its kind by the lines of a check. `names` has the name or the symbol under which each was checked."""
    verdicts = dict(re.findall(r"(?m)^fn (\S+): (.*)", said))
    opened = [it.groups() for it in map(OPEN.match, said.splitlines()) if it]
    failed = [it.groups() for it in map(FAILED.match, said.splitlines()) if it]
    for m, name in zip(mutants, names):
        own = {s: how for s, how in verdicts.items() if name in (s, *s.split("::"))}
        path = "/".join(name.split("::")[1:])
        goals = [it for it in opened if m.lines[0] == it[0] and m.lines[1] <= int(it[1]) <= m.lines[2]]
        answers = [why for at, _, why in failed if name in at.split("/") or path and at == path]
        m.kind, m.why = kind_of(own, goals, answers)


def kind_of(own, goals, answers):
    """The kind of a mutant and why: by the verdicts on its symbols, its open goals and the errors of its proof files."""
    if not own:
        return "unknown", "the check printed no line for it"
    if all(how.startswith("proved") for how in own.values()):
        return "survived", ""
    if goals:
        return "open", "; ".join(f"{goal}: {what.strip()[:60]}" for _, _, what, goal, _ in goals[:4])
    if answers:
        hard = [why for why in answers if not MISFIT.search(why)]
        return ("answer", hard[0][:200]) if hard else ("misfit", answers[0][:200])
    how = "; ".join(it for it in own.values() if not it.startswith("proved"))
    kind = "waits" if "it calls" in how else "open" if "did not prove" in how else "unknown"
    return kind, how[:200]


def in_turn(mutants, seed):
    """The mutants in random order, but one of each function and operator before any second one."""
    chance = random.Random(seed)
    by = collections.defaultdict(lambda: collections.defaultdict(list))
    for m in mutants:
        by[id(m.function)][m.operator].append(m)
    rows = []
    for operators in by.values():
        names = sorted(operators)
        chance.shuffle(names)
        for its in operators.values():
            chance.shuffle(its)
        most = max(map(len, operators.values()))
        order = [operators[name][at] for at in range(most) for name in names if at < len(operators[name])]
        rows += [(at, chance.random(), m) for at, m in enumerate(order)]
    return [m for _, _, m in sorted(rows, key=lambda it: it[:2])]
