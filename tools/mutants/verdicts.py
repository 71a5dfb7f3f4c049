"""The verdicts on the mutants that were tried: a file for each crate in a folder, with a line for each mutant: the hash of
its function, that of its change, its operator and its kind, separated by tabs. If the text of a function changes, its lines
are dropped, so that only its mutants are tried again. So are those of mutants that the operators make no more."""
import collections
from hashlib import sha256

from mutation import JUDGED

CONTROL = "control"


def short(text):
    return sha256(text.encode()).hexdigest()[:12]


class Verdicts:
    """What is known of the mutants of a crate."""

    def __init__(self, crate, folder):
        self.crate, self.file = crate, folder / f"{crate.name}.tsv"
        self.functions = {self.hash(f): f for f in crate.functions}
        lines = self.file.read_text(encoding="utf-8").splitlines() if self.file.exists() else []
        rows = [line.split("\t") for line in lines]
        made = {self.name(m) for m in crate.mutants()} if rows else set()
        self.kinds = {
            (f, change, operator): kind
            for f, change, operator, kind in rows
            if (f, change, operator) in made or operator == CONTROL and f in self.functions
        }

    def hash(self, function):
        return short(f"{function.file}:{function.block}:{self.crate.body(function)}")

    def name(self, mutant):
        return self.hash(mutant.function), short(mutant.key), mutant.operator

    def has(self, mutant):
        return self.name(mutant) in self.kinds

    def count(self):
        """How many mutants of each function were judged, by the hash of the function."""
        return collections.Counter(f for (f, _, operator), kind in self.kinds.items() if kind in JUDGED and operator != CONTROL)

    def controlled(self):
        """The functions whose control was proved, by their hashes."""
        return {f for f, _, operator in self.kinds if operator == CONTROL}

    def tried(self):
        """The operator and the kind of each mutant that was tried."""
        return [(operator, kind) for (_, _, operator), kind in self.kinds.items() if operator != CONTROL]

    def mutants(self, kinds):
        """The mutants of these kinds."""
        return [m for m in self.crate.mutants() if self.kinds.get(self.name(m)) in kinds]

    def save(self, mutants):
        self.kinds.update({self.name(m): m.kind for m in mutants})
        self.file.parent.mkdir(parents=True, exist_ok=True)
        lines = sorted("\t".join([*name, kind]) + "\n" for name, kind in self.kinds.items())
        self.file.write_text("".join(lines), encoding="utf-8")
