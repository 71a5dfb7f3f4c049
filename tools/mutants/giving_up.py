"""Shows that the tests see a call that gives up at some length although there is memory, which no contract rejects. Writes
each body of giving_up.txt, asks the prover, which has to accept it, and then asks its row of the differential test, of which an
answer has to differ, or runs its dialogue, which has to fail. One program has all bodies with a row, and asks one row after
another. Status 1: the prover rejects a body, or no row and no dialogue does."""
import re
import shutil
import subprocess
import sys
import tempfile
from dataclasses import dataclass
from pathlib import Path

import differential
import libraries
from mutation import Crate
from operators import Mutant
from planting import copied


@dataclass
class Body:
    """A line of the list: a function, a statement and where it goes, and the row or the dialogue that rejects it. Its word may be
    `by-hand`, if the contract allows it but the prover would need a proof by hand, so that it is not asked."""

    crate: str
    file: str
    function: str
    before: str
    statement: str
    test: str
    words: str = ""

    @property
    def row(self):
        """The row that rejects it; none if a dialogue does."""
        return self.test.partition("row ")[2]

    @property
    def dialogue(self):
        """The dialogue that rejects it; none if a row does."""
        return self.test.partition("dialogue ")[2]

    def __str__(self):
        return f"{self.crate} {self.file} {self.function}, {self.statement}: {self.test}"

    def mutant(self, crate, number, written=str):
        """The function with the statement, as it is written, as a mutant of its crate."""
        owner, _, name = self.function.rpartition(" ")
        found = [f for f in crate.functions if (f.file, f.name) == (self.file, name) and owned(f, owner)]
        if len(found) != 1:
            raise SystemExit(f"mutants: {self.file} has {len(found)} functions {self.function}")
        f = found[0]
        text = crate.sources[f.file]
        at = f.opens + 1 if self.before == "-" else text.find(self.before, f.opens, f.end)
        if at < 0:
            raise SystemExit(f"mutants: {self.file} {self.function} has no `{self.before}`")
        return Mutant(f, "giving up", [(at, at, f" {written(self.statement)} ")], self.statement, number)


def owned(function, owner):
    """Whether a function is one of an `impl` for this type, or any if no type is given."""
    return not owner or re.search(rf"(\bfor |^impl(<[^{{]*?>)? ){owner}\b", function.block)


def listed(settings, only):
    return [Body(*line.split("\t")) for line in settings.lines("giving_up.txt") if re.search(only, line)]


def proofs(settings, scratch, bodies):
    """Asks the prover about all bodies, crate by crate. Returns the number of those that it does not accept."""
    copy, wrong = copied(settings.root, scratch / "proofs", False), 0
    bodies = [it for it in bodies if "by-hand" not in it.words]
    for name in dict.fromkeys(it.crate for it in bodies):
        crate = Crate(copy, name)
        mutants = [it.mutant(crate, n) for n, it in enumerate(bodies) if it.crate == name]
        if not crate.begin(scratch):
            print(f"mutants: {name} is not proved as it is", file=sys.stderr)
            sys.exit(70)
        placed = [m for m in mutants if m.function.in_trait or crate.has_proofs(m.function)]
        crate.judge([m for m in mutants if m not in placed], False)
        while placed:
            one_each = list({id(m.function): m for m in placed}.values())
            crate.judge(one_each, True)
            placed = [m for m in placed if m not in one_each]
        bad = [m for m in mutants if m.kind != "survived"]
        wrong += len(bad)
        print(f"{name}: {len(mutants) - len(bad)} of {len(mutants)} bodies are accepted by the prover", flush=True)
        for m in bad:
            print(f"  {m.kind}: {m.function.file} {m.function.name}, {m.shown}: {m.why}", flush=True)
    return wrong


def rows(settings, folder, bodies):
    """Asks the row of each body while it is planted, and before that while no body is. Returns the number of bodies with which no
    answer of their row differs, and of rows of which an answer differs without a body."""
    numbered = list(enumerate(bodies, 1))
    copy, plan = copied(settings.root, folder / "copy", False), [(0, row) for row in dict.fromkeys(it.row for it in bodies)]
    plan += [(number, it.row) for number, it in numbered]
    # (the reader of sources does not know the block that `plant` writes, so all are read first)
    for crate in [Crate(copy, name) for name in dict.fromkeys(it.crate for it in bodies)]:
        plant(crate, [(number, it) for number, it in numbered if it.crate == crate.name])
    differ, said = differential.ask_rows(copy, folder / "program", plan)
    wrong = 0
    for number, row in plan:
        count = differ.get((number, row))
        is_right = count is not None and (count > 0) == (number > 0)
        wrong += not is_right
        how = "is not asked" if count is None else "sees it" if count else "sees nothing"
        print(f"{bodies[number - 1]} {how}" if number else f"row {row} without a body {how}", flush=True)
    if len(differ) < len(plan):
        print(said[-4000:], flush=True)
    return wrong


def plant(crate, numbered):
    """Writes bodies into a crate of a copy, each guarded by its number."""
    whole = {}
    for number, it in numbered:
        made = it.mutant(crate, number, lambda text, number=number: differential.guarded(text, number))
        first = whole.setdefault(id(made.function), made)
        first.edits += [] if first is made else made.edits
    for made in whole.values():
        made.edits.sort()
    crate.write(list(whole.values()), True)
    root = crate.folder / "src" / "lib.rt"
    root.write_text(root.read_text(encoding="utf-8") + differential.GUARD, encoding="utf-8")


def talks(settings, folder, bodies):
    """Runs the dialogue of each body with the program that has it. Returns the number of bodies with which it does not fail."""
    wrong = 0
    for number, it in enumerate(bodies):
        copy = copied(settings.root, folder / f"copy{number}", True)
        crate = Crate(copy, it.crate)
        crate.write([it.mutant(crate, number)], True)
        ran = subprocess.run(["bin/test", "dialogues", it.dialogue], cwd=copy, capture_output=True, text=True, stdin=subprocess.DEVNULL)
        fails = f"\n{it.dialogue}: " in ran.stdout
        wrong += not fails
        print(f"{it} {'fails' if fails else 'does not fail'}", ran.stdout[-2000:] if not fails else "", flush=True)
        shutil.rmtree(copy)
    return wrong


def arguments(asks):
    asks.add_argument("--only", default="", metavar="WORD", help="the bodies whose line matches an expression")
    asks.add_argument("--list", action="store_true", help="print the bodies, and try none")
    asks.add_argument("--proofs", action="store_true", help="only ask the prover")
    asks.add_argument("--tests", action="store_true", help="only ask the rows and run the dialogues")


def run(settings, given):
    bodies, wrong = listed(settings, given.only), 0
    if given.list:
        print("\n".join(map(str, bodies)))
        return 0
    libraries.ROOT = str(settings.root)
    with tempfile.TemporaryDirectory(prefix="giving-up-") as scratch:
        if not given.tests:
            wrong += proofs(settings, Path(scratch), bodies)
        by_row = [it for it in bodies if it.row]
        if by_row and not given.proofs:
            wrong += rows(settings, Path(scratch), by_row)
        if not given.proofs:
            wrong += talks(settings, Path(scratch), [it for it in bodies if it.dialogue])
    print(f"{len(bodies)} bodies, {wrong} of them not accepted by the prover or not rejected by a row or a dialogue")
    return 1 if wrong else 0
