"""Shows that the prover rejects each mutation of crates/CRATE/must-fail and crates/CRATE/mutations/each_check.edit, in a few
minutes, over the libraries as `rt ci` or `rt lib` built them; with --changed, each one whose record is stale or lacking, and
writes its record. A mutation of the body of a free function or of an inherent method is written after its function, as a
function of its own with the same clauses and proofs: a round has any number of these. Each other mutation takes the place of
what it changes, one of each function in a round, and no function of the round calls one that is changed so. A round checks the
mutated functions only. A mutation is rejected if the check names a goal of its own function that is open, or a
proof by hand of that function that fails: it is not enough that a function that it calls is not proved. A mutation that a round
does not reject is tried alone, in the place of what it changes; so is one that waits for a function that is not proved, if the
round leaves a goal open in a function that it did not change; and so is one that is in no function, if need be over the whole
crate, where a law that is not proved counts. Prints a line for each mutation. Status 1: one is not rejected, or cannot be
applied. JOBS (2) crates are tried at once."""
import os
import re
import shutil
import sys
import tempfile
from concurrent.futures import ThreadPoolExecutor
from dataclasses import dataclass, field
from pathlib import Path

import libraries
import records
from built import Built, Checks
from edit_files import files_of, mutations_of, recorded_files
from mutation import Crate
from one_by_one import ENDED, Mutation, functions_at, goals_in, module_of, planted, round_of
from operators import Mutant

# A line that says that a proof rests on one that failed.
WAITS = re.compile(r"^.*which was not admitted.*$", re.MULTILINE)
VERDICT = re.compile(r"^fn (\S+): (.*)", re.MULTILINE)
# The line of an impl of which a law is not proved, which is in no function.
LAW = re.compile(r"^impl \S+: not proved; antt \w+ `([^`]+)`", re.MULTILINE)
# A method of an impl that a mutation writes: its trait, its type and its name.
METHOD = re.compile(r"\bimpl (\w+) for (\w+)\b.*?\bfn (\w+)\(")


@dataclass
class Placed(Mutation):
    """A mutation whose functions have names by which the check knows them."""
    symbols: list
    # Its functions with their changes, if they are written beside those that they change, and the mutation in their place.
    mutants: list = field(default_factory=list)
    in_place: "Placed" = None

    @property
    def changed(self):
        """The functions that it changes, whether it stands beside them or in their place."""
        return (self.in_place or self).symbols

    def paths(self):
        """Its functions, each with the path of its proofs as its name."""
        return [(*it[:3], symbol.partition("::")[2].replace("::", "/")) for it, symbol in zip(self.functions, self.symbols)]


def placed(name, changes, crate, number=0):
    """A mutation of a crate, beside its functions if that can be. Fails with a reason if it cannot be applied."""
    places = functions_at(changes, crate.folder)
    line = lambda f, at: crate.sources[f.file].count("\n", 0, at) + 1  # noqa: E731
    by_place = {(f.file, line(f, f.start), line(f, f.end), f.name): f for f in crate.functions}
    functions = [by_place[it] for it in places]
    symbols = [crate.symbol_of(it) for it in functions]
    if None in symbols:
        raise ValueError(f"the built library has no function {places[symbols.index(None)][3]}")
    in_place = Placed(name, changes, places, symbols)
    mutants = mutants_of(changes, crate, functions, number)
    if not mutants:
        return in_place
    beside = [f"{symbol.rpartition('::')[0]}::{it.name}" for symbol, it in zip(symbols, mutants)]
    return Placed(name, changes, [("", 0, 0, it.name) for it in mutants], beside, mutants, in_place)


def mutants_of(changes, crate, functions, number):
    """The changes as functions beside those that they change; none if one of them is not in a body, or in that of a method of a
    trait, or if two are in the same."""
    made = []
    for function, (file, old, new) in zip(functions, changes):
        at = crate.sources[file].index(old)
        made.append(Mutant(function, "by hand", [(at, at + len(old), new)], old, number))
    are_bodies = all(it.edits[0][0] > it.function.opens and not it.function.in_trait for it in made)
    return made if are_bodies and len(changes) == len(functions) == len({id(it) for it in functions}) else []


def are_apart(one, other, calls):
    """Whether no function of a mutation calls one that another mutation takes the place of, and neither takes the place of a
    function that stands beside its mutation."""
    if any(a in calls.get(b, ()) for m, n in ((one, other), (other, one)) for a in m.symbols for b in n.changed):
        return False
    return bool(one.mutants and other.mutants) or set(one.changed).isdisjoint(other.changed)


def how_rejected(said, mutation):
    """The goals of its own by which a check rejects a mutation; none if it does not. One in no function may have any goal."""
    verdicts = dict(VERDICT.findall(said))
    if mutation.functions and all(verdicts.get(it, "proved").startswith("proved") for it in mutation.symbols):
        return ""
    goals = goals_in(WAITS.sub("", said), mutation.paths(), outside=not mutation.functions)
    return ", ".join(goals or ([] if mutation.functions else sorted(set(LAW.findall(said)))))


def is_in_doubt(said, mutation, chosen):
    """Whether the goals of a mutation may be open only because another one of the round is not proved: its function waits for
    such a one, and the check names a goal of a function that the round did not change."""
    waiting = {symbol for symbol, how in VERDICT.findall(said) if "it calls" in how}
    return bool(waiting.intersection(mutation.symbols) and goals_in(said, [it for m in chosen for it in m.paths()], outside=True))


def why_not(said, mutation):
    """Why a check with this mutation only does not reject it."""
    if not ENDED.search(said):
        return f"cannot be applied: {' '.join(said.split()[-30:])}"
    verdicts = dict(VERDICT.findall(said))
    lines = [f"fn {it}: {verdicts.get(it, 'no line')}" for it in mutation.symbols]
    return f"NOT REJECTED: {'; '.join(lines) or said.splitlines()[-1]}"


def names_of(mutations):
    """What a check of mutations names: their functions; or of one in no function the methods of the impls that it writes, or its
    modules if it writes none."""
    named = {it.partition("::")[2] for m in mutations for it in m.symbols}
    for m in (it for it in mutations if not it.symbols):
        written = [(file, *it) for file, _, new in m.changes for it in METHOD.findall(new)]
        named |= {f"{module_of(file)}::{of_type}{trait}::{name}" for file, trait, of_type, name in written}
        named |= {module_of(file) for file, _, _ in m.changes if not written and file != "src/lib.rt"}
    return sorted(named)


def try_rounds(mutations, calls, check, tell):
    """Tries mutations, and tells how each is rejected. `check` is what the check says with some of them: of their functions, or
    of the whole crate, which a table or a law of an impl may need."""
    left, alone = [it for it in mutations if it.functions], [it for it in mutations if not it.functions]
    while left:
        chosen = round_of(left, lambda one, other: are_apart(one, other, calls))
        said = check(chosen)
        for it in chosen:
            goals = "" if is_in_doubt(said, it, chosen) else how_rejected(said, it)
            tell(it.name, goals) if goals else alone.append(it)
        left = [it for it in left if it not in chosen]
    for it in (it.in_place or it for it in alone):
        said = check([it])
        if not it.functions and not how_rejected(said, it):
            said = check([it], whole=True)
        tell(it.name, how_rejected(said, it) or why_not(said, it))


def try_crate(settings, name, files, scratch, tell, is_chosen=lambda mutation: True):
    """Tries the chosen mutations of files of a built crate. Returns the CPU seconds that its checks took."""
    copy = scratch / "crates" / name
    for part in ("src", "specs", "proofs"):
        shutil.copytree(settings.root / "crates" / name / part, copy / part)
    built, crate, mutations = Built(name), Crate(scratch, name), []
    crate.symbols = dict.fromkeys(built.symbols, "")
    for mutation, changes in (it for file in files for it in mutations_of(file.read_text(encoding="utf-8")) if is_chosen(it[0])):
        try:
            mutations.append(placed(mutation, changes, crate, len(mutations)))
        except ValueError as fault:
            tell(mutation, f"cannot be applied: {fault}")
    checks = Checks(name, copy, scratch, built)

    def check(chosen, whole=False):
        crate.write([mutant for it in chosen for mutant in it.mutants], False)
        for it in chosen:
            it.functions = [(*m.lines, m.name) for m in it.mutants] or functions_at(it.changes, copy)
        with planted([it for it in chosen if not it.mutants], copy):
            return checks.check([] if whole else names_of(chosen))

    try_rounds(mutations, built.calls, check, tell)
    return checks.seconds


def arguments(asks):
    asks.add_argument("crates", nargs="*", metavar="CRATE", help="default: every library that has such mutations")
    asks.add_argument("--changed", action="store_true", help="those whose record is stale or lacking; write their records")


def run(settings, given):
    libraries.ROOT = str(settings.root)
    uses, static = libraries.listed()
    files = recorded_files if given.changed else files_of
    is_library = lambda name: name not in static and (settings.root / "crates" / name / "src/lib.rt").is_file()  # noqa: E731
    names = given.crates or [name for name in settings.all_crates() if files(settings, name) and is_library(name)]
    sums = records.Sums(settings.root) if given.changed else None
    writers = {name: records.Writer(settings, name, sums) for name in names if given.changed}
    names = [name for name in names if not given.changed or writers[name].sums]
    lacking = [name for name in names if not libraries.are_built([*libraries.below(name, uses), name])]
    if lacking:
        print(f"mutants: not built: run rt lib in the folder of {', '.join(lacking)}", file=sys.stderr)
        return 70
    rejected, others = [], []

    def tried(name):
        writer = writers.get(name)

        def tell(mutation, how):
            is_other = how.startswith(("NOT REJECTED", "cannot be applied"))
            (others if is_other else rejected).append(mutation)
            print(f"{name}/{mutation}: {how}", flush=True)
            if writer and not is_other:
                writer.add(mutation, how)

        with tempfile.TemporaryDirectory(prefix="rounds-") as scratch:
            is_chosen = lambda mutation: not writer or mutation in writer.sums  # noqa: E731
            seconds = try_crate(settings, name, files(settings, name), Path(scratch), tell, is_chosen)
            print(f"{name}: {seconds:.0f} CPU seconds", flush=True)

    with ThreadPoolExecutor(int(os.environ.get("JOBS", "2"))) as pool:
        list(pool.map(tried, names))
    print(f"{len(rejected)} rejected, {len(others)} not rejected")
    return 1 if others else 0
