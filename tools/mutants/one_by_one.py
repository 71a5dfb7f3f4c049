"""Tries each mutation that was written by hand. `rt ci` checks that the prover rejects a file of crates/CRATE/must-fail as a
whole; this names the goals by which each mutation under a line `# MUTATION` is rejected, in these files, in those of
crates/CRATE/mutations, and in edits/CRATE.edit of the data folder, which `rt ci` does not read. Mutations of different
functions are tried in one check, in rounds, and those that no round rejects on their own. A check is one of the changed
functions over the built libraries; before a mutation is said to survive, the whole crate is checked with it. With --changed,
tries those whose record is stale or lacking, and writes their records. Status 1: one survives, or cannot be applied, or does
not reach the prover."""
import collections
import contextlib
import re
import shutil
import sys
import tempfile
from dataclasses import dataclass
from pathlib import Path

import libraries
import records
from built import Checks
from edit_files import edits_of, mutations_of
from functions import functions_of

# A goal that is open, by its place, and a proof by hand that fails, by the path of its function.
OPEN = re.compile(r"^(?:note: )?(?:\./)?(src/\S+\.rt):(\d+):\d+: .*?\(`([^`]+)`\)", re.M)
FAILED = re.compile(r"^(?:\./)?proofs/(\S+)/\w+\.antt:\d+:\d+: error: `([^`]+)`", re.M)
# The line of a check that came to its end, and that of one that proved all that it was to check.
ENDED = re.compile(r"^(?:only=|logic=)", re.M)
PASSED = re.compile(r"^(?:only=(\d+) proved=\1$|logic=proved)", re.M)


@dataclass
class Mutation:
    """A mutation of a crate: its name, its changes (file, old text, new text), and the functions that these are in."""
    name: str
    changes: list
    functions: list  # (file, first line, last line, name)


def functions_at(changes, crate):
    """The functions that the changes are in. Fails with a reason if a change cannot be applied."""
    found = []
    for file, old, _ in changes:
        text = (crate / file).read_text(encoding="utf-8") if (crate / file).is_file() else ""
        if text.count(old) != 1:
            raise ValueError(f"{old!r} occurs {text.count(old)} times in {file}, expected once")
        place = text.index(old)
        for it in functions_of(file, text):
            if it.start <= place < it.end:
                found.append((file, text.count("\n", 0, it.start) + 1, text.count("\n", 0, it.end) + 1, it.name))
    return found


def round_of(mutations, are_apart=lambda one, other: True):
    """The mutations of one round, each apart from the others: the first of each function; and one at most that changes none."""
    chosen, taken = [], set()
    for it in mutations:
        if taken.isdisjoint(it.functions or [None]) and all(are_apart(it, other) for other in chosen):
            chosen.append(it)
            taken.update(it.functions or [None])
    return chosen


@contextlib.contextmanager
def planted(mutations, crate):
    """The crate has these mutations as long as this is open."""
    kept = {}
    for file, old, new in (change for it in mutations for change in it.changes):
        text = (crate / file).read_text(encoding="utf-8")
        kept.setdefault(file, text)
        (crate / file).write_text(text.replace(old, new), encoding="utf-8")
    yield
    for file, text in kept.items():
        (crate / file).write_text(text, encoding="utf-8")


def module_of(file):
    return re.sub(r"^src/|\.rt$", "", file).replace("/", "::")


def names_of(mutations, crate):
    """What a check of the mutations names: their functions, or the module of one whose name another function may have. Nothing,
    which stands for the whole crate, if a mutation is in no function, or such a function is in the root file."""
    sources = {str(it.relative_to(crate)): it.read_text(encoding="utf-8") for it in crate.glob("src/**/*.rt")}
    every = [it for file, text in sources.items() for it in functions_of(file, text)]
    apart = {name for name, count in collections.Counter(it.name for it in every).items() if count == 1}
    apart -= {it.name for it in every if it.in_trait}
    places = [it for m in mutations for it in m.functions or [("src/lib.rt", 0, 0, "")]]
    if any(name not in apart and file in ("src/lib.rt", "src/main.rt") for file, _, _, name in places):
        return []
    return sorted({name if name in apart else module_of(file) for file, _, _, name in places})


def check_with(mutations, crate, check, names):
    """What the check of these functions and modules says of the crate with these mutations."""
    with planted(mutations, crate):
        return check(names)


def goals_in(said, functions, outside=False):
    """The goals that a check names in one of the functions, or in none of them."""
    goals = set()
    for file, line, goal in OPEN.findall(said):
        if outside != any(file == its and first <= int(line) <= last for its, first, last, _ in functions):
            goals.add(goal)
    for path, goal in FAILED.findall(said):
        if outside != any(f"/{path}".endswith(f"/{name}") for _, _, _, name in functions):
            goals.add(goal)
    return sorted(goals)


def verdicts_of(mutations, said):
    """How a check rejects each mutation, by the goals; an empty text if it names none of a mutation's."""
    every = [function for it in mutations for function in it.functions]
    return {id(it): ", ".join(goals_in(said, it.functions or every, outside=not it.functions)) for it in mutations}


def try_apart(mutation, crate, check):
    """How a check with one mutation rejects it; `survives` if the crate passes, and why if it does not reach the prover."""
    names = names_of([mutation], crate)
    for its in [names, []] if names else [[]]:
        said = check_with([mutation], crate, check, its)
        if not ENDED.search(said):
            return f"cannot be applied: {' '.join(said.split()[-30:])}"
        if not PASSED.search(said):
            return verdicts_of([mutation], said)[id(mutation)] or "a goal elsewhere"
    return "survives"


def try_crate(crate, texts, is_chosen, tell, check):
    """Tries the mutations of a crate whose names are chosen, and tells how each is rejected. `check` is what the check says of
    functions or modules of the crate; of the whole crate, if none is named."""
    left = []
    for name, changes in (it for text in texts for it in mutations_of(text) if is_chosen(it[0])):
        try:
            left.append(Mutation(name, changes, functions_at(changes, crate)))
        except ValueError as fault:
            tell(name, f"cannot be applied: {fault}")
    while left:
        chosen = round_of(left)
        said = verdicts_of(chosen, check_with(chosen, crate, check, names_of(chosen, crate))) if len(chosen) > 1 else {}
        # If a function that it calls is changed too, the check does not judge a function's goals: it is tried in a later round.
        for it in [it for it in chosen if said.get(id(it))] or chosen:
            tell(it.name, said.get(id(it)) or try_apart(it, crate, check))
            left.remove(it)


def arguments(asks):
    asks.add_argument("crates", nargs="*", metavar="CRATE[/MUTATION]", help="default: every crate that has mutations")
    asks.add_argument("--changed", action="store_true", help="those whose record is stale or lacking; write their records")


def run(settings, given):
    names = given.crates or [name for name in settings.all_crates() if edits_of(settings, name)]
    libraries.ROOT = str(settings.root)
    uses, _ = libraries.listed()
    lacking = [name for name in names if not libraries.are_built(libraries.below(name.partition("/")[0], uses))]
    if lacking:
        print(f"mutants: the libraries below are not built: run rt lib in the folder of {', '.join(lacking)}", file=sys.stderr)
        return 70
    rejected, others = [], []
    sums = records.Sums(settings.root) if given.changed else None
    with tempfile.TemporaryDirectory(prefix="one-by-one-") as scratch:
        for name in names:
            crate, _, only = name.partition("/")
            writer = records.Writer(settings, crate, sums) if given.changed else None
            is_chosen = lambda it, only=only, writer=writer: only in ("", it) and (not writer or it in writer.sums)  # noqa: E731

            def tell(mutation, how, crate=crate, writer=writer):
                is_other = how == "survives" or how.startswith("cannot be applied")
                (others if is_other else rejected).append((mutation, how))
                print(f"{crate}/{mutation}: {how}", flush=True)
                if writer and not is_other:
                    writer.add(mutation, how)

            before, copy = len(rejected) + len(others), Path(scratch) / crate
            for part in ("src", "specs", "proofs"):
                shutil.copytree(settings.root / "crates" / crate / part, copy / part, dirs_exist_ok=True)
            try_crate(copy, edits_of(settings, crate), is_chosen, tell, Checks(crate, copy, Path(scratch)).check)
            if only and not given.changed and len(rejected) + len(others) == before:
                tell(only, "cannot be applied: there is no such mutation")
    survive = sum(how == "survives" for _, how in others)
    faults = len(others) - survive
    print(f"{len(rejected)} rejected, {survive} survive" + (f", {faults} cannot be applied" if faults else ""))
    return 1 if others else 0
