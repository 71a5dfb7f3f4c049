"""Tries mutants of crates, and counts how many the contracts reject. Changes the bodies of functions by operators, checks
each changed body over the libraries as `rt ci` or `rt lib` built them, and reports by crate and by operator how many the prover
rejected, how many only a proof by hand rejected, how many did not compile, and which survived. The verdicts are kept in
verdicts/CRATE.tsv: a run that was stopped can be continued, and after a change only the mutants of functions whose text changed
are tried. After a change of a definition, remove the file. Status 1: a mutant survived that survivors.txt does not list."""
import collections
import re
import sys
import tempfile
import time
from pathlib import Path

import libraries
from mutation import JUDGED, KINDS, Crate, in_turn
from planting import copied
from run import Run
from verdicts import Verdicts


def try_crate(settings, scratch, name, given):
    """Tries mutants of a crate until the time is over. Returns whether the crate is proved as it is."""
    crate = Crate(scratch / "copy", name, settings)
    verdicts = Verdicts(crate, settings.data / "verdicts")
    end = time.monotonic() + 60 * given.minutes
    mutants = [m for m in matching(crate, given.only) if not verdicts.has(m)]
    if not crate.begin(scratch):
        print(f"mutants: {name} is not proved as it is", file=sys.stderr)
        return False
    run = Run(crate, verdicts, in_turn(mutants, given.seed), given.most)
    there_was_one = True
    while there_was_one and time.monotonic() < end:
        there_was_one = run.beside()
        if time.monotonic() < end:
            there_was_one = run.in_place() or there_was_one
    return True


def matching(crate, only):
    return [m for m in crate.mutants() if re.search(only, f"{m.function.file} {m.function.block} {m.function.name}")]


def expected(settings):
    """The survivors that are expected: lines of CRATE, FILE, FUNCTION and CHANGE, separated by tabs; the reason follows."""
    return {tuple(line.split("\t")[:4]) for line in settings.lines("survivors.txt")}


def verdicts_of(settings, name):
    """The verdicts on the mutants of a crate as it is."""
    return Verdicts(Crate(settings.root, name, settings), settings.data / "verdicts")


def name_of(mutant):
    """What names a mutant in the list of survivors: its change without the number of the line."""
    return mutant.function.file, mutant.function.name, mutant.shown.partition(": ")[2]


def table(title, rows):
    """Prints how many mutants have each kind, by crate or operator: pairs of that and a kind."""
    by = collections.defaultdict(collections.Counter)
    for name, kind in rows:
        by[name][kind] += 1
        by["all"][kind] += 1
    print(f"{title:14}" + "".join(f"{kind:>10}" for kind in KINDS))
    for name, kinds in sorted(by.items(), key=lambda it: (it[0] == "all", it[0])):
        print(f"{name:14}" + "".join(f"{kinds[kind]:10}" for kind in KINDS))


def by_hand(verdicts):
    """The mutants that only a proof by hand rejects: those of public functions, and the others."""
    found = verdicts.mutants(("answer", "misfit"))
    return [m for m in found if verdicts.crate.is_public(m.function)], [m for m in found if not verdicts.crate.is_public(m.function)]


def print_counts(name, verdicts):
    """Prints how many mutants of the functions of a crate were judged."""
    judged, made = verdicts.count(), len(verdicts.crate.mutants())
    few = sum(1 for f in verdicts.functions if judged[f] < 3)
    print(f"{name}: {len(verdicts.functions)} functions, {few} with fewer than three judged mutants; {made} mutants, "
          f"{made - len(verdicts.tried())} not tried; {len(by_hand(verdicts)[0])} of public functions rejected only by a "
          f"proof by hand")  # fmt: skip


def report(settings, names):
    """Prints the counts, and returns whether each survivor is expected."""
    crates, operators, listed, new = [], [], expected(settings), []
    for name in names:
        verdicts = verdicts_of(settings, name)
        crates += [(name, kind) for _, kind in verdicts.tried()]
        operators += verdicts.tried()
        print_counts(name, verdicts)
        new += [(name, m) for m in verdicts.mutants(("survived",)) if (name, *name_of(m)) not in listed]
    table("crate", crates)
    table("operator", operators)
    for name, m in new:
        print(f"survived: {line_of(name, m)}")
    print(f"{sum(kind in JUDGED for _, kind in crates)} judged, {len(new)} survivors that are not in survivors.txt")
    return not new


def line_of(name, mutant):
    return f"{name} {mutant.function.file} {mutant.function.name}, {mutant.operator}, {mutant.shown}"


def print_lists(settings, names, given):
    """Prints the mutants, or those that only a proof by hand rejects, and tries none."""
    for name in names:
        if given.list:
            for m in matching(Crate(settings.root, name, settings), given.only):
                print(line_of(name, m))
            continue
        for title, mutants in zip(("public", "private"), by_hand(verdicts_of(settings, name))):
            for m in mutants:
                print(f"{title}: {line_of(name, m)}")


def arguments(asks):
    asks.add_argument("crates", nargs="*", metavar="CRATE", help="default: the crates of settings.txt")
    asks.add_argument("--minutes", type=float, default=60, help="how long to try mutants of each crate (60)")
    asks.add_argument("--seed", type=int, default=1, help="the seed of the random order (1)")
    asks.add_argument("--only", default="", metavar="WORD", help="functions whose file, type or name matches an expression")
    asks.add_argument("--most", type=int, default=12, help="how many mutants of a function are judged at most (12)")
    asks.add_argument("--list", action="store_true", help="print the mutants, and try none")
    asks.add_argument("--report", action="store_true", help="print the counts so far, and try none")
    asks.add_argument("--by-hand", action="store_true", help="print those that only a proof by hand rejects, and try none")


def run(settings, given):
    libraries.ROOT = str(settings.root)
    names = given.crates or settings.crates
    if given.list or given.by_hand:
        print_lists(settings, names, given)
        return 0
    if not given.report:
        with tempfile.TemporaryDirectory(prefix="mutants-") as scratch:
            copied(settings.root, Path(scratch) / "copy", False)
            if not all([try_crate(settings, Path(scratch), name, given) for name in names]):
                return 70
    return 0 if report(settings, names) else 1
