"""Counts the definitions of this repository that the clauses of public functions reach.

A clause reaches each definition that it names, and each that the text of one of those names: this is what a reader of the
clause has to read. A name is what the `use` lines of its file bring. What std and the toolchain define is not counted, nor
what the toolchain makes from the types of a crate. Lines are counted without blanks and comments. A FUNCTION is
CRATE::NAME, with the module or the type before NAME if the crate has several of that name.

Without a FUNCTION, a fault is a function in reach.txt, in the folder of this file, that reaches more than its ceiling."""
from pathlib import Path

from definitions import Definitions
from items import Wrong
from sources import CRATES, impl_name, read, read_modules

CEILINGS = Path(__file__).resolve().parent / "reach.txt"


def public_functions(modules):
    """The public functions of the modules of a crate: pairs of a path and an item."""
    for path, items in modules.items():
        for item in items:
            if item.kind == "impl":
                owner, inner = [impl_name(item)[1]], [it for it in item.inner if it.public]
            elif item.kind == "trait":
                owner, inner = [item.name], item.inner if item.public else []
            else:
                owner, inner = [], [item] if item.public else []
            yield from (("::".join([*path, *owner, it.name]), it) for it in inner if it.kind == "fn")


def function(name, crates=CRATES):
    """The item of a function that is named as CRATE::NAME."""
    crate, _, ending = name.partition("::")
    if not (crates / crate / "src").is_dir():
        raise Wrong(f"{name}: no crate {crate}")
    functions = public_functions(read_modules(crate, crates))
    found = [(path, item) for path, item in functions if f"::{path}".endswith(f"::{ending}")]
    if len(found) != 1:
        several = f"one of {', '.join(path for path, _ in found)}" if found else "not a public function"
        raise Wrong(f"{name}: {several}")
    return found[0][1]


def reached(name, definitions, crates=CRATES):
    """The definitions that the clauses of a function reach."""
    item = function(name, crates)
    return definitions.reached(" ".join(text for _, text in item.clauses), item.words)


def count_of(name, found):
    return f"{name}: {len(found)} definitions, {sum(len(it.lines) for it in found)} lines"


def ceilings(text):
    """The ceilings that a text lists: pairs of a function and a number."""
    lines = [line for line in text.splitlines() if line and not line.startswith("#")]
    return [(name, int(ceiling)) for name, _, ceiling in (line.rpartition(": ") for line in lines)]


def above(listed, definitions, crates=CRATES):
    """The faults of functions that reach more than their ceilings."""
    faults = []
    for name, ceiling in listed:
        try:
            found = reached(name, definitions, crates)
        except Wrong as wrong:
            faults.append(f"{CEILINGS.name}: {wrong}")
            continue
        if len(found) > ceiling:
            more = f"more than its ceiling {ceiling}: bin/docs reach --list {name} shows them"
            faults.append(f"{count_of(name, found)}, {more}")
    return faults


def faults(names=(), shows_names=False):
    """Prints what functions reach; without one, compares those of the list with their ceilings. Returns the faults."""
    definitions = Definitions()
    if not names:
        return above(ceilings(read(CEILINGS)), definitions)
    wrong = []
    for name in names:
        try:
            found = reached(name, definitions)
        except Wrong as fault:
            wrong.append(str(fault))
            continue
        print(count_of(name, found))
        for it in found if shows_names else []:
            print(f"  {len(it.lines):4} {it.path}")
    return wrong
