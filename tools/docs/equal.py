"""Finds public calls that do the same: they are on one page, take and return the same types, and have the same clauses.

equal.txt has each pair, and says whose name the second call has. A fault is a pair that it lacks, and a pair of it that is none."""
import re
from functools import cache
from pathlib import Path

from owners import owners
from sources import read

LIST = Path(__file__).with_name("equal.txt")


@cache
def listed():
    """The pairs: the page, the two names, and whose name the second is; nothing if only their contracts are equal."""
    lines = [line.partition(" |") for line in read(LIST).splitlines() if line and line[0] != "#"]
    return [(*names.split(), whose.strip()) for names, _, whose in lines]


def shape(call):
    """What a call takes, returns, requires and ensures, in which a reference is the value that it leads to."""
    values = lambda text: re.sub(r"\.(now|entry)\b", "", " ".join(text.split()))  # noqa: E731
    head = re.sub(r"^pub |&(?=self)", "", call.item.head).replace(f"fn {call.name}", "fn", 1)
    return head, tuple(values(text) for _, text in call.item.clauses)


def pairs(owner):
    """The calls of a page that do the same, by their names."""
    by_shape = {}
    for call in owner.calls:
        if call.item.clauses:
            by_shape.setdefault(shape(call), []).append(call.name)
    return {tuple(names) for names in by_shape.values() if len(names) > 1}


def line(owner, name):
    """What the page says of a call to which another one is equal, in Markdown."""
    for path, first, second, whose in (it for it in listed() if it[0] == owner.path and it[3]):
        if name == first:
            return f"Equal to [`{second}`](#{second}), which has the name {whose}."
        if name == second:
            return f"The name {whose}. Equal to [`{first}`](#{first})."
    return ""


def faults():
    found = {(owner.path, *names) for owner in owners().values() for names in pairs(owner)}
    known = {it[:3] for it in listed()}
    lacking = [f"tools/docs/equal.txt: {' '.join(it)}: two equal calls: add them, and whose name the second has" for it in sorted(found - known)]
    return [*lacking, *(f"tools/docs/equal.txt: {' '.join(it)}: not two equal calls of one page" for it in sorted(known - found))]
