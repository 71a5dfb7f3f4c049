"""What the reference has a page for: each type, each trait, and each module of free functions, by the path that callers import."""
import re
from dataclasses import dataclass, field
from functools import cache

import calls
from items import Item
from made import head_lines, module_file, modules_of
from sources import bare
from uses import head_of, inside, simple

# The name of a type on whose page its calls are, because callers have that name.
SHOWN_AT = {"Text": "AsciiString"}
# The types that most callers need, in the order of their use.
MAIN = ["AsciiStr", "AsciiString", "AsciiChar", "LineReader", "LineWriter", "AsciiStrMut", "SmallAsciiString"]


@dataclass
class Impl:
    """An `impl` of a trait, with its calls."""
    of_trait: str
    item: Item
    crate: str
    calls: list


@dataclass
class Owner:
    """A page of the reference."""
    kind: str  # struct, enum, trait, type or module
    path: str  # by which callers import it
    crate: str
    module: tuple  # the module of the source; of a module its own path
    item: Item = None
    other_paths: list = field(default_factory=list)
    calls: list = field(default_factory=list)
    impls: list = field(default_factory=list)

    @property
    def name(self):
        return self.path.rpartition("::")[2]

    @property
    def page(self):
        return f"{self.path.replace('::', '.')}{'.module' if self.kind == 'module' else ''}.html"

    @property
    def docs(self):
        return head_lines(module_file(self.crate, self.module)) if self.kind == "module" else self.item.docs

    @property
    def target(self):
        """The type that an alias names."""
        return bare(self.item.head.rpartition(" = ")[2]) if self.kind == "type" else ""

    def groups(self):
        """Its calls by the groups of its crate: pairs of a heading and calls."""
        order = [heading for crate in calls.SHOWN for heading in calls.headings(crate)]
        found = {}
        for call in sorted(self.calls, key=lambda it: order.index(it.heading)):
            found.setdefault(call.heading or "Functions", []).append(call)
        return list(found.items())


@cache
def owners():
    """All pages, by the path of each: types and traits, and then modules."""
    found, paths = {}, calls.paths_of_items()
    for crate in calls.SHOWN:
        for module, items in modules_of(crate).items():
            for item in items:
                if item.kind in ("struct", "enum", "trait", "type") and id(item) in paths:
                    first, *others = paths[id(item)]
                    found[first] = Owner(item.kind, first, crate, module, item, others)
    types = {owner.name: owner for owner in reversed(found.values())}
    for path, crate, module in modules(found):
        found[f"{path}::"] = Owner("module", path, crate, module)
    for call in calls.table():
        give_call(call, found, types, paths)
    for crate in calls.SHOWN:
        give_impls(crate, types)
    return found


@cache
def by_name():
    """The types and traits by their names."""
    return {owner.name: owner for owner in reversed(owners().values()) if owner.kind != "module"}


def modules(types):
    """The path, the crate and the source of each module that callers name: crates, and those of functions and types."""
    paths = calls.paths_of_items()
    functions = [paths[id(it.item)][0] for it in calls.table_without_names() if not it.block and id(it.item) in paths]
    used = {path.rpartition("::")[0] for path in [*types, *functions]}
    for crate in calls.SHOWN:
        for module in modules_of(crate):
            names = calls.paths_by("::".join([crate, *module]))
            best = [name for name in names if name in used] or ([crate] if not module else [])
            if best:
                yield best[-1], crate, module


def give_call(call, found, types, paths):
    """Gives a call to the page of its type, its trait or its module."""
    if not call.block and id(call.item) in paths:
        found[f"{paths[id(call.item)][0].rpartition('::')[0]}::"].calls.append(call)
    elif call.block and (call.block.kind == "trait" or not call.of_trait):
        types[SHOWN_AT.get(call.owner, call.owner)].calls.append(call)


def give_impls(crate, types):
    """Gives each `impl` of a trait to the page of its type; that for a type of std to a type that its trait names."""
    rows = {}
    for call in calls.table():
        rows.setdefault(id(call.block), []).append(call)
    for entry, _ in calls.entries(crate):
        of_trait, separator, of_type = entry.key.rpartition(" for ")
        if separator:
            names = [*re.findall(r"\w+", of_type), *re.findall(r"\w+", of_trait)[1:], *re.findall(r"\w+", of_trait)]
            owner = next((types[SHOWN_AT.get(name, name)] for name in names if name in types), None)
            if owner:
                owner.impls.append(Impl(of_trait, entry.item, crate, rows.get(id(entry.item), [])))


# Where a call is

def result_of(call):
    return call.item.head.rpartition(") -> ")[2] if ") -> " in call.item.head else ""


def error_of(call):
    """The error that a call returns, by the name of its type."""
    result = simple(result_of(call).partition(" where ")[0])
    found = head_of(inside(result, 1)) if head_of(result) == "Result" else ""
    return {"Self": call.owner, "B": "Refusal", "Refusal": "Refusal"}.get(found, found)


def page_with(call):
    """The page that has a call."""
    if call.block and (call.block.kind == "trait" or not call.of_trait):
        return by_name().get(SHOWN_AT.get(call.owner, call.owner))
    if not call.block:
        return owners()[f"{calls.paths_of_items()[id(call.item)][0].rpartition('::')[0]}::"]
    return None


def url_of(call):
    """Where a call is, unless it is in an `impl` of a trait."""
    page = page_with(call)
    return f"{page.page}#{call.name}" if page else ""


def short_key(call):
    page = page_with(call)
    return f"{page.name}::{call.name}" if page else call.key
