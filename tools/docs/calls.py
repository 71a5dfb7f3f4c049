"""The one table of the public calls: for each its file, its clauses, the tests and the mutations that name it, and its example."""
import re
from dataclasses import dataclass, field
from functools import cache

import callers
import uses
from functions import functions_of
from items import Item
from made import LIBRARIES, TOP, module_file, modules_of
from sources import CRATES, bare, exported, of_trait_and_type, read
from uses import head_of

# The crates in whose order a caller names what several of them have.
IMPORTED_FROM = ["ascii", "ascii_formats", "ascii_keys", "ascii_lines", "ascii_run", "ascii_devices", "ascii_base", "cookbook", "ascii_c"]
# The crates of which the site has each public call.
SHOWN = [*LIBRARIES, "cookbook", "ascii_c"]
USERS = ("cookbook", "tests_*", "exports", "example*", "ascii_show", "ascii_filter")


@dataclass
class Call:
    """A row of the table."""
    crate: str
    key: str  # as `AsciiStr::len` or `Display for AsciiStr::fmt`
    item: Item
    module: tuple
    heading: str  # of its group
    of_trait: str = ""  # the trait of the `impl` or of the trait itself
    owner: str = ""  # the type, or the trait, or nothing for a free function
    block: Item = None  # the `impl` or the trait around it
    tests: list = field(default_factory=list)  # the tests that name it, that of its example first
    users: list = field(default_factory=list)  # the proved functions of other crates that name it
    mutations: list = field(default_factory=list)  # those of its body, or of a private function that it calls

    @property
    def name(self):
        return self.item.name

    @property
    def file(self):
        return str(module_file(self.crate, self.module).relative_to(TOP))


@cache
def entries(crate):
    """What callers see of a crate, and the heading of each."""
    found = callers.entries_of(crate, modules_of(crate))
    head = callers.groups_file(crate)
    groups = callers.groups_of(read(head).splitlines(), found) if head.is_file() else [("", found)]
    headings = {id(entry): heading for heading, group in groups for entry in group}
    return sorted(((entry, headings[id(entry)]) for entry in found), key=lambda pair: list(headings).index(id(pair[0])))


@cache
def headings(crate):
    """The groups of a crate, in order."""
    return list(dict.fromkeys(heading for _, heading in sorted(entries(crate), key=order_of(crate))))


def order_of(crate):
    head = callers.groups_file(crate)
    lines = [line[len("### ") :] for line in read(head).splitlines() if line.startswith("### ")] if head.is_file() else [""]
    return lambda pair: lines.index(pair[1])


def calls_in(crate):
    """The rows of a crate, without what names them."""
    places = {id(item): path for path, items in modules_of(crate).items() for item in items}
    inner = {id(it): item for items in modules_of(crate).values() for item in items for it in item.inner}
    for entry, heading in entries(crate):
        item = entry.item
        block = inner.get(id(item)) if item.kind == "fn" else item
        module = places[id(block or item)]
        of_trait, owner = of_trait_and_owner(block, entry.key)
        for it in [item] if item.kind == "fn" else item.inner if item.kind in ("impl", "trait") else []:
            if it.kind == "fn":
                key = entry.key if it is item else f"{entry.key}::{it.name}"
                yield Call(crate, key, it, module, heading, of_trait, owner, block)


def of_trait_and_owner(block, key):
    """The trait and the type of a block, by their names."""
    if not block:
        return "", ""
    if block.kind == "trait":
        return block.name, block.name
    of_trait, of_type = key.rpartition(" for ")[::2] if " for " in key else ("", key.rpartition("::")[0])
    return of_trait, re.sub(r"^[&*]*", "", of_type)


@cache
def re_exports():
    """What crates re-export of others: pairs of the path of a name and its new path, that of the first crate first."""
    found = [(crate, path) for crate in SHOWN for path, item in exported(modules_of(crate)) if not item]
    pairs = [(path, f"{crate}::{path.rpartition('::')[2]}") for crate, path in found]
    return sorted(pairs, key=lambda pair: IMPORTED_FROM.index(pair[1].partition("::")[0]))


def paths_by(path):
    """All paths for what has a path: itself and those by which crates re-export it."""
    return [path, *(new + path[len(old) :] for old, new in re_exports() if f"{path}::".startswith(f"{old}::"))]


@cache
def paths_of_items():
    """The paths by which callers may import each item, the best one first, by the item's identity."""
    found = {}
    for crate in SHOWN:
        for path, item in exported(modules_of(crate)):
            if item:
                found.setdefault(id(item), []).extend(paths_by(f"{crate}::{path}"))
    order = lambda path: (IMPORTED_FROM.index(path.partition("::")[0]), path.count("::"))  # noqa: E731
    return {key: sorted(dict.fromkeys(paths), key=order) for key, paths in found.items()}


@cache
def known():
    """What `uses` has to know of the libraries."""
    found, paths = uses.Known(), paths_of_items()
    for call in table_without_names():
        result = uses.simple(call.item.head.partition(") -> ")[2].partition(" where ")[0])
        result = re.sub(r"\bSelf\b", call.owner or "Self", result)
        if call.owner:
            found.methods.setdefault((call.owner, call.name), (call, result))
        for path in paths.get(id(call.item), []):
            found.functions[path] = (call, result)
    for crate in SHOWN:
        for item in (it for items in modules_of(crate).values() for it in items if it.kind in ("struct", "enum", "trait", "type")):
            found.types.update({path: item.name for path in paths.get(id(item), [])})
            if item.kind == "type":
                found.aliases[item.name] = bare(item.head.rpartition(" = ")[2])
    for of_trait, of_type in implemented():
        for call in (it for it in table_without_names() if it.owner == of_trait):
            found.methods.setdefault((of_type, call.name), found.methods[of_trait, call.name])
    return found


def implemented():
    """The traits of the libraries that types have, as pairs of their names."""
    items = [it for crate in SHOWN for items in modules_of(crate).values() for it in items]
    own = {it.name for it in items if it.kind == "trait"}
    pairs = [of_trait_and_type(it) for it in items if it.kind == "impl"]
    return {(of_trait, head_of(of_type)) for of_trait, of_type in pairs if of_trait in own}


@cache
def table_without_names():
    return [call for crate in SHOWN for call in calls_in(crate)]


@cache
def table():
    """All rows: each public call with what names it."""
    crates = uses.crates_of(*USERS)
    for crate in [*crates, "testing"]:
        known().read_helpers(crate)
    for crate in crates:
        is_test = crate == "exports" or (crate.startswith("tests_") and crate != "tests_callers")
        for function, calls in uses.named_in(known(), crate):
            for call in calls:
                names = call.tests if is_test else call.users
                names += [function] if function not in names else []
    for crate in SHOWN:
        for mutation in mutations(crate):
            for call in {id(it): it for old, _ in mutation.edits for it in changed(crate, mutation.file, old)}.values():
                call.mutations.append(mutation)
    return table_without_names()


# Mutations

@dataclass
class Mutation:
    """A mutation of a file of a crate: the texts that it changes, each with the new one."""
    name: str
    listed: str  # the file that lists it
    file: str = ""
    edits: list = field(default_factory=list)


def mutations(crate):
    """The mutations of a crate that were written by hand."""
    found = []
    of_crate = [file for it in ("must-fail", "mutations") for file in sorted((CRATES / crate / it).glob("*.edit"))]
    for file in [*of_crate, TOP / f"tools/mutants/edits/{crate}.edit"]:
        for line in read(file).splitlines() if file.is_file() else []:
            kind, _, rest = line.partition(" ")
            if kind == "#":
                found.append(Mutation(rest, str(file.relative_to(TOP))))
            elif kind == "file:":
                found[-1].file = rest
            elif kind == "old:":
                found[-1].edits.append((rest, ""))
            elif kind == "new:":
                found[-1].edits[-1] = (found[-1].edits[-1][0], rest)
    return [it for it in found if it.file]


@cache
def functions_in(file):
    return functions_of("", read(file))


def changed(crate, file, old):
    """The public calls whose body, or whose private function of the same file, has a text."""
    source = CRATES / crate / file
    if not source.is_file():
        return []
    text, at = read(source), read(source).find(old)
    here = [it for it in functions_in(source) if it.start <= at < it.end] if at >= 0 else []
    reached, waiting = {}, here
    while waiting:
        it = waiting.pop()
        if it.start not in reached:
            reached[it.start] = it
            waiting += callers_in(source, text, it) if not rows_of(crate, file, it) else []
    return [row for it in reached.values() for row in rows_of(crate, file, it)]


def callers_in(file, text, function):
    """The functions of a file that call a private one of it."""
    if function.in_trait:
        return []
    name = rf"\b(?:self|Self)(?:\.|::){function.name}\(" if function.block else rf"(?<![\w.:]){function.name}(?:::<[^>]*>)?\("
    same = [it for it in functions_in(file) if not function.block or it.owner == function.owner]
    return [it for it in same if it is not function and re.search(name, text[it.opens : it.end])]


def rows_of(crate, file, function):
    """The rows of a function of a file."""
    head = Item("impl", "", function.block)
    of_trait, of_type = of_trait_and_type(head) if function.block.startswith(("impl", "unsafe")) else ("", "")
    rows = [it for it in table_without_names() if it.crate == crate and it.name == function.name and it.file.endswith(f"/{file}")]
    return [it for it in rows if same_block(it, function, of_trait, of_type)]


def same_block(call, function, of_trait, of_type):
    if not function.block or not call.block:
        return not function.block and not call.block
    return " ".join(call.block.head.split()) == " ".join(re.sub(r"//[^\n]*", "", function.block).split()).removesuffix(",")
