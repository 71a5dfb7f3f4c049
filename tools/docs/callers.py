"""What callers see of each library: every public item, with its contracts, quoted from the crate's src/, in groups.

The groups of a crate are in groups/NAME.md: a heading, a paragraph, and a line `@calls KEY, KEY..` with the keys of items that no
line before took; `*` in a key is any text. The key of an item is its path (`bytes::as_ascii_str`), that of a method is
`AsciiStr::len`, and that of an impl of a trait `Clone for AsciiString`.

A fault is a public call that has neither a clause nor a ghost member that says what it returns, nor a reason below; an item that
is in no group; and a key that fits no item."""
import re
import textwrap
from dataclasses import dataclass, field
from functools import cache
from pathlib import Path

from definitions import re_exports
from items import Item, Wrong
from made import LIBRARIES, PROOFS, first_sentence, modules_of
from sources import exported, impl_name, read, without_braces

GROUPS = Path(__file__).resolve().parent / "groups"

# The calls with neither a clause nor a ghost member, and the reason of each.
SAID_ELSEWHERE = {
    ("ascii", "ExactSizeIterator for Chars::len"): "std's trait says it: the size of `remaining`",
    ("ascii", "Debug for AsAsciiStrError::fmt"): "std's trait promises no text where the impl names none",
    ("ascii", "Debug for FromAsciiError::fmt"): "std's trait promises no text where the impl names none",
    ("ascii_base", "Serialize for AsciiChar::serialize"): "serde's trait says it: `writes` of `Described`",
    ("ascii", "Serialize for AsciiStr::serialize"): "serde's trait says it: `writes` of `Described`",
    ("ascii", "Serialize for Text::serialize"): "serde's trait says it: `writes` of `Described`",
}

# The ghost members that say what a call gives under a name of their own.
GIVEN_BY = {"as_str": "text", "as_slice": "items", "as_byte_slice": "bytes"}

# The traits that a type may derive: the language gives a derived call its contract, out of the fields.
DERIVED = {"Clone", "Copy", "Debug", "Drop", "Eq", "Hash", "Ord", "PartialEq", "PartialOrd"}

@dataclass
class Entry:
    """What callers see of one item: what a group calls it, and the items whose text they read."""
    key: str
    quoted: list
    unsaid: list = field(default_factory=list)  # the calls that have neither a clause nor a ghost member
    docs: list = field(default_factory=list)  # the documentation of the item, or of the block
    item: Item = None  # the item itself


def entries_of(crate, modules):
    """What callers see of a crate, in the order of the sources."""
    paths = {}
    for path, item in exported(modules):
        if item and (id(item) not in paths or len(path) < len(paths[id(item)])):
            paths[id(item)] = path
    items = [item for path in modules for item in modules[path]]
    hidden = hidden_types(modules)
    own_traits = traits_with_pages()
    entries = []
    for item in items:
        if id(item) in paths:
            entries.append(entry_of_named(paths[id(item)], item, items))
        elif item.kind == "impl":
            entries += entries_of_impl(item, hidden, own_traits)
    return entries


@cache
def traits_with_pages():
    """The names of the traits of the crates that have a page, which says their calls."""
    items = (item for crate in LIBRARIES for module in modules_of(crate).values() for item in module)
    return {item.name for item in items if item.kind == "trait"}


def hidden_types(modules):
    """The names of the types and traits of a crate that another crate cannot name."""
    named = {item.name for _, item in exported(modules) if item}
    items = (item for path in modules for item in modules[path])
    return {item.name for item in items if item.kind in ("struct", "enum", "trait")} - named


def entry_of_named(path, item, items):
    """The entry of an item that has a path of its own."""
    if item.kind == "fn":
        return Entry(path, [item], calls_of(path, [item]), item.docs, item)
    if item.kind == "trait":
        return Entry(path, item.inner, calls_of(path, [i for i in item.inner if i.kind == "fn"]), item.docs, item)
    models = [i for i in items if i.kind == "impl" and impl_name(i) == ("Model", item.name)]
    return type_entry(path, item, models)


def type_entry(path, item, models):
    """What callers see of a struct or an enum, with what a value of it is to a clause."""
    unknown = set(item.derives) - DERIVED
    if unknown:
        raise Wrong(f"{path} derives {', '.join(sorted(unknown))}, whose calls no clause is known to say")
    members = model_members(item, models)
    shown = [f for f in item.inner if not (f.head.startswith("ghost ") and names_private(f, item))]
    return Entry(path, shown + members, docs=item.docs, item=item)


def field_lines(item):
    """The fields of a struct that a caller or a clause can name, or the variants of an enum."""
    plain = [f.head.replace(" ", "\0") for f in item.inner if not f.docs] if item.kind == "enum" else []
    lines = [f"    {line}".replace("\0", " ") for line in textwrap.wrap(", ".join(plain), 100)]
    for f in item.inner:
        if f.head.startswith("ghost "):
            if not names_private(f, item):
                lines.append(f"    {without_braces(f.head)}")
        elif f.public or f.docs and item.kind == "enum":
            lines += [f"    {line}" for line in doc_line(f) + [f.head]]
    return lines


def model_members(item, models):
    """What models of a struct or an enum say of its values, without invariants that name private fields."""
    private = {it.name for it in item.inner if not it.public and not it.head.startswith("ghost ")} if item.kind == "struct" else set()
    members = [it for model in models for it in ghosts_of(model) if it.name != "view"]
    return [it for it in members if it.name != "invariant" or not private & set(re.findall(r"\.(\w+)", it.head))]


def names_private(member, item):
    """Whether a ghost field of a struct names a field that is not public."""
    private = {re.match(r"(?:pub\(\w+\) )?(\w*)", f.head)[1] for f in item.inner if not f.public}
    return bool(private & set(re.findall(r"\w+", member.head)[2:]))


def entries_of_impl(item, hidden, own_traits):
    """The calls of an impl block: those of a type one by one, those of a trait together."""
    of_trait, of_type = impl_name(item)
    if hidden & set(re.findall(r"\w+", f"{of_trait} {of_type}")) or of_trait in ("Model", "Drop"):
        return []
    if not of_trait:
        calls = [(f"{of_type}::{i.name}", i) for i in item.inner if i.public]
        if any(i.kind != "fn" for _, i in calls):
            raise Wrong(f"a public item of {of_type} that no page quotes, because it is not a call")
        return [Entry(path, [i], calls_of(path, [i]), i.docs, i) for path, i in calls]
    key = f"{of_trait} for {of_type}"
    if re.sub(r"<.*", "", of_trait) in own_traits:  # the trait's own entry says each call that has no clause here
        inner = [i for i in item.inner if i.kind != "fn" or i.clauses]
    else:
        inner = item.inner
    quoted = ghosts_of(item) + [i for i in inner if i.kind == "fn"]
    return [Entry(key, quoted, calls_of(key, inner), item.docs, item)]


def ghosts_of(item):
    return [i for i in item.inner if i.kind == "ghost" and (i.name not in PROOFS or item.kind == "trait")]


def tells(ghost, call):
    """Whether a ghost member of a trait's impl says what a call of it gives."""
    return (ghost == call or ghost.startswith(call + "_") or ghost == f"is_{call}"
            or call == "fmt" and ghost in ("output", "debug_output") or GIVEN_BY.get(call) == ghost)


def calls_of(key, items):
    """The calls among items of one block that have neither a clause nor a ghost member."""
    ghosts = [i.name for i in items if i.kind == "ghost" and i.name not in PROOFS]
    bare_calls = [i.name for i in items if i.kind == "fn" and not i.clauses]
    names = [call for call in bare_calls if not any(tells(ghost, call) for ghost in ghosts)]
    return [key if key.endswith(f"::{call}") or key == call else f"{key}::{call}" for call in names]


def check_said(crate, entries):
    """Each call has a clause, a ghost member, or a reason why not."""
    unsaid = {name for entry in entries for name in entry.unsaid}
    reasons = {name for of_crate, name in SAID_ELSEWHERE if of_crate == crate}
    if unsaid - reasons:
        raise Wrong(f"neither a clause nor a ghost member beside: {', '.join(sorted(unsaid - reasons))}")
    if reasons - unsaid:
        raise Wrong(f"no such call, or one that needs no reason: {', '.join(sorted(reasons - unsaid))}")


def doc_line(item):
    """The first sentence of an item's documentation, as comment lines."""
    return [f"/// {line}" for line in textwrap.wrap(first_sentence(item.docs), 100, break_on_hyphens=False)]


def named_for(crate):
    """The crate that a caller of a crate names: `ascii` has all of `ascii_base`."""
    return "ascii" if crate == "ascii_base" else crate


def for_callers(path, crate):
    """The path by which a caller of a crate imports a definition, which the crate, or the one that a caller names for its owner,
    may re-export."""
    owner, *rest = path.split(".")[1:]
    for named in (named_for(crate), named_for(owner)):
        if rest[0] == "specs" and (named, rest[1]) in re_exports():
            return ".".join(["Rattle", named, *rest])
    return path


def take(patterns, left):
    """The entries whose keys fit the patterns, which are taken from those that are left."""
    group = []
    for pattern in patterns:
        fits = re.compile(re.escape(pattern).replace(r"\*", ".*"))
        taken = [entry for entry in left if fits.fullmatch(entry.key)]
        if not taken:
            raise Wrong(f"the pattern `{pattern}` fits no item that is left")
        for entry in taken:
            left.remove(entry)
        group += taken
    return group


def groups_of(head, entries):
    """The groups of a page, in order: pairs of a heading and entries. Each entry is in one of them."""
    left, groups, heading = list(entries), [], ""
    for line in head:
        if line.startswith("### "):
            heading = line[len("### ") :]
        elif line.startswith("@calls "):
            groups.append((heading, take(line[len("@calls ") :].split(", "), left)))
    if left:
        raise Wrong("no group has " + ", ".join(entry.key for entry in left))
    return groups


def groups_file(crate):
    return GROUPS / f"{crate}.md"


def faults():
    """The faults of the groups, and the calls that say nothing."""
    found = []
    for crate in LIBRARIES:
        try:
            entries = entries_of(crate, modules_of(crate))
            check_said(crate, entries)
            groups_of(read(groups_file(crate)).splitlines(), entries)
        except (Wrong, OSError) as wrong:
            found.append(f"the groups of {crate}: {wrong}")
    return found
