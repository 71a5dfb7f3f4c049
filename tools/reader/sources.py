"""Reads the sources of the crates: the modules of a crate, and what another crate can name."""
import re
from pathlib import Path

from items import Wrong, read_items

CRATES = Path(__file__).resolve().parents[2] / "crates"


def read(file):
    return file.read_text(encoding="utf-8")


def without_braces(text):
    """A ghost member's type or value without the braces around each."""
    text = re.sub(r" by \{.*\}$", "", text)
    return re.sub(r"^(ghost [^{]*?)\{ (.*) \}$", r"\1\2", text).replace(" } = { ", " = ")


# The modules of a crate, and what another crate can name

def read_modules(crate, crates=CRATES):
    """The items of each module of a crate, by the module's path."""
    modules, waiting = {}, [()]
    root = "lib" if (crates / crate / "src/lib.rt").is_file() else "main"
    while waiting:
        path = waiting.pop()
        file = crates / crate / "src" / ("/".join(path or (root,)) + ".rt")
        modules[path] = read_items(read(file))
        give_words(modules[path], [])
        waiting += [path + (item.name,) for item in reversed(modules[path]) if item.kind == "mod" and item.opens < 0]
    give_aliases([item for items in modules.values() for item in items])
    return modules


def give_aliases(items):
    """Tells each impl of a type that has a public name of its own, as `type Split<'a> = Items<'a, AtChar>`, that name."""
    heads = (item.head.rpartition(" = ") for item in items if item.kind == "type" and item.public)
    names = {bare(of_type): bare(re.sub(r"^pub type ", "", name)) for name, _, of_type in heads}
    for item in items:
        if item.kind == "impl":
            item.alias = names.get(bare(of_trait_and_type(item)[1]), "")


def give_words(items, outer):
    """Tells each item which ghost uses are in scope at it."""
    uses = outer + [item.head for item in items if item.kind == "ghost use"]
    for item in items:
        item.words = uses
        give_words(item.inner, uses)


def used_paths(item):
    """The paths that a `pub use` names, as tuples."""
    front, _, names = re.sub(r"^pub use ", "", item.head).partition("{")
    if "*" in item.head or " as " in item.head or "{" in names:
        raise Wrong(f"a form of `use` that is not read: {item.head}")
    names = names.rstrip("} ,").split(",") if names else [""]
    return [tuple(p for p in (front + name.strip()).split("::") if p) for name in names]


def resolve(modules, here, path):
    """The module and the name that a path in a module stands for, or none of this crate."""
    if path[0] == "crate":
        whole = path[1:]
    elif here + path[:1] in modules:
        whole = here + path
    else:
        return None
    place, name = whole[:-1], whole[-1]
    for item in modules[place]:
        if item.kind == "use":
            for further in used_paths(item) if item.public else []:
                if further[-1] == name:
                    return resolve(modules, place, further)
    return place, name


def exported(modules, here=(), front=""):
    """What a module has for another crate: pairs of a path and an item, or of a path and none where
    the item is another crate's."""
    for item in modules[here]:
        if not item.public:
            continue
        if item.kind == "mod":
            yield from exported(modules, here + (item.name,), f"{front}{item.name}::")
        elif item.kind == "use":
            for path in used_paths(item):
                yield from exported_use(modules, here, front, path)
        elif item.kind in ("fn", "struct", "enum", "trait", "type", "const"):
            yield front + item.name, item
        else:
            raise Wrong(f"a public item of a kind that no page quotes: {item.head}")


def exported_use(modules, here, front, path):
    found = resolve(modules, here, path)
    if not found:
        yield "::".join(path), None
    elif found[0] + (found[1],) in modules:
        yield from exported(modules, found[0] + (found[1],), f"{front}{found[1]}::")
    else:
        for item in modules[found[0]]:
            if item.public and item.name == found[1]:
                yield front + item.name, item


def bare(name):
    """A type without lifetimes, as a key names it."""
    return re.sub(r"'\w+ ", "", re.sub(r"<'\w+(, )?", "<", name)).replace("<>", "").strip()


def of_trait_and_type(item):
    """The trait of an impl, or none, and its type, as they are written."""
    head = re.sub(r"^unsafe ", "", item.head)
    if head.startswith("impl<"):
        head = head[find_generics_end(head, 4):]
    of_trait, _, of_type = re.sub(r"^impl ", "", head).strip().partition(" where ")[0].rpartition(" for ")
    return of_trait, of_type


def impl_name(item):
    """The trait and the type of an impl: `Clone for AsciiString`, or the type alone, by its public alias if it has one."""
    of_trait, of_type = of_trait_and_type(item)
    of_type = re.sub(r"<.*", "", item.alias or bare(of_type))
    of_trait = re.sub(r"<(\w+)<.*>>", r"<\1>", bare(of_trait))
    return re.sub(r"^fmt::", "", of_trait), of_type


def find_generics_end(text, at):
    depth = 0
    for place in range(at, len(text)):
        depth += {"<": 1, ">": -1}.get(text[place], 0)
        if depth == 0:
            return place + 1
    raise Wrong(f"no end of the parameters: {text}")
