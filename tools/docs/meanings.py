"""What the words of clauses mean: definitions of this repository, of std and of the toolchain's crates, types and constants."""
import re
from dataclasses import dataclass
from functools import cache
from pathlib import Path

import kit
from definitions import Definitions, used_words
from made import LIBRARIES, first_sentence, modules_of, parts_of
from owners import by_name, owners
from sources import read

# The words of std that have no comment there, or one that says too little by itself: a word and its meaning a line.
OWN_WORDS = Path(__file__).resolve().parent / "site" / "words.txt"
STD_PAGE = "words.std.html"
# The words of std that a page has asked for, by their anchors.
STD_WORDS = {}
WORD = re.compile(r"[^\s(){}\[\];,]+")


@dataclass(frozen=True)
class Meaning:
    word: str
    text: str  # in one sentence
    url: str
    file: str
    lines: tuple = ()  # the text of a definition that has no page of its own


@cache
def definitions():
    return Definitions()


@cache
def own_words():
    lines = [line for line in read(OWN_WORDS).splitlines() if line and not line.startswith("#")]
    return dict(line.split(": ", 1) for line in lines)


def page_of(module):
    """The page of a file of definitions."""
    return f"words.{module.removeprefix('Rattle.').replace('.specs', '', 1)}.html"


@cache
def meaning(module, name):
    """The meaning of a name that a `use` line brings from a module; none if nothing is known of it."""
    if found := definitions().named(module, name):
        file = f"crates/{found.module.removeprefix('Rattle.').replace('.', '/')}.antt"
        return Meaning(name, found.comment or own_words().get(name, ""), f"{page_of(found.module)}#{found.name}", file)
    declared = re.match(r"Rattle\.\w+\.specs\.declared\.([\w.]+)", module)
    if declared and not module.startswith("Rattle.std"):
        return declared_meaning(declared[1].split("."), name)
    return std_meaning(module, name) if not module.startswith("Rattle.ascii") and ".proofs." not in module else None


def declared_meaning(path, name):
    """The meaning of a type, a variant or a constant of a crate."""
    if path[-1] == "TheConstants":
        return constant_meaning(name)
    owner = next((by_name()[it] for it in reversed(path) if it in by_name()), None)
    if not owner:
        return None
    variant = next((it for it in owner.item.inner if owner.kind == "enum" and it.name == name), None)
    text = first_sentence(variant.docs if variant else owner.item.docs) or f"a variant of `{owner.name}`"
    return Meaning(name, text, f"{owner.page}#{f'variant.{name}' if variant else 'top'}", owner.path)


def constant_meaning(name):
    items = ((crate, path, it) for crate in LIBRARIES for path, items in modules_of(crate).items() for it in items)
    for crate, path, item in items:
        if item.kind == "const" and item.name == name:
            url = f"{source_page(crate, path)}#constant.{name}"
            return Meaning(name, first_sentence(item.docs) or "the ranges of a class", url, "::".join([crate, *path]))
    return None


def source_page(crate, path):
    return f"source.{'.'.join([crate, *parts_of(crate, path)])}.html"


def std_meaning(module, name):
    """The meaning of a word of std or of the toolchain's crates: its own comment, or ours."""
    found = kit.named(module, name)
    sign = name.strip("◌")
    text = own_words().get(sign) or (found[0].comment if found else "")
    file = found[1] if found else "built into the prover" if text else ""
    if not text and not found:
        return None
    return std_word(sign, text, file, tuple(found[0].lines[:12]) if found else ())


def std_word(sign, text, file, lines=()):
    """The meaning of a word of std, which has a place on the page of these words."""
    anchor = f"{Path(file).stem if lines else 'built-in'}.{sign}"
    STD_WORDS[anchor] = it = Meaning(sign, text, f"{STD_PAGE}#{anchor}", file, lines)
    return it


@cache
def scope(lines):
    """The meaning of each word that these `use` lines bring."""
    found = {}
    for path, names in map(used_words, lines):
        for word, written in names:
            it = meaning(path, (written or word).partition(" as ")[0])
            if it:
                found[word.strip("◌")] = it
    return found


@cache
def members():
    """The traits of the libraries that have each ghost member, by its name."""
    found = {}
    for owner in owners().values():
        for ghost in owner.item.inner if owner.kind == "trait" else []:
            if ghost.kind == "ghost":
                found.setdefault(ghost.name, []).append((owner, ghost))
    return found


def member(word, bounds):
    """The meaning of a member of a type parameter, as `B.sure`, or of a variant, as `End.Front`; none if the word is neither."""
    first, *names = word.split(".")
    if not names or not first[:1].isupper():
        return None
    if by_name().get(first, None) and by_name()[first].kind == "enum":
        return declared_meaning([first], names[0])
    if owner := by_name().get(names[0]) if len(names) == 1 else None:
        return Meaning(word, f"the type as a `{owner.name}`", f"{owner.page}#top", owner.path)
    own = members().get(names[-1], [])
    owner, ghost = next((it for it in own if re.search(rf"\b{it[0].name}\b", bounds)), own[0] if own else (None, None))
    if owner:
        return Meaning(word, " ".join(ghost.docs) or own_words().get(f".{names[-1]}", ""), f"{owner.page}#contract", owner.path)
    text = own_words().get(f".{names[-1]}")
    return std_word(names[-1], text, "a ghost member of a trait of std") if text else None


def words_in(text, lines, bounds=""):
    """The words of a text that have a meaning, in order: where a word is, itself and its meaning. `bounds` has the bounds of the
    type parameters that it names."""
    known = scope(tuple(lines or ()))
    for found in WORD.finditer(text):
        word = found[0]
        head = word.partition(".")[0]
        it = known.get(word) or member(word, bounds)
        if it:
            yield found.start(), word, it
        elif head in known:
            yield found.start(), head, known[head]
