"""Makes docs/reference/: the reference in Markdown, with a page for each type and trait that has calls and for each module.

A page has the `use` lines of its examples; and each call with its contract, its documentation, its example, and what the words of
its contract mean, each with the module that imports it. A type without calls is on the page of its module."""
import re
import textwrap
from collections import Counter
from functools import cache

import callers
import equal
import examples
import sentences
from definitions import used_words
from items import Wrong
from made import LIBRARIES, TOP, first_sentence, modules_of, settle, wants
from meanings import words_in
from owners import MAIN, SHOWN_AT, owners
from reference import documentation
from sources import impl_name, read, without_braces

FOLDER = TOP / "docs/reference"
MADE = "<!-- Made by `bin/docs reference` from the sources. -->"
WIDE = 118
# A page with this many calls begins with their names.
MANY = 8
# What nearly every clause names: CONTRACTS explains them.
USUAL = {"text_of", "code_of", "code_text", "mut_text_of"}
# Of the page that is being made: the `use` lines of its examples, the words that its group has explained, and those of its clauses.
USED, EXPLAINED, IMPORTED = set(), set(), {}
# Of all pages: the `use` lines of each example, by its lines.
PRINTED = {}
LINK = re.compile(r"\]\((?![a-z]+:)([^)#\s]*)#?([^)\s]*)\)")
CODE = re.compile(r"^```.*?^```$", re.M | re.S)
# What only those name who implement a trait of the library, or who write a class, a buffer or an iterator.
FOR_IMPLEMENTORS = re.compile(r"(\w+Ranges|At\w+|Cut|CutBack|Backwards|\w*Buffer|Inline|Array|ClassBy|Searched|ByRanges|Kept|Number|Notation|Carets"
                              r"|Escapes|Written|Channel)$")


def shown():
    """The types, traits and modules of the libraries."""
    return [it for it in owners().values() if it.path.partition("::")[0] in LIBRARIES]


def has_page(owner):
    return owner.kind == "module" or bool(owner.calls) or owner.name in SHOWN_AT.values()


def file_of(owner):
    """The file of the page that has an owner: its own, or that of its module."""
    home = owner if has_page(owner) else owners().get(f"{owner.path.rpartition('::')[0]}::")
    return re.sub(r"html$", "md", home.page)


def anchor_of(text):
    """The anchor of a heading, as forges make it."""
    return re.sub(r"[^\w\- ]", "", text.lower()).replace(" ", "-")


def link_to(owner):
    place = "" if has_page(owner) else f"#{anchor_of(owner.name)}"
    return f"[`{owner.name}`]({file_of(owner)}{place})"


# The parts of a page

def fenced(paragraphs):
    """The paragraphs of a documentation, in which examples are blocks of Rust."""
    for paragraph in paragraphs:
        if paragraph.startswith("    "):
            yield "\n".join(["```rust", *(line[4:] for line in paragraph.splitlines()), "```"])
        else:
            yield "\n".join(textwrap.wrap(" ".join(paragraph.split()), WIDE, break_on_hyphens=False)) if is_prose(paragraph) else paragraph


def is_prose(paragraph):
    return not re.search(r"^(- |\| |\d+\. )", paragraph, re.M)


def docs_lines(docs, owner, of_trait=""):
    """The lines of a documentation, without signposts to other modules."""
    paragraphs = [it for it in "\n".join(docs).split("\n\n") if it.strip() and not it.startswith("Made by ")]
    code = [line for it in paragraphs if it.startswith("    ") for line in it.splitlines()]
    uses = examples.use_lines(code, owner.path.partition("::")[0], f"{owner.name} {of_trait}")
    USED.update(uses)
    if PRINTED.setdefault(tuple(line.strip().rstrip(";") for line in code), uses) != uses:
        raise Wrong(f"{owner.path}: two pages have an example with different `use` lines")
    lines = [line for paragraph in fenced(paragraphs) for line in [*paragraph.splitlines(), ""]]
    return [line for line, after in zip(lines, [*lines[1:], ""]) if line or not after.startswith("```rust")]


def joined(uses):
    """`use` lines, those of one module joined."""
    names = {}
    for line in uses:
        module, _, last = line.removeprefix("use ").rstrip(";").rpartition("::" if "{" not in line else "::{")
        names.setdefault(module, set()).update(re.findall(r"\w+", last))
    twice = [it for it, count in Counter(it for found in names.values() for it in found).items() if count > 1]
    if twice:
        raise Wrong(f"the examples of one page import {', '.join(twice)} from two modules")
    for module, found in sorted(names.items()):
        yield f"use {module}::{min(found)};" if len(found) == 1 else f"use {module}::{{{', '.join(sorted(found))}}};"


def used_lines():
    """The `use` lines of the examples of a page, and what leads to them."""
    lines = list(joined(USED))
    return (" Its examples need these lines; `alloc` is an allocator, such as `rt.alloc()`:", block(lines)) if lines else ("", [])


def about_group(heading):
    """The paragraph of a group."""
    for crate in LIBRARIES:
        found = re.search(rf"^### {re.escape(heading)}\n\n(.*?)\n*^@calls", read(callers.groups_file(crate)), re.M | re.S)
        if found:
            return [*found[1].splitlines(), ""] if found[1] else []
    return []


def contents(owner):
    """The calls of a page by their groups, with links, if there are many."""
    links = lambda group: ", ".join(f"[`{it.name}`](#{it.name})" for it in group)  # noqa: E731
    return [*(f"- {heading}: {links(group)}" for heading, group in owner.groups()), ""] if len(owner.calls) >= MANY else []


def clause_lines(clauses):
    """Clauses, each with its label, broken where they are long."""
    for label, text in clauses:
        yield from textwrap.wrap(f"{label}: {' '.join(text.split())}", WIDE, initial_indent="    ", subsequent_indent="        ",
                                 break_long_words=False, break_on_hyphens=False)


def meaning_lines(texts, words, crate, bounds=""):
    """What the words of clauses mean that the group has not explained, and the module that imports each."""
    found = {word: it for text in texts for _, word, it in words_in(text, words, bounds)
             if it.file.startswith("crates/") and it.text and word not in USUAL | EXPLAINED}
    EXPLAINED.update(found)
    for word, it in found.items():
        yield f"- `{word}`, of {module_link(it.file, crate)}: {it.text}"


def module_link(file, crate):
    """The module that imports the definitions of a file, with a link to the file."""
    module = "Rattle." + file.removeprefix("crates/").removesuffix(".antt").replace("/", ".")
    return f"[`{callers.for_callers(module, crate)}`](../../{file})"


def note_words(texts, words, bounds=""):
    """Notes the words of clauses that a sentence says, for the end of the page."""
    found = {word: it for text in texts for _, word, it in words_in(text, words, bounds)}
    for word, it in found.items():
        if it.file.startswith("crates/") and word not in USUAL:
            IMPORTED.setdefault(it.file, {})[word] = it
    for module, names in map(used_words, words or ()):
        if module.startswith("Rattle.std."):
            IMPORTED.setdefault(module, {}).update({it: None for it, _ in names if it.isidentifier() and it in found})


def imported_lines(crate):
    """The words of the clauses of a page, by the modules that import them: those of this repository, then those of std."""
    of_std = lambda place: place.startswith("Rattle.")  # noqa: E731
    named = {place: ", ".join(f"`{word}`" for word in words) for place, words in IMPORTED.items() if words}
    lines = [f"- {f'`{it}`' if of_std(it) else module_link(it, crate)}: {named[it]}" for it in sorted(named, key=of_std)]
    return ["## Modules of the words of the clauses", "", *lines, ""] if lines else []


def block(lines):
    return ["```rust", *lines, "```", ""]


def call_lines(call, owner):
    """A call: what is proved of it in words, its head and its contract, and its documentation."""
    docs, _ = documentation(call)
    bounds = f"{call.item.head} {call.block.head if call.block else ''}"
    note_words([text for _, text in call.item.clauses], call.item.words, bounds)
    docs = sentences.without_conditions(docs, call.item.clauses)
    code = block([re.sub(r"^pub ", "", call.item.head), *clause_lines(call.item.clauses)])
    return [f"### `{call.name}`", *said_lines(call), *code, *docs_lines(docs, owner, call.of_trait), *equal_lines(owner, call)]


def equal_lines(owner, call):
    said = equal.line(owner, call.name)
    return [said, ""] if said else []


def said_lines(call, name=""):
    """What a call requires and ensures, in words."""
    said = sentences.of_call(call.item.clauses)
    return [*f"{name}{said}".splitlines(), *([""] if "\n" in said else [])] if said else []


def type_lines(owner):
    """What a type or a trait is: its declaration, its parts, and what a contract sees of its values."""
    item = owner.item
    blocks = [it for items in modules_of(owner.crate).values() for it in items if it.kind == "impl"]
    models = [it for it in blocks if impl_name(it) == ("Model", item.name)]
    ghosts = callers.model_members(item, models)
    ghosts += callers.ghosts_of(item) if owner.kind == "trait" else []
    derives = [f"#[derive({', '.join(item.derives)})]"] if item.derives else []
    inner = callers.field_lines(item) if owner.kind in ("struct", "enum") else []
    seen = [line for it in ghosts for line in [*(f"    // {doc}" for doc in it.docs), f"    {without_braces(it.head)}"]]
    meanings = list(meaning_lines([without_braces(it.head) for it in ghosts], ghosts[0].words if ghosts else [], owner.crate))
    return [*block([*derives, re.sub(r"^pub ", "", item.head), *inner, *seen]), *docs_lines(item.docs, owner), *meanings,
            *([""] if meanings else [])]


def impl_lines(impl, owner):
    """An `impl` of a trait: what it says of itself, and its calls with their clauses."""
    ghosts = callers.ghosts_of(impl.item)
    types = [it.head for it in impl.item.inner if it.kind == "type"]
    lines = [impl.item.head, *(f"    {it}" for it in types), *(f"    {without_braces(it.head)}" for it in ghosts)]
    for call in impl.calls:
        lines += [f"    {re.sub(r'^pub ', '', call.item.head)}", *(f"    {line}" for line in clause_lines(call.item.clauses))] if call.item.clauses else []
    texts = [without_braces(it.head) for it in ghosts] + [text for call in impl.calls for _, text in call.item.clauses]
    words = tuple(dict.fromkeys(line for it in [*ghosts, *(call.item for call in impl.calls)] for line in it.words or []))
    note_words(texts, words, impl.item.head)
    meanings = list(meaning_lines([without_braces(it.head) for it in ghosts], words, impl.crate, impl.item.head))
    said = [line for call in impl.calls for line in said_lines(call, f"- `{call.name}`: " if len(impl.calls) > 1 else "")]
    docs = [line for call in impl.calls if call.item.docs for line in docs_lines(call.item.docs, owner, impl.of_trait)]
    is_said = any(first_sentence(call.item.docs) and not call.item.docs[0].startswith("    ") for call in impl.calls if call.item.docs)
    about = [] if is_said else docs_lines(impl.item.docs, owner, impl.of_trait)
    return [*said, *block(lines), *about, *docs, *meanings, *([""] if meanings else [])]


def members_lines(owner):
    """The modules and the types of a module: those with a page in a table, the others whole."""
    here = [it for it in shown() if it is not owner and it.path.rpartition("::")[0] == owner.path]
    own, small = [it for it in here if has_page(it)], [it for it in here if not has_page(it)]
    names, hidden = [it for it in small if it.kind == "type"], [it for it in small if FOR_IMPLEMENTORS.fullmatch(it.name)]
    lines = table("Page", own) + table("Name", names, name_of)
    for it in small:
        if it.kind != "type" and it not in hidden:
            lines += [f"## `{it.name}`", *type_lines(it)]
            lines += [line for impl in it.impls if is_shown(impl) for line in impl_lines(impl, it)]
    inner = [line for it in hidden for impl in it.impls if has_docs(impl) for line in impl_lines(impl, it)]
    return lines + table("For those who implement", [it for it in hidden if it.kind != "type"]) + inner


def has_docs(impl):
    return any(call.item.docs for call in impl.calls)


def is_shown(impl):
    """Whether an `impl` says something that its trait does not."""
    return bool(callers.ghosts_of(impl.item)) or has_docs(impl) or any(call.item.clauses for call in impl.calls)


def name_of(alias):
    """What a name of a type is short for, with a link to that type."""
    of = owners().get(f"{alias.path.rpartition('::')[0]}::{re.match(r'[A-Za-z]+', alias.target)[0]}")
    has_place = of and of is not alias and (has_page(of) or not FOR_IMPLEMENTORS.fullmatch(of.name))
    return f"`{alias.target}`, which is {link_to(of)}" if has_place else f"`{alias.target}`"


def table(title, found, what=lambda it: first_sentence(it.docs)):
    if not found:
        return []
    rows = [f"| {link_to(it) if has_page(it) else f'`{it.name}`'} | {what(it)} |" for it in found]
    return [f"| {title} | What it is |", "|---|---|", *rows, ""]


def page(owner):
    """The text of a page."""
    USED.clear()
    EXPLAINED.clear()
    IMPORTED.clear()
    kind, crate = {"type": "a name of a type", "enum": "an enum"}.get(owner.kind, f"a {owner.kind}"), owner.path.partition("::")[0]
    head = [MADE, f"# `{owner.path}`", "", f"{kind[0].upper()}{kind[1:]} of the crate `{crate}`. ([Reference](README.md))"]
    lines = docs_lines(owner.docs, owner) + members_lines(owner) if owner.kind == "module" else type_lines(owner)
    wanted = wants(owner.page.removesuffix(".html"))
    lines += [*wanted.splitlines(), ""] if wanted else []
    lines += contents(owner)
    for heading, group in owner.groups():
        EXPLAINED.clear()
        lines += [f"## {heading}", "", *about_group(heading), *[line for call in group for line in call_lines(call, owner)]]
    impls = sorted(filter(is_shown, owner.impls), key=lambda it: it.of_trait)
    if impls:
        lines += ["## Implementations of traits", *[line for it in impls for line in impl_lines(it, owner)]]
    need, uses = used_lines()
    head[-1] += need
    return "\n".join([*head, *uses, *([] if uses else [""]), *lines, *imported_lines(owner.crate)]).rstrip() + "\n"


def index():
    """The first page: the types used first, then each crate, and last what only implementors name."""
    found = [it for it in shown() if has_page(it)]
    first = sorted((it for it in found if it.name in MAIN), key=lambda it: MAIN.index(it.name))
    for_implementors = [it for it in found if FOR_IMPLEMENTORS.fullmatch(it.name)]
    lines = [MADE, "# Reference", "", "Each public call with its contract, its documentation and an example. [CONTRACTS](../CONTRACTS.md) says how a",
             "contract is read. Before the signature of each call, *Condition* and *Proved* say the whole contract in words. At the end of",
             "a page are the modules that import the words of its clauses. A view, a string or an iterator is said by its name where its",
             "text, or what it has yet to yield, is meant. The *sure length* of a string type is the length up to which an edit never",
             "allocates: 0 for `AsciiString`.", "",
             "## The types used first", "", *table("Type", first)]
    for crate in LIBRARIES:
        of_crate = [it for it in found if it.crate == crate and it not in first and it not in for_implementors]
        lines += [f"## `{crate}`", "", *table("Page", sorted(of_crate, key=lambda it: (it.kind != "module", it.name)))]
    return "\n".join([*lines, "## For those who implement", "", *table("Page", for_implementors)]).rstrip() + "\n"


def texts():
    """The files of the reference, with their texts."""
    made = {file_of(it): page(it) for it in shown() if has_page(it)}
    return {"README.md": index(), **made}


def shortened(made):
    """The docs of calls that are longer in the source than on their page."""
    plain = lambda text: " ".join(text.split())  # noqa: E731
    pages = {name: plain(text.replace("```rust", "").replace("```", "")) for name, text in made.items()}
    for owner in shown():
        for call in [*owner.calls, *(it for impl in owner.impls for it in impl.calls)]:
            for text in "\n".join(sentences.without_conditions(call.item.docs, call.item.clauses)).split("\n\n"):
                if plain(text) not in pages[file_of(owner)]:
                    yield f"docs/reference/{file_of(owner)}: {call.key}: lacks `{plain(text)[:60]}`"


def broken_links():
    """The links between Markdown pages that lead to no file or no heading."""
    folders = ["*.md", "docs/*.md", "docs/reference/*.md", "crates/*/*.md", "bench/*.md", "tools/**/README.md"]
    for file in [it for folder in folders for it in sorted(TOP.glob(folder))]:
        for target, anchor in LINK.findall(CODE.sub("", read(file))):
            to = (file.parent / target).resolve() if target else file
            if not to.exists() or anchor and to.suffix == ".md" and anchor not in anchors(to):
                yield f"{file.relative_to(TOP)}: nothing is at {target}#{anchor}"


@cache
def anchors(file):
    return {anchor_of(re.sub(r"[`*]|\]\(.*?\)", "", heading)) for heading in re.findall(r"^#+ (.*)$", CODE.sub("", read(file)), re.M)}


def faults(is_check):
    """Writes the pages, or compares them with the sources, and follows the links of all pages. Returns the faults."""
    made = texts()
    stale = [it for it in sorted(FOLDER.glob("*.md")) if it.name not in made] if FOLDER.is_dir() else []
    if not is_check:
        FOLDER.mkdir(exist_ok=True)
        for file in stale:
            file.unlink()
        stale = []
    found = [fault for name, text in made.items() for fault in settle(FOLDER / name, text, "reference", is_check)]
    return [*found, *shortened(made), *broken_links(), *(f"docs/reference/{it.name} is of nothing: run bin/docs reference" for it in stale)]
