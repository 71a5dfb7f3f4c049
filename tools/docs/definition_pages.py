"""The pages of the words of contracts: each file of definitions, the words of std, and the errors that calls return."""
import re
from html import escape

import kit
from calls import table
from definitions import head_comment
from made import DEFINED, first_sentence
from markup import Page, chips, frame, inline, link
from meanings import STD_PAGE, STD_WORDS, definitions, page_of, scope
from owners import by_name, error_of, short_key, url_of
from sources import CRATES

# Texts that a call gives back, and what the page calls them all.
TEXTS, SOURCE = {"AsciiString", "BoxedAsciiStr", "CowAsciiStr", "InlineBuffer", "Text"}, "the source"
# The errors that have no page of their own.
OTHER_ERRORS = {
    SOURCE: "The text itself, unchanged: an allocation for its conversion failed.",
    "AllocError": "The error of std for a failed allocation, as `std::alloc::AllocError`.",
    "Refusal": "The error of a buffer for an edit that it has no room for. It is `AllocError` for a `Vec`, so for `AsciiString`.",
    "usize": "The position of the byte at fault.",
    "Error": "The error of a format, or of std's `TryFrom` and `fmt`.",
}
STD_INTRO = """<h1>Words of std</h1>
<p>The words of contracts that come with the toolchain, from std and its crates. Each has its comment there, or a sentence of this
library, and its file in the toolchain's folder of libraries.</p>"""


class DefinitionPages:
    """Writes the pages, and collects the names that the search finds."""

    def __init__(self, write, names):
        self.write, self.names, self.users = write, names, users_of_words()

    def all(self):
        for module, file in definitions().files.items():
            if module.split(".")[1] in DEFINED and file.definitions:
                self.file(module, file)
        self.errors()

    def name(self, shown, kind, url, text):
        self.names.append([shown, kind, url, short(text), "", 0])

    def file(self, module, file):
        """The page of a file of definitions."""
        page, title = Page(), module.removeprefix("Rattle.").replace(".specs", "").replace(".", "::")
        source = CRATES / f"{module.removeprefix('Rattle.').replace('.', '/')}.antt"
        about = head_comment(source)
        page.parts += [f'<p class="soft">definitions, <code>crates/{source.relative_to(CRATES)}</code></p>',
                       f"<h1><code>{title}</code></h1>", f"<p>{inline(about)}</p>",
                       f"<p><code>ghost use {module}.{{..}};</code></p>"]
        self.name(title, "definitions", page_of(module), about)
        for is_private in (False, True):
            found = [it for it in file.definitions if it.is_private == is_private]
            if found and is_private:
                page.heading("Cited by private functions only", "private")
            for it in found:
                page.parts.append(self.definition(it, file))
                page.side.append(link(f"#{it.name}", it.name))
        side = link("#top", title) + "".join(page.side)
        self.write(page_of(module), frame(title, "\n".join(page.parts), side, "definitions"))

    def definition(self, it, file):
        """A definition: its comment, its text, what it reaches, and the calls whose clauses name it."""
        self.name(it.name, "definition", f"{page_of(it.module)}#{it.name}", it.comment)
        text = "\n".join([it.section, *it.lines] if it.section else it.lines)
        found = definitions().reached(" ".join(it.words()), uses_in(it, file))
        reached = chips(link(f"{page_of(one.module)}#{one.name}", one.name) for one in found if one.path != it.path)
        users = chips(link(url_of(call), short_key(call)) for call in self.users.get(it.path, []))
        folds = [f"<details><summary>{title}</summary>{links}</details>"
                 for title, links in (("Definitions that it reaches", reached), ("Calls whose contracts name it", users)) if links]
        return (f'<section class="call" id="{escape(it.name)}"><h3><a class="perma" href="#{escape(it.name)}">§</a>'
                f'<code>{escape(it.name)}</code></h3><div class="docs"><p>{inline(it.comment)}</p>'
                f"<pre><code>{linked_definition(text, it, file)}</code></pre>{''.join(folds)}</div></section>")

    def std(self):
        """The words of std and of the toolchain's crates that the other pages name, which are written before."""
        page = Page()
        page.parts.append(STD_INTRO)
        if not kit.folder():
            page.parts.append("<p><strong>The toolchain was not installed where this page was made</strong>: "
                              "comments are missing.</p>")
        for it in sorted(STD_WORDS.values(), key=lambda it: (not it.word[0].isalpha(), it.word.lower())):
            anchor = it.url.partition("#")[2]
            text = f"<pre><code>{escape(chr(10).join(it.lines))}</code></pre>" if it.lines else ""
            page.parts.append(f'<section class="call" id="{escape(anchor)}"><h3><code>{escape(it.word)}</code>'
                              f'<span class="src">{it.file}</span></h3>'
                              f'<div class="docs"><p>{inline(it.text)}</p>{text}</div></section>')
            page.side.append(link(f"#{anchor}", it.word))
            self.name(it.word, "word of std", it.url, it.text)
        self.write(STD_PAGE, frame("Words of std", "\n".join(page.parts), "".join(page.side), "definitions"))

    def errors(self):
        """Each error that a call returns, with the calls that return it."""
        found, page = {}, Page()
        for call in table():
            for error in errors_of(call):
                found.setdefault(error, []).append(call)
        page.parts.append("<h1>Errors</h1>\n<p>Each error, and the public calls that return it.</p>")
        for error, group in sorted(found.items()):
            owner, text = by_name().get(error), OTHER_ERRORS.get(error, "")
            page.heading("The source" if error == SOURCE else f"`{error}`", error.replace(" ", "-"))
            about = f"{inline(first_sentence(owner.docs))} {link(owner.page, error)}" if owner else inline(text)
            page.parts.append(f"<p>{about}</p>")
            page.parts.append(chips(link(url_of(call), short_key(call)) for call in group))
            if not owner:
                self.name(error, "error", f"errors.html#{error.replace(' ', '-')}", text)
        self.name("Errors", "page", "errors.html", "Each error, and the public calls that return it.")
        self.write("errors.html", frame("Errors", "\n".join(page.parts), "".join(page.side)))


def errors_of(call):
    """The errors under which the page of errors has a call."""
    error = error_of(call)
    if not error or not url_of(call):
        return []
    if error in TEXTS:
        return [SOURCE]
    # The error of a string over a `Vec`.
    is_string = short_key(call).startswith(("AsciiString::", "AsciiStringExt::"))
    return [error, "AllocError"] if error == "Refusal" and is_string else [error]


def short(text):
    """A sentence for a row of the search."""
    if len(text) < 150:
        return text
    begin = text[:150].rpartition(" ")[0]
    return f"{begin.rpartition('`')[0] if begin.count('`') % 2 else begin} .."


def users_of_words():
    """The calls whose clauses name each definition, by its path."""
    found = {}
    for call in table():
        words = [word for _, text in call.item.clauses for word in re.findall(r"[^\s(){}\[\];,]+", text)]
        for path in {it.path for it in definitions().of_words(words, call.item.words or [])} if url_of(call) else ():
            found.setdefault(path, []).append(call)
    return found


def uses_in(it, file):
    """The `use` lines for the words of a definition: those of its file, and the file itself."""
    return [*file.uses, *(f"use {it.module}.{{{one.name}}}" for one in file.definitions)]


def linked_definition(text, it, file):
    """The text of a definition, with each word linked."""
    known = scope(tuple(uses_in(it, file)))

    def one(word):
        found = known.get(word) if word != it.name else None
        return f'<a href="{escape(found.url)}" title="{escape(found.text)}">{escape(word)}</a>' if found else escape(word)

    return "".join(one(part) for part in re.split(r"([^\s(){}\[\];,]+)", text))
