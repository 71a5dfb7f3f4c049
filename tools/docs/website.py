"""Writes the documentation as static HTML into FOLDER: a page for each type, trait and module of functions, by the path that
callers import, with every call (its docs, its contract with the meaning of each word, its tests and mutations, its source), a
page for each file of definitions, the pages of the repository, the sources, and a search on every page.

The pages can be read without JavaScript, on a narrow screen, on dark and on light. Nothing is downloaded. Status 69: Debian's
package python3-markdown is missing; 73: FOLDER cannot be written; 130: interrupted, and FOLDER is as it was."""
import json
import os
import re
import shutil
import signal
import sys
import tempfile
from html import escape
from pathlib import Path

import markup
from definition_pages import DefinitionPages
from items import Wrong
from made import DEFINED, LIBRARIES, TOP, TYPED, first_sentence, module_file, modules_of, parts_of
from markup import FOLDER, colored, frame, html_of, inline, link, linked_docs
from meanings import page_of, source_page
from owners import MAIN, by_name, owners
from reference import Reference
from sources import CRATES, read

FIRST = ["README.md", "docs/START.md", "docs/CONTRACTS.md", "docs/UNPROVED.md", "docs/LINES.md", "docs/NETWORK.md", "docs/RECIPES.md", "docs/PROGRAMS.md",
         "docs/PORTING.md", "docs/PROVED.md", "docs/EVIDENCE.md", "SECURITY.md"]
# The reference in Markdown, whose pages the site has in HTML by the same names.
REFERENCE = TOP / "docs/reference"
OTHERS = ["CONTRIBUTING.md", "CHANGELOG.md", "bench/README.md", "tools/mutants/README.md", "tools/mutants/edits/README.md"]
# The kinds of names that are words of contracts.
DEFINITIONS = {"definition", "definitions", "word of std"}
EXAMPLES = ["examples", "example_resp", "example_smtp"]
# What a reader of the front page may want, and where it is.
WAYS = [
    ("docs-START.html", "Start", "a program that runs within a minute, and its proof"),
    ("docs-LINES.html", "Lines", "reading the lines of an input in bounded memory, and a server over them"),
    ("docs-UNPROVED.html", "When it is not proved", "six failures: what the prover says, and what to do"),
    (markup.CONTRACTS, "Contracts", "how a contract is read, and the definitions that contracts use"),
    ("docs-RECIPES.html", "Recipes", "headers, settings, tables, host names, wrapped text"),
    ("examples.html", "Examples", "whole programs, with their sources"),
    ("ascii.classes.module.html", "A class of characters of your own", "for searches, trims and words"),
    ("errors.html", "Errors", "each error, and the calls that return it"),
    ("docs-PROVED.html", "Proved", "ten claims, each with what it does not say; what is tested, and what is assumed"),
    ("docs-PORTING.html", "Porting", "from the Rust crate `ascii`: old and new code side by side"),
]


def pages():
    """The pages of the repository that the site has, those for a new reader first."""
    found = [str(it.relative_to(TOP)) for it in sorted((TOP / "docs").glob("*.md"))]
    callings = [f"crates/{name}/CALLING.md" for name in LIBRARIES]
    return [it for it in dict.fromkeys([*FIRST, *found, *OTHERS, *callings]) if (TOP / it).is_file()]


def synonyms():
    """Other words for what a reader searches for."""
    lines = [line for line in read(FOLDER / "synonyms.txt").splitlines() if line and line[0] != "#"]
    return {word: others.split() for word, _, others in (line.partition(":") for line in lines)}


def aliases():
    """Words by which readers look for a name, by the name as the search shows it or by the address."""
    lines = [line for line in read(FOLDER / "aliases.txt").splitlines() if line and line[0] != "#"]
    return dict(line.split(": ", 1) for line in lines)


def html_name(page):
    """The file name that a page of the repository has in the site."""
    return re.sub(r"\.md$", "", page).replace("/", "-") + ".html"


class Site:
    """The folder of the site, and the names that its search finds."""

    def __init__(self, folder):
        self.folder, self.pages, self.names = folder, pages(), []

    def write(self, name, text):
        (self.folder / name).write_text(text, encoding="utf-8")

    def all(self):
        words = DefinitionPages(self.write, self.names)
        Reference(self.write, self.names).all()
        words.all()
        words.std()
        for page in self.pages:
            self.page(page)
        for crate in sorted(it.parent.name for it in CRATES.glob("*/src") if it.parent.name not in TYPED):
            for path in modules_of(crate):
                self.source(crate, path)
        self.examples()
        self.front()
        self.all_names()
        data = {"NAMES": self.with_aliases(), "SYNONYMS": synonyms()}
        lines = [f"var {name} = {json.dumps(value, ensure_ascii=False, separators=(',', ':'))};\n" for name, value in data.items()]
        self.write("names.js", "".join(lines) + 'if (typeof module !== "undefined") module.exports = { NAMES, SYNONYMS };\n')
        for name in ("search.js", "style.css"):
            self.write(name, read(FOLDER / name))

    def with_aliases(self):
        """The names, each with the words by which readers look for it."""
        words = aliases()
        rows = [[*row, words.get(row[2]) or words.get(row[0], "") if row[1] not in DEFINITIONS else ""] for row in self.names]
        unknown = words.keys() - {it for row in self.names for it in (row[0], row[2])}
        if unknown:
            raise Wrong(f"tools/docs/site/aliases.txt: nothing is named {', '.join(sorted(unknown))}")
        return rows

    # The pages of the repository

    def page(self, name):
        """A page of the repository, with its contents beside it."""
        text, headings = read(TOP / name), []
        html = self.with_links(name, html_of(text, headings))
        title = re.search(r"^# (.*)$", text, re.M)[1].replace("`", "")
        side = "".join(f'<a href="#{anchor}">{heading}</a>' for heading, anchor in headings) if len(headings) > 2 else ""
        self.write(html_name(name), frame(title, linked_docs(html, None), side))
        self.names.append([title, "page", html_name(name), "", "", 0])
        for heading, anchor in headings:
            self.names.append([re.sub(r"<.*?>", "", heading), "page", f"{html_name(name)}#{anchor}", title, "", 0])

    def with_links(self, name, html):
        return re.sub(r'(href|src)="([^"#:]*)(#[^"]*)?"', lambda m: self.linked(name, *m.groups()), html)

    def linked(self, page, kind, target, anchor):
        """A link of a page, to the site where it has the target; otherwise the path in the repository, as text."""
        if not target:
            return f'{kind}="{anchor or "#"}"'
        path = (TOP / page).parent.joinpath(target).resolve()
        if path.parent == REFERENCE:
            return f'{kind}="{"index" if path.stem == "README" else path.stem}.html{anchor or ""}"'
        name = str(path.relative_to(TOP)) if TOP in path.parents else ""
        if name in self.pages:
            return f'{kind}="{html_name(name)}{anchor or ""}"'
        if path.suffix == ".svg" and path.is_file():
            self.write(path.name, read(path))
            return f'{kind}="{path.name}"'
        url = url_of_file(path)
        return f'{kind}="{url}"' if url else f'title="{escape(name)} in the repository"'

    def source(self, crate, path):
        """A source, with an anchor at each line and each item."""
        file = module_file(crate, path)
        text, starts = read(file), {}
        for item in modules_of(crate)[path]:
            for it in [item, *item.inner]:
                name = f"constant.{it.name}" if it.kind == "const" else f"at.{it.at}"
                starts.setdefault(text.count("\n", 0, it.at), []).append(name)
        lines = []
        for at, line in enumerate(text.splitlines()):
            marks = "".join(f'<b id="{name}"></b>' for name in starts.get(at, []))
            lines.append(f'<span id="{at + 1}" data-n="{at + 1}">{marks}{colored(escape(line, quote=False))}</span>')
        shown = str(file.relative_to(TOP))
        body = f'<h1><code>{shown}</code></h1>\n<pre class="source"><code>{"".join(lines)}</code></pre>'
        self.write(source_page(crate, path), frame(shown, body))

    def examples(self):
        """The programs that come with the library: what each says of itself, and its sources."""
        parts, side = ["<h1>Examples</h1>"], []
        for crate in EXAMPLES:
            text = re.sub(r"^# .*$", "", read(CRATES / crate / "README.md"), flags=re.M)
            links = ", ".join(link(source_page(crate, path), "/".join(parts_of(crate, path)) + ".rt") for path in modules_of(crate))
            about = self.with_links(f"crates/{crate}/README.md", html_of(text))
            parts.append(f'<h2 id="{crate}"><code>{crate}</code></h2>{about}<p>{links}</p>')
            side.append(f'<a href="#{crate}"><code>{crate}</code></a>')
            self.names.append([crate, "page", f"examples.html#{crate}", first_sentence(text.strip().splitlines()), "", 0])
        self.write("examples.html", frame("Examples", "\n".join(parts), "".join(side)))

    # The front page and the list of all names

    def front(self):
        rows = [f"<tr><td>{link(by_name()[name].page, by_name()[name].path)}</td>"
                f"<td>{inline(first_sentence(by_name()[name].docs))}</td></tr>" for name in MAIN]
        libraries = [owners()[f"{name}::"] for name in LIBRARIES if f"{name}::" in owners()]
        crates = [f"<tr><td>{link(it.page, it.path)}</td><td>{inline(first_sentence(it.docs))}</td></tr>" for it in libraries]
        ways = [f'<tr><td><a href="{url}">{text}</a></td><td>{inline(what)}</td></tr>' for url, text, what in WAYS]
        tables = [f'<h2>{title}</h2>\n<div class="table"><table class="names">{"".join(lines)}</table></div>'
                  for title, lines in (("Types", rows), ("Where to go", ways), ("Crates", crates))]
        first_screen = self.with_links("README.md", html_of(read(TOP / "README.md").partition("\n## ")[0], []))
        self.write("index.html", frame(markup.NAME, "\n".join([first_screen, *tables])))

    def all_names(self):
        """Each name of the search, for a reader without scripts."""
        parts, side, letter = ["<h1>All names</h1>"], [], ""
        for shown, kind, url, *_ in sorted(self.names, key=lambda it: (it[0].rpartition("::")[2].lower(), it[0])):
            first = shown.rpartition("::")[2][0].upper()
            if first != letter and first.isalpha():
                letter = first
                parts.append(f'<h2 id="{letter}">{letter}</h2>')
                side.append(f'<a href="#{letter}">{letter}</a>')
            parts.append(f'<div>{link(url, shown)} <span class="soft">{kind}</span></div>')
        self.write("all.html", frame("All names", "\n".join(parts), "".join(side)))


def url_of_file(path):
    """The page that shows a file or a folder of the repository; nothing if none does."""
    if CRATES not in path.parents:
        return ""
    crate, *rest = path.relative_to(CRATES).with_suffix("").parts
    if rest[:1] == ["specs"] and path.suffix == ".antt" and crate in DEFINED:
        return page_of(".".join(["Rattle", crate, *rest]))
    if rest[:1] == ["src"] and path.suffix == ".rt" and crate not in TYPED:
        return source_page(crate, () if rest[1:] in (["lib"], ["main"]) else tuple(rest[1:]))
    if crate in EXAMPLES:
        return f"examples.html#{crate}"
    return owners()[f"{crate}::"].page if f"{crate}::" in owners() and not rest else ""


def run(folder):
    """Makes the site beside FOLDER, and then moves it there, so that FOLDER never has a part of it."""
    if not markup.markdown:
        print("bin/docs: the Markdown library is missing: install Debian's package python3-markdown", file=sys.stderr)
        return 69
    scratch = None
    try:
        folder.parent.mkdir(parents=True, exist_ok=True)
        scratch = Path(tempfile.mkdtemp(prefix=".site-", dir=folder.parent))
        Site(scratch).all()
        signal.signal(signal.SIGINT, signal.SIG_IGN)
        folder.mkdir(exist_ok=True)
        for file in scratch.iterdir():
            os.replace(file, folder / file.name)
    except KeyboardInterrupt:
        return 130
    except OSError as error:
        print(f"bin/docs: {folder} cannot be written: {error}", file=sys.stderr)
        return 73
    finally:
        if scratch:
            shutil.rmtree(scratch, ignore_errors=True)
    return 0
