"""The HTML that all pages of the site share: the frame, documentation, code, and clauses with their words linked."""
import re
import sys
from collections import Counter
from functools import cache
from html import escape
from pathlib import Path

import calls
import examples
from meanings import words_in
from owners import by_name, owners

sys.path.append("/usr/lib/python3/dist-packages")
try:
    import markdown
except ImportError:
    markdown = None

FOLDER = Path(__file__).resolve().parent / "site"
NAME = "ascii for Rattle"
# The page that says how a contract is read.
CONTRACTS = "docs-CONTRACTS.html"
EXTENSIONS = ("tables", "fenced_code", "toc")
# What is colored in code, which is escaped: a comment, a string or a character, a keyword, and the name of a type or a variant.
KEYWORDS = "as break const continue else enum ensures fn for ghost if impl in let loop match mod mut pub requires return struct trait type use where while"
TOKENS = re.compile(r"""(?P<c>(?:^|(?<= ))(?://(?= |$|[/!])|--(?= )).*$)|(?P<s>b?"(?:\\.|[^"\\])*"|b?'(?:\\.|[^'\\\n])')"""
                    rf"|(?P<k>\b(?:{'|'.join(KEYWORDS.split())})\b)|(?P<t>\b[A-Z]\w*\b)", re.M)


def slug(text, separator):
    """The anchor of a heading, as the pages of the repository write it."""
    return re.sub(r"[^\w\- ]", "", text.lower()).replace(" ", separator)


TOC = {"slugify": slug, "permalink": "§", "permalink_class": "perma", "permalink_title": "a link to this section"}


@cache
def converter(has_anchors=False, extensions=EXTENSIONS):
    """What converts Markdown, with a link at each heading or without."""
    return markdown.Markdown(extensions=extensions, extension_configs={"toc": TOC if has_anchors else {}})


def html_of(text, headings=None):
    """The HTML of a text in Markdown; `headings` gains the headings of the second level, with their anchors."""
    made = converter(headings is not None).reset()
    html = made.convert(text)
    if headings is not None:
        tops = made.toc_tokens[0]["children"] if len(made.toc_tokens) == 1 else made.toc_tokens
        headings += [(it["name"], it["id"]) for it in tops]
    html = html.replace("<table>", '<div class="table"><table>').replace("</table>", "</table></div>")
    # In a page, blocks without a language are what a command prints.
    begins = r"<pre><code[^>]*>" if headings is None else r'<pre><code class="language-(?:rust|antt)">'
    return re.sub(rf"({begins})(.*?)(</code></pre>)", lambda m: m[1] + colored(m[2]) + m[3], html, flags=re.S)


def colored(code):
    """Code with its comments, keywords, strings and types in colors."""
    return TOKENS.sub(lambda m: f'<span class="{m.lastgroup}">{m[0]}</span>', code)


def inline(text):
    """A sentence in Markdown, without a paragraph around it."""
    return re.sub(r"^<p>(.*)</p>$", r"\1", converter(extensions=()).reset().convert(text), flags=re.S)


def link(url, text, is_code=True):
    shown = f"<code>{escape(text)}</code>" if is_code else escape(text)
    return f'<a href="{escape(url)}">{shown}</a>'


def linked_code(code):
    """Code in which each public type and trait is linked to its page."""
    known = by_name()
    return re.sub(r"\b[A-Z]\w+", lambda m: f'<a href="{known[m[0]].page}">{m[0]}</a>' if m[0] in known else m[0], escape(code))


CODE = re.compile(r"(?<!<pre>)<code>((\w+::)*\w+)((?:::&lt;[\w, ]*&gt;)?\([^<]*\))?</code>")


def linked_docs(html, owner):
    """Documentation in which the code that names a call, a type or a module is linked."""
    crate = owner.path.partition("::")[0] if owner else "ascii"
    views = by_name()["AsciiStr"] if owner and owner.kind == "module" else None

    def url(text):
        of, _, name = text.rpartition("::")
        page = owners().get(f"{crate}::{of}::") or owners().get(f"{of}::") or by_name().get(of) if of else owner
        call = next((it for it in (page, None if of else views) if it and any(call.name == name for call in it.calls)), None)
        whole = None if of else by_name().get(name) or views and owners().get(f"{crate}::{name}::")
        return f"{call.page}#{name}" if call else whole.page if whole else ""

    return CODE.sub(lambda m: f'<a href="{url(m[1])}">{m[0]}</a>' if url(m[1]) else m[0], html)


def copyable(paragraphs, crate, about):
    """The paragraphs of a documentation, the first example of which has the lines that bring its names."""
    code = [it for it in paragraphs if it.startswith("    ")]
    uses = examples.use_lines([line for it in code for line in it.splitlines()], crate, about)
    runtime = ["let alloc = rt.alloc();"] if re.search(r"\balloc\b", "".join(code)) and "let alloc" not in "".join(code) else []
    for paragraph in paragraphs:
        if paragraph in code[:1]:
            paragraph = "\n".join([*(f"    {line}" for line in [*uses, *runtime]), paragraph])
        yield paragraph


def docs_html(docs, owner=None, of_trait=""):
    """Documentation of what has an owner, or of its part of a trait, with each condition in a box."""
    parts = [[]]
    for paragraph in copyable("\n".join(docs).split("\n\n"), owner.path.partition("::")[0] if owner else "ascii", f"{owner.name if owner else ''} {of_trait}"):
        if paragraph.startswith("Condition"):
            parts += [[paragraph], []]
        else:
            parts[-1].append(paragraph)
    boxes = [html_of("\n\n".join(part)) for part in parts]
    boxes = [f'<div class="condition">{box}</div>' if at % 2 else box for at, box in enumerate(boxes) if box]
    return linked_docs("\n".join(boxes), owner)


def clause_html(label, text, lines, bounds=""):
    """A clause with each word linked to its definition."""
    html, at = "", 0
    for begin, word, it in words_in(text, lines, bounds):
        if begin >= at:
            html += escape(text[at:begin]) + f'<a href="{escape(it.url)}" title="{escape(it.text)}">{escape(word)}</a>'
            at = begin + len(word)
    head = f'<span class="label">{escape(label)}</span> ' if label else ""
    return f'<div class="clause"><code>{head}{html}{escape(text[at:])}</code></div>'


def meanings_html(texts, lines, bounds=""):
    """The words of some clauses, each with its meaning."""
    found = {}
    for text in texts:
        for _, word, it in words_in(text, lines, bounds):
            if re.match(r"\w", word):
                found.setdefault(word, it)
    rows = [f"<dt>{link(it.url, word)}</dt><dd>{inline(it.text)}</dd>" for word, it in found.items()]
    reading = f'<p class="small"><a href="{CONTRACTS}">How a contract is read</a></p>'
    return f"<dl>{''.join(rows)}</dl>{reading}" if rows else ""


def frame(title, body, side="", kind=""):
    """A whole page."""
    links = [("docs-START.html", "Start"), ("docs-LINES.html", "Lines"), (CONTRACTS, "Contracts"),
             ("docs-UNPROVED.html", "Not proved"), ("docs-RECIPES.html", "Recipes"), ("docs-PROVED.html", "Proved"),
             ("errors.html", "Errors"), ("all.html", "All names")]
    nav = "".join(f'<a href="{url}">{text}</a>' for url, text in links)
    folded = f"<details open><summary>On this page</summary>{side}</details>"
    aside = f'<aside aria-label="On this page">{folded}</aside>' if side else ""
    whole = NAME if title == NAME else f"{title} · {NAME}"
    return (f'<!DOCTYPE html>\n<html lang="en">\n<head>\n<meta charset="utf-8"/>\n<title>{escape(whole)}</title>\n'
            f'<meta name="viewport" content="width=device-width, initial-scale=1"/>\n'
            f'<link rel="icon" href="data:,"/>\n<link rel="stylesheet" href="style.css"/>\n</head>\n<body class="{kind}">\n'
            f'<header><a class="home" href="index.html">{NAME}</a>\n<div id="search"></div>\n<nav>{nav}</nav></header>\n'
            f'<div id="found"></div>\n<div class="columns{" with-side" if side else ""}">{aside}\n'
            f'<main id="top">\n{body}\n</main></div>\n'
            f'<script src="search.js"></script>\n</body>\n</html>\n')


def anchor_of(text):
    return re.sub(r"[^\w.:-]+", "-", text).strip("-")


class Page:
    """What a page is made of: its parts, the contents beside it, and the anchors that it has."""

    def __init__(self):
        self.parts, self.side, self.anchors = [], [], Counter()

    def anchor(self, name):
        """An anchor of this name that the page does not have yet."""
        self.anchors[name] += 1
        return name if self.anchors[name] == 1 else f"{name}-{self.anchors[name]}"

    def heading(self, text, anchor=""):
        anchor = self.anchor(anchor or anchor_of(text.lower()))
        perma = f'<a class="perma" href="#{anchor}" aria-label="link to this group">§</a>'
        self.parts.append(f'<h2 id="{anchor}">{inline(text)} {perma}</h2>')
        self.side.append(f'<h2><a href="#{anchor}">{inline(text)}</a></h2>')


def chips(links):
    items = "".join(f"<li>{it}</li>" for it in links)
    return f'<ul class="chips">{items}</ul>' if items else ""
