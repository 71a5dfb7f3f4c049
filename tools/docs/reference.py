"""The pages of types, traits and modules, with their calls."""
import re
from html import escape

import callers
import equal
import kit
import sentences
from calls import table
from definition_pages import short
from made import TYPED, first_sentence, head_lines, module_file, modules_of, wants
from markup import Page, anchor_of, chips, clause_html, docs_html, frame, html_of, inline, link, linked_code, meanings_html
from meanings import source_page
from owners import MAIN, SHOWN_AT, by_name, error_of, owners, result_of, short_key, url_of
from sources import impl_name, without_braces


class Reference:
    """Writes the pages, and collects the names that the search finds."""

    def __init__(self, write, names):
        self.write, self.names = write, names
        self.shown = {(it.crate, it.module) for it in owners().values() if it.kind == "module"}  # the modules whose heads are shown

    def name(self, shown, kind, url, docs=(), signature="", rank=0):
        self.names.append([shown, kind, url, short(first_sentence(docs)), signature, rank])

    def all(self):
        for owner in sorted(owners().values(), key=lambda it: (it.kind != "module", -rank_of(it.name))):
            self.owner(owner)

    def owner(self, owner):
        page = Page()
        kind, crate = {"type": "type alias"}.get(owner.kind, owner.kind), owner.path.partition("::")[0]
        page.parts.append(f'<p class="soft">{f"{kind} of the crate <code>{crate}</code>" if crate != owner.path else "crate"}</p>')
        page.parts.append(f"<h1><code>{owner.path}</code></h1>")
        self.imports(owner, page)
        if owner.item and owner.kind != "module":
            page.parts.append(f"<pre><code>{linked_code(declaration(owner.item))}</code></pre>")
        page.parts += [docs_html(owner.docs, owner), self.about(owner, owner)]
        page.parts.append(html_of(wants(owner.page.removesuffix(".html")).replace(".md", ".html"), []))
        page.side += [f'<h2><a href="#{anchor}">{it}</a></h2>' for anchor, it in re.findall(r'<h2 id="(.*?)">(.*?)<', page.parts[-1])]
        self.name(owner.path if owner.kind == "module" else owner.name, owner.kind, owner.page, owner.docs, "", rank_of(owner.name))
        if owner.kind == "module":
            self.inner(owner, page)
        else:
            self.members(owner, page)
        self.call_groups(owner, page)
        self.impls(owner, page)
        side = link("#top", owner.name) + "\n".join(page.side)
        self.write(owner.page, frame(owner.path, "\n".join(page.parts), side, "reference"))

    def about(self, it, owner):
        """What the head of a module without a page says beyond its first paragraph, once: beside its first type or call."""
        if (it.crate, it.module) in self.shown:
            return ""
        self.shown.add((it.crate, it.module))
        paragraphs = "\n".join(head_lines(module_file(it.crate, it.module))).split("\n\n")[1:]
        kept = [text for text in paragraphs if not re.match(r"Made by|The other methods of", text)]
        return docs_html("\n\n".join(kept).split("\n"), owner) if kept else ""

    def imports(self, owner, page):
        if owner.kind == "module":
            return
        crates = {path.partition("::")[0]: path for path in reversed(owner.other_paths)}
        others = "".join(f", also <code>{path}</code>" for crate, path in crates.items() if not owner.path.startswith(f"{crate}::"))
        page.parts.append(f'<p class="small"><code>use {owner.path};</code><span class="soft">{others}</span></p>')

    def inner(self, owner, page):
        """The modules, types and traits of a module."""
        here = [it for it in owners().values() if it is not owner and it.path.rpartition("::")[0] == owner.path]
        for title, is_module in (("Modules", True), ("Types and traits", False)):
            found = [it for it in here if (it.kind == "module") == is_module]
            if found:
                page.heading(title)
                rows = [f"<tr><td>{link(it.page, it.name)}</td><td>{inline(first_sentence(it.docs))}</td></tr>" for it in found]
                page.parts.append(f'<div class="table"><table class="names">{"".join(rows)}</table></div>')
                page.side += [link(it.page, it.name) for it in found]

    def members(self, owner, page):
        """What a value is to a contract, its parts, the calls that return it or can fail, and other names of the type."""
        blocks = [it for items in modules_of(owner.crate).values() for it in items if it.kind == "impl"]
        names = {owner.name, *(name for name, shown in SHOWN_AT.items() if shown == owner.name)}
        models = [it for it in blocks if impl_name(it)[0] == "Model" and impl_name(it)[1] in names]
        ghosts = callers.model_members(owner.item, models) if models else []
        ghosts += callers.ghosts_of(owner.item) if owner.kind == "trait" else []
        if ghosts:
            page.heading("What a contract sees", "contract")
            page.parts += [ghost_html(it) for it in ghosts]
            page.parts.append(meanings_html([without_braces(it.head) for it in ghosts], ghosts[0].words))
        self.variants_and_fields(owner, page)
        self.other_names(owner, page)
        fails = [f'<a href="#{it.name}"><code>{it.name}</code></a>' for it in owner.calls if error_of(it)]
        if fails:
            page.parts.append(f'<p class="small" id="can-fail"><strong>Calls that can fail:</strong> {", ".join(fails)}</p>')
            page.side.append('<h2><a href="#can-fail">Calls that can fail</a></h2>')
        makers = [it for it in table() if owner.name != it.owner and re.search(rf"\b{owner.name}\b", result_of(it)) and url_of(it)]
        if makers:
            links = chips(link(url_of(it), short_key(it)) for it in makers)
            page.parts.append(f"<details><summary>Returned by {len(makers)} other calls</summary>{links}</details>")

    def variants_and_fields(self, owner, page):
        title = {"enum": "Variants", "struct": "Fields"}.get(owner.kind)
        shown = [it for it in owner.item.inner if owner.kind == "enum" or it.public and not it.head.startswith("ghost")]
        constants = [it for it in owner.item.inner if it.kind == "const"] if owner.kind == "trait" else []
        if not title and not constants or not shown + constants:
            return
        page.heading(title or "Constants")
        plain = [it for it in shown if not it.docs]
        page.parts.append(chips(f'<code id="{page.anchor(f"variant.{it.name}")}">{linked_code(it.head)}</code>' for it in plain))
        for it in [it for it in shown if it.docs] + constants:
            anchor = page.anchor(f"{'variant' if owner.kind == 'enum' else 'field'}.{it.name}")
            head = re.sub(r"^pub ", "", it.head)
            page.parts.append(f'<div class="call" id="{anchor}"><h3><code>{linked_code(head)}</code></h3>'
                              f'<div class="docs">{docs_html(it.docs)}</div></div>')

    def other_names(self, owner, page):
        """Of an alias the calls of its type, which another page has; of a type its aliases, or the page with its calls."""
        target = by_name().get(re.match(r"\w*", owner.target)[0]) if owner.kind == "type" else None
        shown = by_name()[SHOWN_AT[target.name]] if target and target.name in SHOWN_AT else target
        if target and shown is not owner:
            page.heading(f"Calls of `{target.name}`", "calls")
            links = [link(f"{shown.page}#{it.name}", it.name) for it in shown.calls]
            links += [link(f"{shown.page}#{impl_anchor(it.of_trait)}", it.of_trait) for it in shown.impls]
            page.parts.append(chips(links))
        if owner.name in SHOWN_AT.values():
            head = next(name for name, shown in SHOWN_AT.items() if shown == owner.name)
            of = link(by_name()[head].page, head)
            page.parts.append(f"<p>The calls below are those of {of}, so each other name of it has them too.</p>")
        if owner.name in SHOWN_AT:
            shown = by_name()[SHOWN_AT[owner.name]]
            page.parts.append(f"<p>Its calls are on the page of {link(shown.page, shown.name)}.</p>")
        names = [it for it in owners().values() if it.kind == "type" and re.match(rf"{owner.name}\b", it.target)]
        if names:
            page.heading("Names of it", "names")
            page.parts.append(chips(link(it.page, it.name) for it in names))

    def call_groups(self, owner, page):
        for heading, group in owner.groups():
            page.heading(heading)
            for call in group:
                page.parts += [self.about(call, owner), self.call(call, owner, page)]
                page.side.append(f'<a href="#{call.name}"><code>{call.name}</code></a>')

    def call(self, call, owner, page, prefix=""):
        """A call: its signature, documentation, contract, tests and mutations."""
        anchor = page.anchor(f"{prefix}{call.name}")
        docs, said = documentation(call)
        docs = sentences.without_conditions(docs, call.item.clauses)
        if not prefix:
            is_module = owner.kind == "module"
            shown = f"{owner.path}::{call.name}" if is_module else f"{owner.name}::{call.name}"
            kind = "method" if "self" in call.item.head else "function"
            rank = 0 if is_module else rank_of(owner.name)
            self.name(shown, kind, f"{owner.page}#{anchor}", call.item.docs, signature(call, owner), rank)
        source = f"{source_page(call.crate, call.module)}#{line_anchor(call.item)}"
        return (f'<section class="call" id="{anchor}"><h3><a class="perma" href="#{anchor}" aria-label="link to {call.name}">§</a>'
                f'<code>{signature_html(call)}</code><a class="src" href="{source}">source</a></h3>'
                f'<div class="docs">{docs_html(docs, owner, call.of_trait)}{equal_html(owner, call)}{said}{contract(call)}{evidence(call)}</div></section>')

    def impls(self, owner, page):
        derived = [it for it in owner.item.derives if it != "Drop"] if owner.item else []
        users = [(it, impl) for it in owners().values() for impl in it.impls if re.match(rf"{owner.name}\b", impl.of_trait)]
        if derived or owner.impls:
            page.heading("Trait implementations", "traits")
        if derived:
            names = ", ".join(f"<code>{it}</code>" for it in derived)
            page.parts.append(f"<p>Derived, so the language gives their contracts: {names}</p>")
        for impl in sorted(owner.impls, key=lambda it: it.of_trait):
            anchor = page.anchor(impl_anchor(impl.of_trait))
            page.side.append(f'<a href="#{anchor}"><code>{escape(impl.of_trait)}</code></a>')
            page.parts.append(self.impl(impl, anchor, owner, page))
        if owner.kind == "trait" and users:
            page.heading("Implemented for", "implementors")
            page.parts.append(chips(link(f"{it.page}#{impl_anchor(impl.of_trait)}", impl_name(impl.item)[1]) for it, impl in users))

    def impl(self, impl, anchor, owner, page):
        ghosts = callers.ghosts_of(impl.item)
        own = by_name().get(re.match(r"\w*", impl.of_trait)[0])
        is_own = own and own.kind == "trait"
        of = f"<p>A trait of this library: {link(own.page, own.name)}.</p>" if is_own else std_trait(impl.of_trait)
        calls = "".join(self.call(it, owner, page, f"{impl.of_trait}.") for it in impl.calls)
        words = meanings_html([without_braces(it.head) for it in ghosts], ghosts[0].words) if ghosts else ""
        return (f'<details class="impl" id="{anchor}"><summary><code>{linked_code(impl.item.head)}</code></summary>'
                f'<div class="docs">{of}'
                f"{docs_html(impl.item.docs, owner, impl.of_trait)}{''.join(map(ghost_html, ghosts))}{words}{calls}</div></details>")

# The parts of a page

def rank_of(name):
    """How early a name is found: the main types come first."""
    return len(MAIN) - MAIN.index(name) if name in MAIN else 0


def declaration(item):
    """What a type or a trait begins with, and its public fields' names are listed below it."""
    return item.head + (" { .. }" if item.kind in ("struct", "enum", "trait") and item.inner else "")


def impl_anchor(of_trait):
    return f"impl.{anchor_of(of_trait)}"


def ghost_html(ghost):
    comment = f'<div class="clause soft">{escape(" ".join(ghost.docs))}</div>' if ghost.docs else ""
    return comment + clause_html("", without_braces(ghost.head), ghost.words)


def signature(call, owner):
    """What goes in and what comes out, with the type itself for `self`."""
    head = re.sub(r"^.*?\bfn \w+", "", call.item.head)
    return re.sub(r"\bself\b", owner.name, head.partition(" where ")[0]) if owner.kind != "module" else head


def signature_html(call):
    """The head of a call, with its name in bold and links to its types."""
    return re.sub(rf"\bfn {call.name}\b", f"fn <b>{call.name}</b>", linked_code(re.sub(r"^pub ", "", call.item.head)), count=1)


def line_anchor(item):
    return f"at.{item.at}"


def documentation(call):
    """The documentation of a call, with that of the trait if it has no sentence, and a note where that is from."""
    own = by_name().get(re.match(r"\w*", call.of_trait)[0]) if call.of_trait else None
    has_sentence = any(line and not line.startswith("    ") for line in call.item.docs)
    if has_sentence or not own or not own.item:
        return call.item.docs, ""
    inherited = next((it.docs for it in own.item.inner if it.kind == "fn" and it.name == call.name), [])
    note = f'<p class="soft small">From the trait <code>{escape(call.of_trait)}</code>.</p>' if inherited else ""
    return [*inherited, "", *call.item.docs] if call.item.docs else inherited, note


def std_trait(of_trait):
    comment, file = kit.trait_comment(re.match(r"\w*", of_trait)[0])
    return f'<p class="soft small">A trait of std or of the toolchain: {inline(comment)} <code>{file}</code></p>' if comment else ""


def contract(call):
    bounds = f"{call.item.head} {call.block.head if call.block else ''}"
    clauses = [clause_html(label, text, call.item.words, bounds) for label, text in call.item.clauses]
    if not clauses:
        return ""
    meanings = meanings_html([text for _, text in call.item.clauses], call.item.words, bounds)
    said = sentences.of_call(call.item.clauses)
    proved = html_of(said) if said else ""
    return f'{proved}<details class="contract"><summary>Contract</summary>{"".join(clauses)}{meanings}</details>'


def equal_html(owner, call):
    said = equal.line(owner, call.name)
    return f"<p>{inline(said)}</p>" if said else ""


def evidence(call):
    """The tests, the mutations and the callers that name a call."""
    places = lambda found: ", ".join(place_html(it) for it in found[:12]) + (" .." if len(found) > 12 else "")  # noqa: E731
    rows = [(title, places(found)) for title, found in (("Tests", call.tests), ("Used in", call.users)) if found]
    changes = [f"<code>{escape(it.name)}</code> in <code>{it.listed}</code>: " + "; ".join(
        f"<code>{escape(old[:90])}</code> to <code>{escape(new[:120])}</code>" for old, new in it.edits) for it in call.mutations]
    rows += [("Mutations that the prover has to reject", "<br/>".join(changes))] if changes else []
    if not rows:
        return ""
    counts = [f"{len(found)} {word}{'' if len(found) == 1 else 's'}" for word, found in
              (("test", call.tests), ("mutation", call.mutations), ("caller", call.users)) if found]
    body = "".join(f"<p class=\"small\"><strong>{title}:</strong> {html}</p>" for title, html in rows)
    return f'<details class="evidence"><summary>{", ".join(counts)}</summary>{body}</details>'


def place_html(place):
    crate, _, path = place.file.removeprefix("crates/").partition("/src/")
    if crate in TYPED:
        return f"<code>{escape(place.name)}</code>"
    return link(f"{source_page(crate, tuple(path.removesuffix('.rt').split('/')))}#{place.line}", place.name)
