"""Tests of a site that `bin/docs site` wrote: `python3 tools/docs/test_site.py FOLDER`. The HTML is well formed, each link
leads to a page and an anchor that exist, each public path and each definition has its place, each word of a clause that a `use`
line brings is linked, no page names a private module, and the links of the front page lead to the answers of five questions. If
Node is installed, the search of the pages finds each page of searches.txt among its first three answers; if Chromium is, it opens
some pages, and follows a search to a call and to a definition. Status 1, and a line for each fault; 64: no FOLDER."""
import json
import re
import shutil
import subprocess
import sys
import tempfile
from html import unescape
from html.parser import HTMLParser
from pathlib import Path

sys.dont_write_bytecode = True
HERE = Path(__file__).resolve().parent
sys.path[:0] = [str(HERE.parents[0] / it) for it in ("docs", "reader")]
import calls  # noqa: E402
from definitions import Definitions  # noqa: E402
from made import DEFINED, LIBRARIES  # noqa: E402
from meanings import page_of, scope, words_in  # noqa: E402
from owners import owners  # noqa: E402

# Questions of a reader: the links that lead to the answer from the front page, and a text of the answer.
QUESTIONS = {
    "where is rsplit_once's contract": (["ascii.AsciiStr.html", "#rsplit_once"], "otherwise the two sides"),
    "which calls of AsciiString can fail": (["ascii.AsciiString.html"], "Calls that can fail:"),
    "what does lines do with a last CR": (["ascii.AsciiStr.html", "#lines"], "last CR"),
    "how is a class of one's own written": (["ascii.classes.module.html"], "A class of your own"),
    "which test sees a wrong retain": (["ascii.AsciiString.html", "#retain"], "strings_in_the_value::changed_over"),
}
VOID = {"meta", "link", "input", "img", "br", "hr", "col"}
# Runs the search of the site over the rows of the standard input, and prints the addresses of the first three answers of each.
SEARCH = """const { found } = require(process.argv[1] + "/search.js"), { NAMES, SYNONYMS } = require(process.argv[1] + "/names.js");
globalThis.SYNONYMS = SYNONYMS;
const texts = JSON.parse(require("fs").readFileSync(0));
console.log(JSON.stringify(texts.map((text) => found(NAMES, text).slice(0, 3).map((name) => name[2]))));"""


class Page(HTMLParser):
    """The anchors and links of a page, and what is not well formed in it."""

    def __init__(self, name, text):
        super().__init__()
        self.name, self.open, self.anchors, self.links, self.faults = name, [], [], [], []
        self.feed(text)
        if self.open:
            self.faults.append(f"{name}: not closed: {self.open}")

    def handle_starttag(self, tag, attributes):
        self.handle_startendtag(tag, attributes)
        if tag not in VOID:
            self.open.append(tag)

    def handle_startendtag(self, tag, attributes):
        found = dict(attributes)
        if found.get("id"):
            self.anchors.append(found["id"])
        self.links += [found[key] for key in ("href", "src") if found.get(key)]

    def handle_endtag(self, tag):
        if tag in VOID:
            return
        if not self.open or self.open.pop() != tag:
            self.faults.append(f"{self.name}: {self.getpos()[0]}: </{tag}> closes nothing")


def faults_of(folder):
    files = {file.name for file in folder.iterdir()}
    texts = {f.name: f.read_text(encoding="utf-8") for f in sorted(folder.glob("*.html"))}
    pages = {name: Page(name, text) for name, text in texts.items()}
    anchors = {name: set(page.anchors) for name, page in pages.items()}
    faults = [fault for page in pages.values() for fault in page.faults]
    for page in pages.values():
        faults += [f"{page.name}: {fault}" for link in {*page.links} if (fault := fault_of_link(link, page.name, files, anchors))]
        faults += [f"{page.name}: two anchors {it}" for it in anchors[page.name] if page.anchors.count(it) > 1]
        faults += [] if 'href="index.html"' in texts[page.name] else [f"{page.name}: no way home"]
    return faults + missing(anchors) + unlinked(texts) + private_modules(texts) + unanswered(texts) + searched(folder)


def fault_of_link(link, name, files, anchors):
    if re.match(r"(https?|data):", link):
        return ""
    target, _, anchor = link.partition("#")
    target = target or name
    if target not in files:
        return f"no page {target}"
    return f"no anchor {link}" if anchor and target in anchors and anchor not in anchors[target] else ""


def missing(anchors):
    """The public paths, the calls and the definitions that have no place."""
    faults = [f"no page for {it.path}" for it in owners().values() if it.page not in anchors]
    placed = {call.key for owner in owners().values() for call in owner.calls}
    placed |= {call.key for owner in owners().values() for impl in owner.impls for call in impl.calls}
    faults += [f"{call.crate}: no place for {call.key}" for call in calls.table() if call.key not in placed]
    for owner in owners().values():
        here = anchors.get(owner.page, set())
        faults += [f"{owner.page}: no place for {call.name}" for call in owner.calls if call.name not in here]
    for module, file in Definitions().files.items():
        here = anchors.get(page_of(module), set())
        if module.split(".")[1] in DEFINED:
            faults += [f"{module}: no place for the definition {it.name}" for it in file.definitions if it.name not in here]
    return faults


def unlinked(texts):
    """The clauses of the libraries in which a word that a `use` line brings is not linked."""
    faults = []
    shown = {page: set(re.findall(r'<a href="[^"]*" title="[^"]*">([^<]*)</a>', text)) for page, text in texts.items()}
    for owner in owners().values():
        linked = {unescape(word) for word in shown.get(owner.page, ())}
        for call in owner.calls if owner.crate in LIBRARIES else []:
            words = {word for _, text in call.item.clauses for word in re.findall(r"[^\s(){}\[\];,]+", text)}
            lacking = words & {*scope(tuple(call.item.words or ()))} - linked
            faults += [f"{owner.page}: {call.name}: {word} has no link" for word in sorted(lacking)]
            bounds = f"{call.item.head} {call.block.head if call.block else ''}"
            faults += [f"{owner.page}: {call.name}: a clause without a link: {text}" for _, text in call.item.clauses
                       if not any(words_in(text, call.item.words, bounds))]
    return faults


def private_modules(texts):
    """The titles that name a module that callers cannot name."""
    known = {owner.path for owner in owners().values()}
    titles = {name: re.findall(r"<h1><code>([\w:]+)</code></h1>", text) for name, text in texts.items()}
    return [f"{name}: {title} cannot be imported" for name, found in titles.items() for title in found
            if title not in known and not name.startswith("words.")]


def unanswered(texts):
    """The questions whose answer the links of the front page do not lead to."""
    faults = []
    for question, (links, answer) in QUESTIONS.items():
        page, shown = "index.html", texts["index.html"]
        for link in links:
            faults += [] if f'href="{link}"' in shown else [f"{page}: no link {link}: {question}?"]
            page = page if link[0] == "#" else link
            start = texts[page].find(f'<section class="call" id="{link[1:]}">') if link[0] == "#" else 0
            shown = texts[page][start:].partition("</section>")[0] if link[0] == "#" else texts[page]
        faults += [] if answer in shown else [f"{page}: no answer: {question}?"]
    return faults


def searched(folder):
    """The searches that do not find their page among the first three answers; none if Node is not installed."""
    if not shutil.which("node"):
        print("test_site: node is not installed: the search is not run", file=sys.stderr)
        return []
    lines = [line.rsplit(maxsplit=1) for line in (HERE / "searches.txt").read_text(encoding="utf-8").splitlines() if line and line[0] != "#"]
    lines = [(text.strip(), page) for text, page in lines]
    texts = [text for text, _ in lines]
    command = ["node", "-e", SEARCH, str(folder.resolve())]
    ran = subprocess.run(command, input=json.dumps(texts), capture_output=True, text=True, timeout=60)
    if ran.returncode:
        return [f"search.js: {ran.stderr.strip()}"]
    return [f"the search for {text} finds {', '.join(found)} and not {page}"
            for (text, page), found in zip(lines, json.loads(ran.stdout)) if page not in found]


def seen(folder, address):
    """The document of a page after its scripts ran, and what the console said."""
    with tempfile.TemporaryDirectory() as profile:
        command = ["chromium", "--headless", "--no-sandbox", "--disable-gpu", f"--user-data-dir={profile}", "--dump-dom",
                   "--enable-logging=stderr", f"file://{folder}/{address}"]
        ran = subprocess.run(command, capture_output=True, text=True, timeout=60)
    return ran.stdout, [line for line in ran.stderr.splitlines() if "CONSOLE" in line]


def browsed(folder):
    """The faults that a browser sees; none if there is no Chromium."""
    if not shutil.which("chromium"):
        print("test_site: chromium is not installed: no page is opened in a browser", file=sys.stderr)
        return []
    faults = []
    for address in ("index.html", "docs-START.html", "ascii.bytes.module.html"):
        faults += [f"{address}: {line}" for line in seen(folder, address)[1]]
    answers = re.search(r'<div id="found">(.*?)</ol>', seen(folder, "index.html?q=slice_ascii")[0], re.DOTALL)
    first = re.search(r'href="([^"#]+)#([^"]+)"', answers[1]) if answers else None
    if not first or "slice_ascii" not in first[2]:
        return [*faults, "index.html: the search for slice_ascii has no answer"]
    call = re.search(rf'<section class="call" id="{re.escape(first[2])}">.*?</section>', seen(folder, first[1])[0], re.DOTALL)
    word = re.search(r'href="(words\.[^"#]+)#(\w+)"', call[0]) if call else None
    if not word or f'id="{word[2]}"' not in seen(folder, word[1])[0]:
        faults.append(f"{first[1]}: the clauses of {first[2]} lead to no definition")
    return faults


if __name__ == "__main__":
    if sys.argv[1:] in (["-h"], ["--help"]):
        print(__doc__)
        sys.exit(0)
    if len(sys.argv) != 2 or sys.argv[1].startswith("-"):
        print("usage: test_site.py FOLDER", file=sys.stderr)
        sys.exit(64)
    found = faults_of(Path(sys.argv[1]))
    try:
        found += browsed(Path(sys.argv[1]).resolve())
    except subprocess.TimeoutExpired:
        print("test_site: chromium did not answer within 60 seconds: the other pages are not opened", file=sys.stderr)
    print("\n".join(found), end="\n" if found else "")
    sys.exit(1 if found else 0)
