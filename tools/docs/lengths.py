"""Measures the prose of the pages that are written by hand: words, the share of long sentences, and long cells.

It prints what is over a limit: a page with more than 40 sentences, of which 8 of 100 or more have over 25 words; a cell of a
table with over 40 words. A piece of code in a sentence is one word."""
import re

from made import TOP
from sources import read

LONG_SENTENCE, LONG_CELL = 25, 40
FEW_SENTENCES, MOST_LONG = 40, 0.08
# Pages of docs/ that a program writes, or fills from what it measures.
MADE = {"PERFORMANCE.md", "RECIPES.md"}
TABLE = re.compile(r"<!-- Made by .*?<!-- end of the table -->", re.DOTALL)
CODE = re.compile(r"^```.*?^```$", re.DOTALL | re.MULTILINE)
END = re.compile(r"(?<=[.?!])[)*]*\s+(?=[A-Z`*\[(])")


def pages():
    """The pages that are written by hand."""
    docs = [it for it in sorted((TOP / "docs").glob("*.md")) if it.name not in MADE]
    return [it for it in sorted(TOP.glob("*.md"))] + docs


def plain(text):
    """The prose of a page: without code, made tables, targets of links and comments."""
    for pattern in (TABLE, CODE, re.compile(r"<!--.*?-->", re.DOTALL), re.compile(r"^    .*$", re.MULTILINE)):
        text = pattern.sub("", text)
    text = re.sub(r"`[^`\n]*`", "CODE", text)
    return re.sub(r"!?\[([^\]]*)\]\([^)]*\)", r"\1", text)


def cells(text):
    """The cells of the tables of a plain text."""
    rows = [line for line in text.splitlines() if line.startswith("|") and not re.match(r"\|[ :|-]*$", line)]
    return [cell.strip() for row in rows for cell in row.strip("|").split("|") if cell.strip()]


def sentences(text):
    """The sentences of the paragraphs, items and cells of a plain text; the bold headline of a theorem is none."""
    lines = [line for line in text.splitlines() if not line.startswith(("|", "#")) and not re.match(r"\*\*For every source", line)]
    joined = re.sub(r"\n(?!\n|\s*[-*] |\s*\d+\. )\s*", " ", "\n".join(lines))
    parts = [re.sub(r"^(\s*[-*]|\s*\d+\.) ", "", line).strip() for line in joined.splitlines()] + cells(text)
    return [it for part in parts if part for it in END.split(part)]


def words(text):
    """How many words a text has: what has a letter or a digit between two spaces."""
    return sum(1 for it in text.split() if re.search(r"\w", it))


class Measured:
    """What is measured of a page."""

    def __init__(self, page):
        text = plain(read(page))
        self.name, self.words, self.sentences = str(page.relative_to(TOP)), words(text), sentences(text)
        self.long = [it for it in self.sentences if words(it) > LONG_SENTENCE]
        self.cells = [it for it in cells(text) if words(it) > LONG_CELL]
        self.share = len(self.long) / max(1, len(self.sentences))

    def faults(self):
        found = [f"{self.name}: a cell of {words(it)} words: {it[:60]}" for it in self.cells]
        if len(self.sentences) > FEW_SENTENCES and self.share >= MOST_LONG:
            found.append(f"{self.name}: {len(self.long)} of {len(self.sentences)} sentences have over {LONG_SENTENCE} words")
        return found


def faults(is_list=False, are_long_shown=False):
    """What is over a limit; the list of all pages is printed if it is asked for."""
    measured = [Measured(it) for it in pages()]
    for it in measured if is_list else []:
        print(f"{it.name}: {it.words} words, {len(it.sentences)} sentences, {len(it.long)} long ({100 * it.share:.0f}%)")
        for sentence in it.long if are_long_shown else []:
            print(f"    {words(sentence)}: {sentence}")
    if is_list:
        print(f"all pages: {sum(it.words for it in measured)} words")
    return [fault for it in measured for fault in it.faults()]
