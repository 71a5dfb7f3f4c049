"""Reads the items of a source of Rattle, from its tokens."""
import re
from dataclasses import dataclass, field

from tokens import OPENING, lex, partners, skip_angles

# What may be before the word that says the kind of an item, and what may follow a function's head.
BEFORE = {"unsafe", "const", "extern", "ghost"}
CLAUSES = {"requires", "ensures", "decreases", "ghost", "invariant"}
BLOCKS = {"impl", "trait", "struct", "enum", "union", "mod", "extern", "macro_rules"}


class Wrong(Exception):
    """What cannot be read or made, as one line."""


@dataclass
class Item:
    """An item of a source: its kind, what comes before its block, and the items in the block."""
    kind: str
    name: str
    head: str
    public: bool = False
    docs: list = field(default_factory=list)
    derives: list = field(default_factory=list)
    clauses: list = field(default_factory=list)  # of a function: pairs of a label and a text
    inner: list = field(default_factory=list)
    source: str = ""
    words: list = field(default_factory=list)  # the ghost uses in scope
    alias: str = ""  # of an impl: the public name of its type, if a `type` gives it one
    begins: int = 0  # where its attributes begin, or the item if it has none
    at: int = 0  # where its kind is
    opens: int = -1  # where the brace of its block or body opens; -1 without one
    end: int = 0  # the position after it


def one_line(text):
    line = re.sub(r"\s+", " ", text).strip()
    return re.sub(r",? ([)\]])", r"\1", re.sub(r"([(\[]) ", r"\1", line)).rstrip(",")


def doc_text(line):
    """A line of a comment without what begins it; a line of code keeps its indentation."""
    return re.sub(r"^/* ?", "", line.rstrip())


def read_items(text):
    """The items of a source, in order."""
    return Reader(text).items(0, None)


class Reader:
    """The tokens of a source, with its comments."""

    def __init__(self, text):
        self.text, self.tokens = text, lex(text, ("space",))
        self.pairs = partners(self.tokens)

    def word(self, i):
        return self.tokens[i].text if i < len(self.tokens) else ""

    def items(self, first, last, read=None):
        """The items, or what `read` reads, between two tokens: each with the comments and attributes before it."""
        last = len(self.tokens) if last is None else last
        found, docs, attributes, begin, i = [], [], [], None, first
        while i < last:
            token = self.tokens[i]
            if token.kind == "comment" or token.text == "#":
                end = i if token.kind == "comment" else self.pairs[i + 1 + (self.word(i + 1) == "!")]
                is_inner = token.text.startswith("//!") or self.word(i + 1) == "!" and token.text == "#"
                if not is_inner:
                    begin = token.start if begin is None else begin
                    docs += [doc_text(token.text)] if token.kind == "comment" else []
                    attributes = [] if token.kind == "comment" else [*attributes, (token.start, self.tokens[end].end)]
                i = end + 1
                continue
            item, i = (read or self.item)(i, last)
            item.docs, item.derives = docs, self.derived(attributes)
            item.source = self.text[token.start if begin is None else begin : item.end]
            item.begins = attributes[0][0] if attributes else token.start
            found.append(item)
            docs, attributes, begin = [], [], None
        return found

    def derived(self, attributes):
        """The traits that the attributes of a type derive."""
        texts = [self.text[a:b] for a, b in attributes]
        return [name for text in texts if text.startswith("#[derive(") for name in re.findall(r"\w+", text)[1:]]

    def item(self, i, last):
        """The item that begins at a token, and the index after it."""
        at, public, i = i, *self.visibility(i)
        kind = self.kind_at(i)
        if kind == "ghost use":
            i += 1
        elif kind in ("fn", "impl", "trait"):
            while self.word(i) != kind:
                i += 1
        name = self.word(i + 1) if re.match(r"\w", self.word(i + 1)) else ""
        item = Item(kind, name, "", public, at=self.tokens[i].start)
        if kind == "fn":
            end = self.function(item, at, i)
        elif kind in BLOCKS:
            end = self.block(item, at, i)
        else:
            end = self.closes(i, {";"}, last)
            item.head = self.head(at, end)
        item.end = self.tokens[min(end, last - 1)].end
        return item, end + 1

    def visibility(self, i):
        """Whether what begins at a token is `pub`, without a restriction, and the index after that."""
        if self.word(i) != "pub":
            return False, i
        return (False, self.pairs[i + 1] + 1) if self.word(i + 1) == "(" else (True, i + 1)

    def kind_at(self, i):
        """The kind of the item whose first word is at an index, after `pub`."""
        if self.word(i) == "ghost":
            return "ghost use" if self.word(i + 1) == "use" else "ghost"
        k = i
        while self.word(k) in BEFORE or self.tokens[k].kind == "text":
            k += 1
        if self.word(k) in ("fn", "impl", "trait"):
            return self.word(k)
        if self.word(i) in BLOCKS or self.word(i) in ("use", "const", "static", "type"):
            return self.word(i)
        raise Wrong(f"no item: {self.text[self.tokens[i].start:][:60]!r}")

    def head(self, first, end):
        """The text of the tokens from one up to another, as one line."""
        last = self.tokens[end].start if end < len(self.tokens) else len(self.text)
        return one_line(self.text[self.tokens[first].start : last])

    def closes(self, i, ends, last=None):
        """The index of the first of these tokens from `i` on that is in no bracket."""
        last = len(self.tokens) if last is None else last
        while i < last and self.word(i) not in ends:
            i = self.pairs.get(i, i) + 1 if self.word(i) in OPENING else i + 1
        return i

    def function(self, item, at, i):
        """Reads a function from its `fn` on. Returns the index of its last token."""
        i = self.closes(skip_angles(self.tokens, i + 2), CLAUSES | {"{", ";"})
        item.head = self.head(at, i)
        while self.word(i) in CLAUSES:
            opening = self.closes(i, {"{"})
            label = re.sub(r" (?=\*)", "", " ".join(token.text for token in self.tokens[i:opening]))
            close = self.pairs[opening]
            if self.word(i) in ("requires", "ensures"):
                text = self.text[self.tokens[opening].end : self.tokens[close].start]
                item.clauses.append((label, one_line(text)))
            i = self.closes(close + 1, CLAUSES | {"{", ";"})
        if self.word(i) == "{":
            item.opens = self.tokens[i].start
        return self.pairs.get(i, i)

    def block(self, item, at, i):
        """Reads an item with a block. Returns the index of its last token."""
        opening = self.closes(i, {"{", ";"})
        item.head = self.head(at, opening)
        if self.word(opening) != "{":
            return opening
        item.opens, close = self.tokens[opening].start, self.pairs[opening]
        if item.kind in ("struct", "enum", "union"):
            item.inner = self.items(opening + 1, close, self.part)
        elif item.kind != "macro_rules":
            item.inner = self.items(opening + 1, close)
        return close

    def part(self, i, last):
        """The field of a struct or the variant of an enum that begins at a token, and the index after its comma."""
        end, depth = i, 0
        while end < last and (depth > 0 or self.word(end) != ","):
            depth = max(0, depth + {"<": 1, ">": -1, ">>": -2}.get(self.word(end), 0))
            end = self.pairs[end] + 1 if self.word(end) in OPENING else end + 1
        at, public, i = i, *self.visibility(i)
        item = Item("field", self.word(i), self.head(at, end), public, at=self.tokens[i].start)
        item.end = self.tokens[end - 1].end
        return item, end + 1
