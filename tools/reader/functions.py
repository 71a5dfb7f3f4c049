"""The functions of a source that have a body, and what enums, structs and constants a crate declares."""
import re
from dataclasses import dataclass, field
from functools import cache

from items import CLAUSES, read_items
from tokens import angles, lex, partners, parts, skip_angles


def plain(kind):
    """A type without lifetimes and spaces."""
    return re.sub(r"<,*>", "", re.sub(r"'\w+ ?", "", kind).replace(" ", "").replace("<,", "<"))


@dataclass
class Function:
    file: str
    name: str
    block: str  # the head of the `impl` or `trait` around it
    start: int  # where its attributes start
    named: int  # where its name starts
    opens: int  # where the brace of its body opens
    end: int  # the position after the brace that closes it
    params: list
    result: str
    receiver: str = ""  # `&mut self`, `self` ..

    @property
    def owner(self):
        """The type that it is a method of."""
        head = re.sub(r"^(impl|trait)\s*", "", self.block)
        head = re.sub(r"\swhere\s.*", "", head[len(angles(head)) :], flags=re.S)
        return head.rpartition(" for ")[2].strip()

    @property
    def in_trait(self):
        return bool(re.search(r"\bfor\b(?!<)", self.block)) or self.block.startswith("trait")


def receiver_of(tokens):
    """How these parameters take `self`, without lifetimes."""
    first = parts(tokens)[:1]
    words = [it.text for it in first[0] if it.kind != "label"] if first else []
    return "".join(words).replace("mutself", "mut self") if words[-1:] == ["self"] else ""


def parameters(tokens):
    """The parameters in these tokens, as pairs of a name and a type."""
    found = []
    for part in parts(tokens):
        words = [it.text for it in part]
        if ":" in words:
            colon = words.index(":")
            if part[colon - 1].kind == "word":
                found.append((words[colon - 1], " ".join(words[colon + 1 :])))
    return found


@cache
def functions_of(file, text):
    """The functions of a file that have a body, outside the modules in it."""
    return tuple(function for item in read_items(text) for function in functions_in(file, text, item))


def functions_in(file, text, item):
    """The functions of an item: itself, or those in its block."""
    if item.kind == "fn" and item.opens >= 0:
        return [function_of(file, text, item, "")]
    if item.kind not in ("impl", "trait"):
        return []
    block = text[item.at : item.opens].strip()
    return [function_of(file, text, it, block) for it in item.inner if it.kind == "fn" and it.opens >= 0]


def function_of(file, text, item, block):
    """The function of an item."""
    tokens = lex(text[item.at : item.opens])
    pairs = partners(tokens)
    opening = skip_angles(tokens, 2)
    inside = tokens[opening + 1 : pairs[opening]]
    after = tokens[pairs[opening] + 1 :]
    clause = next((i for i, it in enumerate(after) if it.text in CLAUSES), len(after))
    result = " ".join(it.text for it in after[1:clause]) if after[:1] and after[0].text == "->" else ""
    start = text.rfind("\n", 0, item.begins) + 1
    named = item.at + tokens[1].start
    return Function(
        file, item.name, block, start, named, item.opens, item.end, parameters(inside), result, receiver_of(inside)
    )


@dataclass
class Names:
    """What the sources of the crates declare."""

    variants: dict = field(default_factory=dict)  # of an enum: name to the text of what it holds
    constants: dict = field(default_factory=dict)  # name to type
    fields: dict = field(default_factory=dict)  # of a struct: name to type
    private: set = field(default_factory=set)  # pairs of a struct and a field that only its module sees
    iterators: set = field(default_factory=set)  # types that iterate
    double_ended: set = field(default_factory=set)  # those that iterate from both ends
    words: set = field(default_factory=set)  # every word
    results: dict = field(default_factory=dict)  # of the functions of a name: the types that they return
    values: dict = field(default_factory=dict)  # of a type: other values, as expressions of a value `it`
    texts: set = field(default_factory=lambda: {"Vec", "String"})  # types whose values can be cut
    devices: set = field(default_factory=lambda: {"read", "write", "write_all", "flush"})  # methods that use a device
    reads: set = field(default_factory=lambda: {"read"})  # those of them that read

    def read(self, text):
        self.words |= {it.text for it in lex(text) if it.kind == "word"}
        self.iterators |= {*re.findall(r"\bIterator for (\w+)", text)}
        self.double_ended |= {*re.findall(r"\bDoubleEndedIterator for (\w+)", text)}
        for item in read_items(text):
            for it in functions_in("", text, item):
                self.results.setdefault(it.name, set()).add(plain(re.sub(r"\bSelf\b", it.owner, it.result)))
            for it in [item, *item.inner]:
                if it.kind == "const":
                    words = [token.text for token in lex(it.head)]
                    self.constants[it.name] = words[words.index(":") + 1]
            for it in item.inner:
                self.read_part(item, it)

    def read_part(self, item, part):
        """Reads a field of a struct or a variant of an enum."""
        words = [token.text for token in lex(part.head)]
        if item.kind == "enum":
            rest = " ".join(words[1:]) if words[1:2] != ["="] else ""
            self.variants.setdefault(item.name, {})[part.name] = rest
        elif item.kind == "struct" and words[0] != "ghost" and ":" in words:
            self.fields.setdefault(item.name, {})[part.name] = " ".join(words[words.index(":") + 1 :])
            if words[0] != "pub":
                self.private.add((item.name, part.name))
