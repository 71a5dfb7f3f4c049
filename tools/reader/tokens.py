"""Reads a source of Rattle as tokens."""
import re
from dataclasses import dataclass

TOKEN = re.compile(
    r"""(?P<space>\s+)
    |(?P<comment>//[^\n]*|/\*.*?\*/)
    |(?P<text>b?"(?:[^"\\]|\\.)*"|br?\#*"[^"]*"\#*|r\#*"[^"]*"\#*)
    |(?P<char>b?'(?:[^'\\\n]|\\(?:x[0-9a-fA-F]{2}|u\{[0-9a-fA-F]+\}|.))')
    |(?P<label>'[A-Za-z_]\w*)
    |(?P<number>0[xb][0-9a-fA-F_]+\w*|[0-9][0-9_]*(?:[iu](?:8|16|32|64|128|size))?)
    |(?P<word>[A-Za-z_]\w*)
    |(?P<sign>\.\.=|\.\.|->|=>|::|<<=|>>=|<=|>=|==|!=|&&|\|\||\+=|-=|\*=|/=|%=|\^=|&=|\|=|<<|>>|.)""",
    re.X | re.S,
)
OPENING, CLOSING = {"(": ")", "[": "]", "{": "}"}, {")", "]", "}"}
KEYWORDS = set(
    "as break const continue else enum extern false fn for if impl in let loop match mod move mut pub ref return self Self static"
    " struct super trait true type unsafe use where while crate dyn".split()
)


@dataclass
class Token:
    kind: str
    text: str
    start: int
    end: int


def lex(text, left_out=("space", "comment")):
    """The tokens of a text, without these kinds."""
    return [Token(it.lastgroup, it[0], it.start(), it.end()) for it in TOKEN.finditer(text) if it.lastgroup not in left_out]


def partners(tokens):
    """The index of the bracket that closes each opening one, and the other way round."""
    found, open_ones = {}, []
    for i, it in enumerate(tokens):
        if it.kind == "sign" and it.text in OPENING:
            open_ones.append(i)
        elif it.kind == "sign" and it.text in CLOSING and open_ones:
            at = open_ones.pop()
            found[at], found[i] = i, at
    return found


def skip_angles(tokens, i):
    """The index after the angle brackets that open at `i`, or `i` if none do."""
    if tokens[i].text != "<":
        return i
    depth = 0
    while True:
        depth += {"<": 1, ">": -1, "<<": 2, ">>": -2}.get(tokens[i].text, 0)
        i += 1
        if depth == 0:
            return i


def angles(text):
    """The angle brackets that a text begins with, and what is in them; nothing if it begins with none."""
    depth = 0
    for i, it in enumerate(text):
        depth += (it == "<") - (it == ">" and text[i - 1] != "-")
        if depth == 0:
            return text[: i + 1] if i else ""
    return ""


def parts(tokens, separator=","):
    """The tokens between separators that are in no bracket."""
    found, depth = [[]], 0
    for it in tokens:
        if it.kind == "sign":
            depth += (it.text in OPENING) - (it.text in CLOSING)
        if depth == 0 and it.text == separator and it.kind == "sign":
            found.append([])
        else:
            found[-1].append(it)
    return [it for it in found if it]
