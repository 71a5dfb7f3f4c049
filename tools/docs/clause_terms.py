"""Reads a clause as a tree: a tuple of its kind and its parts.

name NAME; text TEXT; call HEAD ARGUMENTS; member TERM NAME; sign SIGN LEFT RIGHT; not TERM; closure NAMES TERM; record FIELDS;
pair FIRST SECOND; if TEST THIS THAT; binder SIGN NAMES TYPE TERM. What `let` names is put in the place of its name."""
import re
from functools import cache

TOKEN = re.compile(r"""\s*("[^"]*"|=?[\w.'◌⊤⊥ℕℤ]*[\w'⊤⊥ℕℤ]|\[\]|\+\+|&&|\|\||==|[(){};,:.=λ¬≡≢≤<→↔×⊎∷+*^-])""")
# How closely the signs between two terms bind, and those that bind to the right.
SIGNS = {"→": 1, "↔": 1, "⊎": 2, "×": 3, "≡": 5, "≢": 5, "<": 5, "≤": 5, "++": 6, "∷": 6, "+": 7, "-": 7, "*": 8, "^": 9}
TO_THE_RIGHT = {"→", "++", "∷", "×", "⊎"}
WORDS = {"in", "then", "else"}


class Unsaid(Exception):
    """A clause has something that no sentence says."""


def tokens(text):
    found, at = [], 0
    while text[at:].strip():
        match = TOKEN.match(text, at)
        if not match:
            raise Unsaid(text[at : at + 10])
        found.append(match[1])
        at = match.end()
    return found


@cache
def parsed(text):
    return Parser(text).whole()


class Parser:
    def __init__(self, text):
        self.left = tokens(text)[::-1]

    def next(self):
        return self.left[-1] if self.left else ""

    def take(self, expected=None):
        token = self.left.pop() if self.left else ""
        if expected and token != expected or not token:
            raise Unsaid(token or "the end")
        return token

    def whole(self):
        term = self.term()
        if self.left:
            raise Unsaid(self.next())
        return term

    def term(self, least=0):
        left = self.call()
        while self.next() in SIGNS and SIGNS[self.next()] >= least:
            sign = self.take()
            left = ("sign", sign, left, self.term(SIGNS[sign] + (sign not in TO_THE_RIGHT)))
        return left

    def call(self):
        if self.next() == "¬":
            self.take()
            return ("not", self.call())
        special = {"λ": self.closure, "let": self.named, "if": self.choice}.get(self.next())
        if special:
            return special()
        head, arguments = self.atom(), []
        while re.match(r'[\w(⊤⊥λ"=\[]', self.next()) and self.next() not in WORDS and self.next() != "=":
            arguments.append(self.closure() if self.next() == "λ" else self.atom())
        return ("call", head, arguments) if arguments else head

    def closure(self):
        self.take("λ")
        names = []
        while self.next() != ".":
            token = self.take()
            if token == "(":
                token = self.take()
                self.take(":")
                self.term()
                self.take(")")
            names.append(token)
        self.take(".")
        return ("closure", names, self.term())

    def named(self):
        self.take("let")
        name = self.take()
        self.take("=")
        value = self.term()
        self.take("in")
        return put(self.term(), name, value)

    def choice(self):
        parts = []
        for word in ("if", "then", "else"):
            self.take(word)
            parts.append(self.term())
        return ("if", *parts)

    def record(self):
        fields = []
        self.take("{")
        while self.next() != "}":
            name = self.take()
            self.take("=")
            fields.append((name, self.term()))
            if self.next() == ";":
                self.take()
        self.take("}")
        return ("record", fields)

    def atom(self):
        token = self.take()
        if token == "record":
            return self.record()
        if token[0] == '"':
            return ("text", token[1:-1])
        if token != "(":
            return dotted(token)
        if ":" in self.left and re.fullmatch(r"[\w ]+", " ".join(self.left[: self.left_of(":") : -1])):
            return self.binder()
        inner = self.term()
        if self.next() == ",":
            self.take()
            inner = ("pair", inner, self.term())
        self.take(")")
        return with_members(inner, self.take()[1:].split(".")) if re.match(r"\.\w", self.next()) else inner

    def left_of(self, token):
        """Where the next such token is among those that are left, which are in reverse."""
        return len(self.left) - 1 - self.left[::-1].index(token)

    def binder(self):
        names = []
        while self.next() != ":":
            names.append(self.take())
        self.take(":")
        kind = self.term()
        self.take(")")
        sign = self.take()
        if sign not in ("×", "→"):
            raise Unsaid(sign)
        return ("binder", sign, names, kind, self.term())


def dotted(token):
    """A name: of a value with its members, or of something by its qualifier, which begins with a capital or is a type of integers."""
    mark, name = ("=", token[1:]) if token[0] == "=" else ("", token)
    base, *members = name.split(".")
    if not members or re.match(r"[A-Z]|[iu](\d+|size)\b", base):
        return ("name", token)
    return with_members(("name", mark + base), members)


def with_members(term, members):
    for member in members:
        term = ("member", term, member)
    return term


def put(term, name, value):
    """A term with a value in the place of a name."""
    if term == ("name", name):
        return value
    if isinstance(term, (tuple, list)):
        return type(term)(put(it, name, value) for it in term)
    return term
