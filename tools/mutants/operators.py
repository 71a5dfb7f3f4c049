"""The mutants of a function: its body with one small change, by operators (relations, literals, deletions, arguments ..)."""
import re
from dataclasses import dataclass

from functions import Function, plain
from tokens import KEYWORDS, OPENING, Token, lex, partners, parts
from values import arguments_of, changes, others, outcomes


@dataclass
class Mutant:
    """A function with a change of its body. `kind` and `why` are the verdict, once it is judged."""

    function: Function
    operator: str
    edits: list  # (start, end, new text), from the start of the file
    shown: str
    number: int = 0
    kind: str = ""
    why: str = ""
    lines: tuple = ()  # the file, the first and the last line at which it was written

    @property
    def key(self):
        """What names the mutant in a file of results; it depends on the text of its function only."""
        edits = [(a - self.function.opens, b - self.function.opens, new) for a, b, new in self.edits]
        return f"{self.function.file}:{self.function.block}:{self.function.name}:{self.operator}:{edits}"

    @property
    def name(self):
        return f"{self.function.name}_mutant{self.number}"


TURNED = {
    "<": ["<="], "<=": ["<"], ">": [">="], ">=": [">"], "==": ["!="], "!=": ["=="],
    "+": ["-"], "-": ["+"], "*": ["+"], "/": ["*"], "%": ["/"], "+=": ["-=", "="], "-=": ["+=", "="],
    "&&": ["||"], "||": ["&&"], "&": ["|"], "|": ["&"], "^": ["|"], "<<": [">>"], ">>": ["<<"],
}  # fmt: skip
OPERATOR_OF = {
    **dict.fromkeys(["<", "<=", ">", ">=", "==", "!="], "relation"),
    **dict.fromkeys(["+", "-", "*", "/", "%", "+=", "-="], "arithmetic"),
    **dict.fromkeys(["&&", "||", "&", "|", "^", "<<", ">>"], "logic"),
}
WORDS = [
    ("first", "last"), ("start", "end"), ("front", "back"), ("Front", "Back"), ("upper", "lower"), ("uppercase", "lowercase"),
    ("Upper", "Lower"), ("First", "Last"), ("before", "after"), ("min", "max"), ("any", "all"), ("some", "none"), ("ok", "err"),
    ("memchr", "memrchr"), ("find", "rfind"), ("position", "rposition"), ("leading", "trailing"), ("ge", "gt"), ("lt", "le"),
    ("ne", "eq"), ("insert", "remove"), ("left", "right"), ("add", "sub"), ("from", "to"), ("len", "capacity"),
]  # fmt: skip
SWAPS = {a: b for pair in WORDS for a, b in (pair, pair[::-1])}
WHOLE = {"next": "next_back", "next_back": "next", "pop": "clear"}
# Names of std that a changed word may have, although no source of the crates has it.
OF_STD = {
    "min", "max", "first", "last", "any", "all", "find", "rfind", "position", "rposition", "memchr", "memrchr", "next_back",
    "trailing_zeros", "leading_zeros", "saturating_add", "saturating_sub", "wrapping_add", "wrapping_sub", "checked_add",
    "checked_sub", "simd_ge", "simd_gt", "simd_lt", "simd_le", "simd_eq", "simd_ne", "starts_with", "ends_with",
}  # fmt: skip
# Calls that change the type of what they are made on: without one, the body plainly does not type.
RETYPES = re.compile(
    r"((as|into|is|get|next|split|checked|strip|try|collect|take|read|write|from)_\w+|to_(?!ascii_(upper|lower)case)\w+|len|iter|clone|"
    r"cmp|partial_cmp|split|next|get|into|remainder|chars|lines|size_hint|char_at|first|last|ok|ok_or|copied|map|map_err|str|"
    r"find|rfind|position|rposition|contains|starts_with|ends_with|folded|unwrap_or|unwrap_or_default|collect|count|fmt|eq|"
    r"hash|push|push_str|insert|insert_str|reserve|reserve_exact|clear|extend_from_slice|truncate|words|bytes|simd_\w+)"
)
# Arguments that have a type of their own.
APART = {"f", "state", "alloc", "rt", "self", "out", "writer", "reader"}


class Operators:
    """The mutants of one function."""

    def __init__(self, function, text, names):
        self.function, self.text, self.names = function, text, names
        offset = function.opens
        self.tokens = [
            Token(it.kind, it.text, it.start + offset, it.end + offset) for it in lex(text[offset : function.end])
        ]
        self.pairs = partners(self.tokens)
        self.made, self.seen = [], set()
        # The statements that only help the prover.
        self.helpers = [
            self.span(i, self.closes_at(i, {";"}))
            for i, it in enumerate(self.tokens)
            if it.text == "let" and re.match(r"_\w", self.tokens[i + 1].text)
        ]

    def all(self):
        for make in (
            self.signs, self.literals, self.conditions, self.truths, self.deletions, self.arguments, self.arms,
            self.defaults, self.results, self.words, self.options, self.variants, self.constants, self.variables, self.ranges, self.calls,
            self.alternatives, self.inputs, self.fields_read, self.outputs, self.repeats, self.calls_read, self.returns,
        ):  # fmt: skip
            make()
        return self.made

    def add(self, operator, *edits, shown=None):
        edits = sorted(edits)
        if any(a <= it[0] and it[1] <= b for a, b in self.helpers for it in edits):
            return
        new = self.written(edits)
        if new in self.seen or "".join(new.split()) == "".join(self.text[self.function.opens : self.function.end].split()):
            return
        self.seen.add(new)
        start = min(it[0] for it in edits)
        line = self.text.count("\n", 0, start) + 1
        shown = shown or "; ".join(f"`{clip(self.text[a:b])}` -> `{clip(c)}`" for a, b, c in edits)
        self.made.append(Mutant(self.function, operator, edits, f"{line}: {shown}"))

    def written(self, edits):
        text, at = "", self.function.opens
        for start, end, new in edits:
            text += self.text[at:start] + new
            at = end
        return text + self.text[at : self.function.end]

    def span(self, first, last):
        """The text of the tokens from `first` up to `last`, without it."""
        return self.tokens[first].start, self.tokens[last - 1].end

    def before(self, i):
        return self.tokens[i - 1] if i else self.tokens[0]

    def is_value(self, i):
        """Whether the token may end a value."""
        it = self.tokens[i]
        return (it.kind in ("word", "number", "char", "text") and it.text not in KEYWORDS - {"self", "Self", "true", "false"}) or it.text in (")", "]", "?")

    def bound(self, arm):
        """The names that the pattern of an arm binds, and those that its body uses."""
        pattern, body = (self.tokens[a:b] for a, b in arm)
        names = {t.text for t in pattern if t.kind == "word" and t.text[0].islower() and t.text not in KEYWORDS}
        return names, {t.text for t in body}

    def closes_at(self, i, ends):
        """The index of the first of these signs from `i` on that is in no bracket."""
        while i < len(self.tokens) and self.tokens[i].text not in ends:
            i = self.pairs.get(i, i) + 1 if self.tokens[i].text in OPENING else i + 1
        return i

    def opens_at(self, i):
        """The index at which the value opens whose last name, of a field or call, is at `i`; none if that is not plain."""
        while i and self.before(i).text in (".", "::"):
            i -= 2
            while self.tokens[i].text in (")", "]", "?"):
                i = i - 1 if self.tokens[i].text == "?" else self.pairs[i] - 1
            if self.tokens[i].kind != "word" or self.tokens[i].text in KEYWORDS - {"self", "Self"}:
                return None
        return i

    def signs(self):
        for i, it in enumerate(self.tokens):
            spaced = self.text[it.start - 1 : it.start].isspace() and self.text[it.end : it.end + 1].isspace()
            if it.kind == "sign" and it.text in TURNED and spaced and i and self.is_value(i - 1):
                for new in TURNED[it.text]:
                    self.add(OPERATOR_OF[it.text], (it.start, it.end, new))
            if it.text == "!" and it.kind == "sign" and self.before(i).kind != "word" and self.tokens[i + 1].text != "=":
                self.add("negation", (it.start, it.end, ""))

    def literals(self):
        for it in self.tokens:
            if it.kind == "number":
                digits = re.match(r"0x[0-9a-fA-F_]+|0b[01_]+|[0-9_]+", it.text)[0]
                value, suffix = int(digits.replace("_", ""), 0), it.text[len(digits) :]
                for new in [value + 1] + [value - 1] * (value > 0):
                    self.add("literal", (it.start, it.end, f"{new}{suffix}"))
            elif it.kind == "char":
                body = it.text[it.text.index("'") + 1 : -1]
                code = {"\\n": 10, "\\t": 9, "\\r": 13, "\\\\": 92, "\\'": 39, "\\0": 0}.get(body)
                if code is None and len(body) == 1:
                    code = ord(body)
                if code is None:
                    continue
                for new in [code + 1] + [code - 1] * (code > 0):
                    written = chr(new) if 32 <= new < 127 and chr(new) not in "'\\" or new > 160 else f"\\x{new:02x}"
                    self.add("literal", (it.start, it.end, it.text[: it.text.index("'")] + f"'{written}'"))
            elif it.kind == "text" and "{" not in it.text:
                inside = it.text[it.text.index('"') + 1 : -1]
                for at in {0, len(inside) - 1}:
                    if 0 <= at < len(inside) and "\\" not in inside[max(0, at - 1) : at + 1]:
                        new = inside[:at] + ("x" if inside[at] != "x" else "y") + inside[at + 1 :]
                        self.add("text", (it.start, it.end, it.text[: it.text.index('"') + 1] + new + '"'))
                if inside:
                    self.add("text", (it.start, it.end, it.text[: it.text.index('"') + 1] + '"'))

    def conditions(self):
        for i, it in enumerate(self.tokens):
            if it.kind == "word" and it.text in ("if", "while") and self.tokens[i + 1].text != "let":
                end = self.closes_at(i + 1, {"{", "=>"})
                a, b = self.span(i + 1, end)
                self.add("condition", (a, b, f"!({self.text[a:b]})"))
                if it.text == "if":
                    self.add("condition", (a, b, "true"))
                self.add("condition", (a, b, "false"))

    def truths(self):
        for it in self.tokens:
            if it.kind == "word" and it.text in ("true", "false"):
                self.add("truth", (it.start, it.end, "false" if it.text == "true" else "true"))
            if it.kind == "word" and it.text in ("break", "continue"):
                self.add("truth", (it.start, it.end, "continue" if it.text == "break" else "break"))

    def deletions(self):
        for opening, closing in self.pairs.items():
            if self.tokens[opening].text != "{" or opening > closing:
                continue
            i = opening + 1
            while i < closing:
                start = i
                first = self.tokens[i]
                at = i + 1 if first.kind == "label" and self.tokens[i + 1].text == ":" else i
                at += at != i
                is_block = self.tokens[at].text in ("if", "while", "for", "loop", "match", "unsafe", "{")
                i = self.closes_at(at, {";", "{"} if is_block else {";"})
                i = min(i, closing)
                while is_block and i < closing and self.tokens[i].text == "{":
                    i = self.pairs[i] + 1
                    if i < closing and self.tokens[i].text == "else":
                        i = self.closes_at(i, {"{"})
                    elif i < closing and self.tokens[i].text in (".", "?"):
                        i, is_block = min(self.closes_at(i, {";"}), closing), False
                if i < closing and self.tokens[i].text == ";":
                    i += 1
                elif not is_block:
                    break
                if first.text == "let" and self.tokens[start + 1].text != "_":
                    continue
                # Without its last expression, the body has no value.
                if i == closing and opening == 0 and self.tokens[i - 1].text != ";" and self.function.result not in ("", "( )"):
                    continue
                a, b = self.span(start, i)
                if "=>" not in {t.text for t in self.tokens[start:i]} or is_block or self.tokens[i - 1].text == ";":
                    self.add("deletion", (a, b, ""))

    def arguments(self):
        for i, it in enumerate(self.tokens):
            if it.text != "(" or it.kind != "sign" or i not in self.pairs or self.before(i).kind != "word" or self.before(i).text in KEYWORDS:
                if not (it.text == "(" and self.before(i).text == ">"):
                    continue
            args = parts(self.tokens[i + 1 : self.pairs[i]])
            for one, two in zip(args, args[1:]):
                a, b, c, d = one[0].start, one[-1].end, two[0].start, two[-1].end
                if self.text[a:b] != self.text[c:d] and (self.text[a:b] in APART) == (self.text[c:d] in APART):
                    self.add("arguments", (a, b, self.text[c:d]), (c, d, self.text[a:b]))

    def arms(self):
        for i, it in enumerate(self.tokens):
            if it.text != "match" or it.kind != "word":
                continue
            opening = self.closes_at(i + 1, {"{"})
            bodies, parted, at = [], [], opening + 1
            while at < self.pairs[opening]:
                pattern, arrow = at, self.closes_at(at, {"=>"})
                start = arrow + 1
                if self.tokens[start].text == "{":
                    end = self.pairs[start] + 1
                    at = end + (self.tokens[end].text == ",")
                else:
                    end = min(self.closes_at(start, {","}), self.pairs[opening])
                    at = end + 1
                bodies.append(self.span(start, end))
                parted.append(self.bound(((pattern, arrow), (start, end))))
            for (a, b), (c, d), (mine, used), (theirs, also) in zip(bodies, bodies[1:], parted, parted[1:]):
                if used & (mine - theirs) or also & (theirs - mine):
                    continue
                self.add("arms", (a, b, self.text[c:d]), (c, d, self.text[a:b]))

    def defaults(self):
        kinds = {
            "": [""], "bool": ["true", "false"], "( )": [""], "Result < ( ) , AllocError >": ["Ok(())"],
            "Self": [], "char": ["'a'"], "f64": [],
        }  # fmt: skip
        result = self.function.result
        news = kinds.get(result)
        if news is None and re.fullmatch(r"[ui](8|16|32|64|size)", result):
            news = ["0", "1"]
        elif news is None and result.startswith("Option <"):
            news = ["None"]
        elif news is None and result.startswith("Result < ( )"):
            news = ["Ok(())"]
        for new in news or []:
            self.add("default", (self.function.opens, self.function.end, f"{{ {new} }}" if new else "{}"))

    def results(self):
        """Another value in place of the body's, or in place of the body; none that gives up, which no contract rejects."""
        body = self.text[self.function.opens : self.function.end]
        result = plain(self.function.result)
        news = {
            "bool": [f"!({body})"], "char": [f"((({body}) as u8) ^ 1) as char"], "&str": ['"x"', '""'],
            "Ordering": [f"({body}).reverse()", "std::cmp::Ordering::Equal", "std::cmp::Ordering::Less"],
            "Option<Ordering>": ["Some(std::cmp::Ordering::Equal)", "Some(std::cmp::Ordering::Greater)"],
            "fmt::Result": ["Ok(())", "f.write_str(\"x\")", "f.write_char('x')"], "&[u8]": ['b"x"', 'b""'],
        }  # fmt: skip
        changed = news.get(result) or self.own_values(result, body)
        if re.fullmatch(r"[ui](8|16|32|64|128|size)", result):
            changed = [f"({body}) ^ 1"]
        elif re.fullmatch(r"Option<[ui](8|16|32|64|size)>", result):
            changed = ["Some(0)", "Some(1)"]
        for new in changed:
            self.add("result", (self.function.opens, self.function.end, f"{{ {new} }}"))

    def own_values(self, result, body):
        """Other values of a type of the settings, alone or in an `Option` or a `Result`."""
        if result in self.names.values:
            return others(self.names, result, f"({body})")
        kinds = arguments_of(result) if result.startswith(("Option<", "Result<")) else []
        wrapped = zip(("Some",) if len(kinds) == 1 else ("Ok", "Err"), kinds)
        return [f"{wrap}({value})" for wrap, kind in wrapped for value in self.names.values.get(kind, []) if "(it)" not in value]

    def words(self):
        for i, it in enumerate(self.tokens):
            if it.kind != "word" or it.text in KEYWORDS:
                continue
            if it.text in WHOLE and self.before(i).text == ".":
                self.add("word", (it.start, it.end, WHOLE[it.text]))
            pieces = it.text.split("_")
            for at, piece in enumerate(pieces):
                if piece in SWAPS:
                    new = "_".join([*pieces[:at], SWAPS[piece], *pieces[at + 1 :]])
                    if new in self.names.words | OF_STD:
                        self.add("word", (it.start, it.end, new))
            camel = re.sub(r"(Front|Back|Upper|Lower|First|Last)", lambda m: SWAPS[m[0]], it.text)
            if camel != it.text:
                self.add("word", (it.start, it.end, camel))

    def options(self):
        for i, it in enumerate(self.tokens):
            if it.text == "Some" and self.tokens[i + 1].text == "(":
                closing = self.pairs[i + 1]
                if self.tokens[min(closing + 1, len(self.tokens) - 1)].text not in ("=>", "=", "|", "if"):
                    self.add("option", (it.start, self.tokens[closing].end, "None"))

    def variants(self):
        for i, it in enumerate(self.tokens[:-2]):
            holds = self.names.variants.get(it.text)
            variant = self.tokens[i + 2]
            if not holds or self.tokens[i + 1].text != "::" or variant.text not in holds:
                continue
            same = [name for name, inside in holds.items() if inside == holds[variant.text] and name != variant.text]
            if len(same) > 6:
                order = [*holds]
                at = order.index(variant.text)
                same = [name for name in (order[(at + 1) % len(order)], order[at - 1]) if name in same]
            for name in same[:4]:
                self.add("variant", (variant.start, variant.end, name))

    def constants(self):
        for it in self.tokens:
            kind = self.names.constants.get(it.text) if it.kind == "word" else None
            if kind:
                others = [name for name, its in self.names.constants.items() if its == kind and name != it.text]
                for name in others[:3]:
                    self.add("constant", (it.start, it.end, name))
                if kind in ("usize", "u8", "u32", "u64"):
                    self.add("constant", (it.start, it.end, f"({it.text} + 1)"))
                    self.add("constant", (it.start, it.end, f"({it.text} - 1)"))

    def variables(self):
        """Another variable that may have the type, and another field of a struct of the file's."""
        types = dict(self.function.params)
        for i, it in enumerate(self.tokens):
            if it.kind == "word" and it.text in ("let", "for"):
                end = self.closes_at(i + 1, {"=", ";", "in"})
                for t in self.tokens[i + 1 : end]:
                    if t.kind == "word" and t.text not in KEYWORDS and t.text[0].islower():
                        types.setdefault(t.text, "?")
        for i, it in enumerate(self.tokens):
            if it.kind != "word" or it.text not in types:
                continue
            nearby = (self.before(i).text, self.tokens[i + 1].text)
            if nearby[0] in (".", "let", "mut", "::", "for") or nearby[1] in (":", "::", "("):
                continue
            like = [n for n, its in types.items() if n != it.text and (its == types[it.text] or "?" in (its, types[it.text]))]
            for name in sorted(like, key=lambda n: types[n] != types[it.text])[:3]:
                self.add("variable", (it.start, it.end, name))
        for i, it in enumerate(self.tokens[1:], 1):
            if it.kind != "word" or self.before(i).text != "." or self.tokens[i + 1].text == "(":
                continue
            for holds in self.names.fields.values():
                same = [n for n, its in holds.items() if it.text in holds and its == holds[it.text] and n != it.text]
                for name in same[:3]:
                    self.add("field", (it.start, it.end, name))

    def ranges(self):
        for i, it in enumerate(self.tokens):
            if it.kind != "sign" or it.text not in ("..", "..=") or self.tokens[i + 1].text in ("]", ")", "}"):
                continue
            self.add("range", (it.start, it.end, "..=" if it.text == ".." else ".."))
        for i, it in enumerate(self.tokens):
            if it.text != "[" or it.kind != "sign" or not i or not self.is_value(i - 1) or i not in self.pairs:
                continue
            inside = self.tokens[i + 1 : self.pairs[i]]
            bounds = [p for p in parts(inside, "..")] if ".." in {t.text for t in inside} else [inside]
            for part in bounds:
                if part and not (len(part) == 1 and part[0].kind == "number"):
                    a, b = part[0].start, part[-1].end
                    self.add("range", (a, b, f"{self.text[a:b]} + 1"))
                    self.add("range", (a, b, f"{self.text[a:b]} - 1"))
        for i, it in enumerate(self.tokens):
            if it.text == "for" and it.kind == "word":
                start = self.closes_at(i, {"in"})
                end = self.closes_at(start, {"{"})
                dots = [k for k in range(start, end) if self.tokens[k].text == ".."]
                if len(dots) == 1 and self.tokens[start + 1].text != "(":
                    a, b = self.span(start + 1, dots[0])
                    self.add("range", (a, b, f"{self.text[a:b]} + 1"))
                    a, b = self.span(dots[0] + 1, end)
                    self.add("range", (a, b, f"{self.text[a:b]} - 1"))

    def calls(self):
        for i, it in enumerate(self.tokens[:-2]):
            if it.text == "." and self.tokens[i + 1].kind == "word" and self.tokens[i + 2].text == "(":
                end = self.pairs[i + 2] + 1
                if not RETYPES.fullmatch(self.tokens[i + 1].text) and self.tokens[end].text != "?":
                    self.add("call", (it.start, self.tokens[end - 1].end, ""))

    def alternatives(self):
        for i, it in enumerate(self.tokens):
            if it.text == "|" and it.kind == "sign" and i and (self.is_value(i - 1)):
                end = i + 1
                while end < len(self.tokens) and self.tokens[end].text not in ("|", "=>", ")", "if", ","):
                    end = self.pairs[end] + 1 if self.tokens[end].text in OPENING else end + 1
                self.add("alternative", (it.start, self.tokens[end - 1].end, ""))


    def around(self, operator, before, after, shown, *edits):
        """The body in a block, with something before and after it."""
        opens, end = self.function.opens, self.function.end
        self.add(operator, (opens, opens, f"{{ {before} "), *edits, (end, end, f" {after} }}"), shown=shown)

    def inputs(self):
        """The function as if it took something else."""
        for name, kind in self.function.params:
            for change in changes(self.names, kind, name, self.text) if name[0] != "_" else []:
                self.around("input", f"let mut {name} = {name}; {change}", "", f"`{change}` before the body")
        owner, receiver = self.function.owner, self.function.receiver
        renamed = [(it.start, it.end, "changed") for it in self.tokens if it.kind == "word" and it.text == "self"]
        if receiver in ("self", "mut self"):
            for change in changes(self.names, owner, "changed", self.text):
                shown = f"`{change.replace('changed', 'self')}` before the body"
                self.around("input", f"let mut changed = self; {change}", "", shown, *renamed)
        elif receiver == "&self":
            for value in others(self.names, owner, "*self"):
                self.around("input", f"let changed = &({value});", "", f"`{value}` as `self`", *renamed)
        elif receiver == "&mut self":
            for change in changes(self.names, owner, "self", self.text):
                if f".{self.function.name}(" not in change:
                    self.around("input", change, "", f"`{change}` before the body")
                    self.around("output", "let answer =", f"; {change} answer", f"`{change}` after the body")

    def fields_read(self):
        """Another value of a field of `self` where it is read."""
        holds = self.names.fields.get(re.match(r"\w*", plain(self.function.owner))[0], {})
        for i, it in enumerate(self.tokens[:-3]):
            name, after = self.tokens[i + 2], self.tokens[i + 3]
            if it.text != "self" or self.tokens[i + 1].text != "." or name.text not in holds or after.text in ("=", "+=", "-=", ".", "["):
                continue
            if self.before(i).text != "mut":
                for value in others(self.names, holds[name.text], f"self.{name.text}"):
                    self.add("field", (it.start, name.end, f"({value})"))

    def calls_read(self):
        """Another value in place of a call, where the functions of its name return one type or two."""
        for i, it in enumerate(self.tokens[:-1]):
            kinds = self.names.results.get(it.text, ()) if it.kind == "word" and self.tokens[i + 1].text == "(" else ()
            first = self.opens_at(i)
            for kind in sorted(kinds) if first is not None and len(kinds) < 3 else ():
                a, b = self.span(first, self.pairs[i + 1] + 1)
                for value in others(self.names, kind, self.text[a:b]):
                    self.add("part", (a, b, f"({value})"))

    def outputs(self):
        """The function as if it returned something else."""
        result = re.sub(r"\bSelf\b(?! ::)", self.function.owner or "Self", self.function.result)
        for kind, pattern, value, other in outcomes(result):
            for change in changes(self.names, kind, "changed", self.text):
                shown = f"`{change}` after the body, of {value}"
                if other:
                    self.around("output", "match", f"{{ {pattern} => {{ {change} {value} }} {other} }}", shown)
                else:
                    self.around("output", f"let {pattern} =", f"; {change} changed", shown)

    def returns(self):
        """The function as if it returned something else early."""
        for i, it in enumerate(self.tokens):
            end = self.closes_at(i + 1, {";", ",", "}"}) if it.kind == "word" and it.text == "return" else i + 1
            for kind, pattern, _, _ in outcomes(self.function.result) if i + 1 < end else ():
                a, b = self.span(i + 1, end)
                head = pattern[: pattern.index("mut")]
                last = b - 1 if head else b
                if self.text[a:b].startswith(head) and (not head or self.pairs[i + 2] == end - 1):
                    for change in changes(self.names, kind, "changed", self.text):
                        first = (a + len(head), a + len(head), "{ let mut changed = ")
                        self.add("return", first, (last, last, f"; {change} changed }}"), shown=f"`{change}` of `{clip(self.text[a:b])}`")

    def repeats(self):
        """The body twice, where it changes something that was there before."""
        body, result = self.text[self.function.opens : self.function.end], plain(self.function.result)
        taken = {self.function.receiver.replace("self", ""), *(re.match(r"(&mut)?", plain(kind))[0] for _, kind in self.function.params)}
        if not {"&mut", "&mut "} & taken:
            return
        if result in ("", "()"):
            self.around("repeat", body, "", "the body twice")
        elif result == "fmt::Result" or result.startswith("Result<(),"):
            self.around("repeat", f"{body}?;", "", "the body twice")


def clip(text):
    text = " ".join(text.split())
    return text if len(text) <= 90 else f"{text[:60]} .. {text[-25:]}"
