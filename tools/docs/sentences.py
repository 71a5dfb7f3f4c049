"""Says the contracts of public calls in English, by sentences.txt: a sentence with holes for each definition.

A line is `PATTERN | SENTENCE`. A pattern is a clause in which each name is a hole, except the name that is called, a number, and a
name with `=` before it; a line whose pattern is one name is about that name. Of the lines that fit, the one with the longest
pattern is taken. In a sentence, `{p}` is the term in the hole `p`, `{P x}` is what that term, a closure or one that lacks an
argument, says of x, `{P [p]}` what it says of the term in `p`, and `{p not}` its negation. A qualifier may be left out: `=MAX` fits
`usize.MAX`.

A fault is a clause that has a word without a sentence, a word without a meaning, and a line of sentences.txt that no public clause
needs."""
import re
from functools import cache
from pathlib import Path

from clause_terms import Unsaid, parsed
from sources import read

FILE = Path(__file__).resolve().parent / "sentences.txt"
# How the signs between two terms are said, if no line of sentences.txt fits.
SIGNS = {"→": "if {}, then {}", "↔": "{} exactly if {}", "⊎": "{}, or {}", "≡": "{} is {}", "≢": "{} is not {}", "<": "{} is less than {}",
         "≤": "{} is at most {}", "++": "{} followed by {}", "∷": "{} followed by {}", "+": "{} + {}", "-": "{} - {}", "*": "{} × {}", "^": "{}^{}"}
# The length from which on what is proved of a call is a list of sentences.
LONG = 420
VERBS = ("contains", "starts with", "ends with", "lies", "may", "is")
HOLE = re.compile(r"\{(\w+)((?: [^{}]+)?)\}")


def matches(pattern, term, bound):
    """Whether a term fits a pattern; what fits its holes is added to `bound`."""
    kind = pattern[0]
    if kind == "name":
        name = pattern[1]
        if name[0] == "=":
            return term[0] == "name" and name[1:] in with_and_without_qualifier(term[1])
        return term == pattern if name.isdigit() or name == "[]" else bound.setdefault(name, term) == term
    if term[0] != kind or len(term) != len(pattern):
        return False
    if kind == "closure" and pattern[2][0] == "name" and pattern[2][1] not in pattern[1]:  # a hole for any closure
        return names_match(pattern[1], term[1], {}) and matches(pattern[2], term, bound)
    if kind in ("closure", "binder"):
        at = 1 if kind == "closure" else 2
        is_same = pattern[1:at] == term[1:at] and names_match(pattern[at], term[at], bound)
        return is_same and all(matches(it, other, bound) for it, other in zip(pattern[at + 1 :], term[at + 1 :]))
    return all(part_matches(it, other, bound) for it, other in zip(pattern, term))


def part_matches(pattern, part, bound):
    if isinstance(pattern, tuple):
        return matches(pattern, part, bound)
    if isinstance(pattern, list):
        return len(pattern) == len(part) and all(part_matches(it, other, bound) for it, other in zip(pattern, part))
    return pattern == part


def names_match(patterns, names, bound):
    """Whether the names of a closure or a binder fit those of a pattern: each of them does, unless one is asked for."""
    bound.update((it, ("name", name)) for it, name in zip(patterns, names) if it[0] != "=")
    return len(patterns) == len(names) and all(it[1:] == name for it, name in zip(patterns, names) if it[0] == "=")


def with_and_without_qualifier(name):
    return name, name.rpartition(".")[2]


def keys_of(term):
    """By what the lines that may fit a term are found: its kind, and the name that it has, or that it calls."""
    kind, first = term[:2]
    if kind == "call":
        return [(kind, len(term[2]), it) for it in (with_and_without_qualifier(first[1]) if first[0] == "name" else [""])]
    if kind == "name":
        return [(kind, it) for it in with_and_without_qualifier(first)]
    return [(kind, {"sign": first, "member": term[-1]}.get(kind))]


def with_heads(pattern):
    """A pattern in which the names that are called are themselves."""
    if not isinstance(pattern, (tuple, list)):
        return pattern
    if pattern[:1] == ("call",) and pattern[1][0] == "name":
        return ("call", ("name", f"={pattern[1][1]}"), with_heads(pattern[2]))
    return type(pattern)(map(with_heads, pattern))


def weight(pattern):
    """How much a pattern asks for: its names, and twice each that is not a hole."""
    return sum(map(weight, pattern)) if isinstance(pattern, (tuple, list)) else 1 + (pattern[:1] == "=" or pattern.isdigit())


class Sentences:
    """The sentences of the definitions, and the lines that were used."""

    def __init__(self, text):
        self.lines, self.used = {}, set()
        for line in text.splitlines():
            head, bar, sentence = line.partition(" | ")
            if bar and not line.startswith("#"):
                pattern = parsed(head)
                self.lines.setdefault(keys_of(pattern)[0], []).append((head, with_heads(pattern), sentence.strip()))
        for lines in self.lines.values():
            lines.sort(key=lambda it: -weight(it[1]))

    def unused(self):
        return [head for lines in self.lines.values() for head, *_ in lines if head not in self.used]

    def say(self, term, said):
        """A term in words; `said` has the words for names that stand for something else."""
        if term[0] == "name" and term[1] in said:
            return said[term[1]]
        for head, pattern, sentence in (line for key in keys_of(term) for line in self.lines.get(key, [])):
            bound = {}
            if pattern[0] == "name" or matches(pattern, term, bound):
                self.used.add(head)
                return HOLE.sub(lambda hole: self.fill(bound[hole[1]], hole[2].strip(), bound, said), sentence)  # noqa: B023
        return getattr(self, f"say_{term[0]}")(*term[1:], said)

    def fill(self, term, given, bound, said):
        """What fills a hole: the term, its negation, or what it says of what is given."""
        if given == "not":
            return self.say(("not", term), said)
        if not given:
            return self.say(term, said)
        words = [re.sub(r"\[(\w+)\]", lambda name: self.say(bound[name[1]], said), it) for it in given.split("/")]
        if term[0] == "closure":
            return self.say(term[2], {**said, **dict(zip(term[1], words))})
        head, arguments = (term[1], term[2]) if term[0] == "call" else (term, [])
        return self.say(("call", head, [*arguments, *(("said", it) for it in words)]), said)

    # What is said of a term that fits no line

    def say_said(self, words, _):
        return words

    def say_name(self, name, _):
        if not re.fullmatch(r"\d+|[a-z]\w*|\[\]", name):
            raise Unsaid(name)
        return {"[]": "empty", "result": "the result"}.get(name, name if name.isdigit() else f"`{name}`")

    def say_text(self, text, _):
        return f"`{text}`"

    def say_member(self, _, name, __):
        raise Unsaid(f".{name}")

    def say_call(self, head, arguments, _):
        raise Unsaid(f"{head[1]} with {len(arguments)}")

    def say_closure(self, names, *_):
        raise Unsaid(f"the closure of {', '.join(names)}")

    def say_record(self, fields, said):
        if len(fields) > 1:
            raise Unsaid("a record")
        return self.say(fields[0][1], said)

    def say_pair(self, first, second, said):
        return f"{self.say(first, said)} and {self.say(second, said)}"

    def say_if(self, test, this, that, said):
        return f"{self.say(this, said)} if {self.say(test, said)}, otherwise {self.say(that, said)}"

    def say_binder(self, sign, names, kind, term, said):
        """A binder of values, or of a fact, which is said too."""
        inner = {**said, **{name: f"`{name}`" for name in names}}
        try:
            fact, words = self.say(kind, said), self.say(term, inner)
            return f"{fact}, and {words}" if sign == "×" else f"if {fact}, then {words}"
        except Unsaid:
            listed = " and ".join(f"`{name}`" for name in names)
        exists = f"there {'are' if len(names) > 1 else 'is'} {listed} such that"
        return f"{exists if sign == '×' else f'for all {listed}:'} {self.say(term, inner)}"

    def say_sign(self, sign, left, right, said):
        if sign == "≡" and right[0] in ("record", "pair"):
            fields = right[1] if right[0] == "record" else list(zip("01", right[1:]))
            return ", and ".join(self.say(("sign", "≡", ("member", left, name), term), said) for name, term in fields)
        if sign == "∷" and right == ("name", "[]"):
            return self.say(left, said)
        if sign == "≤" and left[0] == "name" and left[1].isdigit():
            return f"{self.say(right, said)} is at least {self.say(left, said)}"
        if sign in "→×":
            return self.joined(sign, left, right, said)
        return SIGNS[sign].format(self.say(left, said), self.say(right, said))

    def joined(self, sign, left, right, said):
        """Conditions one after another, or statements that are all true."""
        parts = [left]
        while right[:2] == ("sign", sign) and not self.fits(right):
            parts, right = [*parts, right[2]], right[3]
        if sign == "→":
            return f"if {' and '.join(self.say(it, said) for it in parts)}, then {self.say(right, said)}"
        words = [self.say(it, said) for it in [*parts, right]]
        return ", and ".join(words) if len(words) == 2 else "; ".join([*words[:-1], f"and {words[-1]}"])

    def fits(self, term):
        return any(matches(pattern, term, {}) for key in keys_of(term) for _, pattern, _ in self.lines.get(key, []))

    def say_not(self, term, said):
        words = self.say(term, said)
        for verb in VERBS:
            if words.count(f" {verb} ") == 1:
                plain = {"contains": "contain", "starts with": "start with", "ends with": "end with", "lies": "lie"}.get(verb)
                return words.replace(f" {verb} ", f" does not {plain} " if plain else f" {verb} not ")
        raise Unsaid(f"not {words}")

    def of(self, clause):
        """A clause as a sentence."""
        return re.sub(r"(?:^|(?<=\. ))[a-z]", lambda first: first[0].upper(), f"{self.say(parsed(clause), {})}.")


@cache
def sentences():
    return Sentences(read(FILE))


@cache
def said(kind, clauses):
    """What clauses of a kind say: `requires`, or `ensures`, to which those that hold once a borrow has ended belong."""
    return merged(dict.fromkeys(sentences().of(text) for label, text in clauses if label.startswith(kind)))


def merged(said):
    """Sentences, of which those in a row that are about one case, such as `On `Ok`, ..`, are one."""
    found = []
    for it in said:
        case = re.match(r"On `\w+`, ", it)
        if case and found and found[-1].startswith(case[0]) and ";" not in found[-1] + it:
            found[-1] = f"{found[-1][:-1]}, and {it[len(case[0]):]}"
        else:
            found.append(it)
    return found


def of_call(clauses):
    """What a call requires and ensures, in Markdown: a paragraph, or a list if it is long; nothing if a clause is not said."""
    try:
        parts = [(name, said(kind, tuple(clauses))) for name, kind in (("Condition", "requires"), ("Proved", "ensures"))]
    except Unsaid:
        return ""
    return " ".join(paragraph(f"**{name}:**", " ".join(it)) for name, it in parts if it)


def without_conditions(docs, clauses):
    """The documentation of a call without its conditions, if `of_call` says them."""
    if "**Condition:**" not in of_call(clauses):
        return docs
    return "\n\n".join(it for it in "\n".join(docs).split("\n\n") if not it.startswith("Condition")).split("\n")


def paragraph(name, text):
    if len(text) > LONG:
        return "\n- ".join([f"{name}\n", *re.split(r"(?<=\.) (?=[A-Z`])", text)])
    return f"{name} {text[0].lower()}{text[1:]}"


def public_calls():
    """The public calls of the libraries and of the recipes, each once."""
    from owners import owners

    found = [call for owner in owners().values() for call in [*owner.calls, *(it for impl in owner.impls for it in impl.calls)]]
    return {id(it.item): it for it in found}.values()


def unsaid(call):
    for label, text in call.item.clauses:
        try:
            sentences().of(text)
        except Unsaid as word:
            yield f"{call.file}: {call.key}: `{label}` has no sentence, for {word}: add a line to tools/docs/sentences.txt"


def without_meaning(call):
    """The words of clauses and of ghost members that the site would explain by nothing."""
    from callers import ghosts_of
    from meanings import words_in

    ghosts = ghosts_of(call.block) if call.block else []
    places = [*((text, call.item.words) for _, text in call.item.clauses), *((it.head, it.words) for it in ghosts)]
    for text, lines in places:
        for _, word, it in words_in(text, lines, f"{call.item.head} {call.block.head if call.block else ''}"):
            if not it.text and re.match(r"\w", word):
                yield f"{call.file}: {call.key}: `{word}` has no meaning: add a comment, or a line to tools/docs/site/words.txt"


def faults():
    """The public clauses that are not said whole, the words without a meaning, and the sentences that no clause needs."""
    found = [fault for call in public_calls() for fault in (*unsaid(call), *without_meaning(call))]
    return [*dict.fromkeys(found), *(f"tools/docs/sentences.txt: no public clause needs `{head}`" for head in sentences().unused())]
