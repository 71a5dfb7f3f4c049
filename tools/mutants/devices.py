"""Mutants of functions that use a device: what happens to it on an error path, when it is flushed, and how far it is read."""
from values import changes

LOOPS = {"for", "while", "loop"}


class DeviceOperators:
    """The mutants of one function that use its device calls: those of a method that `names.devices` has."""

    def __init__(self, operators):
        self.of, self.tokens, self.pairs, self.text = operators, operators.tokens, operators.pairs, operators.text
        self.calls = [span for i in range(len(self.tokens) - 2) for span in self.call_at(i)]

    def call_at(self, i):
        """The span of the device call whose method is at an index, and the method; nothing if there is none."""
        name = self.tokens[i]
        if name.text in self.of.names.devices and i and self.tokens[i - 1].text == "." and self.tokens[i + 1].text == "(":
            first = self.of.opens_at(i)
            if first is not None:
                yield self.of.span(first, self.pairs[i + 1] + 1), name.text

    def answers(self, word):
        """The spans of the answers `Ok(..)` or `Err(..)`, with a `return` before it: values, and no patterns."""
        for i, it in enumerate(self.tokens[:-1]):
            if it.text != word or self.tokens[i + 1].text != "(" or not i:
                continue
            before, end = self.tokens[i - 1].text, self.pairs[i + 1] + 1
            after = self.tokens[end].text if end < len(self.tokens) else ""
            if before in ("return", "{", "}", ";", "=>") and after in (";", "}", ","):
                yield i, self.of.span(i - (before == "return"), end)

    def block_of(self, i):
        """The braces of the innermost block around a token."""
        opening = max(at for at, end in self.pairs.items() if self.tokens[at].text == "{" and at < i < end)
        return opening, self.pairs[opening]

    def statements(self, opening, closing):
        """The spans of the statements of a block that end with a semicolon."""
        i = opening + 1
        while i < closing:
            end = self.of.closes_at(i, {";"})
            if end >= closing:
                return
            yield self.of.span(i, end + 1)
            i = end + 1

    def error_paths(self):
        """The blocks that end with `Err(..)`, or that are the arm of one."""
        found = {self.block_of(i) for i, _ in self.answers("Err")}
        for i, it in enumerate(self.tokens[:-1]):
            if it.text == "Err" and self.tokens[i + 1].text == "(":
                after = self.pairs[i + 1] + 1
                if [t.text for t in self.tokens[after : after + 2]] == ["=>", "{"]:
                    found.add((after + 1, self.pairs[after + 1]))
        return sorted(found)

    def all(self):
        for make in (self.error_calls, self.later_flushes, self.written_fields, self.reads_ahead):
            make()

    def add_before(self, operator, span, statement):
        """The function with a statement before an answer."""
        a, b = span
        self.of.add(operator, (a, b, f"{{ {statement} {self.text[a:b]} }}"), shown=f"`{statement}` before `{self.text[a:b]}`")

    def error_calls(self):
        """Drops a device call of an error path, makes it twice, or makes another one there."""
        for opening, closing in self.error_paths():
            for a, b in self.statements(opening, closing):
                if any(a <= start and end <= b for (start, end), _ in self.calls) and not self.text.startswith("let ", a):
                    self.of.add("error path", (a, b, ""))
                    self.of.add("error path", (b, b, f" {self.text[a:b]}"), shown=f"`{self.text[a:b]}` twice")
        for _, span in self.answers("Err"):
            for start, end in dict.fromkeys(span for span, _ in self.calls):
                if end <= span[0]:
                    self.add_before("error path", span, f"let _ = {self.text[start:end]};")

    def later_flushes(self):
        """Moves a flush of a loop to after the loop."""
        for i, it in enumerate(self.tokens):
            if it.kind != "word" or it.text not in LOOPS:
                continue
            opening = self.of.closes_at(i + 1, {"{"})
            closing = self.pairs[opening]
            after = self.tokens[closing].end
            for a, b in self.statements(opening, closing):
                if any(a <= start and end <= b and name == "flush" for (start, end), name in self.calls):
                    moved = self.text[a:b]
                    self.of.add("later flush", (a, b, ""), (after, after, f" {moved}"), shown=f"`{moved}` after the loop")

    def written_fields(self):
        """Changes a field of `self` before an error is returned."""
        if self.of.function.receiver != "&mut self":
            return
        owner = self.of.function.owner.partition("<")[0]
        for _, span in self.answers("Err"):
            for name, kind in self.of.names.fields.get(owner, {}).items():
                for change in changes(self.of.names, kind, f"self.{name}", self.text)[:2]:
                    self.add_before("error field", span, change)

    def reads_ahead(self):
        """Reads once more before an answer."""
        reads = dict.fromkeys(span for span, name in self.calls if name in self.of.names.reads)
        for _, span in self.answers("Ok"):
            for start, end in reads:
                if end <= span[0]:
                    self.add_before("read ahead", span, f"let _ = {self.text[start:end]};")
