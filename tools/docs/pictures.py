"""Draws the pictures of the pages, as SVG that can be read on dark and on light: docs/pieces.svg (a text with its pieces,
their starts and a walk from both ends), docs/layers.svg (the crates), docs/bytes.svg (how bytes pass through the program),
docs/edit.svg (how an edit reaches its buffer), docs/check.svg (what goes into a check, and what has to be believed)."""
from html import escape

from made import TOP, settle

STYLE = """\
text { font: 14px system-ui, sans-serif; fill: #1f2933 }
.code { font-family: ui-monospace, monospace }
.small { font-size: 12px; fill: #5b6470 }
.box { fill: #eef3f8; stroke: #7b8794 }
.mark { fill: #cfe3f7; stroke: #3d7ab8 }
.bad { fill: #fbe3e1; stroke: #c0503f }
.line { stroke: #5b6470; fill: none }
@media (prefers-color-scheme: dark) {
  text { fill: #e4e7eb } .small { fill: #9aa5b1 } .line { stroke: #9aa5b1 }
  .box { fill: #2b323b; stroke: #7b8794 } .mark { fill: #1f3f5f; stroke: #6aa5dd }
  .bad { fill: #4f2621; stroke: #d9776a }
}"""


def text(x, y, words, kind="", anchor="middle"):
    return f'<text x="{x}" y="{y}" text-anchor="{anchor}" class="{kind}">{escape(words)}</text>'


def box(x, y, width, height, kind="box"):
    return f'<rect x="{x}" y="{y}" width="{width}" height="{height}" rx="4" class="{kind}"/>'


def arrow(x1, y1, x2, y2):
    return f'<path d="M{x1} {y1} L{x2} {y2}" class="line" marker-end="url(#tip)"/>'


def picture(width, height, title, parts):
    tip = ('<marker id="tip" viewBox="0 0 8 8" refX="7" refY="4" markerWidth="7" markerHeight="7" orient="auto">'
           '<path d="M0 0 L8 4 L0 8 z" style="fill:#7b8794"/></marker>')
    return "\n".join([
        "<!-- Made by `bin/docs pictures`. -->",
        f'<svg xmlns="http://www.w3.org/2000/svg" viewBox="0 0 {width} {height}" width="{width}" role="img">',
        f"<title>{escape(title)}</title>", f"<style>{STYLE}</style>", f"<defs>{tip}</defs>", *parts, "</svg>"]) + "\n"


def pieces():
    """The text `foo;bar;baz` with its pieces and their starts, and a walk by the ends F, B, F, B."""
    cell, left = 44, 40
    parts = [text(left, 24, "the text, and the position of each character", "small", "start")]
    source = "foo;bar;baz"
    for at, char in enumerate(source):
        parts += [box(left + at * cell, 34, cell, 34, "bad" if char == ";" else "box"),
                  text(left + at * cell + cell / 2, 57, char, "code"),
                  text(left + at * cell + cell / 2, 86, str(at), "small")]
    parts.append(text(left, 122, "split_spans(Semicolon): the pieces with their starts", "small", "start"))
    start = 0
    for piece in source.split(";"):
        x = left + start * cell
        parts += [box(x, 132, len(piece) * cell, 34, "mark"),
                  text(x + len(piece) * cell / 2, 155, f'{start}: "{piece}"', "code")]
        start += len(piece) + 1
    parts.append(text(left, 202, "a walk from both ends, and what remains", "small", "start"))
    steps = [("next()", "foo", "bar;baz"), ("next_back()", "baz", "bar"), ("next()", "bar", None), ("next()", None, None)]
    for row, (call, item, rest) in enumerate(steps):
        y = 226 + row * 26
        parts += [text(left, y, call, "code", "start"),
                  text(left + 150, y, f'Some("{item}")' if item else "None", "code", "start"),
                  text(left + 290, y, f'remainder() is {repr(rest).replace(chr(39), chr(34)) if rest else "None"}', "code", "start")]
    return picture(580, 320, "Pieces of a text, their starts, and a walk from both ends", parts)


# The crates of the picture of layers: the row from the top, the first and the last column of 12, and what a crate is.
LAYERS = {
    "ascii_show": (0, 0, 1.9, "a program"), "ascii_filter": (0, 2, 3.9, "a program"), "cookbook": (0, 4, 5.9, "recipes"),
    "example_resp": (0, 7.4, 9.6, "a store"), "example_smtp": (0, 9.7, 12, "mail"),
    "ascii_c": (1, 0, 1.3, "for C"), "ascii_formats": (1, 1.4, 3.5, "numbers, escapes"), "ascii_keys": (1, 3.6, 5.2, "maps"),
    "ascii_run": (1, 5.3, 7.4, "commands, engines"), "ascii_lines": (1, 7.6, 12, "lines in and out, a server"),
    "ascii": (2, 0, 7.2, "views, iterators, searches, strings, JSON, serde"), "ascii_devices": (2, 7.6, 12, "sources, sinks"),
    "ascii_search": (3, 0, 3.4, "searches by masks"),
    "ascii_base": (4, 0, 7.2, "characters, classes of bytes, kernels, ranges"),
}


def direct_uses():
    """Pairs of a crate of the picture and one that it uses, except those that it reaches through another one."""
    lines = [line.partition(":") for line in (TOP / "crates.txt").read_text(encoding="utf-8").splitlines() if ":" in line]
    uses = {name.split()[0]: [it for it in used.split() if it in LAYERS] for name, _, used in lines if name.split()[0] in LAYERS}
    reached = lambda name: {other for it in uses[name] for other in [it, *reached(it)]}  # noqa: E731
    return [(name, it) for name in LAYERS for it in uses[name] if not any(it in reached(other) for other in uses[name])]


def layers():
    """The crates, with an arrow from each to those that it uses."""
    column, parts, places = 66, [], {}
    for name, (row, first, last, what) in LAYERS.items():
        x, y, width = 20 + first * column, 14 + row * 84, (last - first) * column
        places[name] = (x, y, width)
        kind = "mark" if name in ("ascii", "ascii_lines") else "box"
        parts += [box(x, y, width, 48, kind), text(x + width / 2, y + 20, name, "code"), text(x + width / 2, y + 38, what, "small")]
    for name, used in direct_uses():
        (x, y, width), (below, top, wide) = places[name], places[used]
        start, end = max(x, below), min(x + width, below + wide)
        if start < end:  # straight down where the boxes overlap
            parts.append(arrow((start + end) / 2, y + 50, (start + end) / 2, top - 2))
        else:
            parts.append(arrow(x + (0 if below < x else width), y + 48, below + (wide if below < x else 0), top - 2))
    parts.append(text(20, 14 + 5 * 84, "A user of text names ascii; a reader of lines names ascii_lines.", "small", "start"))
    return picture(12 * column + 40, 14 + 5 * 84 + 16, "The libraries and programs, each with arrows to the libraries that it uses", parts)


def bytes_through():
    """How the bytes of `x\\r\\ny` pass through `ascii_show ends FBB`, and those of a rejected input."""
    parts, y = [], 20
    rows = [
        ("printf 'x\\r\\ny' | ascii_show ends FBB", [
            ("input", "x CR LF y"), ("read_all, first_other", "all ASCII"), ("put_ends, line_spans", '"x" CrLf, "y" Absent'),
            ("put_answer, take_end", 'F, B, B: "x", "y", None'), ("finish", "+x +y -")], "box", "status 0"),
        ("printf 'ab\\304d' | ascii_show ends FBB", [
            ("input", "a b 0xC4 d"), ("read_all, first_other", "byte 2 is not ASCII"), ("engine", "nothing is written")], "bad", "status 1"),
    ]
    for call, steps, kind, status in rows:
        parts.append(text(20, y, call, "code", "start"))
        for at, (name, what) in enumerate(steps):
            x = 20 + at * 182
            parts += [box(x, y + 14, 164, 54, kind if at else "mark"), text(x + 82, y + 36, name, "small code" if at else ""),
                      text(x + 82, y + 56, what, "small")]
            if at:
                parts.append(arrow(x - 18, y + 41, x - 2, y + 41))
        parts.append(text(20, y + 92, status if status == "status 0" else
                          'status 1, and on standard error: "the byte at index 2 is not ASCII"', "small", "start"))
        y += 136
    return picture(930, y - 20, "How bytes pass through the program, and a rejected input", parts)


def edit():
    """How `push` of a string reaches the bytes of its buffer."""
    parts, y = [text(20, 20, "string.push(AsciiChar::A)", "code", "start")], 34
    steps = [("Text<B>", "GrowsTo B.sure (text ++ 65 ∷ [])"), ("Buffer::append_byte", "GrowsTo, of its bytes"), ("impl Buffer", "one of three")]
    for at, (name, what) in enumerate(steps):
        x = 20 + at * 200
        parts += [box(x, y + 44, 180, 54, "mark" if at == 0 else "box"), text(x + 90, y + 66, name, "code"),
                  text(x + 90, y + 86, what, "small")]
        if at:
            parts.append(arrow(x - 18, y + 71, x - 2, y + 71))
    buffers = [("Vec<u8, A>", "AsciiString: the allocation may fail"), ("Inline", "SmallAsciiString: up to 24 never fail"),
               ("Array<N>", "ArrayAsciiString: Full after N")]
    for row, (name, what) in enumerate(buffers):
        top = y + row * 48
        parts += [box(640, top, 290, 42), text(785, top + 18, name, "code"), text(785, top + 34, what, "small"),
                  arrow(602, y + 71, 638, top + 21)]
    parts.append(text(20, y + 164, "Ok: the code is appended. Err: the text is unchanged, and the longer text would not have fit the old capacity.",
                      "small", "start"))
    return picture(950, y + 180, "How an edit of a string reaches its buffer", parts)


def check():
    """What goes into `rt check`, what comes out, and which of it has to be believed."""
    parts = []
    given = [("code", "bodies of functions, in src/", "box"), ("proof files", "lemmas and answers, in proofs/", "box"),
             ("clauses", "requires and ensures, in src/", "mark"), ("definitions", "what the clauses say, in specs/", "mark")]
    for row, (name, what, kind) in enumerate(given):
        y = 14 + row * 58
        parts += [box(20, y, 250, 48, kind), text(145, y + 20, name), text(145, y + 38, what, "small"), arrow(272, y + 24, 338, 130)]
    believed = ["the prover and its logic", "the translation of the source", "contracts of std and its crates", "axioms of the system"]
    parts += [box(340, 66, 260, 132, "mark"), text(470, 88, "rt check", "code")]
    parts += [text(470, 112 + at * 22, line, "small") for at, line in enumerate(believed)]
    answers = [("proved", "for every input; it can be built by LLVM and the linker", "mark"),
               ("not proved", "one line for each goal: what is not shown, and where", "box")]
    for row, (name, what, kind) in enumerate(answers):
        y = 66 + row * 84
        parts += [arrow(602, 130, 648, y + 24), box(650, y, 340, 48, kind), text(820, y + 20, name), text(820, y + 38, what, "small")]
    parts.append(text(20, 272, "Blue: what you have to believe, or read. The prover checks the rest.", "small", "start"))
    return picture(1010, 284, "What goes into a check, what comes out, and what has to be believed", parts)


def faults(is_check):
    """Draws the pictures, or compares them with what would be drawn. Returns the faults."""
    drawn = {"pieces": pieces, "layers": layers, "bytes": bytes_through, "edit": edit, "check": check}
    return [fault for name, draw in drawn.items() for fault in settle(TOP / "docs" / f"{name}.svg", draw(), "pictures", is_check)]
