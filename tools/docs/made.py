"""What the commands of bin/docs share: the crates, their documentation, and files that are made from sources."""
import re
from functools import cache

from items import Wrong
from sources import CRATES, read, read_modules

TOP = CRATES.parent
# The libraries of the reference, and the crates whose definitions the site has.
LIBRARIES = ["ascii_base", "ascii", "ascii_formats", "ascii_keys", "ascii_devices", "ascii_run", "ascii_lines"]
DEFINED = [*LIBRARIES, "ascii_search", "ascii_show", "ascii_filter", "cookbook", "examples", "example_resp", "example_smtp", "ascii_c"]
# Crates of calls for programs in Rust, of whose sources the site has no page.
TYPED = {"exports", "measured"}
# Ghost members whose value is a proof, which says nothing of an outcome.
PROOFS = {"laws", "total", "matches_partial_cmp", "matches_eq", "respects_eq", "holds_sure"}


@cache
def modules_of(crate):
    """The items of each module of a crate, which are read once."""
    return read_modules(crate)


def parts_of(crate, path):
    """The parts of the file name of a module's source."""
    return path or ("lib" if (CRATES / crate / "src/lib.rt").is_file() else "main",)


def module_file(crate, path):
    """The source of a module."""
    return CRATES / crate / "src" / ("/".join(parts_of(crate, path)) + ".rt")


def head_lines(file):
    """The lines of the comment at the head of a source."""
    return [line[len("//!") :].removeprefix(" ") for line in read(file).splitlines() if line.startswith("//!")]


# The parts of a documentation

def first_sentence(docs):
    """The first sentence of a documentation, as one line."""
    text = " ".join("\n".join(docs).partition("\n\n")[0].split())
    found = re.match(r"(.*?\.)(?= [A-Z`]|$)", text)
    return found[1] if found else text


def conditions(docs):
    """The paragraphs that say what a caller has to prove."""
    return [text for text in "\n".join(docs).split("\n\n") if text.startswith("Condition")]


def example(docs):
    """The lines of the examples of a documentation."""
    return [line[4:] for text in "\n".join(docs).split("\n\n") if text.startswith("    ") for line in text.splitlines()]


def wants(name):
    """What a page says between the documentation of its type and the calls, if anything: a table of what its reader may want, or how
    its trait is implemented. A line `@from FILE FIRST` is code of a crate that CI proves, from the line that begins so to the end
    of that item; with ` .. LAST`, to the line that begins with that."""
    file = TOP / "tools/docs/wants" / f"{name}.md"
    return re.sub(r"^@from (\S+) (.+?)(?: \.\. (.+))?$", lambda m: quoted(*m.groups()), read(file), flags=re.M) if file.is_file() else ""


def quoted(file, first, last):
    """The lines of a source between two, as a block."""
    lines, is_rust = [*read(TOP / file).splitlines(), ""], file.endswith(".rt")
    ends = (lambda it: it.startswith(last)) if last else (lambda it: it == ("}" if is_rust else ""))
    begin = next((at for at, line in enumerate(lines) if line.startswith(first)), None)
    end = next((at for at, line in enumerate(lines[begin:], begin) if ends(line)), None) if begin is not None else None
    if end is None:
        raise Wrong(f"tools/docs/wants: no lines from `{first}` in {file}")
    code = in_short("\n".join(lines[begin : end + 1])) if is_rust else "\n".join(lines[begin:end]).strip()
    return f"```{'rust' if is_rust else 'antt'}\n{code}\n```"


def in_short(code):
    """Code without documentation and hints, with each function of an `impl` in one line if it fits, and no empty lines between."""
    plain = re.sub(r"^ *(///|#\[inline).*\n", "", code, flags=re.M)
    parts = re.sub(r"\n}$", "\n\n}", plain, flags=re.M).split("\n\n")
    joined = [re.sub(r"\(\s+|,?\s+(?=\))", lambda m: m[0].strip(" \n,"), " ".join(part.split())).removesuffix(" }") + " }" for part in parts]
    short = [f"    {line}" if re.match(r"    fn .*\n    }$", part, re.S) and len(line) < 116 else part for part, line in zip(parts, joined)]
    return re.sub(r"\n\n(?=[ }])", "\n", "\n\n".join(short))


def settle(file, text, command, is_check):
    """Writes a file, or compares it with what would be written. Returns the faults."""
    is_same = file.is_file() and read(file) == text
    if is_check or is_same:
        return [] if is_same else [f"{file.relative_to(TOP)} is out of date: run bin/docs {command}"]
    file.write_text(text, encoding="utf-8")
    return []
