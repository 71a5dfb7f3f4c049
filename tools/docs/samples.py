"""Compares the samples of the pages with the sources.

Each block of Rust or antt of README.md, docs/CONTRACTS.md, docs/UNPROVED.md, docs/PORTING.md, docs/START.md, docs/LINES.md and the
pages CALLING.md is in a source of a crate word for word. A block that begins with `// FILE`, `-- FILE` or `# FILE` is
in that file, which may be the `stdout` of a stored run. From docs/START.md and docs/LINES.md a reader makes a crate NAME: a
block with a file of that crate is the whole file, without its tests, as it is in the crate `examples`, whose module NAME is the
reader's main.rt. A line of crates.txt that a page quotes is in crates.txt."""
import re

from made import LIBRARIES, TOP
from sources import read

FOLLOWED = ["docs/START.md", "docs/LINES.md"]
CALLING = [f"crates/{name}/CALLING.md" for name in LIBRARIES]
PAGES = ["README.md", "docs/CONTRACTS.md", "docs/UNPROVED.md", "docs/PORTING.md", *CALLING, *FOLLOWED]
# The crate of this repository whose code a page may quote beside that of the reader.
QUOTED = "crates/examples/"
BLOCK = re.compile(r"^```(\w+)\n(.*?)^```$", re.MULTILINE | re.DOTALL)
# Wrong code, which `bin/test rejected` plants.
WRONG = re.compile(r"^<!-- rejected: .*-->\n```rust\n.*?^```$", re.MULTILINE | re.DOTALL)


def blocks(page):
    """The code blocks of a page but those of wrong code, as pairs of a language and a text."""
    return BLOCK.findall(WRONG.sub("", (TOP / page).read_text(encoding="utf-8")))


def named(text):
    """The file that a block names in its first line, and the rest; no file where it names none."""
    first = re.match(r"(?://|#|--) (\S+)\n", text)
    return (first.group(1), text[first.end():]) if first else (None, text)


def bare(text):
    """The lines of a text without what is before them: spaces, and what makes them a comment."""
    return "\n".join(re.sub(r"^\s*(///)?\s*", "", line).rstrip() for line in text.splitlines())


def in_own_crate(name, text):
    """A text about a module of the crate `examples`, as it is about a crate of that name that has the module as its main.rt."""
    for old, new in ((f"src/{name}.rt", "src/main.rt"), (f"proofs/{name}/", "proofs/"), (f"examples::{name}::", f"{name}::"),
                     (f"Rattle.examples.specs.declared.{name}.", f"Rattle.{name}.specs.declared."), ("Rattle.examples.", f"Rattle.{name}.")):
        text = text.replace(old, new)
    return text


def is_whole(file, code, sources):
    """Whether a block that a reader writes to a file has all of it; `quoted_uses` compares the lines of crates.txt."""
    name, _, rest = file.removeprefix("crates/").partition("/")
    place = f"crates/examples/{rest.replace('src/main', f'src/{name}')}" if rest else file
    whole = in_own_crate(name, sources.get(place, ""))
    is_part = file.endswith("/Lib.antt") and code in whole
    return file == "crates.txt" or is_part or code.partition("\n#[cfg(test)]\n")[0] == whole


def is_sample(page, file, code, sources):
    """Whether a block of a page is in the file that it names, or in any source if it names none."""
    if page in FOLLOWED and file and not file.startswith(QUOTED):
        return is_whole(file, code, sources)
    if file and file not in sources:
        return False
    return any(bare(code) in bare(sources[place]) for place in ([file] if file else sources))


def faults():
    """The samples that differ from the sources."""
    files = [f for f in TOP.glob("crates/**/*") if f.suffix in (".rt", ".antt") and "out" not in f.parts]
    others = [*TOP.glob("crates/*/stdout"), TOP / "crates.txt", TOP / "HANDLES"]
    sources = {str(file.relative_to(TOP)): read(file) for file in sorted(files) + others}
    wrong = []
    for page in PAGES:
        for language, text in blocks(page):
            file, code = named(text)
            if (file or language in ("rust", "antt")) and not is_sample(page, file, code, sources):
                wrong.append(f"{page}: {file or 'no source'} does not have the sample: {code.splitlines()[0]}")
    return wrong + quoted_uses(sources["crates.txt"].splitlines())


def quoted_uses(uses):
    """The lines that name what a crate of this repository uses, and that crates.txt does not have."""
    crates = {line.partition(":")[0] for line in uses}
    quote = re.compile(r"(?:^ *|`)((\w+):(?: \w+)*)(?:`|$)", re.MULTILINE)
    return [f"{page}: crates.txt has no line: {line}"
            for page in PAGES for line, crate in quote.findall(read(TOP / page)) if crate in crates and line not in uses]
