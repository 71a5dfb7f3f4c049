"""Plants the wrong code that the pages show, and compares what the check prints with what they quote.

A page has, before a block of wrong code or before the sentence that says what to write,
  <!-- rejected: FILE -->                        the functions of the next block take the place of those of FILE with their names
  <!-- rejected: FILE: `OLD` becomes `NEW` -->   a text that FILE has exactly once takes the place of another
  <!-- rejected: FILE without FOLDER -->         the proof files in FOLDER, of the crate, are removed
Up to the next such line or heading, each indented line that begins with `note:` or `fn` is a line of the check's answer."""
import os
import re
import shutil
import subprocess
import sys
import tempfile
from pathlib import Path
from typing import NamedTuple

TOP = Path(__file__).resolve().parents[2]
sys.path[:0] = [str(TOP / "bin" / "lib"), str(TOP / "tools" / "docs"), str(TOP / "tools" / "reader")]
import libraries  # noqa: E402
from samples import in_own_crate  # noqa: E402

MARK = re.compile(r"^<!-- rejected: ([\w/.]+)(?:: `(.*?)` becomes `(.*?)`| without ([\w/]+))? -->$", re.M)
SECTION = re.compile(r"^##? ", re.M)
BLOCK = re.compile(r"\A\s*^```rust\n(.*?)^```$", re.M | re.S)
QUOTE = re.compile(r"^    ((?:note: |fn \w+::).*)$", re.M)
FUNCTION = re.compile(r"^(?:pub )?fn (\w+)", re.M)


class Rejected(NamedTuple):
    """Wrong code of a page: the page, the file that it is planted in, what is replaced by what, the functions of a block, the
    folder of proofs that is removed, and the lines that the check prints."""

    page: str
    file: str
    old: str
    new: str
    without: str
    code: str
    quotes: list

    @property
    def crate(self):
        return self.file.split("/")[1]

    @property
    def name(self):
        """What is checked: the last function of the block, or the one that the last quoted line names."""
        return FUNCTION.findall(self.code)[-1] if self.code else re.findall(r"\w+(?=: )", self.quotes[-1])[0]


def rejected_of(page, text):
    """The wrong code that the text of a page shows."""
    found = []
    for mark in MARK.finditer(text):
        file, old, new, without = mark.groups()
        rest = text[mark.end():]
        ends = [it.start() for it in (MARK.search(rest), SECTION.search(rest)) if it]
        block = BLOCK.match(rest) if not old and not without else None
        quotes = QUOTE.findall(rest[:min(ends, default=len(rest))])
        found.append(Rejected(page, file, old or "", new or "", without or "", block[1] if block else "", quotes))
    return found


def all_rejected():
    """The wrong code of all pages."""
    pages = [*sorted(TOP.glob("*.md")), *sorted((TOP / "docs").glob("*.md"))]
    return [it for page in pages for it in rejected_of(str(page.relative_to(TOP)), page.read_text(encoding="utf-8"))]


def functions(code):
    """The functions of a block: the name of each, and its text with its documentation."""
    parts = re.split(r"(?<=^}\n)\n*", code, flags=re.M)
    return [(FUNCTION.search(part)[1], part) for part in parts if FUNCTION.search(part)]


def planted(text, code):
    """A source in which the functions of a block take the place of those with their names. The lines after them keep their
    numbers, if the functions are not longer."""
    for name, function in functions(code):
        documented = r"(?:^(?:///|#\[)[^\n]*\n)*" if function.startswith("///") else ""
        place = re.compile(rf"{documented}^(?:pub )?fn {name}\b.*?^}}\n", re.M | re.S)
        found = place.findall(text)
        if len(found) != 1:
            raise ValueError(f"{len(found)} functions {name}")
        text = text.replace(found[0], function + "\n" * max(0, found[0].count("\n") - function.count("\n")))
    return text


def plant(wrong, copy):
    """Plants wrong code in a copy of the crates, where it may be already: two pages can show the same."""
    file = copy / wrong.file
    text = file.read_text(encoding="utf-8")
    if wrong.old and text.count(wrong.new) != 1:
        if text.count(wrong.old) != 1:
            raise ValueError(f"{wrong.file} has {wrong.old} {text.count(wrong.old)} times")
        text = text.replace(wrong.old, wrong.new)
    file.write_text(planted(text, wrong.code), encoding="utf-8")
    if wrong.without:
        shutil.rmtree(copy / "crates" / wrong.crate / wrong.without)


def checking(crate):
    """The command that checks a crate in its folder: over the libraries that `rt ci` left, or else over those that it proves."""
    uses, _ = libraries.listed()
    if not libraries.are_built(libraries.below(crate, uses)):
        return ["rt", "check"]
    root = next(it for it in ("src/main.rt", "src/lib.rt") if (TOP / "crates" / crate / it).is_file())
    return libraries.words("check", crate, root, uses[crate], uses)


def answers(crate, wrongs):
    """What the check prints of a copy of a crate in which all wrong code is planted, as lines."""
    with tempfile.TemporaryDirectory() as scratch:
        copy = Path(scratch)
        shutil.copytree(TOP / "crates", copy / "crates", symlinks=True, ignore=shutil.ignore_patterns("out", "must-fail", "mutations"))
        for name in ("crates.txt", "HANDLES"):
            shutil.copy(TOP / name, copy / name)
        for wrong in wrongs:
            plant(wrong, copy)
        only = [word for name in sorted({it.name for it in wrongs}) for word in ("--only", name)]
        ran = subprocess.run([*checking(crate), *only], cwd=copy / "crates" / crate, stdin=subprocess.DEVNULL, capture_output=True,
                             text=True, errors="replace", env=os.environ)
    return [line.strip() for line in (ran.stdout + ran.stderr).splitlines()]


def faults():
    """Plants the wrong code of each crate at once. Returns pairs of wrong code and what is wrong with its page, or none."""
    found = []
    for crate in sorted({it.crate for it in all_rejected()}):
        wrongs = [it for it in all_rejected() if it.crate == crate]
        lines = answers(crate, wrongs)
        for wrong in wrongs:
            known = {*lines, *(in_own_crate(Path(wrong.file).stem, line) for line in lines)}
            missing = [line for line in wrong.quotes if line not in known]
            said = [line for line in lines if wrong.name in line or line.startswith(f"note: {wrong.file.partition('/src/')[2]}")] or lines[-20:]
            silent = "" if wrong.quotes else "no line of the check's answer is quoted"
            found.append((wrong, "\n".join([f"the check does not print: {line}" for line in missing] + said[:20]) if missing else silent))
    return found
