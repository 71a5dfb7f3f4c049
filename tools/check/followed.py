"""Does what the pages say in an empty folder.

A page is followed block by block: a block that names a file is written there, a block of `sh` is executed, and a block of
`text` is compared with what the last command printed. The commands that prove are left out, or done if they are asked for. A
`console` block of the README is executed in a clone of the repository. The rows of PORTING are compiled, unproved."""
import os
import re
import shutil
import subprocess
import sys
import tempfile
from pathlib import Path

TOP = Path(__file__).resolve().parents[2]
sys.path[:0] = [str(TOP / "tools" / "docs"), str(TOP / "tools" / "reader")]
from samples import QUOTED  # noqa: E402

BLOCK = re.compile(r"^```(\w+)\n(.*?)^```$", re.MULTILINE | re.DOTALL)
NAMED = re.compile(r"(?://|#|--) (\S+)\n")
PROVES = re.compile(r"\brt (check|test|run)\b")
FOLLOWED = ["README.md", "docs/START.md", "docs/LINES.md", "docs/NETWORK.md"]
COMPILED = "docs/PORTING.md"
# A page about what this checkout has built, which is not built again in a clone.
BUILT = "crates/ascii_c/README.md"


def run(command, folder, **others):
    """Runs a command, and returns its status and what it printed on standard output and on standard error."""
    ran = subprocess.run(command, cwd=folder, stdin=subprocess.DEVNULL, capture_output=True, text=True, errors="replace",
                         env={**os.environ, **others})
    return ran.returncode, ran.stdout, ran.stderr


def clone_of(folder):
    """A clone of the repository as it is committed, in a folder of its own."""
    subprocess.run(["git", "clone", "-q", str(TOP), str(folder)], check=True)
    return folder


def session(text):
    """The commands of a `console` block, as a script, and what they print."""
    lines = text.splitlines()
    commands = [line[2:] for line in lines if line.startswith("$ ")]
    return "\n".join(commands) + "\n", "".join(f"{line}\n" for line in lines if not line.startswith("$ "))


class Reader:
    """Somebody who follows a page: in which folder, and what the last command printed."""

    def __init__(self, page, clone, folder, proves, visits):
        self.page, self.clone, self.folder, self.proves, self.visits = page, clone, folder, proves, visits
        self.printed, self.compared, self.faults = None, 0, []

    def execute(self, script):
        """Executes the commands of a block, of which the last `cd` stays in force."""
        lines = [line for line in script.splitlines() if not line.startswith("export ")]
        if not self.proves:
            lines = [line for line in lines if not PROVES.search(line)]
        if not lines or not self.visits and any(line.startswith('cd "$ASCII') for line in lines):
            self.printed = None
            return
        whole = "set -e\n" + "\n".join(lines) + '\npwd > "$FOLLOWED"\n'
        with tempfile.NamedTemporaryFile("r") as place:
            status, self.printed, said = run(["sh", "-c", whole], self.folder, ASCII=str(self.clone), FOLLOWED=place.name)
            after = place.read().strip()
        # A block that goes to the clone is a visit: afterwards the reader is back in the folder from before.
        if after and self.clone not in [Path(after), *Path(after).parents]:
            self.folder = Path(after)
        if status:
            self.faults.append(f"{self.page}: status {status} of {lines[-1]}\n{said[-1500:]}")

    def compare(self, expected):
        self.compared += 1
        if self.printed != expected:
            self.faults.append(f"{self.page}: printed {self.printed!r}, and the page has {expected!r}")

    def block(self, kind, text):
        name = NAMED.match(text)
        if name and kind != "console":
            self.write(name.group(1), text[name.end():])
        elif kind == "sh":
            self.execute(text)
        elif kind == "console":
            script, printed = session(text)
            self.folder = self.clone
            self.execute(script)
            self.compare(printed)
        elif kind == "text" and self.printed is not None:
            self.compare(text)

    def write(self, name, text):
        """Writes a file of the page, if it makes a repository of its own."""
        if self.page != "README.md" and not name.startswith(QUOTED):
            file = self.folder / name
            file.parent.mkdir(parents=True, exist_ok=True)
            file.write_text(text, encoding="utf-8")


def follow(page, proves=False, visits=True):
    """Follows a page, and returns its faults. Without `visits`, programs of the clone are not run."""
    with tempfile.TemporaryDirectory() as scratch:
        folder = Path(scratch) / "empty"
        folder.mkdir()
        clone = TOP if page == BUILT else clone_of(Path(scratch) / "clone")
        reader = Reader(page, clone, folder, proves, visits)
        for kind, text in BLOCK.findall((TOP / page).read_text(encoding="utf-8")):
            reader.block(kind, text)
    return reader.faults + ([] if reader.compared else [f"{page}: nothing that it prints was compared"])


# What the cells of PORTING name, with their types.
NAMES = {
    "alloc": "Global", "view": "AsciiStr<'_>", "other": "AsciiStr<'_>", "part": "mut AsciiStrMut<'_>", "string": "mut AsciiString",
    "boxed": "BoxedAsciiStr", "ch": "AsciiChar", "source": "&[u8]", "mutable": "&mut [u8]", "bytes": "Vec<u8>", "s": "&str",
    "text": "String", "chars": "&[AsciiChar]",
}
USES = """#![tactic(auto)]

use ascii::{AsciiChar, AsciiRange, AsciiStr, AsciiStrMut, AsciiString, BoxedAsciiStr, ToAsciiChar, bytes, caret_encode, string, text, vec};
use std::alloc::Global;
use std::io;
"""


def row_function(number, code):
    """A function that has the code of a row in its body, and takes what the code names."""
    names = [it for it in NAMES if re.search(rf"(?<![\w:.\"]){it}(?!\w|::|\")", code)]
    taken = [f"{'mut ' * NAMES[it].startswith('mut ')}{it}: {NAMES[it].removeprefix('mut ')}" for it in names]
    body = code if code.startswith("for ") else f"let _ = {code.removesuffix('?')};"
    return f"\nfn row_{number}({', '.join(taken)}) {{\n    {body}\n}}\n"


def compiled():
    """Compiles the column *Here* of PORTING, unproved. Returns the faults."""
    tables = (TOP / COMPILED).read_text(encoding="utf-8").partition("\n## Why it differs")[0]
    rows = re.findall(r"^\| .*? \| `([^`]*)` \|", tables, re.MULTILINE)
    program = USES + "".join(row_function(number, code) for number, code in enumerate(rows))
    program += '\nfn main(rt: HostRuntime) -> io::Result<()> {\n    println!(rt; "compiled")\n}\n'
    with tempfile.TemporaryDirectory() as scratch:
        top, crate = Path(scratch), Path(scratch) / "crates/rows"
        for name in ("ascii_base", "ascii_search", "ascii"):
            shutil.copytree(TOP / "crates" / name, top / "crates" / name, ignore=shutil.ignore_patterns("out", "must-fail", "mutations"))
        (crate / "src").mkdir(parents=True)
        (crate / "src/main.rt").write_text(program, encoding="utf-8")
        lines = [line for line in (TOP / "crates.txt").read_text().splitlines() if re.match(r"ascii(_base|_search)?:", line)]
        (top / "crates.txt").write_text("\n".join([*lines, "rows: ascii"]) + "\n")
        shutil.copy(TOP / "HANDLES", top / "HANDLES")
        status, printed, said = run(["rt", "try"], crate)
    if printed == "compiled\n" and rows:
        return []
    return [f"{COMPILED}: status {status}\n{said[-3000:]}"]
