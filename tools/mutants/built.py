"""A library of the repository as `rt ci` or `rt lib` built it, in crates/CRATE/out/rlib: what its functions are and which of
them each one calls; and checks of named functions of a changed copy, over the libraries below and over what the build proved."""
import json
import os
import re
import subprocess
import tempfile
import threading
from pathlib import Path

import libraries

# The modules that the build checked, and the MIR: a line or a list of names with what each one has.
CHECKED, MODULES, MIR = "toolchain/checked.a", "toolchain/checked.json", "toolchain/mir.json"


def strings(value):
    """All strings in a value of JSON."""
    if isinstance(value, str):
        yield value
    for it in value if isinstance(value, list) else value.values() if isinstance(value, dict) else ():
        yield from strings(it)


class Built:
    """A built library."""

    def __init__(self, crate):
        self.name, self.folder = crate, Path(libraries.rlib(crate))
        code = json.loads((self.folder / MIR).read_text(encoding="utf-8"))
        self.symbols = {symbol for symbol, _ in code}
        self.calls = {symbol: self.symbols.intersection(strings(body)) - {symbol} for symbol, body in code}

    def write_modules(self, folder):
        """Writes what the build proved into a folder, from which a check takes what a change leaves as it is. A format that is
        not known costs time: the check then proves it again."""
        kind = re.search(r"^rattle-build (\S+)$", (self.folder / "format").read_text(encoding="utf-8"), re.MULTILINE)
        if not kind or not (self.folder / MODULES).is_file():
            return
        to = folder / kind[1].replace("/", "_")
        to.mkdir()
        with open(self.folder / CHECKED, "rb") as archive:
            for line in (self.folder / MODULES).read_text(encoding="utf-8").splitlines():
                module, start, size = json.loads(line)
                if "/" not in module:
                    archive.seek(start)
                    (to / f"{module}.oantt").write_bytes(archive.read(size))


class Checks:
    """Checks of a copy of a crate over the libraries below it, each of which starts from what the checks before proved, and from
    what the build did if the crate is a library."""

    def __init__(self, name, copy, scratch, built=None):
        self.name, self.copy, self.seconds = name, copy, 0
        self.kept = Path(tempfile.mkdtemp(dir=scratch))
        if built:
            built.write_modules(self.kept)

    def check(self, names, most=None):
        """What the check of these functions or modules says; of the whole crate, if none is named. Counts its CPU seconds. None
        if it takes longer than `most` seconds."""
        uses, _ = libraries.listed()
        root = next(it for it in ("src/lib.rt", "src/main.rt") if (self.copy / it).is_file())
        words = libraries.words("check", self.name, root, uses[self.name], uses)
        words += ["--incremental", str(self.kept), *(it for name in names for it in ("--only", name))]
        late = threading.Event()
        with subprocess.Popen(
            words, cwd=self.copy, text=True, stdin=subprocess.DEVNULL, stdout=subprocess.PIPE, stderr=subprocess.STDOUT, errors="replace",
        ) as started:  # fmt: skip
            watch = threading.Timer(most or threading.TIMEOUT_MAX, lambda: (late.set(), started.kill()))
            watch.start()
            said = started.stdout.read()
            watch.cancel()
            _, started.returncode, used = os.wait4(started.pid, 0)
        self.seconds += used.ru_utime + used.ru_stime
        return None if late.is_set() else said
