#!/usr/bin/env python3
"""usage: tools/check/slowest.py CRATE [NAME..]
Prints how many seconds the check of each function of a crate takes, and of each file of definitions or lemmas, the longest
first; of the named functions and modules alone, if there are names. It checks them over the libraries below as `rt ci` or
`rt lib` built them, in a folder of its own, and reads when each part of the check was written there.
Status 64: wrong usage; 69: no toolchain; 70: a library below is not built, or the check failed."""
import collections
import os
import sys
import tempfile
from pathlib import Path

TOP = Path(__file__).resolve().parents[2]
sys.dont_write_bytecode = True
sys.path[:0] = [str(TOP / "tools/mutants"), str(TOP / "tools/reader"), str(TOP / "bin/lib")]
import libraries  # noqa: E402
from built import Checks  # noqa: E402
from one_by_one import PASSED  # noqa: E402

# The words of a part of a check that name no function and no file of the crate.
OTHERS = ("decls", "specs", "proofs", "contracts", "declared")


def name_of(part, crate):
    """The function of a part of a check, or the file that it is of: a function begins with a small letter, and what the check
    makes of it with a capital."""
    words = [it for it in part.removeprefix(f"Rattle-{crate}-").split(".") if it not in OTHERS]
    small = [at for at, it in enumerate(words) if it[:1].islower()]
    return "::".join(words[: small[-1] + 1] if small else words[:1])


def seconds_of(parts, crate):
    """How long each function and file took, by the parts of the check and when they were written, in seconds."""
    times, before = collections.Counter(), None
    for at, part in sorted((at, part) for part, at in parts.items()):
        times[name_of(part, crate)] += at - before if before is not None else 0
        before = at
    return times


def main(crate, *names):
    uses, _ = libraries.listed()
    if crate not in uses:
        print(f"slowest.py: {crate} is not a crate of crates.txt", file=sys.stderr)
        return 64
    if not libraries.kit():
        print("slowest.py: the toolchain's command rt is not on PATH", file=sys.stderr)
        return 69
    if not libraries.are_built(libraries.below(crate, uses)):
        print("slowest.py: a library below is not built: run rt ci, or rt lib in its folder", file=sys.stderr)
        return 70
    with tempfile.TemporaryDirectory(prefix="slowest-") as scratch:
        checks = Checks(crate, Path(libraries.folder_of(crate)), Path(scratch))
        said = checks.check(names)
        parts = {it.stem: os.path.getmtime(it) for it in checks.kept.rglob("*.oantt")}
    if not PASSED.search(said):
        print(said, end="", file=sys.stderr)
        return 70
    for name, seconds in seconds_of(parts, crate).most_common(40):
        print(f"{seconds:7.1f} {name}")
    return 0


if __name__ == "__main__":
    sys.exit(main(*sys.argv[1:]) if len(sys.argv) > 1 else print(__doc__) or 64)
