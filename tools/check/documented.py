"""The examples in the documentation of the libraries and the blocks of tests of RECIPES, in a crate that is made for them in a
temporary folder. All run unproved, as rustdoc runs examples. Those examples that name a call with a condition are also proved, up
to the last such call, over the libraries as they are built, so that the condition is proved to hold."""
import re
import shutil
import subprocess
import sys
import tempfile
from pathlib import Path

TOP = Path(__file__).resolve().parents[2]
sys.path[:0] = [str(TOP / "bin" / "lib"), str(TOP / "tools" / "docs"), str(TOP / "tools" / "reader")]
import examples  # noqa: E402
import libraries  # noqa: E402
from made import LIBRARIES  # noqa: E402
from recipes import BY_HAND, PAGE  # noqa: E402

NAME = "examples_of_docs"
# What the crate uses beside the libraries.
BESIDE = ["serde_json", "testing"]
# What names the blocks of tests of the page where an example is chosen by its library.
RECIPES = "RECIPES"
TESTED = re.compile(r"^test result: .*?(\d+) passed; (\d+) failed", re.M)
FAILED = re.compile(r"^test (\S+) \.\.\. FAILED\n((?:[ \t].*\n)*)", re.M)
VERDICT = re.compile(r"^fn (\S+): (.*)", re.M)
# The test of an example is in a module of its own, which has its name.
EXAMPLE = re.compile(r"of_\w+::(\w+)::\1")


def blocks():
    """The blocks of tests of the page, by their sections."""
    found = re.findall(r"^### ([^\n]*)\n.*?^```rust\n(.*?)^```$", PAGE.read_text(encoding="utf-8").partition(BY_HAND)[2], re.M | re.S)
    return {re.sub(r"\W+", "_", heading.lower()).strip("_"): text for heading, text in found}


def used_by(blocks, uses):
    """The libraries that blocks name at the head of a path."""
    names = {it for text in blocks.values() for it in re.findall(r"(?<![:\w])([a-z]\w*)::", text)}
    return {it for it in names - {"std"} if it in uses or Path(libraries.kit(), "rlibs", f"{it}.rlib").exists()}


def add_blocks(folder, blocks):
    """Adds blocks of tests to the crate, each as a module. Returns the number of tests."""
    root = folder / "src/tests.rt"
    root.write_text("".join(f"mod {name};\n" for name in blocks) + root.read_text(encoding="utf-8"), encoding="utf-8")
    for name, text in blocks.items():
        (folder / f"src/tests/{name}.rt").write_text(text, encoding="utf-8")
    return sum(text.count("#[test]") for text in blocks.values())


def made(top, is_proved=False, only=""):
    """Makes the crate, with the sources of the libraries beside it. Returns its folder and the number of examples and tests."""
    uses, _ = libraries.listed()
    page = blocks() if only in ("", RECIPES) and not is_proved else {}
    used = [*LIBRARIES, *sorted({*BESIDE, *used_by(page, uses)} - {*LIBRARIES})]
    names = sorted({it for name in used if name in uses for it in [*libraries.below(name, uses), name]})
    for name in names:
        leave = shutil.ignore_patterns("out", "must-fail", "mutations")
        shutil.copytree(TOP / "crates" / name, top / "crates" / name, ignore=leave)
    lines = [f"{name}: {' '.join(uses[name])}\n" for name in names]
    (top / "crates.txt").write_text("".join([*lines, f"{NAME}: {' '.join(used)}\n"]), encoding="utf-8")
    shutil.copy(TOP / "HANDLES", top / "HANDLES")
    folder = top / "crates" / NAME
    count = examples.write_crate(folder, is_proved, only)
    return folder, count + (add_blocks(folder, page) if page else 0)


def said_by(command, folder):
    ran = subprocess.run(command, cwd=folder, stdin=subprocess.DEVNULL, capture_output=True, text=True, errors="replace")
    return ran.returncode, ran.stdout + ran.stderr


def run(only=""):
    """Runs all examples and blocks, or those of one library or page, unproved. Returns how many passed, and what each other one said."""
    with tempfile.TemporaryDirectory() as scratch:
        folder, count = made(Path(scratch), only=only)
        status, said = said_by(["rt", "try", "--test", "--seconds", "600"], folder)
    failed = {name.removeprefix("tests::"): text.strip() for name, text in FAILED.findall(said)}
    counts = TESTED.search(said)
    if not failed and (status or not counts or int(counts[1]) != count):
        failed = {"the examples": f"status {status}\n{said[-1500:]}"}
    return int(counts[1]) if counts else 0, failed


def prove(only=""):
    """Proves the examples, or those of one library, that name a call with a condition, up to the last such call. Returns how many
    are proved, and the verdict of each other one."""
    with tempfile.TemporaryDirectory() as scratch:
        folder, count = made(Path(scratch), True, only)
        uses, _ = libraries.listed()
        words = libraries.words("check", NAME, "src/lib.rt", [*LIBRARIES, *BESIDE], uses)
        status, said = said_by([*words, "--test"], folder)
    verdicts = {name.partition("::tests::")[2]: how for name, how in VERDICT.findall(said)}
    # (a closure of an example has a verdict of its own, under a longer name)
    proved = sum(how.startswith("proved") for name, how in verdicts.items() if EXAMPLE.fullmatch(name))
    failed = {name: how for name, how in verdicts.items() if not how.startswith("proved")}
    if not failed and (status or proved != count):
        failed = {"the proofs of examples": f"status {status}\n{said[-1500:]}"}
    return proved, failed
