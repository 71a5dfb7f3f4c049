"""Says how old the figures of the pages are: for each that was measured, the commit, and how many functions of the libraries have
been added or changed since then.

Each figure stands in a file that the measuring tool wrote: the tasks of the full check in tools/check/times.txt, the answers of
the differential test in soak/answers.txt, and the table of speed in docs/PERFORMANCE.md."""
import re
import subprocess

import times
from made import LIBRARIES, TOP
from sources import read

FUNCTION = re.compile(r"^( *)(?:pub(?:\([a-z]+\))? )?fn (\w+).*?^\1\}$", re.M | re.S)
ANSWERS = TOP / "soak/answers.txt"


def measured():
    """Pairs of what was measured and its commit."""
    yield "the times of the full check", times.measured()[0][0]
    yield "the answers of the differential test", re.match(r"commit (\w+)", read(ANSWERS))[1]
    yield "the speed", re.search(r"^\| Commit \| (\w+)", read(TOP / "docs/PERFORMANCE.md"), re.M)[1]


def functions(text):
    """The functions of a source without its comments."""
    return [found[0] for found in FUNCTION.finditer(re.sub(r"^ *//.*\n", "", text, flags=re.M))]


def changed_since(commit):
    """How many functions of the libraries are not as they were at a commit; nothing if the repository does not have it."""
    folders = [f"crates/{name}/src" for name in LIBRARIES]
    git = lambda *words: subprocess.run(["git", *words], cwd=TOP, capture_output=True, text=True)  # noqa: E731
    listed = git("diff", "--name-only", commit, "--", *folders)
    if listed.returncode:
        return None
    count = 0
    for name in listed.stdout.split():
        old = functions(git("show", f"{commit}:{name}").stdout)
        count += sum(it not in old for it in functions(read(TOP / name))) if (TOP / name).is_file() else 0
    return count


def lines():
    """A line for each figure that was measured."""
    for what, commit in measured():
        count = changed_since(commit)
        since = "it is not in this clone" if count is None else f"{count} functions of the libraries have changed since"
        yield f"{what}: of {commit}; {since}"
