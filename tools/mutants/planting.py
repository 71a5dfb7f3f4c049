"""Copies of the repository in which changes are planted, and the tests that are run there."""
import re
import shutil
import subprocess


def copied(root, folder, kept):
    """Copies the repository, with the work of `rt check` or without."""
    left_out = [".git", "must-fail", "mutations", "mutants"] if kept else [".git", "out"]
    shutil.copytree(root, folder, symlinks=True, ignore=shutil.ignore_patterns(*left_out))
    return folder


def narrow(crate, names):
    """Removes the tests of a crate except these; the name of a module stands for its tests."""
    for file in crate.glob("src/**/*.rt"):
        module = "".join(f"{it}::" for it in file.relative_to(crate / "src").with_suffix("").parts[1:])
        text = file.read_text(encoding="utf-8")
        kept = lambda it: it[0] if any(f"{module}{it[1]}::".startswith(f"{name}::") for name in names) else ""  # noqa: E731
        file.write_text(re.sub(r"(?ms)^#\[test\]\nfn (\w+).*?^}\n", kept, text), encoding="utf-8")


def run_tests(crate):
    """Runs the tests of a crate, unproved. Returns the names of those that ran and of those that failed, and all that was
    said."""
    said = subprocess.run(
        ["rt", "try", "--test", "--seconds", "300"], cwd=crate, text=True, stdin=subprocess.DEVNULL, stdout=subprocess.PIPE,
        stderr=subprocess.STDOUT,
    ).stdout  # fmt: skip
    ran = re.findall(r"(?m)^test tests::(\S+) \.\.\. (FAILED)?", said)
    return {name for name, _ in ran}, {name for name, failed in ran if failed}, said
