"""The files with mutations that were written by hand."""
import re


def mutations_of(text):
    """The mutations of a file of edits, as pairs of a name and changes."""
    mutations, file, old = [], None, None
    for line in text.splitlines():
        if line.startswith("# "):
            mutations.append((line[2:], []))
        elif line.startswith("file: "):
            file = line[6:]
        elif line.startswith("old: "):
            old = line[5:]
        elif line.startswith("new:"):
            mutations[-1][1].append((file, old, re.sub(r"^new: ?", "", line)))
    return mutations


def files_of(settings, crate):
    """The files with the mutations of a crate that each full check tries: those that `rt ci` tries as a whole, and the others."""
    folder = settings.root / "crates" / crate
    return [*sorted((folder / "must-fail").glob("*.edit")), *(folder / "mutations").glob("each_check.edit")]


def recorded_files(settings, crate):
    """The files with the mutations of a crate that have records."""
    files = [settings.root / "crates" / crate / "mutations" / "recorded.edit", settings.data / "edits" / f"{crate}.edit"]
    return [file for file in files if file.is_file()]


def edits_of(settings, crate):
    """The texts of the files with mutations of a crate."""
    return [file.read_text(encoding="utf-8") for file in [*files_of(settings, crate), *recorded_files(settings, crate)]]
