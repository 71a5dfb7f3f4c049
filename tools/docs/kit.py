"""The definitions of the toolchain's libraries that clauses name. They are read where the toolchain is installed."""
import re
import shutil
from functools import cache
from pathlib import Path

from definitions import read_file, used_words
from sources import read

# Where the toolchain keeps the modules of each name, in its folder of libraries.
FOLDERS = {"lib": "logic/Lib", "mathlib": "antt/port/mathlib/src", "text": "antt/lib/native-text"}


@cache
def folder():
    """The folder of the toolchain's libraries, or none if it is not installed."""
    command = shutil.which("rt")
    found = Path(command).resolve().parents[1] / "rattle" if command else None
    return found if found and (found / "core/specs").is_dir() else None


@cache
def file_of(module):
    """The file of a module, or none if it is built in or made from sources."""
    first, *rest = module.split(".")
    if first == "Rattle" and rest[1:2] == ["specs"]:
        base, rest = folder() / rest[0] / "specs", rest[2:]
    elif first in FOLDERS:
        base = folder() / FOLDERS[first]
    else:
        return None
    file = base.joinpath(*rest[:-1], f"{rest[-1]}.antt") if rest else base / "Lib.antt"
    return file if file.is_file() else passed_on(base, rest)


def passed_on(base, path):
    """The file of a module that the list of modules of a library passes on from another one."""
    listed = re.findall(r"^pub use (\S+)$", read(base / "Lib.antt"), re.M) if (base / "Lib.antt").is_file() else []
    found = [module for module in listed if path and module.endswith(f".{path[0]}")]
    return file_of(".".join([found[0], *path[1:]])) if found else None


@cache
def read_once(file):
    return read_file(file)


@cache
def named(module, name):
    """The definition with a name in a module, and its file in the folder; none if it is not found."""
    file = file_of(module) if folder() else None
    if not file:
        return None
    found = read_once(file)
    if definition := found.named(name):
        return definition, str(file.relative_to(folder()))
    for line in found.uses:
        path, names = used_words(line)
        for word, written in names if line.startswith("pub use") else []:
            if word == name and path != module:
                return named(path, written.partition(" as ")[0])
    return None


@cache
def traits():
    """The comment of each trait of the toolchain's libraries, and its file in the folder."""
    found = {}
    pattern = re.compile(r"((?:^//[/!]? ?.*\n)+)(?:#\[.*\n)*pub (?:unsafe )?trait (\w+)", re.M)
    for library in ("core", "std", "std_alloc", "serde") if folder() else ():
        for file in sorted((folder() / library / "src").rglob("*.rt")):
            for comment, name in pattern.findall(read(file)):
                text = " ".join(re.sub(r"^//[/!]? ?", "", line) for line in comment.splitlines())
                found.setdefault(name, (re.sub(r"(?<=[.:]) .*", "", text), str(file.relative_to(folder()))))
    return found


def trait_comment(name):
    """The first sentence of the comment of a trait of the toolchain, and its file; nothing if it has none."""
    return traits().get(name, ("", ""))
