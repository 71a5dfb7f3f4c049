"""The libraries of crates.txt as `rt ci` or `rt check` left them in crates/*/out/rlib, and the words by which the toolchain's
command `rattle` checks or builds a crate over them, so that none of them is proved again.
usage: python3 bin/lib/libraries.py PROGRAM     status 0: the program was built from the sources that are there"""
import os
import shutil
import sys

ROOT = os.path.dirname(os.path.dirname(os.path.dirname(os.path.realpath(__file__))))


def folder_of(crate):
    return f"{ROOT}/crates/{crate}"


def listed():
    """The lines of crates.txt: the libraries that each crate uses, and the names of the static libraries."""
    uses, static = {}, set()
    with open(f"{ROOT}/crates.txt", encoding="utf-8") as file:
        for line in file:
            names, _, libraries = line.partition("#")[0].partition(":")
            if names.split():
                uses[names.split()[0]] = libraries.split()
                static |= {names.split()[0]} if "staticlib" in names.split() else set()
    return uses, static


def below(crate, uses):
    """The libraries of the repository below a crate, each after those that it uses."""
    found = []
    for name in uses[crate]:
        if name in uses:
            found += [it for it in [*below(name, uses), name] if it not in found]
    return found


def changed(crate):
    """The time at which a source of a crate changed last."""
    parts = [os.walk(f"{folder_of(crate)}/{part}") for part in ("src", "specs", "proofs")]
    files = [f"{folder}/{name}" for part in parts for folder, _, names in part for name in names]
    return max(map(os.path.getmtime, files))


def built(path):
    """The time at which a library was built; 0 if it is not there."""
    return os.path.getmtime(path) if os.path.exists(path) else 0


def rlib(crate):
    return f"{folder_of(crate)}/out/rlib/{crate}.rlib"


def are_built(crates):
    """Whether each of the libraries is there and newer than its sources."""
    return all(built(rlib(name)) >= changed(name) for name in crates)


def is_program_built(crate):
    """Whether a program is there and newer than its sources and those of the libraries below it."""
    uses, _ = listed()
    return built(f"{folder_of(crate)}/out/{crate}") >= max(map(changed, [crate, *below(crate, uses)]))


def kit():
    """The folder of the toolchain, or none if it is not installed."""
    rt = shutil.which("rt")
    return os.path.dirname(os.path.dirname(os.path.realpath(rt))) if rt else None


def words(command, crate, root, libraries, uses):
    """The command `rattle check` or `rattle build` of a crate with this root file, over these libraries as they are there."""
    said = [f"{kit()}/bin/rattle", command, "--crate-name", crate, root]
    for name in ["std", *libraries]:
        said += ["--extern", f"{name}={rlib(name) if name in uses else f'{kit()}/rlibs/{name}.rlib'}"]
    folders = [os.path.dirname(rlib(it)) for name in libraries if name in uses for it in [*below(name, uses), name]]
    for folder in [f"{kit()}/rlibs", *dict.fromkeys(folders)]:
        said += ["-L", f"dependency={folder}"]
    said += ["--links", f"{crate}=", "--antt-project", f"{kit()}/rattle/logic/antt-project.json"]
    return [*said, "--logic-built", f"{kit()}/logic_built"]


if __name__ == "__main__":
    sys.exit(0 if is_program_built(sys.argv[1]) else 1)
