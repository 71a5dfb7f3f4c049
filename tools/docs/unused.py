"""Finds public calls of the libraries that nobody uses, and definitions and lemmas that nothing cites.

A call is used if a program, an example, a recipe or another library has a call of its name; tests and exports do not count.
A method that a trait asks of a type is used by generic code, so it counts only in an extension trait. A definition or a
lemma is cited if its file names it beside itself, or another file imports it. Files of worked values are left out.

unused.txt, in the folder of this file, has what is kept all the same, a line each with the reason: `ascii` if the Rust crate
has the call, `std` if std has it for `str`, slices or `String`, `first` if it was in the interface from the start, or a reason
of its own. A fault is what is unused and not in the list, a line that is not needed, and more than 26 calls with a reason of
their own."""
import re
from collections import Counter
from pathlib import Path

import calls
from made import LIBRARIES
from sources import CRATES, read

LIST = Path(__file__).resolve().parent / "unused.txt"
# The reasons that many calls share.
SHARED = {"ascii", "std", "first"}
MOST = 26
# Crates whose calls do not count.
TESTS = re.compile(r"tests_\w+|testing|exports|measured")
WORD = re.compile(r"[^\s(){}\[\];,]+")
USE = re.compile(r"^\s*(?:pub )?(?:ghost )?use (\S+?)(?:\.\{([^}]*)\})?(?: as \S+?)?;?$")
CITED = re.compile(r"(crate|\w+)::((?:proofs|specs)(?:::[^\s:,)]+)+)")
HEAD = re.compile(r"( *)(?:abbrev |unfoldable )?(?:pub )?(?:(record|data) )?([^\s:({=,.]+)(?= [:({]|$)")
# Files whose definitions are goals and answers of functions, or worked values.
LEFT_OUT = re.compile(r"Answers|Invariants|Proof|Lib|\w*Examples")


# Calls

def code_of(crate):
    """The code of a crate, without comments."""
    lines = (line for file in sorted((CRATES / crate / "src").rglob("*.rt")) for line in read(file).splitlines())
    return "\n".join(line for line in lines if not line.strip().startswith("//"))


def unused_calls():
    """The names of the public calls that nobody uses."""
    names = sorted(it.parent.name for it in CRATES.glob("*/src") if not TESTS.fullmatch(it.parent.name))
    codes = {crate: code_of(crate) for crate in names}
    called = {crate: set(re.findall(r"\b(\w+)(?:::<[^()]*>)?\(", code)) for crate, code in codes.items()}
    for call in calls.table_without_names():
        is_asked = call.of_trait and not call.of_trait.endswith("Ext")
        if call.crate in LIBRARIES and not is_asked and " for " not in call.key:
            if not any(call.name in names for crate, names in called.items() if crate != call.crate):
                yield f"{call.crate}::{call.key}"


# Definitions and lemmas

def counted(text):
    """The words of a text and their parts, with how often they occur."""
    words = WORD.findall(text)
    return Counter(part for word in words for part in {word, *word.split(".")})


def code_lines(file):
    """The lines of a file without comments and blanks, those that import names apart."""
    mark = "--" if file.suffix == ".antt" else "//"
    lines = [line for line in read(file).splitlines() if line.strip() and not line.strip().startswith(mark)]
    is_use = re.compile(r"\s*(pub )?(ghost )?(use|mod) ")
    return [line for line in lines if not is_use.match(line)], [line for line in lines if is_use.match(line)]


def imported(files):
    """The names that files import or cite, as pairs of the end of a module's path and a name."""
    found = set()
    for file in files:
        lines, uses = code_lines(file)
        for path, names in (match.groups() for match in map(USE.match, uses) if match):
            parts = path.split(".")
            if names is not None:
                found |= {(parts[-1], name.strip().partition(" as ")[0]) for name in names.split(",")}
            else:  # a name, or a module, of which any may be used
                found |= {(parts[-1], word.rpartition(".")[2]) for line in lines for word in WORD.findall(line)}
                found |= {(parts[-2], parts[-1])} if len(parts) > 1 else set()
        text = "\n".join(lines) if file.suffix == ".rt" else ""
        found |= {tuple(path.split("::")[-2:]) for _, path in CITED.findall(text)}
    return found


def blocks(lines):
    """The definitions among the lines of a file, in order: the name of each and its lines; those of others have no name."""
    found, record = [("", [])], None
    for at, line in enumerate(lines):
        indent = len(line) - len(line.lstrip())
        record = None if record is not None and indent <= record else record
        head = HEAD.match(line) if indent in (0, 2) and record is None else None
        follows = lines[at + 1].strip() if at + 1 < len(lines) else ""
        if re.match(r"\s*(module|(pub )?ruleset) ", line):
            found.append(("", []))
        elif head and (" :" in line or head[2] or follows.startswith(":")):
            found.append((head[3], []))
            record = indent if head[2] else None
        found[-1][1].append(line)
    return found


def uncited():
    """The paths of the definitions and lemmas that nothing cites."""
    files = [*CRATES.glob("*/specs/**/*.antt"), *CRATES.glob("*/proofs/**/*.antt")]
    names = imported([*files, *CRATES.glob("*/src/**/*.rt")])
    for file in sorted(it for it in files if not LEFT_OUT.fullmatch(it.stem)):
        own = blocks(code_lines(file)[0])
        total = counted("\n".join(line for _, lines in own for line in lines))
        for name in sorted({name for name, _ in own if name and "◌" not in name}):
            beside = total[name] - sum(counted("\n".join(lines))[name] for it, lines in own if it == name)
            if beside <= 0 and (file.stem, name) not in names:
                yield ".".join([*file.relative_to(CRATES).with_suffix("").parts, name])


# The list

def listed():
    """What is kept, by its name, with the reason."""
    lines = [line for line in read(LIST).splitlines() if line and not line.startswith("#")]
    return {name: reason for name, _, reason in (line.partition(": ") for line in lines)}


def faults():
    kept = listed()
    found = {**{name: "has no user" for name in unused_calls()}, **{name: "is cited by nothing" for name in uncited()}}
    wrong = [f"{name} {why}, and is not in {LIST.name}" for name, why in found.items() if name not in kept]
    wrong += [f"{LIST.name}: {name} is used, or is gone" for name in kept if name not in found]
    own = [name for name, reason in kept.items() if "::" in name and reason not in SHARED]
    return wrong + ([f"{LIST.name}: {len(own)} calls have a reason of their own, more than {MOST}"] if len(own) > MOST else [])
