"""Compares the records of mutations with the sources, in seconds. A mutation of crates/CRATE/mutations/recorded.edit, or of
edits/CRATE.edit of the data folder, is not tried in each check: its record has its verdict, and a checksum of what the verdict
rests on. This is the mutation; the functions that it changes, with their clauses; the ghost members of the `impl` around them; the
clauses of the trait; and the definitions that these reach. Comments and layout do not count. The records are lines of
records/CRATE.txt in the data folder: the mutation, the checksum, and the goals by which it is rejected, with tabs between.
`rounds --changed` and `one-by-one --changed` try what has no record, or a stale one, and write the records. Prints each
mutation that has no record or a stale one, each that cannot be applied, and each record of a mutation that is gone. Status 1:
there is one, other than one without a record."""
import hashlib
import re

from definitions import Definitions
from edit_files import mutations_of, recorded_files
from functions import functions_of
from items import read_items
from tokens import lex

LACKING, STALE = "has no record", "has a stale record"
# Where a comma is layout only.
LAST_COMMA = re.compile(r", (?=[)\]}])")


def in_tokens(text):
    """The tokens of a text of Rattle, without comments and layout."""
    return LAST_COMMA.sub("", " ".join(it.text for it in lex(text)) + " ")


class Sums:
    """The checksums of the mutations of a repository."""

    def __init__(self, root):
        self.root, self.definitions, self.traits, self.texts = root, Definitions(root / "crates"), {}, {}
        for file in sorted(root.glob("crates/*/src/**/*.rt")):
            for item in (it for it in read_items(file.read_text(encoding="utf-8")) if it.kind == "trait"):
                for it in (it for it in item.inner if it.kind == "fn"):
                    self.traits.setdefault((item.name, it.name), []).append((" ".join(f"{a} {b}" for a, b in it.clauses), tuple(it.words)))

    def of(self, crate, name, changes):
        """The checksum of a mutation. Fails with a reason if it cannot be applied."""
        folder, said = self.root / "crates" / crate, [f"{name} {changes}"]
        for file, old, _ in changes:
            text = self.text(folder / file)
            if text.count(old) != 1:
                raise ValueError(f"{old!r} occurs {text.count(old)} times in {file}, expected once")
            place = text.index(old)
            said += [it for f, block in self.functions(folder / file) if f.start <= place < f.end for it in self.rests_on(text, f, block)]
        return hashlib.sha256("\n".join(said).encode()).hexdigest()[:16]

    def text(self, file):
        if file not in self.texts:
            self.texts[file] = file.read_text(encoding="utf-8") if file.is_file() else ""
        return self.texts[file]

    def functions(self, file):
        """The functions of a file, each with the item of the block around it."""
        items = [it for it in read_items(self.text(file)) if it.kind in ("impl", "trait")]
        return [(f, next((it for it in items if it.begins <= f.start < it.end), None)) for f in functions_of(str(file), self.text(file))]

    def rests_on(self, text, function, block):
        """What the verdict on a function rests on, as texts: itself, what its block and its trait say of it, and definitions."""
        uses = tuple(re.findall(r"^\s*(ghost use [^;]+);", text, re.M))
        ghosts = [it.source for it in block.inner if it.kind == "ghost" and not it.head.startswith("ghost use")] if block else []
        said = [in_tokens(text[function.start : function.end]), *map(in_tokens, ghosts)]
        found = {it.path: it for it in self.definitions.reached(" ".join([text[function.named : function.opens], *ghosts]), uses)}
        for name in re.findall(r"\w+", block.head if block else ""):
            for clauses, its in self.traits.get((name, function.name), ()):
                said.append(" ".join(clauses.split()))
                found |= {it.path: it for it in self.definitions.reached(clauses, its)}
        return said + [" ".join([path, it.section, *it.lines]) for path, it in sorted(found.items())]


def recorded(settings, crate):
    """The mutations of a crate that have records, as pairs of a name and changes."""
    return [it for file in recorded_files(settings, crate) for it in mutations_of(file.read_text(encoding="utf-8"))]


def read(settings, crate):
    """The records of a crate: the checksum and the goals, by the mutation."""
    return {name: (found, goals) for name, found, goals in (line.split("\t") for line in settings.lines(f"records/{crate}.txt"))}


def write(settings, crate, records):
    """Writes the records of a crate, in the order of its mutations."""
    names = [name for name, _ in recorded(settings, crate)]
    file = settings.data / "records" / f"{crate}.txt"
    file.parent.mkdir(exist_ok=True)
    lines = [f"{name}\t{records[name][0]}\t{records[name][1]}\n" for name in names if name in records]
    file.write_text("".join(lines), encoding="utf-8")


def faults_of(settings, crate, sums):
    """What is wrong with the records of a crate: pairs of a mutation and a reason."""
    records, mutations = read(settings, crate), recorded(settings, crate)
    for name, changes in mutations:
        try:
            found = sums.of(crate, name, changes)
        except ValueError as fault:
            yield name, f"cannot be applied: {fault}"
            continue
        if name not in records:
            yield name, LACKING
        elif records[name][0] != found:
            yield name, STALE
    yield from ((name, "is gone and has a record") for name in sorted(records.keys() - {name for name, _ in mutations}))


def changed(settings, crate, sums):
    """The names of the mutations of a crate without a record that holds."""
    return {name for name, reason in faults_of(settings, crate, sums) if reason in (LACKING, STALE)}


class Writer:
    """The records of a crate while its mutations are tried."""

    def __init__(self, settings, crate, sums):
        self.settings, self.crate, self.records = settings, crate, read(settings, crate)
        names = changed(settings, crate, sums)
        self.sums = {name: sums.of(crate, name, changes) for name, changes in recorded(settings, crate) if name in names}

    def add(self, name, goals):
        """Writes the record of a mutation that is rejected."""
        self.records[name] = (self.sums[name], goals)
        write(self.settings, self.crate, self.records)


def arguments(asks):
    asks.add_argument("crates", nargs="*", metavar="CRATE", help="default: every crate that has such mutations")


def run(settings, given):
    sums, count, lacking, faults = Sums(settings.root), 0, 0, 0
    for crate in given.crates or [name for name in settings.all_crates() if recorded_files(settings, name) or read(settings, name)]:
        count += len(recorded(settings, crate))
        for name, reason in faults_of(settings, crate, sums):
            lacking, faults = lacking + (reason == LACKING), faults + (reason != LACKING)
            print(f"{crate}/{name}: {reason}")
    print(f"{count} mutations, {lacking} without a record, {faults} faults")
    return 1 if faults else 0
