"""Makes the tables of pages, and the signposts in the heads of sources, from the one table of public calls; `--print` prints it.

A page has a table between a line that says that it is made and a line that ends it:
  <!-- Made by `bin/docs tables`: calls CRATE -->   a row for each group of calls: clauses, examples, tests and mutations
  <!-- Made by `bin/docs tables`: sizes -->         the lines of each crate: code, definitions, proofs and tests
  <!-- Made by `bin/docs tables`: times -->         what the dearest tasks of `bin/test` take, from tools/check/times.txt
  <!-- Made by `bin/docs tables`: evidence -->      how many mutations and questions there are, and the answers of soak/answers.txt
  <!-- Made by `bin/docs tables`: said CALL -->      what is proved of a call, in words
  <!-- end of the table -->
A signpost is a paragraph at the head of a source that begins with "Made by `bin/docs tables`: the other calls of `TYPE` are in": it
names the modules that have calls of that type, each with its calls.

The table that `--print` prints has a line for each public call, with tabs between the fields: the call by the path that callers
import, its file, its clauses, its tests, its mutations, and whether it has an example."""
import re
import textwrap
from functools import cache

import age
import reference_text
import sentences
import times
from calls import entries, headings, table
from items import Wrong
from made import LIBRARIES, TOP, example, first_sentence, head_lines, module_file, modules_of, settle
from owners import owners
from sources import CRATES, read

# A task that takes fewer CPU seconds has no row of its own.
DEAR = 60
BLOCK = re.compile(r"(<!-- Made by `bin/docs tables`: (\w+)(?: ([\w:]+))? -->\n).*?(<!-- end of the table -->)", re.S)
SIGNPOST = re.compile(r"^//! Made by `bin/docs tables`: the other calls of `(\w+)` are in.*\n(?://! .+\n)*", re.M)


@cache
def rows():
    """The rows of the libraries."""
    return [call for call in table() if call.crate in LIBRARIES]


def in_code(names):
    return ", ".join(f"`{name}`" for name in names)


def calls_table(crate):
    """The groups of the calls of a library, with the number of their clauses, examples, tests and mutations."""
    lines = ["| Group | Calls | Clauses | With an example | Tests | Mutations |", "|---|--:|--:|--:|--:|--:|"]
    blocks = [entry for entry, _ in entries(crate) if entry.item.kind in ("impl", "trait")]
    shared = {id(it): example(entry.item.docs) for entry in blocks for it in entry.item.inner}
    total = [0] * 5
    for heading in headings(crate):
        group = [call for call in rows() if (call.crate, call.heading) == (crate, heading)]
        shown = [call for call in group if example(call.item.docs) or shared.get(id(call.item))]
        tests = {place.name for call in group for place in call.tests}
        mutations = {mutation.name for call in group for mutation in call.mutations}
        counts = [len(group), sum(len(call.item.clauses) for call in group), len(shown), len(tests), len(mutations)]
        total = [a + b for a, b in zip(total, counts)]
        if group:
            lines.append(f"| {heading} | {' | '.join(map(str, counts))} |")
    return [*lines, f"| sum | {' | '.join(map(str, total))} |"]


def lines_of(file):
    """The number of lines of a source without blanks and comments."""
    mark = {".rt": "//", ".antt": "--"}[file.suffix]
    return sum(not line.strip().startswith(mark) for line in read(file).splitlines() if line.strip())


def sizes_table(_):
    """The lines of each crate, in the order of crates.txt."""
    lines = ["| Crate | Code | Definitions | Proofs | Tests |", "|---|--:|--:|--:|--:|"]
    for crate in re.findall(r"^(\w+)[ :]", read(TOP / "crates.txt"), re.M):
        is_test = lambda file, crate=crate: "tests" in (*file.parts, file.stem) or re.match(r"tests_(?!callers)", crate)  # noqa: E731
        sources = [(it, bool(is_test(it.relative_to(CRATES / crate)))) for it in (CRATES / crate / "src").rglob("*.rt")]
        counts = [sum(lines_of(file) for file, tests in sources if not tests)]
        counts += [sum(map(lines_of, (CRATES / crate / part).rglob("*.antt"))) for part in ("specs", "proofs")]
        counts += [sum(lines_of(file) for file, tests in sources if tests)]
        lines.append(f"| `{crate}` | {' | '.join(f'{it:,}' if it else '' for it in counts)} |")
    return lines


def times_table(_):
    """What the tasks of the full check take that take a minute or more, and all of them."""
    (commit, processors, clock), tasks = times.measured()
    if not tasks:
        return ["No run is recorded."]
    row = lambda name, cpu, clock: f"| {name} | {cpu:,.0f} | {clock:,.0f} |"  # noqa: E731
    dear = [row(name, *figures) for name, figures in times.by_cost(tasks) if figures[0] >= DEAR]
    head = f"At commit {commit} over no kept proofs, on a machine with {processors} processors; tasks of {DEAR} CPU seconds or more:"
    lines = [head, "", "| Task | CPU seconds | Seconds by the clock |", "|---|--:|--:|", *dear]
    return [*lines, row("all tasks", times.cpu_of(tasks), float(clock))]


def evidence_table(_):
    """How many mutations there are, and what the last recorded run of the differential test compared."""
    mutations = lambda *patterns: sum(read(it).count("\n# ") + read(it).startswith("# ") for at in patterns for it in TOP.glob(at))  # noqa: E731
    listed = lambda name: sum(line[:1] not in ("", "#") for line in read(TOP / "tools/mutants" / name).splitlines())  # noqa: E731
    of_commit, *answers = read(age.ANSWERS).splitlines()
    (row_answers, rows, _), (kind_answers, kinds, seed) = (re.match(r"(\d+) answers of (\d+) \w+(.*)", it).groups() for it in answers)
    table = [("mutations that each full check tries", mutations("crates/*/must-fail/*.edit", "crates/*/mutations/each_check.edit")),
             ("mutations with a record", mutations("crates/*/mutations/recorded.edit", "tools/mutants/edits/*.edit")),
             ("bodies that give up, each with its row or test", listed("giving_up.txt")),
             ("survivors, each with its reason", listed("survivors.txt")),
             (f"answers of {rows} rows, at {of_commit}", row_answers), (f"answers of {kinds} kinds, at {of_commit}{seed}", kind_answers)]
    return ["| What | Number |", "|---|--:|", *[f"| {what} | {int(number):,} |" for what, number in table]]


def said_table(name):
    """What is proved of a call, in words."""
    call = next((it for it in rows() if it.key == name), None)
    if call is None:
        raise Wrong(f"no call {name}, which a page wants to say")
    home = next(it for it in owners().values() if any(own.item is call.item for own in it.calls))
    text = sentences.of_call(call.item.clauses).replace("\n\n- ", "\n- ").replace("\n", "\n  ")
    return f"- **In the words of its clauses**, [`{name}`](reference/{reference_text.file_of(home)}#{call.name}). {text}".splitlines()


TABLES = {"evidence": evidence_table, "calls": calls_table, "sizes": sizes_table, "times": times_table, "said": said_table}


def page_with_tables(text):
    """The text of a page with its tables made again."""
    return BLOCK.sub(lambda m: m[1] + "\n".join(TABLES[m[2]](m[3])) + "\n" + m[4], text)


def signpost(of_type, crate, here):
    """The paragraph that names the other modules with calls of a type, as lines of a comment."""
    modules = {}
    for call in rows():
        if call.crate == crate and call.owner == of_type and not call.of_trait and call.module != here:
            modules.setdefault("::".join(call.module), []).append(call.name)
    text = "; ".join(f"`{module}` ({in_code(names)})" for module, names in modules.items())
    text = f"Made by `bin/docs tables`: the other calls of `{of_type}` are in {text}."
    return "".join(f"//! {line}\n" for line in textwrap.wrap(text, 96, break_on_hyphens=False, break_long_words=False))


def sources_with_signposts():
    """The sources that have a signpost: pairs of a file, and its text with the signpost made again."""
    for crate in LIBRARIES:
        for path in modules_of(crate):
            file = module_file(crate, path)
            if SIGNPOST.search(read(file)):
                yield file, SIGNPOST.sub(lambda m: signpost(m[1], crate, path), read(file))  # noqa: B023


def faults(is_check):
    """Writes the tables and the signposts, or compares them with the sources. Returns the faults."""
    files = [(file, page_with_tables(read(file))) for file in sorted((TOP / "docs").glob("*.md"))]
    return [fault for file, text in [*files, *sources_with_signposts()] for fault in settle(file, text, "tables", is_check)]


def printed():
    """The whole table, as lines."""
    for call in rows():
        tests, mutations = ([it.name for it in found] for found in (call.tests, call.mutations))
        shown = "example" if example(call.item.docs) else ""
        labels = [label for label, _ in call.item.clauses]
        yield "\t".join([f"{call.crate}::{call.key}", call.file, ", ".join(labels), ", ".join(tests), ", ".join(mutations), shown])
