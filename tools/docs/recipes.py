"""Makes docs/RECIPES.md from the cookbook: for each recipe its problem, its calls with their code, and what is proved of them. What
is on the page from BY_HAND on stays.

The problems are the table at the head of crates/cookbook/src/lib.rt. What is proved of a call is said by sentences.txt."""
import re
import textwrap

import sentences
from made import TOP, head_lines, module_file, modules_of, settle
from sources import read

PAGE = TOP / "docs/RECIPES.md"
# The section that is written by hand, up to the end of the page.
BY_HAND = "## With other crates\n"
CRATE = "cookbook"
HEAD = """\
<!-- Made by `bin/docs recipes` from crates/cookbook: change the sources, and not this page. Only its last section is written by hand. -->
# ascii: recipes

Problems that users have, solved over the public contracts of the library. Each call is proved, for every input, and tested
with each of its errors; *Proved* says its contract in words. `bin/add ../yours cookbook` copies all of them into your repository `../yours`, from
[`crates/cookbook`](../crates/cookbook). The last section is about using the library with other crates. ([Home](../README.md);
[how a contract is read](CONTRACTS.md))
"""
ROW = re.compile(r"\| (.+?) \| (.+?) \| `(\w+)` \|")


def rows():
    """The recipes: what a user has, what it wants, and the module."""
    return [found.groups() for line in head_lines(module_file(CRATE, ())) if (found := ROW.match(line))]


def paragraph(docs):
    """The paragraphs of a documentation, without its examples."""
    texts = [text for text in "\n".join(docs).split("\n\n") if not text.startswith("    ")]
    return "\n\n".join(textwrap.fill(" ".join(text.split()), 120, break_on_hyphens=False) for text in texts)


def code(item, path):
    """The code of a call with its contract, as it is in its source."""
    lines = [line for line in item.source.splitlines() if not re.match(r"\s*(///|#\[)", line)]
    depth = re.match(r" *", lines[-1])[0]
    text = "\n".join(line.removeprefix(depth) for line in lines)
    return f"```rust\n// {module_file(CRATE, path).relative_to(TOP)}\n{text}\n```"


def call_lines(item, path, owner=""):
    """A call: its name, its documentation, its code, and what is proved of it."""
    return [f"### `{owner}{item.name}`", "", paragraph(item.docs), "", code(item, path), "",
            sentences.of_call(item.clauses), ""]


def error_lines(item):
    """An error type, with the cause of each of its errors."""
    variants = [f"| `{it.name}` | {' '.join(' '.join(it.docs).split())} |" for it in item.inner if it.docs]
    return [f"`{item.name}`: {paragraph(item.docs)}", "", "| Error | Cause |", "|---|---|", *variants, ""]


def recipe(has, wants, name):
    """The lines of a recipe."""
    items = modules_of(CRATE)[(name,)]
    calls = [line for it in items if it.kind == "fn" and it.public for line in call_lines(it, (name,))]
    for block in [it for it in items if it.kind == "impl" and not it.name.endswith("From")]:
        owner = re.sub(r"^impl(<.*?>)? |<.*", "", block.head)
        calls += [line for it in block.inner if it.kind == "fn" and it.public for line in call_lines(it, (name,), f"{owner}::")]
    errors = [line for it in items if it.kind == "enum" and it.public and it.name.endswith("Error") for line in error_lines(it)]
    about = paragraph(head_lines(module_file(CRATE, (name,))))
    return [f"## `{name}`", "", f"**You have** {has}. **You want** {wants}.", "", about, "", *calls, *errors]


def page():
    """The text of the page."""
    contents = [f"- [`{name}`](#{name}): {has}" for has, _, name in rows()] + ["- [With other crates](#with-other-crates)"]
    lines = [HEAD, *contents, "", *[line for row in rows() for line in recipe(*row)], BY_HAND + read(PAGE).partition(BY_HAND)[2]]
    return "\n".join(lines).rstrip() + "\n"


def faults(is_check):
    """Writes the page, or compares it with the sources. Returns the faults."""
    return settle(PAGE, page(), "recipes", is_check)
