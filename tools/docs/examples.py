"""The examples in the documentation of the libraries, as tests: one for each call.

An example is a paragraph of a doc comment that is indented by four spaces. The comment after `//` in a line is the `{:?}`
output of the value before it; the other lines are statements. `alloc` is the allocator. The tests are a crate that
`bin/test examples` makes in a temporary folder. A test has the `use` lines that the page of its example prints.

A fault is a call without an example."""
import re
from functools import cache
from pathlib import Path

import calls
import callers
import sources
from made import LIBRARIES, head_lines, module_file, modules_of

# The root of the tests: what they share.
ROOT = Path(__file__).with_name("examples.txt")

# What else an example may name.
OTHERS = {
    "AllocError": "std::alloc::AllocError",
    "AsStr": "std::convert::AsStr",
    "Global": "std::alloc::Global",
    "Alignment": "std::fmt::Alignment",
    "HashSet": "std::collections::HashSet",
    "Value": "serde_json::Value",
    ".as_byte_slice(": "std::io::AsBytes",
    ".as_slice(": "std::convert::AsSlice",
    ".path_text(": "std::path::AsPath",
    "write!": "std::fmt::Write",
}
# The one call with a condition that every example may make: that a text is ASCII, which is checked here.
LITERAL = re.compile(r'\bAsciiStr::literal\("((?:\\.|[^"\\])*)"\)')
ASCII = re.compile(r"""(?:[ !#-\[\]-~]|\\["'\\nrt0]|\\x[0-7][0-9A-Fa-f]|\\u\{[0-7]?[0-9A-Fa-f]\})*""")
SHOWN = re.compile(r"(?P<call>.*\S) // (?P<shown>.*)")


def examples_in(docs):
    """The lines of the examples in a doc comment."""
    paragraphs = "\n".join(docs).split("\n\n")
    code = [p.splitlines() for p in paragraphs if p.startswith("    ")]
    return [line.strip() for lines in code for line in lines]


def examples_of(crate, modules):
    """The examples of a crate, as pairs of a name and lines; and the calls that have none."""
    examples, without = list(examples_of_heads(crate, modules)), []
    hidden = callers.hidden_types(modules)
    for entry in callers.entries_of(crate, modules):
        shared = examples_in(entry.docs)
        if shared:
            examples.append((entry.key, shared))
        for call in (item for item in entry.quoted if item.kind == "fn"):
            if hidden & set(re.findall(r"\w+", call.head)):
                continue  # it takes what only the crate itself can make
            key = entry.key if entry.key.endswith(f"::{call.name}") else f"{entry.key}::{call.name}"
            own = examples_in(call.docs) if call.docs is not entry.docs else []
            if own:
                examples.append((key, own))
            elif not shares(shared, entry, call):
                without.append(f"{crate}: {key}")
    return examples, without


def examples_of_heads(crate, modules):
    """The examples at the heads of modules, except those of a whole item, which needs definitions."""
    for path in modules:
        lines = examples_in(head_lines(module_file(crate, path)))
        if lines and not any(re.match(r"(impl|struct)\b", line) for line in lines):
            yield "::".join([*path, "head"]), [re.sub(r"^([^/;]*[^/;{}\s])$", r"let _shown = \1;", line) for line in lines]


def shares(lines, entry, call):
    """Whether the lines of an entry show a call: those of a trait do where they call it by name."""
    if entry.item.kind != "trait":
        return bool(lines)
    return any(re.search(rf"\b{call.name}\(", line) for line in lines)


def words_of(name):
    """A name of Rust in lower case, with an underscore between its words."""
    return "_".join(re.findall(r"[a-z0-9]+", re.sub(r"(?<=[a-z0-9])(?=[A-Z])", "_", name).lower()))


def names_of_tests(crate, keys):
    """The name of the test of each call: the call, and its type, module or crate. If the name is taken, that of a trait, or
    what the owner is, since a module may have the name of a type."""
    names, paths = [], [key.rpartition(" for ")[2] for key in keys]
    for key, path in zip(keys, paths):
        of_trait, (*modules, call) = key.rpartition(" for ")[0], path.split("::")
        owner, calls = (modules or [call if of_trait else crate])[-1], [call]
        if of_trait and (not modules or paths.count(path) > 1):
            calls = [of_trait, f"{of_trait}_{call}"]
        kind = "type" if owner[0].isupper() else "module"
        found = [words_of(f"{name}_of_{owner}") for name in calls] + [words_of(f"{call}_of_the_{kind}_{owner}")]
        names.append(next(name for name in found if name not in names))
    return names


@cache
def declared():
    """The types that the examples have beside those of the libraries."""
    return re.findall(r"^struct (\w+)", ROOT.read_text(encoding="utf-8"), re.MULTILINE)


def tests(crate, examples, is_proved):
    """The tests of some examples of a crate, as lines: a module for each, with the lines that its page has above it."""
    yield f"//! The examples in the documentation of `{crate}`."
    for name, key, lines in examples:
        uses = [*uses_of(lines, crate, key), *([] if is_proved else ["use testing::assert_debug;"])]
        used = [it for it in declared() if re.search(rf"\b{it}\b", "\n".join(lines))]
        uses += [f"use super::super::{it};" for it in used]
        if is_proved and key != "AsciiStr::literal":
            lines, uses = [with_view(line) for line in lines], [*uses, "use testing::view;"]
        body = made_without_comparing(lines) if is_proved else list(statements(lines))
        alloc = ["let alloc = rt.alloc();"] if re.search(r"\balloc\b", "\n".join(body)) else []
        yield from ["", f"// {key}", f"mod {name} {{", *uses, "", "#[test]", f"fn {name}(rt: HostRuntime) {{", *alloc, *body, "}", "}"]


@cache
def uses_on_pages():
    """The `use` lines that the reference prints for each example, by its lines."""
    import reference_text

    reference_text.texts()
    return reference_text.PRINTED


def uses_of(lines, crate, key):
    """The lines that bring the names of an example: those of its page, if it has one."""
    found = uses_on_pages().get(tuple(it.removeprefix("let _shown = ").rstrip(";") for it in lines))
    return use_lines(lines, crate, key) if found is None else found


def with_view(line):
    """A line of an example with `view` of the crate `testing` for `AsciiStr::literal`, which takes longer to be proved."""
    return LITERAL.sub(r'view("\1")', line)


def statements(lines):
    """The statements of an example. The values of one that has only values are compared as a tuple; in another one, each is
    compared at its place, since the statements between them may change what the next value borrows."""
    values = [SHOWN.fullmatch(line) for line in lines]
    if all(values):
        return compared(values)
    return [code for line, value in zip(lines, values) for code in (compared([value]) if value else [expecting(line)])]


def made_without_comparing(lines):
    """The statements of an example, whose values are not compared: that is for its run, and takes long to be proved."""
    values = [SHOWN.fullmatch(line) for line in lines]
    return [f"{{ let _shown = &({expecting(value['call'])}); }}" if value else expecting(line) for line, value in zip(lines, values)]


def compared(values):
    """The comparison of some values, laid out here, since `rt fmt` leaves the arguments of a macro as they are."""
    calls = [expecting(value["call"]) for value in values]
    shown = escaped(", ".join(value["shown"] for value in values))
    whole = f'    assert_debug!(rt; {calls[0]}, "{shown}");'
    if len(calls) == 1 and len(whole) <= 100:
        return [whole]
    if len(calls) == 1:
        got, want = [f"        {calls[0]},"], shown
    else:
        got, want = ["        (", *(f"            {call}," for call in calls), "        ),"], f"({shown})"
    return ["    assert_debug!(", "        rt;", *got, f'        "{want}"', "    );"]


def escaped(text):
    """A text as it is between quotation marks."""
    return text.replace("\\", "\\\\").replace('"', '\\"')


def expecting(line):
    """A line of code, with `expect` for `?`: it takes less to be proved, since no way out is left."""
    parts = re.split(r'("(?:\\.|[^"\\])*")', line)
    parts[::2] = [part.replace("?", '.expect(&rt, "an error")') for part in parts[::2]]
    return "".join(parts)


def names_of(crate, modules, below):
    """The names that a crate has for another one, with their paths. Those of the crates below are given."""
    found = {path[-1] + "::": "::".join((crate, *path)) for path in modules if path}
    for path, item in sorted(sources.exported(modules), key=lambda pair: -len(pair[0])):
        name = path.rpartition("::")[2]
        found[name] = f"{crate}::{path if item else name}"
        for call in item.inner if item and item.kind == "trait" else []:
            found[f".{call.name}("] = found[f"::{call.name}("] = f"{crate}::{path}"
        for inner, target in below.items() if item is None else []:
            if target.startswith(f"{path}::"):  # of a module that is re-exported
                found[inner] = f"{crate}::{name}{target[len(path) :]}"
    return found


def imports(found, lines):
    """The lines that bring the names of the examples."""
    text = re.sub(r'"(?:\\.|[^"])*"|// .*', "", "\n".join(lines))
    names = re.findall(r"(?<![\w.:])(?:[A-Z]\w*|[a-z]\w*(?=\(|::<)|[a-z]\w*(?:::|!))|(?:\.|::)\w+\(", text)
    names += [f"{name}(" for name in re.findall(r"\.\w+(?=::<)", text)]
    return sorted({f"use {found[name]};" for name in names if name in found})


@cache
def paths_of_names():
    """The paths of the names that examples use; of traits only for the calls that no type has, and for those of extension traits."""
    found = {name: path for name, path in OTHERS.items() if not path.startswith("super::")}
    for name in LIBRARIES:
        found |= names_of(name, modules_of(name), found)
    methods = {call.name for call in calls.table_without_names() if not call.of_trait}
    is_named = lambda name, path: name.strip(".:(") not in methods or path.endswith("Ext")  # noqa: E731
    return {name: path for name, path in found.items() if not re.match(r"(\.|::)", name) or is_named(name, path)}


@cache
def importable(crate, about=""):
    """The paths of the names that examples use, those of a crate if it has them; also for the calls of the traits that an example
    is about."""
    found, paths = {**paths_of_names()}, calls.paths_of_items()
    for item in (it for name in LIBRARIES for items in modules_of(name).values() for it in items if id(it) in paths):
        found[item.name] = next((path for path in paths[id(item)] if path.startswith(f"{crate}::")), paths[id(item)][0])
    words = set(re.findall(r"\w+", about))
    words |= {of_trait for of_trait, of_type in implemented() if of_type in words}
    own = {f"{mark}{it.name}(": item.name for item in traits() if item.name in words for it in item.inner for mark in (".", "::")}
    named = {name: path.rpartition("::")[2] for name, path in found.items() if re.match(r"(\.|::)", name)}
    return found | {name: found[trait] for name, trait in (named | own).items() if trait in found}


def items_of_kind(kind):
    return [item for crate in LIBRARIES for module in modules_of(crate).values() for item in module if item.kind == kind]


def traits():
    """The traits of the libraries."""
    return items_of_kind("trait")


@cache
def implemented():
    """The traits that types have, as pairs."""
    return {tuple(sources.impl_name(item)) for item in items_of_kind("impl")}


def use_lines(lines, crate, about):
    """The lines that bring the names of an example, one for each module. It is about a type or a trait, or about both."""
    modules = {}
    for line in imports(importable(crate, about), lines):
        module, _, name = line.removeprefix("use ").removesuffix(";").rpartition("::")
        modules.setdefault(module, []).append(name)
    return [f"use {module}::{names[0] if len(names) == 1 else '{' + ', '.join(names) + '}'};" for module, names in modules.items()]


def conditions():
    """Whether a public call of the libraries has a condition, by its name and the name of its type, trait or module. That of a
    literal is checked by its text."""
    owned = [(path[-1] if path else crate, it, it.public) for crate in LIBRARIES for path, items in modules_of(crate).items() for it in items]
    calls = [it for it in owned if it[1].kind == "fn"]
    calls += [(item.name, it, True) for item in traits() for it in item.inner]
    calls += [(sources.impl_name(item)[1], it, it.public or " for " in item.head) for item in items_of_kind("impl") for it in item.inner]
    found = {}
    for owner, it, is_public in calls:
        has_one = is_public and any(label.startswith("requires") for label, _ in it.clauses)
        found[owner, it.name] = found.get((owner, it.name), False) or has_one and it.name != "literal"
    # (the call of an impl has the condition of its trait, and does not write it again)
    for of_trait, owner in implemented():
        inherited = {name for (trait, name), has_one in found.items() if has_one and trait == re.match(r"\w*", of_trait)[0]}
        found |= {(owner, name): True for name in inherited}
    return found


@cache
def aliases():
    """The types that have another name, by it."""
    # (a parameter of the alias may have a default, so the type is after the last `=`)
    heads = [(item.name, re.search(r".*= *([A-Z]\w*)", item.head, re.S)) for item in items_of_kind("type")]
    return {name: of_type[1] for name, of_type in heads if of_type}


@cache
def results():
    """The type that each call of a type returns, without its parameters: itself for `Self`, and what a `Result` has."""
    found = {}
    for item in items_of_kind("impl"):
        owner = sources.impl_name(item)[1]
        for it in item.inner:
            of_type = re.search(r"-> (?:Result<)?(\w+)", it.head)
            if of_type:
                found[owner, it.name] = owner if of_type[1] == "Self" else of_type[1]
    return found


def type_of(value, types):
    """The type of a value that a call of a type, or of a variable of a known type, returns; none for any other value. `new` of a
    type of another crate returns that type."""
    nested = r"[^()]*(?:\((?:[^()]|\([^()]*\))*\)[^()]*)*"
    call = re.match(rf"(?:([A-Z]\w*)(?:::<[^()]*?>)?::|(\w+)\.)(\w+)\({nested}\)\??$", value)
    owner = call and (call[1] or types.get(call[2]))
    if call and call[1] and call[3] == "new" and call[1] not in {*aliases(), *(it for it, _ in results())}:
        return call[1]
    return call and (results().get((owner, call[3])) or results().get((aliases().get(owner), call[3])))


def types_of_variables(lines):
    """The types of the variables of an example, as far as they are known. A name that two types have, or that a pattern binds,
    has none."""
    types, bound = {}, []
    for line in lines:
        simple = re.match(r"let (?:mut )?(\w+) = (.*);$", line)
        if simple:
            of_type = type_of(simple[2], types)
            types[simple[1]] = of_type if types.get(simple[1], of_type) == of_type else None
        else:
            bound += re.findall(r"(?:\blet\b(.*?)=|\bfor\b(.*?)\bin\b|\|(.*?)\||(.*?)=>)", line)
    named = set(re.findall(r"\w+", str(bound)))
    return {name: of_type for name, of_type in types.items() if of_type and name not in named}


def up_to_last_condition(lines, known):
    """The lines of an example up to the last one that names a call that has a condition, or passes `literal` what is not plainly an
    ASCII text, and to the end of the block that it is in; none if no line does. A call by the path of a type or a trait, or of a
    variable whose type is known, is its own, or of another crate; any other call may be each one of its name."""
    names, types = {name for (_, name), has_one in known.items() if has_one}, types_of_variables(lines)
    of_owner = lambda owner, name: any(known.get((it, name)) for it in (owner, aliases().get(owner)))  # noqa: E731

    def may_have_one(line):
        literals = LITERAL.findall(line)
        if len(literals) != len(re.findall(r"\bliteral\(", line)) or not all(map(ASCII.fullmatch, literals)):
            return True
        called = re.findall(r"(?:\b([A-Z]\w*)(?:::<[^()]*?>)?::|(?<![.\w])(\w+)\.)?(\w+)(?:::<[^()]*>)?\(", line)
        owned = [(owner or types.get(variable), name) for owner, variable, name in called]
        return any(of_owner(owner, name) if owner else name in names for owner, name in owned)

    count = max((at + 1 for at, line in enumerate(lines) if may_have_one(line)), default=0)
    braces = lambda text: text.count("{") - text.count("}")  # noqa: E731
    while count < len(lines) and braces(re.sub(r'"(?:\\.|[^"\\])*"|// .*', "", "\n".join(lines[:count]))) > 0:
        count += 1
    return lines[:count]


def examples_by_crate():
    """The examples of each library: names of tests, calls and lines."""
    for crate in LIBRARIES:
        pairs = examples_of(crate, modules_of(crate))[0]
        names = names_of_tests(crate, [key for key, _ in pairs])
        yield crate, [(name, *pair) for name, pair in zip(names, pairs)]


def write_crate(folder, is_proved=False, only=""):
    """Writes the sources of a crate with the tests: all of them, or those of one library; or those that are to be proved, since
    they name a call that may have a condition. Returns how many there are."""
    known, count, modules = conditions(), 0, ""
    (folder / "src/tests").mkdir(parents=True)
    for crate, own in examples_by_crate():
        chosen = [it for it in own if only in ("", crate)]
        if is_proved:  # what comes after the last condition needs no proof
            chosen = [(name, key, cut) for name, key, lines in chosen if (cut := up_to_last_condition(lines, known))]
        text = "\n".join(tests(crate, chosen, is_proved)) + "\n"
        (folder / f"src/tests/of_{crate}.rt").write_text(text, encoding="utf-8")
        modules, count = f"{modules}mod of_{crate};\n", count + len(chosen)
    (folder / "src/tests.rt").write_text(modules + "\n" + ROOT.read_text(encoding="utf-8"), encoding="utf-8")
    (folder / "src/lib.rt").write_text("#![tactic(auto)]\n\n#[cfg(test)]\nmod tests;\n", encoding="utf-8")
    return count


def faults():
    """The calls without an example."""
    return [f"no example at {call}" for crate in LIBRARIES for call in examples_of(crate, modules_of(crate))[1]]
