"""Changes of a value by its type, for mutants that change what a function takes or what it returns."""
import re

from functions import plain

# Other values of a type, as expressions of a value `it`.
OTHERS = {
    "&str": ['"x"', '""', '"xy"'], "&[u8]": ['b"x"', 'b""', 'b"xy"'], "char": ["'x'", "'\\n'"], "bool": ["!it"],
    **{f"{sign}{size}": ["it ^ 1", "it / 2"] for sign in "iu" for size in (8, 16, 32, 64, 128, "size")},
}  # fmt: skip


def arguments_of(kind):
    """The arguments of a generic type, or the members of a tuple."""
    inside = kind[kind.index("(" if kind.startswith("(") else "<") + 1 : -1]
    found, depth = [""], 0
    for it in inside:
        depth += (it in "<([") - (it in ">)]")
        if it == "," and depth == 0:
            found.append("")
        else:
            found[-1] += it
    return [it for it in found if it]


def others(names, kind, it):
    """Expressions of other values of the type of the expression `it`."""
    kind = plain(kind)
    name = re.match(r"\w*", kind)[0]
    values = names.values.get(kind) or OTHERS.get(kind)
    if values:
        return [re.sub(r"\bit\b", lambda _: it, value) for value in values]
    if name == "Option":
        return ["None"]
    return [f"{name}::{variant}" for variant, holds in names.variants.get(name, {}).items() if not holds][:2]


def changes(names, kind, it, text, depth=2):
    """Statements that change the variable `it` of a type, in a file with this text."""
    kind = plain(kind)
    name = re.match(r"(&mut)?(\w*)", kind)[2]
    values = others(names, kind, it)
    if values:
        return [f"{it} = {value};" for value in values]
    if name in names.texts and not kind.startswith("&["):
        return [f"{it}.clear();", f"{it}.truncate(1);", f"let _ = {it}.pop();"]
    if name in names.iterators:
        once = f"let _ = {it}.next();"
        found = [once, f"{once} {once}", *[f"let _ = {it}.next_back();"] * (name in names.double_ended)]
    else:
        found = []
    if not depth:
        return found
    fields = names.fields.get(name, {})
    if kind.startswith("(") and kind != "()":
        fields = dict(enumerate(arguments_of(kind)))
    for field, inside in fields.items():
        if (name, field) not in names.private or re.search(rf"struct {name}\b", text):
            found += changes(names, inside, f"{it}.{field}", text, depth - 1)
    return found[:6]


def outcomes(result):
    """The types of what a function returns: each with the pattern and the value of that outcome, and the arm of the other."""
    result = re.sub(r"^io::", "", plain(result))
    if result.startswith("Result<"):
        kinds = arguments_of(result) + ["io::Error"]
        return [
            (kinds[0], "Ok(mut changed)", "Ok(changed)", "Err(why) => Err(why)"),
            (kinds[1], "Err(mut changed)", "Err(changed)", "Ok(it) => Ok(it)"),
        ]
    if result.startswith("Option<"):
        return [(arguments_of(result)[0], "Some(mut changed)", "Some(changed)", "None => None")]
    return [(result, "mut changed", "changed", "")]
