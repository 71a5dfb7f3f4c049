#!/usr/bin/env python3
"""usage: tools/check/asked.py [--list]

Compares the public calls of the libraries that the differential test does not ask with the list unasked.txt beside
this file, which has a line for each: the call and the reason, with a tab between. Prints each call that only one of the
two has. `--list` prints the calls that are not asked.

The differential test asks a call that a question of crates/exports names. A name is resolved by the types that tools/docs/uses.py knows. If that
fails, a call whose name no other public call has is found by its name. Of the calls of traits only those of extension
traits are compared, because questions reach the others through generic code.
Status 0: the list is right; 1: it is not; 64: bad arguments."""
import re
import sys
from collections import Counter
from pathlib import Path

TOP = Path(__file__).resolve().parent.parent.parent
sys.dont_write_bytecode = True
sys.path[:0] = [str(TOP / "tools" / folder) for folder in ("docs", "reader")]
import calls  # noqa: E402
import uses  # noqa: E402
from made import LIBRARIES, module_file, modules_of  # noqa: E402
from sources import read  # noqa: E402

UNASKED = Path(__file__).resolve().parent / "unasked.txt"
EXPORTS = "exports"


def public_calls():
    """The calls of the libraries, and of their extension traits."""
    every = [call for call in calls.table_without_names() if call.crate in LIBRARIES]
    return [call for call in every if not call.of_trait or (call.of_trait.endswith("Ext") and call.block.kind == "impl")]


def named_by_type():
    """The calls that questions name, by what is known of their types."""
    known = calls.known()
    known.read_helpers(EXPORTS)
    return {id(call) for _, found in uses.named_in(known, EXPORTS) for call in found}


def names_in_questions():
    """The names after a `.` or a `::` that questions call."""
    texts = [read(module_file(EXPORTS, path)) for path in modules_of(EXPORTS)]
    return {name for text in texts for name in re.findall(r"(?:\.|::)(\w+)(?:::<[^;{}]*?>)?\(", text)}


def unasked():
    """The calls in no question, as their crates and keys."""
    every, by_type, named = public_calls(), named_by_type(), names_in_questions()
    same_name = Counter(call.name for call in every)
    by_name = {id(call) for call in every if same_name[call.name] == 1 and call.name in named}
    return [f"{call.crate} {call.key}" for call in every if id(call) not in by_type | by_name]


def listed():
    """The calls of the list, each with its reason."""
    lines = [line for line in read(UNASKED).splitlines() if line and not line.startswith("#")]
    return dict(line.split("\t", 1) for line in lines)


def main(words):
    if words not in ([], ["--list"]):
        print(__doc__)
        return 64
    found = unasked()
    if words:
        print("\n".join(found))
        return 0
    reasons = listed()
    faults = [f"{call} is in no question of crates/exports: ask it, or add it to unasked.txt" for call in set(found) - set(reasons)]
    faults += [f"{call} is asked, or is not a public call: remove it from unasked.txt" for call in set(reasons) - set(found)]
    print("\n".join(sorted(faults)) or f"{len(public_calls())} public calls, {len(found)} of them in no question, each with a reason")
    return 1 if faults else 0


if __name__ == "__main__":
    sys.exit(main(sys.argv[1:]))
