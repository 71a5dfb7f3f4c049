"""Tests of the parts of tools/mutants/mutants, on a small crate of their own: `python3 tools/mutants/test_mutants.py`."""
import contextlib
import functools
import io
import re
import sys
import tempfile
import unittest
import unittest.mock
from pathlib import Path

sys.dont_write_bytecode = True
sys.path[:0] = [str(Path(__file__).resolve().parents[2] / it) for it in ("tools/mutants", "tools/reader", "bin/lib")]
import differential  # noqa: E402
import giving_up  # noqa: E402
import records  # noqa: E402
from judge import expected, name_of  # noqa: E402
from mutation import Crate, camel, changed, give_kinds, in_turn, mutants_of  # noqa: E402
from edit_files import edits_of, mutations_of  # noqa: E402
from one_by_one import functions_at, goals_in, Mutation, round_of, try_crate  # noqa: E402
from operators import Operators  # noqa: E402
from planting import narrow  # noqa: E402
from rounds import Placed, are_apart, how_rejected, is_in_doubt, names_of, placed, try_rounds  # noqa: E402
from run import Run  # noqa: E402
from settings import Settings  # noqa: E402
from functions import Names, functions_of
from tokens import lex, partners  # noqa: E402
from values import changes, outcomes  # noqa: E402
from verdicts import Verdicts  # noqa: E402

SOURCE = '''\
//! A crate.

/// The smaller of two numbers.
#[inline]
pub fn smaller(a: u8, b: u8) -> u8
    ensures { (result ≤ a) × (result ≤ b) }
{
    // a < b { is a comment
    if a < b { a } else { b }
}

impl<'a> Shown for Pair<'a> {
    ghost is = { λ n. n };

    fn shown(&self) -> &'static str
        ensures { result ≡ "}" }
    {
        let _side = self.size + 1;
        match self.side {
            Side::Left => "left",
            Side::Right => "right",
        }
    }

    fn double(&mut self) {
        self.size *= 2;
    }
}

impl Pair<'_> {
    fn half(&self) -> Result<u8, String>
        ensures { ⊤ }
    {
        Ok(self.size)
    }
}

struct Pair<'a> {
    pub side: Side,
    text: &'a str,
    size: u8,
}

enum Side {
    Left,
    Right,
}
'''


class SmallCrate(unittest.TestCase):
    """A test with a folder that has one crate."""

    def setUp(self):
        self.folder = tempfile.TemporaryDirectory()
        copy = Path(self.folder.name)
        (copy / "crates" / "small" / "src").mkdir(parents=True)
        (copy / "crates" / "small" / "src" / "lib.rt").write_text(SOURCE, encoding="utf-8")
        self.crate = Crate(copy, "small")
        self.mutants = self.crate.mutants()

    def tearDown(self):
        self.folder.cleanup()


class OfOneCrate(SmallCrate):
    def text(self):
        return (self.crate.folder / "src" / "lib.rt").read_text(encoding="utf-8")

    def of(self, operator):
        return [m for m in self.mutants if m.operator == operator]

    def test_tokens(self):
        tokens = lex("a[1..=2] // x\n&& '\\n'")
        self.assertEqual([it.text for it in tokens], ["a", "[", "1", "..=", "2", "]", "&&", "'\\n'"])
        self.assertEqual(partners(tokens), {1: 5, 5: 1})

    def test_functions(self):
        found = functions_of("src/lib.rt", SOURCE)
        self.assertEqual([it.name for it in found], ["smaller", "shown", "double", "half"])
        self.assertEqual([it.receiver for it in found], ["", "&self", "&mut self", "&self"])
        self.assertEqual([it.owner for it in found], ["", "Pair<'a>", "Pair<'a>", "Pair<'_>"])
        self.assertEqual(found[0].params, [("a", "u8"), ("b", "u8")])
        self.assertEqual([it.in_trait for it in found], [False, True, True, False])
        self.assertTrue(SOURCE[found[0].start :].startswith("#[inline]"))

    def test_operators(self):
        self.assertEqual([m.shown for m in self.of("relation")], ["9: `<` -> `<=`"])
        self.assertEqual(len(self.of("arms")), 1)
        self.assertEqual({m.function.name for m in self.of("variant")}, {"shown"})
        self.assertFalse([m for m in self.mutants if m.shown.startswith("8: ")])

    def test_helpers_of_the_prover_are_left_as_they_are(self):
        self.assertFalse([m for m in self.mutants if m.shown.startswith("18: ")])

    def test_other_inputs(self):
        shown = {(m.function.name, m.shown.partition(": ")[2]) for m in self.of("input")}
        self.assertIn(("smaller", "`b = b ^ 1;` before the body"), shown)
        self.assertIn(("double", "`self.side = Side::Left;` before the body"), shown)
        self.assertIn("34: `self.size` -> `(self.size ^ 1)`", {m.shown for m in self.of("field") if m.function.name == "half"})

    def test_other_outputs(self):
        shown = {(m.function.name, m.shown.partition(": ")[2]) for m in self.of("output")}
        self.assertIn(("smaller", "`changed = changed ^ 1;` after the body, of changed"), shown)
        self.assertIn(("half", "`changed.clear();` after the body, of Err(changed)"), shown)
        self.assertIn(("double", '`self.text = "x";` after the body'), shown)

    def test_other_values_of_calls(self):
        text, names = SOURCE + "\nfn side(pairs: &Pairs) -> &str { pairs.first(7)?.shown().trim() }\n", Names()
        names.read(text)
        found = [m for m in Operators(functions_of("src/lib.rt", text)[-1], text, names).all() if m.operator == "part"]
        self.assertEqual(found[0].shown.partition(": ")[2], '`pairs.first(7)?.shown()` -> `("x")`')
        self.assertEqual(len(found), 3)

    def test_other_values_returned_early(self):
        text, names = SOURCE + "\nfn early(n: u8) -> Option<u8> { if n < 1 { return Some(n); } return None; }\n", Names()
        names.read(text)
        found = [m for m in Operators(functions_of("src/lib.rt", text)[-1], text, names).all() if m.operator == "return"]
        self.assertEqual([m.shown.partition(": ")[2] for m in found][:1], ["`changed = changed ^ 1;` of `Some(n)`"])
        self.assertEqual(len(found), 2)
        f = found[0].function
        self.assertIn("return Some({ let mut changed = n; changed = changed ^ 1; changed });", changed(text, f, found[0].edits))

    def test_the_body_twice(self):
        self.assertEqual([m.function.name for m in self.of("repeat")], ["double"])

    def test_changes(self):
        names = Names()
        names.read(SOURCE)
        self.assertEqual(changes(names, "&'a str", "it", ""), ['it = "x";', 'it = "";', 'it = "xy";'])
        self.assertEqual(changes(names, "Pair<'a>", "it", ""), ["it.side = Side::Left;", "it.side = Side::Right;"])
        self.assertEqual(changes(names, "(u8, Option<Pair>)", "it", ""), ["it.0 = it.0 ^ 1;", "it.0 = it.0 / 2;", "it.1 = None;"])
        self.assertEqual(changes(names, "A", "it", ""), [])
        self.assertEqual([it[0] for it in outcomes("Result < Vec < u8 , A > , E >")], ["Vec<u8,A>", "E"])

    def test_each_mutant_changes_the_body(self):
        keys = {m.key for m in self.mutants}
        self.assertEqual(len(keys), len(self.mutants))

    def test_written_after_the_function(self):
        mutant = self.of("relation")[0]
        self.crate.write([mutant], False)
        self.assertIn(f"pub fn {mutant.name}(a: u8, b: u8) -> u8", self.text())
        self.assertIn("if a <= b { a }", self.text())
        self.assertIn("if a < b { a }", self.text())
        lines = self.text().splitlines()[mutant.lines[1] - 1 : mutant.lines[2]]
        self.assertIn(mutant.name, "".join(lines))

    def test_written_in_place(self):
        self.crate.write(self.of("arms"), True)
        self.assertIn('Side::Left => "right"', self.text())
        self.crate.write([], True)
        self.assertEqual(self.text(), SOURCE)

    def test_verdicts(self):
        proved, opened, lost = self.mutants[:3]
        for m, first in ((proved, 1), (opened, 10), (lost, 20)):
            m.lines = ("src/lib.rt", first, first + 5)
        said = "fn small::one: proved\nfn small::two: not proved\nsrc/lib.rt:12:5: not proved (`returns`): it"
        give_kinds([proved, opened, lost], said, ["one", "two", "three"])
        self.assertEqual([m.kind for m in (proved, opened, lost)], ["survived", "open", "unknown"])

    def test_the_prover_did_not_decide(self):
        give_kinds(self.mutants[:1], "fn small::one: it calls small::two, which is not proved", ["one"])
        self.assertEqual(self.mutants[0].kind, "waits")

    def test_verdicts_are_kept(self):
        folder = Path(self.folder.name) / "verdicts"
        mutant = self.of("relation")[0]
        mutant.kind = "open"
        Verdicts(self.crate, folder).save([mutant])
        kept = Verdicts(self.crate, folder)
        self.assertTrue(kept.has(mutant))
        self.assertEqual(kept.tried(), [("relation", "open")])
        self.assertEqual([m.key for m in kept.mutants(("open",))], [mutant.key])
        self.crate.sources["src/lib.rt"] = SOURCE.replace("if a < b", "if b > a")
        self.assertEqual(Verdicts(self.crate, folder).tried(), [])

    def tried(self, kind_of, most):
        """The functions whose mutants are judged in each batch, if the prover gives these kinds."""
        batches = []

        def judge(batch, in_place):
            batches.append(sorted(m.function.name for m in batch if m.operator != "control"))
            for m in batch:
                m.kind = kind_of(m)

        self.crate.symbol_of, self.crate.has_proofs, self.crate.judge = (lambda f: f.name), (lambda f: False), judge
        run = Run(self.crate, Verdicts(self.crate, Path(self.folder.name) / "verdicts"), self.mutants, most)
        with contextlib.redirect_stdout(io.StringIO()):
            while run.beside() or run.in_place():
                pass
        return batches, run

    def test_as_many_as_wanted_are_judged(self):
        batches, run = self.tried(lambda m: "open", 2)
        self.assertEqual(batches, [["half", "half", "smaller", "smaller"], ["double", "shown"], ["double", "shown"]])
        self.assertEqual(sum(run.verdicts.count().values()), 8)
        self.assertEqual(len(run.left), len(self.mutants) - 8)

    def test_others_take_the_place_of_those_that_do_not_compile(self):
        lost = {m.key for m in self.of("relation") + self.of("output")}
        _, run = self.tried(lambda m: "unread" if m.key in lost else "open", 3)
        counts = run.verdicts.count()
        for name in ("smaller", "shown", "double"):
            mine = [m for m in self.mutants if m.function.name == name]
            wanted = min(3, len([m for m in mine if m.key not in lost]))
            self.assertEqual(counts[run.verdicts.hash(mine[0].function)], wanted)

    def test_a_mutant_that_waits_is_tried_again(self):
        waited = []

        def kind_of(m):
            if m.function.name == "double" and not waited:
                waited.append(m)
                return "waits"
            return "open"

        _, run = self.tried(kind_of, 3)
        self.assertTrue(run.verdicts.has(waited[0]))
        self.assertEqual(sum(run.verdicts.count().values()), 12)
        self.assertNotIn("waits", {kind for _, kind in run.verdicts.tried()})

    def test_public_functions(self):
        self.assertEqual([self.crate.is_public(f) for f in self.crate.functions], [True, True, True, False])

    def test_turns(self):
        order = in_turn(self.mutants, 1)
        self.assertEqual(len(order), len(self.mutants))
        first = order[:4]
        self.assertEqual({m.function.name for m in first}, {"smaller", "shown", "double", "half"})
        self.assertEqual([m.key for m in order], [m.key for m in in_turn(self.mutants, 1)])

    def test_only_the_named_tests_are_left(self):
        tests = "".join(f"#[test]\nfn {name}() {{\n}}\n" for name in ("one", "two"))
        for file in ("tests.rt", "tests/long.rt", "tests/longer.rt"):
            path = self.crate.folder / "src" / file
            path.parent.mkdir(exist_ok=True)
            path.write_text(tests, encoding="utf-8")
        narrow(self.crate.folder, ["two", "long", "longer::one"])
        left = {it.name: it.read_text(encoding="utf-8").count("#[test]") for it in self.crate.folder.glob("src/**/*.rt")}
        self.assertEqual(left, {"lib.rt": 0, "tests.rt": 1, "long.rt": 2, "longer.rt": 1})

    def test_symbols(self):
        self.assertEqual(camel("&'a [u8]", set()), "RefSliceU8")
        self.crate.symbols = {
            f"small::{it}": "proved" for it in ("smaller", "PairShown::shown", "PairShown::double", "Pair::half")
        }
        self.assertEqual([self.crate.symbol_of(f) for f in self.crate.functions], [*self.crate.symbols])


DEVICE = '''
struct Output {
    failures: u64,
}

impl Output {
    fn send(&mut self, parts: &[u8]) -> Result<u8, Fault> {
        for part in parts {
            self.sink.write(part);
            self.sink.flush();
        }
        let first = self.source.read(1);
        match first {
            Ok(byte) => Ok(byte),
            Err(fault) => {
                self.sink.flush();
                Err(fault)
            }
        }
    }
}
'''


class OfDevices(unittest.TestCase):
    def setUp(self):
        names = Names()
        names.read(DEVICE)
        self.function = functions_of("src/lib.rt", DEVICE)[0]
        self.mutants = mutants_of(self.function, DEVICE, names)

    def of(self, *operators):
        made = [changed(DEVICE, self.function, m.edits) for m in self.mutants if m.operator in operators]
        return [" ".join(text.split()) for text in made]

    def test_calls_of_an_error_path_are_dropped_and_repeated(self):
        made = self.of("error path", "deletion")
        self.assertTrue(any("Err(fault) => { Err(fault) }" in it for it in made))
        self.assertTrue(any("self.sink.flush(); self.sink.flush(); Err(fault)" in it for it in made))
        self.assertTrue(any("{ let _ = self.sink.write(part); Err(fault) }" in it for it in made))
        self.assertFalse(any("let _ = self.sink.write(part); Ok(" in it for it in made))

    def test_a_flush_moves_behind_its_loop(self):
        self.assertEqual(len(self.of("later flush")), 1)
        self.assertIn("{ self.sink.write(part); } self.sink.flush(); let first", self.of("later flush")[0])

    def test_a_field_is_written_before_an_error(self):
        self.assertTrue(any("{ self.failures = self.failures ^ 1; Err(fault) }" in it for it in self.of("error field")))

    def test_one_more_read_before_an_answer(self):
        self.assertEqual(len(self.of("read ahead")), 1)
        self.assertIn("Ok(byte) => { let _ = self.source.read(1); Ok(byte) }", self.of("read ahead")[0])


EDITS = """\
# first
file: src/lib.rt
old: if a < b { a }
new: if a > b { a }
# second
file: src/lib.rt
old: else { b }
new: else { a }
# outside
file: src/lib.rt
old:     Left,
new:     Wrong,
"""


class OneByOne(SmallCrate):
    def test_edits(self):
        found = mutations_of(EDITS)
        self.assertEqual([name for name, _ in found], ["first", "second", "outside"])
        self.assertEqual(found[1][1], [("src/lib.rt", "else { b }", "else { a }")])

    def test_functions_of_a_change(self):
        lines = [functions_at(changes, self.crate.folder) for _, changes in mutations_of(EDITS)]
        self.assertEqual(lines, [[("src/lib.rt", 4, 10, "smaller")], [("src/lib.rt", 4, 10, "smaller")], []])
        with self.assertRaises(ValueError):
            functions_at([("src/lib.rt", "nowhere", "")], self.crate.folder)

    def test_rounds_have_one_mutation_of_each_function(self):
        mutations = [Mutation(name, its, functions_at(its, self.crate.folder)) for name, its in mutations_of(EDITS)]
        self.assertEqual([it.name for it in round_of(mutations)], ["first", "outside"])

    def test_goals(self):
        said = "note: src/lib.rt:9:5: not proved (`returns`)\nproofs/smaller/Answers.antt:3:1: error: `low`: it"
        smaller = [("src/lib.rt", 4, 10, "smaller")]
        self.assertEqual(goals_in(said, smaller), ["low", "returns"])
        self.assertEqual(goals_in(said, smaller, outside=True), [])

    def test_what_each_mutation_is_told(self):
        told, asked = {}, []

        def check(names):
            asked.append(names)
            text = (self.crate.folder / "src/lib.rt").read_text(encoding="utf-8")
            if "a > b" in text:
                return "src/lib.rt:9:5: not proved (`returns`)\nonly=1 proved=0 not-proved=1"
            return "error" if "Wrong" in text else "only=1 proved=1" if names else "logic=proved"

        lost = "# lost\nfile: src/lib.rt\nold: nowhere\nnew: x\n"
        try_crate(self.crate.folder, [EDITS, lost], bool, told.__setitem__, check)
        self.assertEqual([told["first"], told["second"]], ["returns", "survives"])
        self.assertIn("occurs 0 times", told["lost"])
        self.assertTrue(told["outside"].startswith("cannot be applied"))
        # Two rounds name nothing, since one of their mutations is in no function. What passes is tried once more, with all.
        self.assertEqual(asked, [[], [], ["smaller"], [], []])


class Records(SmallCrate):
    """The checksum of what a verdict rests on, after changes of the crate."""

    CHANGES = [("src/lib.rt", "if a < b { a }", "if a > b { a }")]

    def sum_after(self, old, new):
        """The checksum with one text in place of another."""
        file = self.crate.folder / "src/lib.rt"
        file.write_text(SOURCE.replace(old, new), encoding="utf-8")
        return records.Sums(self.crate.folder.parents[1]).of("small", "larger", self.CHANGES)

    def test_layout_comments_and_other_functions_do_not_count(self):
        before = self.sum_after("", "")
        for old, new in (("// a < b { is a comment", "// a"), ("(a: u8, b: u8)", "(\n    a: u8,\n    b: u8,\n)"), ("*= 2", "*= 3")):
            self.assertEqual(self.sum_after(old, new), before, new)

    def test_the_body_and_the_clauses_count(self):
        before = self.sum_after("", "")
        for old, new in (("else { b }", "else { a }"), ("result ≤ b", "result ≤ a")):
            self.assertNotEqual(self.sum_after(old, new), before, new)

    def test_definitions_count(self):
        use = "ghost use Rattle.small.specs.Less.{Less};\n\n/// The smaller"
        text = SOURCE.replace("/// The smaller", use).replace("result ≤ b", "Less result b")
        specs, sums = self.crate.folder / "specs", []
        specs.mkdir()
        (self.crate.folder / "src/lib.rt").write_text(text, encoding="utf-8")
        for body in ("a < b", "a ≤ b"):
            (specs / "Less.antt").write_text(f"-- one less\nabbrev pub Less : ℕ → ℕ → Type 0\nLess a b = {body}\n", encoding="utf-8")
            sums.append(records.Sums(self.crate.folder.parents[1]).of("small", "larger", self.CHANGES))
        self.assertNotEqual(*sums)

    def test_a_text_that_is_gone(self):
        with self.assertRaises(ValueError):
            self.sum_after("if a < b", "if b > a")


ROUNDS = """\
# larger
file: src/lib.rt
old: if a < b { a }
new: if a > b { a }
# the_same
file: src/lib.rt
old: self.size *= 2
new: self.size = self.size * 2
# half_is_one_more
file: src/lib.rt
old: Ok(self.size)
new: Ok(self.size + 1)
# outside
file: src/lib.rt
old:     Left,
new:     Wrong,
"""


class Rounds(SmallCrate):
    """Rounds of mutations, with what a check would say."""

    def setUp(self):
        super().setUp()
        self.crate.symbols = {f"small::{it}": "" for it in ("smaller", "PairShown::shown", "PairShown::double", "Pair::half")}
        self.beside = [placed(name, changes, self.crate, at) for at, (name, changes) in enumerate(mutations_of(ROUNDS))]
        self.mutations = [it.in_place or it for it in self.beside]

    def told(self, said, calls={}):
        """What is told of each mutation, and the names of each check, if a check of these names says this."""
        told, checks = {}, []

        def check(chosen, whole=False):
            checks.append([it.name for it in chosen] + ["the whole crate"] * whole)
            return said(chosen)

        try_rounds(self.mutations, calls, check, told.__setitem__)
        return told, checks

    def test_a_right_body_is_named(self):
        said = (
            "note: src/lib.rt:9:5: it is not proved that .. (`returns`)\nfn small::smaller: no proof: expected answers\n"
            "fn small::PairShown::double: proved\nproofs/Pair/half/Answers.antt:3:1: error: `low`: differs\n"
            "fn small::Pair::half: not proved\nonly=3 proved=1\n"
        )
        apart = "note: src/lib.rt:43:1: (`elsewhere`)\nlogic=not-proved"
        told, checks = self.told(lambda chosen: said if chosen[0].functions else apart)
        self.assertEqual(told["larger"], "returns")
        self.assertEqual(told["half_is_one_more"], "low")
        self.assertEqual(told["outside"], "elsewhere")
        self.assertEqual(told["the_same"], "NOT REJECTED: fn small::PairShown::double: proved")
        self.assertEqual(checks, [["larger", "the_same", "half_is_one_more"], ["outside"], ["the_same"]])

    def test_waiting_for_a_callee_is_not_enough(self):
        said = (
            "fn small::Pair::half: no proof: it calls `small::smaller`, which is not proved\n"
            "proofs/Pair/half/Answers.antt:3:1: error: `low`: names `smaller.met`, which was not admitted\nonly=1 proved=0\n"
        )
        self.assertEqual(how_rejected(said, self.mutations[2]), "")
        self.assertEqual(how_rejected("", self.mutations[2]), "")

    def test_a_caller_is_tried_alone_if_an_unchanged_function_has_an_open_goal(self):
        said = (
            "src/lib.rt:9:5: (`returns`)\nfn small::smaller: not proved\nsrc/lib.rt:34:5: (`low`)\n"
            "fn small::Pair::half: not proved; it calls `small::smaller`, which is not proved\nonly=2 proved=0\n"
        )
        chosen = [self.mutations[0], self.mutations[2]]
        self.assertEqual([is_in_doubt(said, it, chosen) for it in chosen], [False, False])
        said += "src/lib.rt:17:5: (`side`)\n"
        self.assertEqual([is_in_doubt(said, it, chosen) for it in chosen], [False, True])

    def test_the_proof_of_another_function_of_that_name(self):
        said = "proofs/Other/half/Answers.antt:3:1: error: `low`: differs\nfn small::Pair::half: not proved\nonly=1 proved=0\n"
        self.assertEqual(how_rejected(said, self.mutations[2]), "")

    def test_a_function_and_its_callee_are_not_in_one_round(self):
        calls = {"small::Pair::half": {"small::smaller"}}
        self.assertFalse(are_apart(self.mutations[2], self.mutations[0], calls))
        self.assertTrue(are_apart(self.mutations[1], self.mutations[0], calls))
        _, checks = self.told(lambda chosen: "", calls)
        self.assertEqual(checks[:2], [["larger", "the_same"], ["half_is_one_more"]])

    def test_a_change_of_a_body_stands_beside_its_function(self):
        self.assertEqual([bool(it.mutants) for it in self.beside], [True, False, True, False])
        self.assertEqual(names_of(self.beside[:3]), ["Pair::half_mutant2", "PairShown::double", "smaller_mutant0"])
        said = "src/lib.rt:9:5: (`returns`)\nfn small::smaller_mutant0: not proved\nonly=1 proved=0\n"
        self.beside[0].functions = [("src/lib.rt", 8, 12, "smaller_mutant0")]
        self.assertEqual(how_rejected(said, self.beside[0]), "returns")

    def test_what_is_in_one_round_with_a_body_beside_its_function(self):
        smaller, double, half, _ = self.beside
        other = placed("equal", [("src/lib.rt", "else { b }", "else { a }")], self.crate, 4)
        self.assertTrue(are_apart(smaller, other, {}))
        self.assertFalse(are_apart(smaller, other.in_place, {}))
        self.assertTrue(are_apart(half, smaller, {"small::Pair::half": {"small::smaller"}}))
        self.assertFalse(are_apart(half, double, {"small::Pair::half": {"small::PairShown::double"}}))

    def test_what_is_not_rejected_beside_its_function_is_tried_in_its_place(self):
        checks = []

        def check(chosen, whole=False):
            checks.append([bool(it.mutants) for it in chosen])
            return ""

        try_rounds(self.beside[:1], {}, check, lambda name, how: None)
        self.assertEqual(checks, [[True], [False]])

    def test_what_does_not_compile(self):
        told, _ = self.told(lambda chosen: "src/lib.rt:9:5: error[syntax]: expected")
        self.assertTrue(all(it.startswith("cannot be applied: src/lib.rt") for it in told.values()))

    def test_what_a_check_names(self):
        self.assertEqual(names_of(self.mutations[:2]), ["PairShown::double", "smaller"])
        self.assertEqual(names_of(self.mutations[3:]), [])
        written = Placed("order", [("src/a/side.rt", "x", "impl Ord for Side { fn cmp(&self) {} } impl Eq for Side {}"), ("src/b.rt", "x", "")], [], [])
        self.assertEqual(names_of([written]), ["a::side::SideOrd::cmp"])
        self.assertEqual(names_of([Placed("derive", [("src/a/side.rt", "x", "y")], [], [])]), ["a::side"])

    def test_a_law_of_an_impl_counts_for_a_change_in_no_function(self):
        law = "impl small::Side: not proved; antt refuses `matches` in `x`\nlogic=not-proved"
        sayings = iter(["only=1 proved=1", law])
        told = {}
        try_rounds(self.mutations[3:], {}, lambda chosen, whole=False: next(sayings), told.__setitem__)
        self.assertEqual(told, {"outside": "matches"})
        self.assertEqual(how_rejected(law, self.mutations[0]), "")

    def test_a_function_that_is_gone(self):
        del self.crate.symbols["small::smaller"]
        with self.assertRaisesRegex(ValueError, "no function smaller"):
            placed("larger", mutations_of(ROUNDS)[0][1], self.crate)


class Rows(SmallCrate):
    """Bodies that rows of the differential test reject."""

    BODIES = [
        giving_up.Body("small", "src/lib.rt", "smaller", "-", "return a;", "row one"),
        giving_up.Body("small", "src/lib.rt", "Pair half", "Ok", "return Err(s);", "small_tests::two"),
        giving_up.Body("small", "src/lib.rt", "smaller", "if a", "return b;", "row two"),
    ]

    def test_what_rejects_a_body(self):
        self.assertEqual([it.row for it in self.BODIES], ["one", "", "two"])

    def test_each_body_is_guarded_by_its_number(self):
        giving_up.plant(self.crate, list(enumerate(self.BODIES, 1)))
        text = (self.crate.folder / "src" / "lib.rt").read_text(encoding="utf-8")
        guards = re.findall(r"if crate::planted::is_planted\((\d)\) { (.*?) }", text)
        self.assertEqual(guards, [("1", "return a;"), ("3", "return b;"), ("2", "return Err(s);")])
        self.assertTrue(text.endswith(differential.GUARD))

    def test_a_row_has_to_see_its_body_and_nothing_else(self):
        for differ, wrong in (({(0, "one"): 0, (1, "one"): 2}, 0), ({(0, "one"): 0, (1, "one"): 0}, 1), ({(0, "one"): 1}, 2)):
            with self.subTest(differ), contextlib.redirect_stdout(io.StringIO()), tempfile.TemporaryDirectory() as folder, \
                    unittest.mock.patch("differential.ask_rows", lambda *_: (differ, "")):
                settings = Settings(Path(self.folder.name), Path(self.folder.name))
                self.assertEqual(giving_up.rows(settings, Path(folder), self.BODIES[:1]), wrong)

    def test_an_argument_is_a_word_and_a_slice_is_two(self):
        parameters = "alloc: Global, form: u8, is_small: bool, steps: &[Step], device: &Device, room: &mut [u8]"
        arm, stub = differential.call_of(7, "edits", "ask_it", parameters)
        taken = "alloc, word(0) as u8, word(1) & 1 == 1, items(2, word(2 + 1)), &items(4, 1)[0], bytes_mut(5)"
        self.assertEqual(arm.strip(), f"7 => edits::ask_it({taken}),")
        self.assertIn("ask_it(word_t w0, word_t w1, word_t w2, word_t w3, word_t w4, word_t w5, word_t w6) {", stub)
        self.assertIn("return ask(7, all, sizeof all);", stub)

    def test_how_answers_differ_is_read(self):
        results = "body 0, row one: 0 differ\nbody 12, row two: 3 differ\nbody 13, row"
        self.assertEqual(differential.differing(results), {(0, "one"): 0, (12, "two"): 3})


class OfThisRepository(unittest.TestCase):
    ROOT = Path(__file__).resolve().parents[2]
    SETTINGS = Settings(ROOT, Path(__file__).resolve().parent)

    @classmethod
    @functools.cache
    def crate(cls, name):
        return Crate(cls.ROOT, name, cls.SETTINGS)

    def test_each_expected_survivor_is_still_made(self):
        lines = expected(self.SETTINGS)
        made = {(name, *name_of(m)) for name in {line[0] for line in lines} for m in self.crate(name).mutants()}
        for line in sorted(lines - made):
            with self.subTest("survivors.txt: " + ", ".join(line)):
                self.fail("no operator makes this change any more: remove the line")

    def test_each_body_that_gives_up_can_be_planted(self):
        for body in giving_up.listed(self.SETTINGS, ""):
            with self.subTest(f"giving_up.txt: {body.crate} {body.file} {body.function}, {body.statement}"):
                try:
                    body.mutant(self.crate(body.crate), 0)
                except SystemExit as fault:
                    self.fail(str(fault))

    def test_each_row_that_a_body_names_is_there(self):
        texts = [it.read_text(encoding="utf-8") for it in (self.ROOT / "soak" / "rows").glob("*.rs")]
        there = {name for text in texts for name in re.findall(r'(?m)^    \("(\w+)", ', text)}
        self.assertLessEqual({it.row for it in giving_up.listed(self.SETTINGS, "") if it.row}, there)

    def test_the_program_of_the_rows_has_an_arm_for_each_call(self):
        with tempfile.TemporaryDirectory() as folder:
            stubs = differential.write_program(Path(folder) / "program")
            main = (Path(folder) / "program/src/main.rt").read_text(encoding="utf-8")
        declared = re.findall(r"(?m)^    fn (\w+)\(", (self.ROOT / "soak/calls.rs").read_text(encoding="utf-8"))
        self.assertEqual(sorted(declared), sorted(re.findall(r"\d+ => \w+::(\w+)\(", main)))
        self.assertEqual(sorted(declared), sorted(re.findall(r"(?m)^word_t (ask_\w+)\(", stubs)))

    def test_each_mutation_written_by_hand_can_be_applied(self):
        names = [it.name for it in sorted((self.ROOT / "crates").iterdir()) if (it / "src").is_dir()]
        for crate in names:
            for text in edits_of(self.SETTINGS, crate):
                for name, changes in mutations_of(text):
                    with self.subTest(f"{crate}/{name}"):
                        functions_at(changes, self.ROOT / "crates" / crate)


if __name__ == "__main__":
    unittest.main()
