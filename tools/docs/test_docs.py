"""Tests of the parts of bin/docs, over small texts: `python3 tools/docs/test_docs.py`."""
import subprocess
import sys
import tempfile
import unittest
from pathlib import Path
from types import SimpleNamespace

sys.dont_write_bytecode = True
TOP = Path(__file__).resolve().parents[2]
sys.path[:0] = [str(TOP / "tools" / it) for it in ("docs", "reader", "check")]
import clauses  # noqa: E402
import equal  # noqa: E402
import examples  # noqa: E402
import lengths  # noqa: E402
import reach  # noqa: E402
import recipes  # noqa: E402
import sentences  # noqa: E402
import tables  # noqa: E402
import uses  # noqa: E402
from definitions import Definitions  # noqa: E402
from examples import examples_in, names_of_tests, statements  # noqa: E402
from functions import functions_of  # noqa: E402
from items import Wrong, read_items  # noqa: E402
from made import conditions, example, first_sentence, in_short  # noqa: E402
from reference_text import joined  # noqa: E402
from samples import in_own_crate, is_sample, named  # noqa: E402


class Lengths(unittest.TestCase):
    PAGE = "# Title\n\nOne `a.b()` is here. Two\nis there: `x`.\n\n- An item.\n  More of it.\n\n| A | B |\n|---|---|\n| a cell | |\n\n    code here\n"

    def test_sentences_of_paragraphs_items_and_cells(self):
        want = ["One CODE is here.", "Two is there: CODE.", "An item.", "More of it.", "A", "B", "a cell"]
        self.assertEqual(lengths.sentences(lengths.plain(self.PAGE)), want)

    def test_made_tables_code_and_targets_do_not_count(self):
        text = "<!-- Made by `x` -->\n| a |\n<!-- end of the table -->\n```sh\nb\n```\n[two words](some/where.md)\n"
        self.assertEqual(lengths.words(lengths.plain(text)), 2)


class Recipes(unittest.TestCase):
    def test_each_row_is_a_module_with_a_call(self):
        self.assertEqual(len(recipes.rows()), 12)
        for row in recipes.rows():
            self.assertTrue([line for line in recipes.recipe(*row) if line.startswith("### ")], row)


class Examples(unittest.TestCase):
    def test_a_test_is_named_by_its_call(self):
        keys = ["AsciiStr::rsplit_once", "bytes::slice_ascii", "Clone for AsciiString", "serve", "AsStr for AsciiStr::as_str"]
        want = ["rsplit_once_of_ascii_str", "slice_ascii_of_bytes", "clone_of_ascii_string", "serve_of_ascii_lines"]
        self.assertEqual(names_of_tests("ascii_lines", keys), [*want, "as_str_of_ascii_str"])

    def test_a_trait_stands_for_a_call_whose_name_is_taken(self):
        keys = ["Display for Text::fmt", "Debug for Text::fmt", "Text::as_str", "AsStr for Text::as_str"]
        want = ["display_of_text", "debug_of_text", "as_str_of_text", "as_str_as_str_of_text"]
        self.assertEqual(names_of_tests("ascii", keys), want)

    def test_an_example_is_indented(self):
        self.assertEqual(examples_in(["Returns it.", "", "    a() // 1", "    b()?"]), ["a() // 1", "b()?"])

    def test_values_are_compared_as_one_tuple(self):
        self.assertEqual(statements(["a() // 1"]), ['    assert_debug!(rt; a(), "1");'])
        code = "".join(line.strip() for line in statements(["a() // 1", "b()? // \"x\""]))
        self.assertEqual(code, 'assert_debug!(rt;(a(),b().expect(&rt, "an error"),),"(1, \\"x\\")");')

    def test_an_example_with_a_condition_is_proved(self):
        known = {("Text", "set"): True, ("bytes", "cut"): True, ("Thing", "new"): True, ("Text", "new"): False}
        with_one = ("view.set(1, 'a')", "Thing::new(8)", "AsciiString::set(text, 0)", "texts::cut(2)")
        for line in (*with_one, 'AsciiStr::literal("\\u{e9}")', "AsciiStr::literal(text)"):
            self.assertTrue(examples.up_to_last_condition([line], known), line)
        for line in ('AsciiStr::literal("a\\u{7f}").len()', "offset(1)", "renew(2)", "AsciiString::new(3)", "Vec::new(alloc)"):
            self.assertFalse(examples.up_to_last_condition([line], known), line)

    def test_what_comes_after_the_last_condition_needs_no_proof(self):
        known, lines = {("bytes", "cut"): True}, ["if bytes::is(a) {", "bytes::cut(a)", "}", "b()?"]
        self.assertEqual(examples.up_to_last_condition(lines, known), lines[:3])

    def test_a_variable_has_the_calls_of_its_type(self):
        known = {("Text", "insert"): True, ("AsciiMap", "insert"): False}
        make, put = "let mut map = AsciiMap::new(alloc);", "map.insert(key, 1)?"
        self.assertFalse(examples.up_to_last_condition([make, put], known))
        self.assertFalse(examples.up_to_last_condition(["let mut map = HashMap::new(alloc);", put], known))
        others = ("let mut map = AsciiString::new(alloc);", "let mut map = other(alloc);", "let mut map = AsciiMap::new(alloc).iter();")
        patterns = ("for map in maps {", "maps.each(|map| 1);", "if let Some(map) = text {", "Some(map) => 1,")
        for line in (*others, *patterns):
            self.assertTrue(examples.up_to_last_condition([make, line, put], known), line)

    def test_an_example_brings_the_traits_that_it_is_about(self):
        line = 'Output::new(Vec::new(alloc)).failures()'
        self.assertIn("use ascii_devices::{Output, Sink};", examples.use_lines([line], "ascii_devices", "Output"))

    def test_a_value_between_statements_is_compared_at_its_place(self):
        lines = ["let mut a = b();", "a.next() // 1", "a.next() // 2"]
        shown = [f'    assert_debug!(rt; a.next(), "{n}");' for n in (1, 2)]
        self.assertEqual(statements(lines), [lines[0], *shown])


class Clauses(unittest.TestCase):
    LIB = "mod texts;\npub use texts::{Cut, take};\n"
    TEXTS = '''ghost use Rattle.low.specs.Words.{IsCut, IsSame};

pub trait Cut {
    ghost is: { Type 0 };
    fn cut(self) -> u8
        ensures { IsSame self result };
}

impl Cut for Kept {
    ghost is = { IsCut 1 };
    fn cut(self) -> u8 { 1 }
}

pub fn take(n: u8) -> u8
    requires small { n < 9 }
    ensures cut { IsCut  result }
{ n }
fn hidden() ensures { IsCut } {}
'''
    WORDS = "-- one\npub record IsCut (n : N) : Type 0 where\n  pub one : IsLess n\n\n-- two\nabbrev pub IsLess : N → Type 0\nIsLess n = n < 1\n"

    def contracts(self, lib=LIB, texts=TEXTS, words=WORDS, module="Words"):
        with tempfile.TemporaryDirectory() as folder:
            for name, text in (("src/lib.rt", lib), ("src/texts.rt", texts), (f"specs/{module}.antt", words)):
                file = Path(folder) / "low" / name
                file.parent.mkdir(parents=True, exist_ok=True)
                file.write_text(text, encoding="utf-8")
            return clauses.Contracts(Path(folder))

    def brief(self, new, moved=""):
        return clauses.in_brief(clauses.Comparison(self.contracts(), new, clauses.moved_names(moved)))

    def test_calls_are_public_functions_and_what_an_impl_says_of_a_trait(self):
        want = ["low::Cut", "low::Cut::cut", "low::Kept::Cut", "low::texts::take"]
        self.assertEqual(sorted(self.contracts().calls), want)

    def test_white_space_and_comments_do_not_count(self):
        texts, words = self.TEXTS.replace("IsCut  result", "IsCut\n        result"), self.WORDS.replace("-- one", "-- other")
        self.assertEqual(self.brief(self.contracts(texts=texts, words=words)), [])

    def test_clauses_that_are_gone_new_and_changed(self):
        texts = self.TEXTS.replace("small { n < 9 }", "low { n < 9 }").replace("IsCut  result", "IsCut n")
        want = ["low::texts::take: requires small gone, ensures cut changed, requires low new"]
        self.assertEqual(self.brief(self.contracts(texts=texts)), want)

    def test_a_definition_that_a_clause_reaches(self):
        words = self.WORDS.replace("n < 1", "n < 2")
        want = [f"low::{name}: definition low.specs.Words.IsLess changed" for name in ("Kept::Cut", "texts::take")]
        self.assertEqual(self.brief(self.contracts(words=words)), want)

    def test_calls_that_are_gone_and_new(self):
        lib, texts = self.LIB.replace("take", "keep"), self.TEXTS.replace("fn take", "fn keep")
        self.assertEqual(self.brief(self.contracts(lib, texts)), ["low::texts::keep: new", "low::texts::take: gone"])
        self.assertEqual(self.brief(self.contracts(lib, texts), "# a table\nlow::texts::take low::texts::keep\n"), [])

    def test_names_that_moved(self):
        texts = self.TEXTS.replace("specs.Words", "specs.Parts").replace("IsCut", "IsPart")
        new = self.contracts(texts=texts, words=self.WORDS.replace("IsCut", "IsPart"), module="Parts")
        self.assertEqual(len(self.brief(new)), 2)
        self.assertEqual(self.brief(new, "low.specs.Words.IsCut low.specs.Parts.IsPart\n"), [])

    def test_the_report_shows_both_texts(self):
        new = self.contracts(words=self.WORDS.replace("n < 1", "n < 2"))
        shown = clauses.report(clauses.Comparison(self.contracts(), new, {}), "take")
        self.assertEqual([line for line in shown if "IsLess n =" in line], ["    - IsLess n = n < 1", "    + IsLess n = n < 2"])


class Documentation(unittest.TestCase):
    DOCS = ["Returns it, or `None`. It is", "copied.", "", "Condition: `i` is", "small.", "",
            '    make("a").at(0) // 1', "    b()?"]

    def test_code_is_shorter_on_a_page(self):
        code = "impl A for B {\n    ghost is = { x };\n\n    /// Returns it.\n    #[inline]\n    fn at(\n        self,\n    ) -> u8 {\n        self.0\n    }\n}"
        self.assertEqual(in_short(code), "impl A for B {\n    ghost is = { x };\n    fn at(self) -> u8 { self.0 }\n}")
        self.assertEqual(in_short("struct A;\n\nstruct B;"), "struct A;\n\nstruct B;")

    def test_parts(self):
        self.assertEqual(first_sentence(self.DOCS), "Returns it, or `None`.")
        self.assertEqual(conditions(self.DOCS), ["Condition: `i` is\nsmall."])
        self.assertEqual(example(self.DOCS), ['make("a").at(0) // 1', "b()?"])


# A file that uses a library of two types, with names that std has too.
USER = """
use lib::text::{self, View};
use lib::Own;

fn many(view: View<'_>, list: &[u8], own: &mut Own<Vec<u8>>) -> Result<(), Error> {
    list.len();
    view.len();
    own.len();
    let copy = view.copy(alloc)?;
    copy.new();
    own.extend(list.iter().map(|view| view.len()));
    match text::view_of(list) {
        Ok(found) => found.len(),
        Err(other) => other.len(),
    }
    if let Some(first) = Own::make().first() {
        first.copy(alloc);
    }
    list.first();
}
"""


class Uses(unittest.TestCase):
    def setUp(self):
        self.known = uses.Known()
        results = {("View", "len"): "usize", ("View", "copy"): "Result<Own<Vec<u8>>,Refused>", ("Own", "len"): "usize",
                   ("Own", "new"): "Self", ("Own", "make"): "Self", ("Own", "first"): "Option<View>", ("Own", "extend"): ""}
        self.known.methods = {key: ("::".join(key), result) for key, result in results.items()}
        self.known.functions = {"lib::text::view_of": ("view_of", "Result<View,Refused>")}
        self.known.types = {"lib::text::View": "View", "lib::Own": "Own"}

    def found(self, text):
        function = functions_of("", text)[0]
        return uses.Scan(self.known, ("user", ()), uses.imports_of(read_items(text)), function, text).found

    def test_a_call_is_known_by_its_path_or_by_the_type_that_it_is_made_on(self):
        want = ["View::len", "Own::len", "View::copy", "Own::new", "Own::extend", "view_of", "View::len", "Own::make", "Own::first",
                "View::copy"]
        self.assertEqual(self.found(USER), want)

    def test_parameters_of_a_type(self):
        self.assertEqual(uses.inside("Result<Own<Vec<u8>,A>,Error>"), "Own<Vec<u8>,A>")
        self.assertEqual(uses.inside("Result<Own<Vec<u8>,A>,Error>", 1), "Error")
        self.assertEqual([uses.head_of(it) for it in ("&'a mut fmt::Text<B>", "Option<u8>", "")], ["Text", "Option", ""])


class Tables(unittest.TestCase):
    def test_a_table_is_made_between_its_lines(self):
        page = "a\n<!-- Made by `bin/docs tables`: sample x -->\nold\n<!-- end of the table -->\nb\n"
        tables.TABLES["sample"] = lambda of: [f"| {of} |"]
        self.assertEqual(tables.page_with_tables(page), page.replace("old", "| x |"))
        self.assertEqual(tables.page_with_tables("no table"), "no table")


class Samples(unittest.TestCase):
    SOURCES = {"crates/a/src/lib.rt": "/// Adds.\nfn add() {\n    one\n}\n", "crates.txt": "a: b\nc:\n"}

    def test_a_block_may_name_a_file(self):
        self.assertEqual(named("// crates/a/src/lib.rt\nfn add()"), ("crates/a/src/lib.rt", "fn add()"))
        self.assertEqual(named("fn add()"), (None, "fn add()"))

    def test_a_block_of_a_page_is_in_a_source(self):
        for file in (None, "crates/a/src/lib.rt"):
            self.assertTrue(is_sample("README.md", file, "fn add() {\none\n", self.SOURCES))
            self.assertFalse(is_sample("README.md", file, "fn sub() {\n", self.SOURCES))
        self.assertFalse(is_sample("README.md", "crates/none.rt", "fn add() {\n", self.SOURCES))

    def test_a_block_of_a_followed_page_is_a_whole_file(self):
        self.assertTrue(is_sample("docs/START.md", "HANDLES", "a\nb\n", {"HANDLES": "a\nb\n"}))
        self.assertFalse(is_sample("docs/START.md", "HANDLES", "b\n", {"HANDLES": "a\nb\n"}))

    def test_a_reader_has_a_module_of_the_examples_as_a_crate(self):
        program, library = "use Rattle.examples.specs.declared.a.B;\n", "pub mod B\npub mod C\n"
        sources = {"crates/examples/src/a.rt": program, "crates/examples/specs/Lib.antt": library}
        read = "use Rattle.a.specs.declared.B;\n"
        for code, is_same in ((read, True), (f"{read}\n#[cfg(test)]\nmod tests {{}}\n", True), (program, False), ("", False)):
            self.assertEqual(is_sample("docs/START.md", "crates/a/src/main.rt", code, sources), is_same)
        self.assertTrue(is_sample("docs/START.md", "crates/a/specs/Lib.antt", "pub mod B\n", sources))
        self.assertEqual(in_own_crate("a", "fn examples::a::f: ./proofs/a/f in src/a.rt"), "fn a::f: ./proofs/f in src/main.rt")


# Two crates: `lines` has its own definitions, and passes on those of `base`.
REPOSITORY = {
    "base/src/lib.rt": "",
    "base/specs/Marks.antt": """-- Marks.
use Rattle.std.specs.Prelude.{ℕ}

-- a mark
pub data Mark : Type 0 where
  stop : Mark
  at : ℕ → Mark

-- the value of a mark
abbrev pub value : Mark → ℕ
value stop = 0
value (at n) = n
""",
    "lines/specs/Lib.antt": "pub mod Lines\npub use Rattle.base.specs.Marks\n",
    "lines/specs/Lines.antt": """-- Lines.
use Rattle.std.specs.Prelude.{ℕ, ◌≡◌}
use Rattle.base.specs.Marks as marks

-- a line with its mark
pub record Line : Type 0 where
  pub body : ℕ
  -- its last mark
  pub value : marks.Mark

-- the body of a line
abbrev pub body : Line → ℕ
body line = line.body

-- the line ends at the place
abbrev pub EndsAt : Line → ℕ → Type 0
EndsAt line body = marks.value line.value ≡ body
""",
    "lines/src/lib.rt": "mod walk;\npub fn walk() {}\n",
    "lines/src/walk.rt": """
ghost use Rattle.lines.specs.Lines.{EndsAt as Ends, Line};
ghost use Rattle.lines.specs.Marks.{stop};

pub fn first(a: u8) -> u8
    requires { a < 2 }
    ensures line { (Line : Some) × Ends Line result }
{
    a
}

impl<'a> Walk<'a> {
    pub fn last(self) -> u8
        ensures { result ≡ stop }
    {
        0
    }

    fn walk(self) {}
}

pub trait Each {
    fn last(self) -> u8;
}
""",
}


class Reach(unittest.TestCase):
    def setUp(self):
        folder = tempfile.TemporaryDirectory()
        self.addCleanup(folder.cleanup)
        self.crates = Path(folder.name)
        for name, text in REPOSITORY.items():
            (self.crates / name).parent.mkdir(parents=True, exist_ok=True)
            (self.crates / name).write_text(text, encoding="utf-8")
        self.definitions = Definitions(self.crates)

    def reached(self, name):
        return [(it.path, len(it.lines)) for it in reach.reached(name, self.definitions, self.crates)]

    def faults(self, *listed):
        return reach.above(listed, self.definitions, self.crates)

    def test_names_are_followed_through_use_lines(self):
        mark, value = ("base.specs.Marks.Mark", 3), ("base.specs.Marks.value", 3)
        own = [("lines.specs.Lines.EndsAt", 2), ("lines.specs.Lines.Line", 3)]
        self.assertEqual(self.reached("lines::first"), [mark, value, *own])

    def test_a_constructor_is_its_data(self):
        self.assertEqual(self.reached("lines::Walk::last"), [("base.specs.Marks.Mark", 3)])

    def test_a_function_without_a_clause_reaches_nothing(self):
        self.assertEqual(self.reached("lines::walk"), [])

    def test_a_name_is_that_of_one_public_function(self):
        self.assertEqual(self.faults(("lines::none", 1)), ["reach.txt: lines::none: not a public function"])
        self.assertEqual(self.faults(("none::walk", 1)), ["reach.txt: none::walk: no crate none"])
        both = "walk::Walk::last, walk::Each::last"
        self.assertEqual(self.faults(("lines::last", 1)), [f"reach.txt: lines::last: one of {both}"])

    def test_a_count_above_its_ceiling_is_a_fault(self):
        self.assertEqual(self.faults(("lines::first", 4), ("lines::walk", 0)), [])
        want = "4 definitions, 11 lines, more than its ceiling 3: bin/docs reach --list lines::first shows them"
        self.assertEqual(self.faults(("lines::first", 3)), [f"lines::first: {want}"])

    def test_a_list_has_comments(self):
        self.assertEqual(reach.ceilings("# A list.\nlines::first: 4\n\nlines::Walk::last: 1\n"),
                         [("lines::first", 4), ("lines::Walk::last", 1)])


class Sentences(unittest.TestCase):
    SENTENCES = sentences.Sentences("""# A list.
text_of v | {v}
x.old | the old {x}
x.text | {x}
n - 1 | one less than {n}
length l | the length of {l}
slice_get l (length l - 1) | the last of {l}
slice_get l at | the item of {l} at {at}
map =up l | {l} in upper case
MAX | the most
Has l | {l} has one
All (λ x. P) l | for each item of {l}, {P it}
Cuts P Is r | on `None`, {P not}; on `Some`, {Is the first/the second}
On r P | on `Ok`, {P the value}
Then r P | after {r}, {P what [r] is}
""")

    def said(self, clause):
        return self.SENTENCES.of(clause)

    def test_terms_are_filled_in_and_coercions_dropped(self):
        self.assertEqual(self.said("result ≡ length (text_of self.old) - 1"), "The result is one less than the length of the old `self`.")

    def test_closures_say_something_of_what_is_given(self):
        self.assertEqual(self.said("Cuts (a < b) (λ x y. text_of x ≡ y) result"), "On `None`, `a` is not less than `b`; on `Some`, the first is the second.")
        self.assertEqual(self.said("On result (λ v. v.text ≡ map up (text_of w))"), "On `Ok`, the value is `w` in upper case.")
        self.assertEqual(self.said("All (λ v. v ≤ usize.MAX) l"), "For each item of `l`, it is at most the most.")
        self.assertEqual(self.said("Then r (λ v. v ≡ w)"), "After `r`, what `r` is is `w`.")

    def test_the_longest_pattern_that_fits_is_taken(self):
        self.assertEqual(self.said("let t = text_of l in r ≡ slice_get t (length t - 1)"), "`r` is the last of `l`.")
        self.assertEqual(self.said("r ≡ slice_get l (length m - 1)"), "`r` is the item of `l` at one less than the length of `m`.")

    def test_a_record_is_said_by_its_fields(self):
        self.assertEqual(self.said("r ≡ record { old = a; text = 2 }"), "The old `r` is `a`, and `r` is 2.")

    def test_conditions_are_joined(self):
        self.assertEqual(self.said("a < b → c ≡ [] → 2 ≤ d"), "If `a` is less than `b` and `c` is empty, then `d` is at least 2.")

    def test_what_has_no_sentence_is_not_said(self):
        for clause in ("map down l ≡ l", "Unknown l", "Has (λ x. x)", "result ≡ record { a = b }", "¬ (Has l)", "l.length < 2"):
            self.assertRaises(sentences.Unsaid, self.said, clause)

    def test_a_sentence_that_no_clause_needs_is_known(self):
        own = sentences.Sentences("Has l | {l} has one\nLacks l | {l} has none\n")
        own.of("Has x")
        self.assertEqual(own.unused(), ["Lacks l"])

    def test_sentences_about_one_case_are_one(self):
        said = ["On `Ok`, a.", "On `Ok`, b.", "On `Err`, c.", "On `Err`, d; e."]
        self.assertEqual(sentences.merged(said), ["On `Ok`, a, and b.", "On `Err`, c.", "On `Err`, d; e."])

    def test_what_is_long_is_a_list(self):
        self.assertEqual(sentences.paragraph("P:", "It is. `b` is."), "P: it is. `b` is.")
        long = "It is " + "so " * 200
        self.assertEqual(sentences.paragraph("P:", f"{long}. `b` is."), f"P:\n\n- {long}.\n- `b` is.")

    def test_a_binder_names_what_there_is(self):
        self.assertEqual(self.said("(n m : List ℕ) × (n ≡ m)"), "There are `n` and `m` such that `n` is `m`.")


class Equal(unittest.TestCase):
    def call(self, name, head, clause):
        return SimpleNamespace(name=name, item=SimpleNamespace(head=f"pub fn {name}{head}", clauses=[("ensures", clause)]))

    def test_calls_of_equal_types_and_clauses_do_the_same(self):
        own = [self.call("a", "(self) -> u8", "P self result"), self.call("b", "(&self) -> u8", "P  self.now result"),
               self.call("c", "(self) -> u8", "Q self result"), self.call("d", "(self) -> u16", "P self result")]
        self.assertEqual(equal.pairs(SimpleNamespace(calls=own)), {("a", "b")})


class Commands(unittest.TestCase):
    def test_uses_of_a_module_are_joined(self):
        lines = joined({"use a::b::{C, D};", "use a::b::E;", "use a::F;"})
        self.assertEqual(list(lines), ["use a::F;", "use a::b::{C, D, E};"])

    def test_one_name_of_two_modules_is_rejected(self):
        self.assertRaises(Wrong, list, joined({"use a::b::C;", "use a::d::C;"}))

    def test_unknown_arguments_are_rejected(self):
        for words in (["nothing"], ["reference", "x"], ["words", "--check"], ["reach", "--list"], ["site"], []):
            ran = subprocess.run([str(TOP / "bin/docs"), *words], stdout=subprocess.PIPE, stderr=subprocess.PIPE)
            self.assertEqual((ran.returncode, ran.stdout), (64, b""), words)


if __name__ == "__main__":
    unittest.main()
