"""Tests of the reader of sources, over small texts and over all sources of the crates: `python3 tools/reader/test_reader.py`."""
import re
import sys
import tempfile
import unittest
from pathlib import Path

sys.dont_write_bytecode = True
sys.path.insert(0, str(Path(__file__).resolve().parent))
import definitions  # noqa: E402
import sources  # noqa: E402
from functions import functions_of  # noqa: E402
from items import Item, Wrong, read_items  # noqa: E402
from tokens import lex  # noqa: E402

TEXT = '''//! A module.

ghost use Rattle.std.specs.Prelude.{◌≡◌};

pub use crate::other::Shape;

/// Returns the sum. "{" and '}' are no brackets here: // nor this {
///
///     add(1, 2) // 3
#[inline]
pub fn add(a: u8, b: u8) -> u8
    requires fits { a + b < 256 }
    ensures { result ≡ a +
        b }
{
    let _text = "}"; // }
    a + b
}

/// A pair.
#[derive(Clone, Copy)]
pub struct Pair {
    /// The first.
    pub first: u8,
    second: u8,
}

impl<'a, T: Into<Option<u8>>> fmt::Display for Holder<'a, T> {
    ghost output = { λ h. None };

    fn fmt(&self) -> fmt::Result {
        Ok(())
    }
}

fn hidden() {}
'''


class Items(unittest.TestCase):
    def setUp(self):
        self.items = read_items(TEXT)

    def named(self, name):
        return next(item for item in self.items if item.name == name)

    def test_kinds_in_order(self):
        kinds = ["ghost use", "use", "fn", "struct", "impl", "fn"]
        self.assertEqual([item.kind for item in self.items], kinds)

    def test_clauses_are_one_line_each(self):
        clauses = [("requires fits", "a + b < 256"), ("ensures", "result ≡ a + b")]
        self.assertEqual(self.named("add").clauses, clauses)

    def test_docs_keep_the_indent_of_an_example(self):
        self.assertEqual(self.named("add").docs[1:], ["", "    add(1, 2) // 3"])

    def test_source_has_docs_attributes_and_body(self):
        source = self.named("add").source
        self.assertTrue(source.startswith("/// Returns the sum.") and source.endswith("a + b\n}"))

    def test_public(self):
        self.assertEqual([self.named(name).public for name in ("add", "Pair", "hidden")], [True, True, False])

    def test_fields_and_derives(self):
        pair = self.named("Pair")
        self.assertEqual([(f.head, f.public) for f in pair.inner], [("pub first: u8", True), ("second: u8", False)])
        self.assertEqual(pair.derives, ["Clone", "Copy"])

    def test_impl_has_a_trait_and_a_type(self):
        impl = next(item for item in self.items if item.kind == "impl")
        self.assertEqual(sources.impl_name(impl), ("Display", "Holder"))
        self.assertEqual([item.kind for item in impl.inner], ["ghost", "fn"])

    def test_an_impl_has_the_public_name_of_its_type(self):
        text = "pub type Own<A = Global> = Text<Vec<u8, A>>;\n\nimpl<A: Allocator> Text<Vec<u8, A>> {\n}\n\n"
        items = read_items(text + "impl<B: Buffer> Clone for Text<B> {\n}\n")
        sources.give_aliases(items)
        names = [sources.impl_name(item) for item in items if item.kind == "impl"]
        self.assertEqual(names, [("", "Own"), ("Clone", "Text")])

    def test_paths_of_a_use(self):
        use = Item("use", "", "pub use a::b::{C, D}", True)
        self.assertEqual(sources.used_paths(use), [("a", "b", "C"), ("a", "b", "D")])
        with self.assertRaises(Wrong):
            sources.used_paths(Item("use", "", "pub use a::*", True))


OTHERS = '''#![tactic(auto)]
macro_rules! pairs {
    ($($name:ident),*) => {{ fn not_an_item() {} }};
}

/// For C.
#[unsafe(no_mangle)]
pub extern "C" fn first(bytes: &[u8]) -> [u8; 2]
    ensures* { result ≡ { a } }
{
    fn inner() {}
    [bytes[0], b'}']
}

unsafe impl<B: Allocator> Allocator for Fails<B> {
    ghost use Rattle.testing.specs.{inner_of};

    const SIZE: usize = 1;

    unsafe fn free(&mut self, ptr: *mut u8) {}
}

pub(crate) const fn wide(map: HashMap<String, u8>) -> Option<u8> { None }

struct Kept {
    #[serde(skip)]
    pub(crate) map: HashMap<String, u8>,
    ghost held: a < b,
}

#[cfg(test)]
mod tests {
    fn not_of_the_crate() {}
}
'''


class OtherItems(unittest.TestCase):
    def setUp(self):
        self.items = read_items(OTHERS)

    def test_kinds_in_order(self):
        kinds = ["macro_rules", "fn", "impl", "fn", "struct", "mod"]
        self.assertEqual([item.kind for item in self.items], kinds)

    def test_heads(self):
        heads = ['pub extern "C" fn first(bytes: &[u8]) -> [u8; 2]', "unsafe impl<B: Allocator> Allocator for Fails<B>"]
        self.assertEqual([item.head for item in self.items[1:3]], heads)
        self.assertEqual(self.items[1].clauses, [("ensures*", "result ≡ { a }")])
        self.assertEqual(sources.impl_name(self.items[2]), ("Allocator", "Fails"))

    def test_a_comma_in_angle_brackets_ends_no_field(self):
        heads = [field.head for field in self.items[4].inner]
        self.assertEqual(heads, ["pub(crate) map: HashMap<String, u8>", "ghost held: a < b"])

    def test_functions_have_a_body_and_are_of_the_crate(self):
        found = functions_of("src/lib.rt", OTHERS)
        self.assertEqual([it.name for it in found], ["first", "free", "wide"])
        self.assertEqual([it.result for it in found], ["[ u8 ; 2 ]", "", "Option < u8 >"])
        self.assertEqual([it.receiver for it in found], ["", "&mut self", ""])
        self.assertTrue(OTHERS[found[0].start :].startswith("#[unsafe(no_mangle)]"))

    def test_what_is_no_item(self):
        with self.assertRaises(Wrong):
            read_items("let a = 1;")


class AllSources(unittest.TestCase):
    """Each source of the crates: its items add up to the whole file, and each function that has a body is found."""

    def test_items_add_up(self):
        for file in sorted(sources.CRATES.glob("*/src/**/*.rt")):
            text, at, left = sources.read(file), 0, ""
            for item in read_items(text):
                begin = item.end - len(item.source)
                self.assertEqual(text[begin : item.end], item.source, file)
                left, at = left + text[at:begin], item.end
            self.assertEqual([], lex(re.sub(r"#!\[[^\n]*\]", "", left + text[at:])), file)

    def test_functions_are_found(self):
        head = re.compile(r"^ *(?:pub(?:\(\w+\))? )?(?:const |unsafe |extern \"C\" )*fn (\w+)[^;{]*[;{]", re.M)
        for file in sorted(sources.CRATES.glob("*/src/**/*.rt")):
            text = sources.read(file)
            found = functions_of(file.name, text)
            closed = [it for it in read_items(text) if it.kind in ("macro_rules", "mod")]
            hidden = [(it.at, it.end) for it in closed] + [(it.opens, it.end) for it in found]
            want = [m[1] for m in head.finditer(text) if not any(a < m.start() < b for a, b in hidden)]
            bare = [it.name for item in read_items(text) for it in item.inner if it.kind == "fn" and it.opens < 0]
            self.assertEqual(sorted(want), sorted([it.name for it in found] + bare), file)


DEFINITIONS = """\
-- A subject.
use Rattle.std.specs.Prelude.{ℕ}

-- a number
-- of a kind
abbrev pub Kind : ℕ → Type 0
Kind n = n ≡ 1

-- a pair
pub record Pair (n : ℕ) : Type 0 where
  -- its first part
  pub first : ℕ

module _ (Is : ℕ → Type 0) where
  -- a word in a module
  abbrev pub Inner : Type 0
  Inner = Kind 1

-- ---- cited by private functions only

-- not for callers
abbrev pub Hidden : Type 0
"""


class Definitions(unittest.TestCase):
    def setUp(self):
        with tempfile.TemporaryDirectory() as folder:
            file = Path(folder) / "Subject.antt"
            file.write_text(DEFINITIONS, encoding="utf-8")
            self.found, self.head = definitions.read_file(file).definitions, definitions.head_comment(file)
            self.public = definitions.read_definitions(file)

    def test_comments_of_public_definitions(self):
        want = [("Kind", "a number of a kind"), ("Pair", "a pair"), ("Inner", "a word in a module")]
        self.assertEqual(self.public, want)
        self.assertEqual(self.head, "A subject.")

    def test_lines_and_parts(self):
        lines = [["abbrev pub Kind : ℕ → Type 0", "Kind n = n ≡ 1"],
                 ["pub record Pair (n : ℕ) : Type 0 where", "  pub first : ℕ"],
                 ["abbrev pub Inner : Type 0", "Inner = Kind 1"], ["abbrev pub Hidden : Type 0"]]
        self.assertEqual([it.lines for it in self.found], lines)
        self.assertEqual([it.parts for it in self.found], [[], ["first"], [], []])

    def test_names_that_a_definition_binds_are_not_its_words(self):
        words = [{*it.words()} & {"n", "first", "Is", "Kind", "ℕ"} for it in self.found]
        self.assertEqual(words, [{"ℕ"}, {"ℕ"}, {"Kind", "ℕ"}, set()])
        text = 'All (λ a b. a.x ≡ "c") d × (e : f) × record { g = h; i = j } (λ (k : l). k.x m)'
        self.assertEqual({*definitions.free_words(text)} & {*"abcdefghijklm"}, {*"dfhjlm"})

    def test_every_line_is_of_a_definition(self):
        for file in sorted(sources.CRATES.glob("*/specs/**/*.antt")):
            text = re.sub(r"^ *(?:--.*)?\n", "", sources.read(file), flags=re.M)
            text = re.sub(r"^(?:(?:pub )?(?:use|mod) .*|module (?:.*\n )*?.*where)\n", "", text, flags=re.M)
            found = [line.strip() for it in definitions.read_file(file).definitions for line in it.lines]
            self.assertEqual(found, [line.strip() for line in text.splitlines()], file)


if __name__ == "__main__":
    unittest.main()
