"""Tests of how wrong code is read from pages and planted, without the toolchain: `python3 tools/check/test_rejected.py`."""
import sys
import unittest
from pathlib import Path

sys.dont_write_bytecode = True
sys.path.insert(0, str(Path(__file__).resolve().parent))
from rejected import all_rejected, planted, rejected_of  # noqa: E402

PAGE = """\
<!-- rejected: crates/one/src/lib.rt -->
```rust
/// Returns one.
fn one() -> u8 {
    2
}
```

    fn one::one: no proof

text

    note: src/lib.rt:2:1: it is not proved

<!-- rejected: crates/one/src/lib.rt: `a` becomes `b` -->

    fn one::two: no proof

## The next

    fn one::three: no proof
"""
SOURCE = """\
/// Returns one.
///
/// It is one.
fn one() -> u8 {
    1
}

fn two() -> u8 {
    2
}
"""


class Rejected(unittest.TestCase):
    def test_a_block_is_wrong_code_with_the_lines_after_it(self):
        found = rejected_of("page", PAGE)
        self.assertEqual([(it.name, len(it.quotes)) for it in found], [("one", 2), ("two", 1)])
        self.assertEqual((found[1].old, found[1].new, found[1].crate), ("a", "b", "one"))

    def test_lines_after_a_planted_function_keep_their_numbers(self):
        text = planted(SOURCE, rejected_of("page", PAGE)[0].code)
        self.assertIn("    2\n}\n\n\n\nfn two", text)
        self.assertEqual(text.count("\n"), SOURCE.count("\n"))

    def test_a_function_that_is_not_there_is_an_error(self):
        self.assertRaises(ValueError, planted, SOURCE, "fn three() {\n}\n")

    def test_each_wrong_code_of_the_pages_quotes_the_check(self):
        self.assertEqual([it.page for it in all_rejected() if not it.quotes], [])


if __name__ == "__main__":
    unittest.main()
