"""Tests of how pages are followed, over small texts and without the toolchain: `python3 tools/check/test_followed.py`."""
import sys
import tempfile
import unittest
from pathlib import Path

sys.dont_write_bytecode = True
sys.path.insert(0, str(Path(__file__).resolve().parent))
from followed import BLOCK, Reader, row_function, session  # noqa: E402


class Pages(unittest.TestCase):
    def follow(self, text, proves=False, visits=True):
        with tempfile.TemporaryDirectory() as scratch:
            clone, folder = Path(scratch) / "clone", Path(scratch) / "empty"
            clone.mkdir(), folder.mkdir()
            (clone / "a").write_text("of the clone\n")
            reader = Reader("page", clone, folder, proves, visits)
            for kind, block in BLOCK.findall(text):
                reader.block(kind, block)
            return reader

    def test_what_a_command_prints_is_compared(self):
        self.assertEqual(self.follow("```sh\necho a\n```\n```text\na\n```\n").faults, [])
        wrong = self.follow("```sh\necho a\n```\n```text\nb\n```\n")
        self.assertEqual(wrong.faults, ["page: printed 'a\\n', and the page has 'b\\n'"])

    def test_a_file_is_written_and_the_last_cd_stays(self):
        page = "```text\n# b/c\nd\n```\n```sh\ncd b\n```\n```sh\ncat c\n```\n```text\nd\n```\n"
        self.assertEqual((self.follow(page).faults, self.follow(page).compared), ([], 1))

    def test_a_visit_to_the_clone_ends_with_its_block(self):
        page = '```sh\ncd "$ASCII"\ncat a\n```\n```text\nof the clone\n```\n```sh\nls\n```\n```text\n```\n'
        self.assertEqual(self.follow(page).faults, [])
        self.assertEqual(self.follow(page, visits=False).compared, 1)

    def test_a_command_that_fails(self):
        self.assertIn("page: status 1 of false", self.follow("```sh\nfalse\n```\n").faults[0])

    def test_what_proves_is_left_out(self):
        page = "```sh\nrt check\nprintf x | rt run\n```\n"
        self.assertEqual(self.follow(page).faults, [])

    def test_a_session_has_commands_and_what_they_print(self):
        self.assertEqual(session("$ cd a\n$ b\nc\nd\n"), ("cd a\nb\n", "c\nd\n"))


class Rows(unittest.TestCase):
    def test_a_row_takes_what_it_names(self):
        want = "\nfn row_0(view: AsciiStr<'_>, mut string: AsciiString) {\n    let _ = string.push_str(view);\n}\n"
        self.assertEqual(row_function(0, "string.push_str(view)?"), want)
        self.assertIn("fn row_1(source: &[u8])", row_function(1, "bytes::as_ascii_str(source)?"))
        self.assertIn("fn row_2(s: &str)", row_function(2, "text::from_ascii(s)?"))


if __name__ == "__main__":
    unittest.main()
