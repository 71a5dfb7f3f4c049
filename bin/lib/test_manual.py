"""Tests of the manual pages and the completions: `python3 bin/lib/test_manual.py`."""
import shlex
import shutil
import subprocess
import sys
import tempfile
import unittest
from pathlib import Path

sys.dont_write_bytecode = True
sys.path.insert(0, str(Path(__file__).resolve().parent))
from manual import PROGRAMS, completions, page, parse  # noqa: E402

TOP = Path(__file__).resolve().parents[2]
HELP = """\
Writes inputs again

Usage: again [OPTIONS] <MODE> [FILE]...

Modes:
  copy   What it is
  lower  Each letter `a` of it

Options:
  -m, --max <N>  Stop after N lines
  -h, --help     Print help

Exit status:
  0  All is well

No other.
"""
FILES = ["one two", "copy", "it's"]


def help_of(program):
    return subprocess.run([TOP / "bin" / program, "--help"], capture_output=True, text=True, check=True).stdout


def completed(script, words, folder):
    """What bash completes the last of the words to, in a folder."""
    given = f"COMP_WORDS=({shlex.join(words)}); COMP_CWORD={len(words) - 1}; _again"
    shows = 'printf "%s\\n" "${COMPREPLY[@]}"'
    command = ["bash", "-c", f"{script}\n{given}\n{shows}"]
    return subprocess.run(command, cwd=folder, capture_output=True, text=True, check=True).stdout.splitlines()


class OfAHelp(unittest.TestCase):
    def test_parse(self):
        about, usage, sections = parse(HELP)
        self.assertEqual((about, usage), ("Writes inputs again", "again [OPTIONS] <MODE> [FILE]..."))
        self.assertEqual([given for given, _ in sections["Options"]], ["-m, --max <N>", "-h, --help"])
        self.assertEqual(sections["Exit status"], [("0", "All is well"), "No other."])

    def test_page(self):
        text = page("again", "1.2.3", HELP)
        self.assertIn('.TH AGAIN 1 "" "again 1.2.3"', text)
        self.assertIn(".B \\-m, \\-\\-max <N>\nStop after N lines", text)
        self.assertIn(".SH EXIT STATUS\n.TP\n.B 0\nAll is well\n.PP\nNo other.", text)

    def test_completions_in_bash(self):
        if not shutil.which("bash"):
            self.skipTest("bash is not installed")
        script = completions("again", HELP)
        with tempfile.TemporaryDirectory() as folder:
            for name in FILES:
                (Path(folder) / name).touch()
            for words, want in [
                (["again", ""], ["copy", "lower"]),
                (["again", "--max", "3", "l"], ["lower"]),
                (["again", "-m", "3", ""], ["copy", "lower"]),
                (["again", "-m", ""], [""]),
                (["again", "--m"], ["--max"]),
                (["again", "copy", "o"], ["one two"]),
                (["again", "copy", "one two", "i"], ["it's"]),
                (["again", "copy", "-"], ["--max", "--help"]),
            ]:
                self.assertEqual(completed(script, words, folder), want, words)

    def test_pages_without_a_warning(self):
        if not shutil.which("man"):
            self.skipTest("man is not installed")
        for program in PROGRAMS:
            with tempfile.NamedTemporaryFile("w", suffix=".1") as file:
                file.write(page(program, "1.2.3", help_of(program)))
                file.flush()
                shown = subprocess.run(["man", "--warnings=all", "-l", file.name], capture_output=True, text=True)
            self.assertEqual((shown.returncode, shown.stderr), (0, ""))
            for section in ("NAME", "SYNOPSIS", "DESCRIPTION", "MODES", "OPTIONS", "EXIT STATUS", "EXAMPLES", "SEE ALSO"):
                self.assertIn(f"\n{section}\n", shown.stdout)


if __name__ == "__main__":
    unittest.main()
