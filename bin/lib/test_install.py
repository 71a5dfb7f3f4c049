"""Tests of the arguments of bin/install, and of the version that it installs: `python3 bin/lib/test_install.py`."""
import re
import subprocess
import unittest
from pathlib import Path

TOP = Path(__file__).resolve().parents[2]
INSTALL = TOP / "bin/install"
USAGE = "bin/install: name the folder to install into, and nothing else: bin/install [--cpu NAME] [--c] PREFIX\n"


def called(*words):
    """The status of a call without the toolchain on PATH, and its standard error."""
    ran = subprocess.run([INSTALL, *words], capture_output=True, text=True, env={"PATH": "/usr/bin:/bin"})
    return ran.returncode, ran.stderr


class Arguments(unittest.TestCase):
    def test_one_folder_is_expected(self):
        for words in [], [""], ["--prefix"], ["one", "two"], ["--c"], ["--c", "--cpu", "x86-64"], ["--cpu", "x86-64-v3"], ["--cpu", "x86-64-v3", "--help"]:
            self.assertEqual(called(*words), (64, USAGE), words)

    def test_an_unknown_processor_is_rejected(self):
        for name in "", "pentium", "x86-64-v4", "one":
            want = f"bin/install: bad processor `{name}`: x86-64, x86-64-v2 or x86-64-v3\n"
            self.assertEqual(called("--cpu", name, "folder"), (64, want))
        self.assertEqual(called("--cpu")[0], 64)


class Version(unittest.TestCase):
    def test_the_header_has_the_version(self):
        header = (TOP / "crates/ascii_c/ascii.h").read_text(encoding="utf-8")
        said = re.search(r'ASCII_VERSION "(.*)"', header)[1]
        self.assertEqual(said, (TOP / "VERSION").read_text(encoding="utf-8").strip())


if __name__ == "__main__":
    unittest.main()
