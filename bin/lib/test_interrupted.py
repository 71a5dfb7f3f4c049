"""Interrupts each command at twenty moments, and calls it again: `python3 bin/lib/test_interrupted.py`. The commands are called in
a small repository, over a toolchain that proves nothing."""
import os
import shutil
import signal
import subprocess
import tarfile
import tempfile
import time
import unittest
from pathlib import Path

BIN = Path(__file__).resolve().parents[1]
MOMENTS = 20
# How many files a crate has: enough for most of the moments to be while files are written.
FILES = 20
CRATES = ["ascii_base", "ascii_search", "ascii", "ascii_formats", "ascii_keys", "ascii_devices", "ascii_run", "ascii_lines", "cookbook",
          "ascii_show", "ascii_filter"]
# A toolchain whose `rt check` and `rt run` leave what those of the true one leave.
RT = """#!/bin/sh
case $1 in
  version) echo toolchain 1 ;;
  check) for crate in ../*/; do mkdir -p "$crate/out/incremental" && echo proved >"$crate/out/incremental/proof"; done ;;
  run) mkdir -p out && printf '#!/bin/sh\\necho built\\n' >"out/${PWD##*/}" && chmod +x "out/${PWD##*/}" ;;
esac
"""


def content(file):
    """What a file contains: of an archive, which has the time, the names of its files."""
    if file.suffix != ".gz":
        return file.read_bytes()
    with tarfile.open(file) as archive:
        return archive.getnames()


def files_of(folder):
    """The files at or below a folder, with what they contain."""
    return {str(file.relative_to(folder)): content(file) for file in folder.rglob("*") if file.is_file() and file.name != "made.lock"}


class Commands(unittest.TestCase):
    def setUp(self):
        folder = tempfile.TemporaryDirectory()
        self.addCleanup(folder.cleanup)
        self.top = Path(folder.name)
        self.source, self.made = self.top / "source", self.top / "made"
        shutil.copytree(BIN, self.source / "bin", ignore=shutil.ignore_patterns("__pycache__"))
        for name in CRATES:
            (self.source / "crates" / name / "src").mkdir(parents=True)
            for number in range(FILES):
                (self.source / "crates" / name / "src" / f"file_{number}.rt").write_text(f"{name}\n" * number)
        (self.source / "crates.txt").write_text("".join(f"{name}:\n" for name in CRATES))
        (self.source / "HANDLES").write_text("Handles allowed: none.\n")
        (self.source / "VERSION").write_text("0.1.0\n")
        (self.source / ".gitignore").write_text("out/\n")
        (self.top / "bin").mkdir()
        (self.top / "KIT-ID").write_text("none\n")
        (self.top / "bin" / "rt").write_text(RT)
        (self.top / "bin" / "rt").chmod(0o755)
        self.environment = {**os.environ, "PATH": f"{self.top}/bin:{os.environ['PATH']}", "GIT_CONFIG_GLOBAL": "/dev/null"}
        user = ["-c", "user.name=a", "-c", "user.email=a@b"]
        for words in (["init", "-q"], ["add", "."], [*user, "commit", "-q", "-m", "all"]):
            subprocess.run(["git", *words], cwd=self.source, check=True, env=self.environment)

    def call(self, words, seconds=None):
        """Calls a command, and interrupts it after this time if one is given. Returns its status."""
        command = [self.source / "bin" / words[0], *words[1:]]
        streams = {"stdin": subprocess.DEVNULL, "stdout": subprocess.DEVNULL, "stderr": subprocess.DEVNULL}
        with subprocess.Popen(command, env=self.environment, start_new_session=True, **streams) as started:
            if seconds is not None:
                time.sleep(seconds)
                os.killpg(started.pid, signal.SIGINT)
            return started.wait(60)

    def interrupt(self, *words, before=(), made=None):
        """What a call leaves that was interrupted and made again is what a call leaves by itself."""
        made = made or self.made

        def prepare():
            shutil.rmtree(made, ignore_errors=True)
            self.made.mkdir(exist_ok=True)
            for words in before:
                self.assertEqual(self.call(words), 0)

        prepare()
        begun = time.monotonic()
        self.assertEqual(self.call(words), 0)
        took, left = time.monotonic() - begun, files_of(made)
        for moment in range(MOMENTS):
            with self.subTest(words[0], moment=moment):
                prepare()
                self.call(words, took * (moment + 0.5) / MOMENTS)
                self.assertEqual(self.call(words), 0)
                self.assertEqual(files_of(made), left)

    def test_add(self):
        self.interrupt("add", self.made, *CRATES)

    def test_update(self):
        self.interrupt("add", "--update", "--force", self.made, before=[("add", self.made, *CRATES)])

    def test_release(self):
        self.interrupt("release", self.made / "archive.tar.gz")

    def test_build(self):
        # Over a slow `rm`, some moments are while the folder of a build that counts is removed.
        (self.top / "bin" / "rm").write_text(f"#!/bin/sh\nsleep 0.05\nexec {shutil.which('rm')} \"$@\"\n")
        (self.top / "bin" / "rm").chmod(0o755)
        self.interrupt("ascii_filter", "--build", made=self.source / "crates" / "ascii_filter" / "out")

    def test_install(self):
        self.interrupt("install", self.made)


if __name__ == "__main__":
    unittest.main()
