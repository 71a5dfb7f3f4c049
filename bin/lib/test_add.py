"""Tests of bin/add, over a small repository and a toolchain that only tells its version: `python3 bin/lib/test_add.py`."""
import json
import os
import shutil
import subprocess
import tarfile
import tempfile
import unittest
from pathlib import Path

ADD = Path(__file__).resolve().parents[1] / "add"
LINES = {"low": "low: std", "high": "high: low std"}


class Adding(unittest.TestCase):
    def setUp(self):
        folder = tempfile.TemporaryDirectory()
        self.addCleanup(folder.cleanup)
        self.top = Path(folder.name)
        self.source, self.dest, tools = (self.top / name for name in ("source", "dest", "tools"))
        for it in (self.source / "bin", self.dest, tools):
            it.mkdir(parents=True)
        shutil.copy(ADD, self.source / "bin" / "add")
        self.write(tools / "rt", "#!/bin/sh\necho toolchain 1\n").chmod(0o755)
        self.path = f"{tools}:/usr/bin:/bin"
        self.write(self.source / "crates.txt", "".join(f"{line}\n" for line in LINES.values()))
        for name in LINES:
            self.write(self.source / "crates" / name / "src" / "lib.rt", f"the first {name}\n")
            self.write(self.source / "crates" / name / "out" / "proof", "proved\n")

    def write(self, file, text):
        file.parent.mkdir(parents=True, exist_ok=True)
        file.write_text(text)
        return file

    def add(self, *words, path=None):
        """The status of a call, and its last line."""
        command = [self.source / "bin" / "add", *words]
        ran = subprocess.run(command, capture_output=True, text=True, env={"PATH": path or self.path})
        return ran.returncode, (ran.stderr.splitlines() or [""])[-1]

    def text_of(self, name):
        return (self.dest / "crates" / name / "src" / "lib.rt").read_text()

    def change(self, *names):
        """A newer state of the source."""
        for name in names:
            self.write(self.source / "crates" / name / "src" / "lib.rt", f"the second {name}\n")

    def assert_whole(self, state, names=("low", "high")):
        """Each crate is there in this state, with its line, and nothing else."""
        self.assertEqual([self.text_of(name) for name in names], [f"the {state} {name}\n" for name in names])
        self.assertEqual((self.dest / "crates.txt").read_text(), "".join(f"{LINES[name]}\n" for name in names))
        self.assertEqual(sorted(os.listdir(self.dest)), ["ADDED", "HANDLES", "crates", "crates.txt"])
        self.assertEqual(sorted(os.listdir(self.dest / "crates")), sorted(names))

    def test_a_crate_brings_those_below(self):
        self.assertEqual(self.add(self.dest, "high"), (0, f"bin/add: added to {self.dest}: low high"))
        self.assert_whole("first")

    def test_an_update_brings_the_newer_state(self):
        self.add(self.dest, "high")
        self.change("low", "high")
        self.assertEqual(self.add(self.dest, "high")[0], 0)
        self.assert_whole("first")
        self.assertEqual(self.add("--update", self.dest)[0], 0)
        self.assert_whole("second")

    def test_a_change_of_the_user_is_not_lost(self):
        self.add(self.dest, "high")
        self.change("low", "high")
        self.write(self.dest / "crates" / "high" / "src" / "lib.rt", "my own\n")
        status, said = self.add("--update", self.dest)
        self.assertEqual((status, said), (65, f"bin/add: {self.dest}/crates/high was changed since it was added: --force replaces it"))
        self.assertEqual((self.text_of("low"), self.text_of("high")), ("the first low\n", "my own\n"))
        self.assertEqual(self.add("--update", "--force", self.dest)[0], 0)
        self.assert_whole("second")

    def test_a_crate_without_a_checksum_is_left(self):
        self.add(self.dest, "low")
        self.write(self.dest / "ADDED", "low abc\n")
        status, said = self.add("--update", self.dest)
        self.assertEqual((status, said), (65, f"bin/add: {self.dest}/crates/low has no checksum in ADDED: --force replaces it"))
        self.assertEqual(self.add("--update", "--force", self.dest)[0], 0)
        self.assert_whole("first", ["low"])

    def test_what_a_check_made_is_no_change(self):
        self.add(self.dest, "high")
        self.write(self.dest / "crates" / "high" / "out" / "newer", "proved\n")
        self.assertEqual(self.add("--update", self.dest)[0], 0)

    def test_a_crate_of_the_user_is_not_replaced(self):
        self.write(self.dest / "crates" / "low" / "src" / "lib.rt", "my own\n")
        self.assertEqual(self.add(self.dest, "high")[0], 65)
        self.assertEqual(self.text_of("low"), "my own\n")

    def test_another_line_is_not_replaced(self):
        self.write(self.dest / "crates.txt", "low: memchr\n")
        self.assertEqual(self.add(self.dest, "high")[0], 65)
        self.assertEqual((self.dest / "crates.txt").read_text(), "low: memchr\n")

    def stop_in(self, function, *words):
        """A call that ends without a word when one of its functions is called the second time."""
        text = ADD.read_text()
        stopped = f"\ndef stopped(*_, seen=[]):\n    seen.append(0)\n    return os._exit(9) if len(seen) == 2 else kept(*_)\n\n\nkept, {function} = {function}, stopped\n"
        at = text.index('\nif __name__ == "__main__":')
        self.write(self.source / "bin" / "stopped", text[:at] + stopped + text[at:]).chmod(0o755)
        command = [self.source / "bin" / "stopped", *words]
        self.assertEqual(subprocess.run(command, env={"PATH": self.path}, capture_output=True).returncode, 9)

    def test_after_a_call_that_was_stopped_the_next_one_does_the_rest(self):
        for function in "sum_of", "write", "note":
            with self.subTest(function):
                self.stop_in(function, self.dest, "high")
                self.assertEqual(self.add(self.dest, "high")[0], 0)
                self.assert_whole("first")
                shutil.rmtree(self.dest)
                self.dest.mkdir()

    def test_after_an_update_that_was_stopped_the_next_one_does_the_rest(self):
        self.add(self.dest, "high")
        self.change("low", "high")
        for function in "sum_of", "write", "note":
            with self.subTest(function):
                self.stop_in(function, "--update", self.dest)
                self.assertEqual(self.add("--update", self.dest)[0], 0)
                self.assert_whole("second")

    def archive(self, *parts):
        release = {"version": "0.1.0", "commit": "abc", "toolchain": "toolchain 1"}
        self.write(self.source / "RELEASE", json.dumps(release))
        file = self.top / "release.tar.gz"
        with tarfile.open(file, "w:gz") as packed:
            for name in parts:
                packed.add(self.source / name, name)
        return file

    def test_crates_come_from_an_archive(self):
        file = self.archive("RELEASE", "crates.txt", "crates")
        self.assertEqual(self.add("--from", file, self.dest, "high")[0], 0)
        self.assert_whole("first")

    def test_what_is_no_archive_is_rejected(self):
        whole = self.archive("RELEASE", "crates.txt", "crates").read_bytes()
        broken = self.archive("RELEASE", "crates.txt", "crates")
        for content in b"", b"no archive", whole[:-9], whole[:100], self.archive("crates").read_bytes():
            broken.write_bytes(content)
            status, said = self.add("--from", broken, self.dest, "high")
            self.assertEqual((status, said), (66, f"bin/add: {broken} is not an archive that bin/release wrote, or is cut short"))
            self.assertEqual(os.listdir(self.dest), [])

    def test_each_fault_has_its_status(self):
        for status, *words in (64,), (64, self.dest), (64, "--force", self.dest), (64, "--what", self.dest), (66, self.top / "none", "low"), (66, self.dest, "none"):
            self.assertEqual(self.add(*words)[0], status, words)
        self.assertEqual(self.add(self.dest, "low", path="/usr/bin:/bin"), (69, "bin/add: the toolchain's command rt is not on PATH"))

    def test_two_calls_at_once(self):
        command = [self.source / "bin" / "add", self.dest, "high"]
        calls = [subprocess.Popen(command, env={"PATH": self.path}, stderr=subprocess.DEVNULL) for _ in range(4)]
        self.assertEqual([it.wait() for it in calls], [0] * 4)
        self.assert_whole("first")

    @unittest.skipIf(os.geteuid() == 0, "root may write everywhere")
    def test_a_folder_that_cannot_be_written(self):
        self.dest.chmod(0o500)
        self.assertEqual(self.add(self.dest, "high")[0], 73)


if __name__ == "__main__":
    unittest.main()
