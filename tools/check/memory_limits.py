"""Calls of the programs with little memory, by a limit on the address space. Such a call reports that there is none
and writes nothing; or it writes its whole output; or it cannot start, and the loader or a signal ends it. The least
limits at which a program starts, and at which it writes its output, are searched. With little stack, a call writes its
whole output, or a signal ends it."""
import os
import resource
import subprocess
import tempfile
import unittest
from collections import namedtuple
from pathlib import Path

CRATES = Path(__file__).resolve().parents[2] / "crates"
INPUT = b"ab\tc\r\n" * 4000
# The most KiB that a program is given, and how close the search for a limit comes.
MOST, STEP = 262_144, 4
# A call under limits. Some run writes each of `lines` and, if `unread`, some run fails before it reads any input.
Limited = namedtuple("Limited", "name arguments lines unread", defaults=[False])
# A run: `writes` are those to standard error, `answer` is whole, none, unloaded, signal or other.
Run = namedtuple("Run", "kib status answer writes has_read")
NO_MEMORY = [b"no memory\n"]
OF_FILTER = [b"ascii_filter: no memory\n", b"ascii_filter: (standard input): no memory\n"]
CALLS = {
    "ascii_show": [
        *[Limited(f"{mode} with little memory", [mode], NO_MEMORY) for mode in "copy lines tac caret json".split()],
        Limited("ends with little memory", ["ends", "FBBF"], NO_MEMORY),
        Limited("ends -s with little memory", ["ends", "-s", "FBBF"], NO_MEMORY),
        Limited("edit with little memory", ["edit", "i1:def", "r0", "u", "p" + "0" * 50_000], NO_MEMORY),
        Limited("edit of four words with little memory", ["edit", *"uuuu"], NO_MEMORY),
        Limited("no memory for a script of 130,000 letters", ["ends", "F" * 130_000], NO_MEMORY, True),
        Limited("no memory for 100,000 words", ["edit", *["o"] * 100_000], NO_MEMORY, True),
    ],
    "ascii_filter": [
        *[Limited(f"{mode} with little memory", [mode], OF_FILTER[1:]) for mode in ("copy", "json", "check")],
        Limited("no memory for 30,000 files", ["copy", *["-"] * 30_000], OF_FILTER[:1]),
    ],
}


def run_apart(command, **streams):
    """Runs a command for at most a minute. Its `stderr` is a tuple of what it wrote there, at most 16 times: a text for
    each write."""
    reads, writes = os.pipe2(os.O_DIRECT)
    try:
        try:
            ran = subprocess.run(command, stderr=writes, timeout=60, **streams)
        finally:
            os.close(writes)
        ran.stderr = tuple(iter(lambda: os.read(reads, 65_536), b""))
        return ran
    finally:
        os.close(reads)


class Limits(unittest.TestCase):
    """The runs of one call under many limits."""

    def __init__(self, crate, call):
        super().__init__()
        self.crate, self.call, self.runs = crate, call, []
        self.program = str(CRATES / crate / "out" / crate)

    def limited(self, kib):
        """One run: the program reads a file, so that its position tells whether anything was read."""
        limit = lambda: resource.setrlimit(resource.RLIMIT_AS, (kib * 1024, kib * 1024))
        command = [self.program, *self.call.arguments]
        with open(self.input, "rb") as given:
            try:
                ran = run_apart(command, stdin=given, stdout=subprocess.PIPE, preexec_fn=limit)
            except OSError:
                ran = subprocess.CompletedProcess(command, 126, b"", ())
            has_read = os.lseek(given.fileno(), 0, os.SEEK_CUR) > 0
        self.runs.append(Run(kib, ran.returncode, self.kind(ran), ran.stderr, has_read))
        return self.runs[-1]

    def kind(self, ran):
        if ran.returncode == 0:
            return "whole" if (ran.stdout, ran.stderr) == (self.whole, ()) else "other"
        if ran.stdout:
            return "other"
        if ran.returncode == 3:
            return "none" if ran.stderr in [(line,) for line in NO_MEMORY + OF_FILTER] else "other"
        if ran.returncode in (126, 127):
            return "unloaded"
        return "signal" if ran.returncode < 0 and not ran.stderr else "other"

    def least(self, is_enough):
        """The least limit, in KiB, whose run passes the test."""
        low, high = 0, MOST
        while low + STEP < high:
            middle = (low + high) // 2
            low, high = (low, middle) if is_enough(self.limited(middle)) else (middle, high)
        return high

    def runTest(self):
        with tempfile.NamedTemporaryFile() as file:
            file.write(INPUT)
            file.flush()
            self.input = file.name
            self.whole = subprocess.run([self.program, *self.call.arguments], input=INPUT, capture_output=True).stdout
            begins = self.least(lambda run: 0 <= run.status < 126)
            enough = self.least(lambda run: run.status == 0)
            for k in range(1, 16):
                self.limited(begins + (enough - begins) * k // 16)
            for k in range(1, 5):
                self.limited(begins * k // 5)
        self.assertEqual(self.faults(), [])

    def faults(self):
        """What is wrong: a signal after a lower limit at which the loader or the program reported, the loader after the
        program, and a line that no run wrote."""
        wrong, loads, begins = [], False, False
        for run in sorted(self.runs):
            if run.answer == "other" or run.answer == "signal" and loads or run.answer == "unloaded" and begins:
                wrong.append(f"at {run.kib} KiB: {run}")
            begins = begins or run.answer in ("none", "whole")
            loads = loads or begins or run.status == 127
        heard = {run.writes for run in self.runs if run.answer == "none"}
        wrong += [f"no run wrote {line}" for line in self.call.lines if (line,) not in heard]
        if not any(run.answer == "whole" for run in self.runs):
            wrong.append("no run had enough memory")
        if self.call.unread and all(run.has_read for run in self.runs if run.answer == "none"):
            wrong.append("each run without memory had read some of its input")
        return wrong


class Stacks(unittest.TestCase):
    """The runs of one mode under limits on the stack, in KiB; `ENOUGH` is enough for each."""

    ENOUGH = 64

    def __init__(self, crate, arguments):
        super().__init__()
        self.call = Limited(f"{' '.join(arguments)} with little stack", arguments, [])
        self.program = str(CRATES / crate / "out" / crate)

    def limited(self, kib):
        limit = lambda: resource.setrlimit(resource.RLIMIT_STACK, (kib * 1024, kib * 1024))
        command = [self.program, *self.call.arguments]
        try:
            ran = subprocess.run(command, input=INPUT, capture_output=True, timeout=60, env={}, preexec_fn=limit)
        except OSError:
            return 126, b""
        return ran.returncode, ran.stdout

    def runTest(self):
        whole = self.limited(8192)
        self.assertEqual(whole[0], 0)
        runs = {kib: self.limited(kib) for kib in range(4, 2 * self.ENOUGH, 4)}
        wrong = {kib: run for kib, run in runs.items() if run != whole and (run[0] == 0 or kib >= self.ENOUGH)}
        self.assertEqual(wrong, {})


STACKS = {
    "ascii_show": [["copy"], ["tac"], ["ends", "-s", "FBBF"], ["edit", "i1:def", "r0", "u"], ["json"]],
    "ascii_filter": [["copy"], ["lines"], ["caret"], ["json"], ["check", "-c"]],
}


def tests(crate):
    return [Limits(crate, call) for call in CALLS.get(crate, [])] + [Stacks(crate, words) for words in STACKS.get(crate, [])]
