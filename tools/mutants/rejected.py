"""Shows that a test rejects each mutant that the prover accepts although it changes an answer. These are the lines of
survivors.txt whose reason names a test, as `rejected by CRATE::TEST`, or a row of a command, as `rejected by COMMAND, at "NAME"`;
`bin/test` stands for the `calls` of settings.txt. Plants each in a copy of the repository, and runs the test or the command: what
is named has to fail.
JOBS (2) are tried at once. Status 1: one of them is not rejected."""
import collections
import os
import re
import shutil
import signal
import subprocess
import tempfile
from concurrent.futures import ThreadPoolExecutor
from dataclasses import dataclass
from pathlib import Path

from judge import verdicts_of
from mutation import Crate
from operators import Mutant
from planting import copied, narrow, run_tests

# How a reason names a test, or a call.
TEST = re.compile(r"rejected by (\w+)::([\w:]+)")
CALL = re.compile(r'rejected by (.*), at "(.*)"')


@dataclass
class Survivor:
    """A mutant and what rejects it: a row of a command, or a test of a crate."""

    crate: str
    mutant: Mutant
    by: str
    tests: str = ""
    command: str = ""

    def __str__(self):
        by = f"{self.tests}::{self.by}" if self.tests else self.by
        return f"{self.crate} {self.mutant.function.file} {self.mutant.function.name}, {self.mutant.shown}: {by}"

    def plant(self, copy):
        """Writes the sources of the crate with this mutant, and returns the crate."""
        crate = Crate(copy, self.crate)
        crate.write([self.mutant], True)
        return crate


def listed(settings, only):
    """The survivors whose reason names what rejects them: those that were judged, or all of that name if none was."""
    lines = [it.split("\t") for it in settings.lines("survivors.txt")]
    reasons = {tuple(line[:4]): line[4] for line in lines if re.search(only, "\t".join(line))}
    found = []
    for name in dict.fromkeys(key[0] for key in reasons):
        verdicts, named = verdicts_of(settings, name), collections.defaultdict(list)
        for kinds in (("survived",), (None,)):
            left = {key for key in reasons if key not in named}
            for m in verdicts.mutants(kinds):
                key = (name, m.function.file, m.function.name, m.shown.partition(": ")[2])
                if key in left:
                    named[key].append(m)
        found += [survivor(name, m, reasons[key]) for key, mutants in named.items() for m in mutants]
    return [it for it in found if it]


def survivor(crate, mutant, reason):
    """A mutant with what rejects it, or nothing if the reason names nothing."""
    call, test = CALL.search(reason), TEST.search(reason)
    if call:
        return Survivor(crate, mutant, call[2], command="" if call[1] == "bin/test" else call[1])
    return Survivor(crate, mutant, test[2], test[1]) if test else None


def by_test(settings, survivor, folder):
    """Whether the test of a survivor fails with it."""
    copy = copied(settings.root, folder, False)
    narrow(copy / "crates" / survivor.tests, [survivor.by])
    survivor.plant(copy)
    ran, failed, said = run_tests(copy / "crates" / survivor.tests)
    shutil.rmtree(folder)
    return told(survivor, bool(failed), "" if ran else said)


def by_calls(settings, survivors, folder):
    """How many of the survivors change the row of their command that has to reject them."""
    copy, count = copied(settings.root, folder, True) if survivors else folder, 0
    for it in survivors:
        crate = it.plant(copy)
        count += told(it, *called(settings, it, copy))
        crate.write([], True)
    return count


def called(settings, survivor, copy):
    """Whether the named call fails, after which no more are made; and what was said, if the program was not built."""
    said = ""
    with subprocess.Popen(
        (survivor.command or settings.calls.format(crate=survivor.crate)).split(), cwd=copy, text=True, stdin=subprocess.DEVNULL, stdout=subprocess.PIPE,
        stderr=subprocess.STDOUT, errors="replace", start_new_session=True,
    ) as started:  # fmt: skip
        for line in started.stdout:
            said += line
            if f": {survivor.by}: " in f": {line}":
                os.killpg(started.pid, signal.SIGTERM)
                return True, ""
    return False, "" if " passed, " in said else said


def told(survivor, rejected, said):
    print(f"{survivor} {'rejects it' if rejected else 'DOES NOT REJECT IT'}", flush=True)
    if not rejected:
        print(said[-2000:], flush=True)
    return rejected


def arguments(asks):
    asks.add_argument("--only", default="", metavar="WORD", help="the lines that match an expression")
    asks.add_argument("--list", action="store_true", help="print the survivors, and try none")


def run(settings, given):
    found = listed(settings, given.only)
    if given.list:
        print("\n".join(map(str, found)))
        return 0
    jobs = int(os.environ.get("JOBS", "2"))
    tests, calls = [it for it in found if it.tests], [it for it in found if not it.tests]
    with tempfile.TemporaryDirectory(prefix="survivors-") as scratch, ThreadPoolExecutor(jobs) as pool:
        folder = Path(scratch)
        asked = [pool.submit(by_test, settings, it, folder / f"test{n}") for n, it in enumerate(tests)]
        asked += [pool.submit(by_calls, settings, calls[n::jobs], folder / f"calls{n}") for n in range(jobs)]
        rejected = sum(it.result() for it in asked)
    print(f"{len(found)} survivors, {len(found) - rejected} of them not rejected")
    return 0 if rejected == len(found) else 1
