"""What each task of the full check takes: CPU seconds, and seconds by the clock. A task's figures are the kernel's account of the
processes that it started. Those of the proofs in one `rt ci` are read from /proc ten times a second while they run.

The baseline times.txt begins with a line that has the commit that was checked, the number of processors and the seconds by the
clock in all: some tasks run beside each other. It has a line for each task: its name, its CPU seconds and its seconds by the
clock, with tabs between. `bin/docs tables` makes the table of docs/ARCHITECTURE.md from it. The last run is in times.new, which git leaves out: a run over no kept proofs can take the place of
the baseline. Machines differ, so a task is compared with the median of all tasks that ran."""
import os
import re
import resource
import statistics
import subprocess
import threading
import time
from contextlib import contextmanager
from pathlib import Path

FOLDER = Path(__file__).resolve().parent
BASELINE, LAST = FOLDER / "times.txt", FOLDER / "times.new"
TICKS = os.sysconf("SC_CLK_TCK")
# A task that takes less is not compared, and by how much a task may grow.
SMALL, GROWN = 20, 1.5
# How the names of the tasks begin that are watched in one `rt ci`.
PROOF = ("the proof of ", "the tests of ")


def of_children():
    used = resource.getrusage(resource.RUSAGE_CHILDREN)
    return used.ru_utime + used.ru_stime


def read(path):
    """The bytes of a file of /proc; none if its process has ended."""
    try:
        return Path(path).read_bytes()
    except OSError:
        return b""


def task_of(words):
    """What a command of the toolchain does: the proof of a crate or of its tests; nothing for another command."""
    if "--crate-name" not in words[:-1] or not re.search(r"/rattle$", words[0]):
        return ""
    crate = words[words.index("--crate-name") + 1]
    return PROOF["--test" in words] + crate


class Watch(threading.Thread):
    """Reads the times of the processes below this one until it is told to stop."""

    def __init__(self):
        super().__init__(daemon=True)
        self.over, self.used, self.names, self.seen = threading.Event(), {}, {}, {}

    def run(self):
        while not self.over.wait(0.1):
            self.look()

    def look(self):
        parents, used = {}, {}
        for pid in filter(str.isdigit, os.listdir("/proc")):
            _, found, rest = read(f"/proc/{pid}/stat").rpartition(b") ")
            if found:
                fields = rest.split()
                # (a number can be given again: the time at which the process began tells two of them apart)
                parents[pid], used[pid] = fields[1].decode(), (fields[19], (int(fields[11]) + int(fields[12])) / TICKS)
        for pid, (begun, seconds) in used.items():
            key = (pid, begun)
            # (what a process has just been started as is not yet the command that it carries out)
            if not self.names.get(key) and self.is_below(pid, parents):
                words = read(f"/proc/{pid}/cmdline").decode(errors="replace").split("\0")
                self.names[key] = task_of(words)
            if self.names.get(key):
                now = time.monotonic()
                self.used[key], self.seen[key] = seconds, (self.seen.get(key, (now,))[0], now)

    def is_below(self, pid, parents):
        while pid in parents and pid != "1":
            pid = parents[pid]
            if pid == str(os.getpid()):
                return True
        return False

    def tasks(self):
        """The tasks that were seen, with their CPU seconds and their seconds by the clock."""
        found = {}
        for key, seconds in self.used.items():
            first, last = self.seen[key]
            cpu, clock = found.get(self.names[key], (0, 0))
            found[self.names[key]] = (cpu + seconds, clock + last - first)
        return found


class Times:
    """The tasks of a run, which begins now."""

    def __init__(self):
        self.tasks, self.begun = {}, time.monotonic()

    @contextmanager
    def task(self, name, watched=False):
        """Counts what a task takes; of a watched one, what each proof takes and what is left."""
        watch, cpu, clock = Watch(), of_children(), time.monotonic()
        if watched:
            watch.start()
        try:
            yield
        finally:
            watch.over.set()
            if watched:
                watch.join()
            cpu, clock = of_children() - cpu, time.monotonic() - clock
            found = watch.tasks()
            self.tasks |= found
            self.tasks[name] = (max(0, cpu - sum(used for used, _ in found.values())), clock)

    def end(self):
        """Writes the figures, and returns them as lines with the tasks that grew."""
        clock = time.monotonic() - self.begun
        commit = subprocess.run(["git", "rev-parse", "--short=8", "HEAD"], cwd=FOLDER, capture_output=True, text=True).stdout.strip()
        lines = [f"{commit}\t{len(os.sched_getaffinity(0))}\t{clock:.0f}"]
        lines += [f"{name}\t{cpu:.0f}\t{took:.0f}" for name, (cpu, took) in self.tasks.items()]
        LAST.write_text("".join(f"{line}\n" for line in lines), encoding="utf-8")
        shown = [f"{cpu:6.0f} {took:6.0f}  {name}" for name, (cpu, took) in by_cost(self.tasks)]
        whole = f"{cpu_of(self.tasks):6.0f} {clock:6.0f}  in all"
        return ["CPU seconds, seconds by the clock:", *shown, whole, *grown(self.tasks, baseline())]


def by_cost(tasks):
    """The tasks, the one with the most CPU seconds first."""
    return sorted(tasks.items(), key=lambda it: -it[1][0])


def cpu_of(tasks):
    """The CPU seconds of all tasks."""
    return sum(cpu for cpu, _ in tasks.values())


def measured():
    """The first line of the figures in the repository, and the figures: none if no run is recorded."""
    head, *lines = [line.split("\t") for line in BASELINE.read_text(encoding="utf-8").splitlines() or ["\t\t"]]
    return head, {name: (float(cpu), float(clock)) for name, cpu, clock in lines}


def baseline():
    """The figures in the repository."""
    return measured()[1]


def grown(tasks, before):
    """A line for each task that takes much more than before, by what this machine takes for all of them."""
    both = [name for name in tasks if name in before and min(tasks[name][0], before[name][0]) >= 1]
    if not both:
        return []
    machine = statistics.median(tasks[name][0] / before[name][0] for name in both)
    found = [name for name in both if tasks[name][0] >= SMALL and tasks[name][0] > GROWN * machine * before[name][0]]
    return [f"{name} takes {tasks[name][0] / machine / before[name][0]:.1f} times as long as in times.txt" for name in found]
