"""Tests of the times of the check: `python3 tools/check/test_times.py`."""
import subprocess
import sys
import unittest
from pathlib import Path

sys.dont_write_bytecode = True
sys.path.insert(0, str(Path(__file__).resolve().parent))
import times  # noqa: E402


class Tasks(unittest.TestCase):
    def test_a_command_is_named_by_its_crate(self):
        words = "/opt/kit/bin/rattle build --crate-name ascii src/lib.rt".split()
        self.assertEqual(times.task_of(words), "the proof of ascii")
        self.assertEqual(times.task_of([*words, "--test"]), "the tests of ascii")
        self.assertEqual(times.task_of(["cc", "--crate-name", "ascii"]), "")

    def test_a_task_counts_its_children(self):
        took = times.Times()
        with took.task("a loop"):
            subprocess.run([sys.executable, "-c", "import time\nwhile time.process_time() < 0.3: pass"], check=True)
        self.assertGreater(took.tasks["a loop"][0], 0.2)

    def test_a_process_below_is_watched(self):
        took, name = times.Times(), times.task_of
        times.task_of = lambda words: "the loop" if "while" in words[-2] else ""
        try:
            with took.task("the rest", watched=True):
                subprocess.run([sys.executable, "-c", "import time\nwhile time.process_time() < 0.6: pass"], check=True)
        finally:
            times.task_of = name
        self.assertGreater(took.tasks["the loop"][0], 0.3)
        self.assertLess(took.tasks["the rest"][0], 0.4)

    def test_the_dearest_is_first(self):
        tasks = {"the proof of a": (20, 30), "the tests of a": (5, 30), "the rest of rt ci": (1, 40), "START": (2, 3)}
        self.assertEqual(times.cpu_of(tasks), 28)
        self.assertEqual([name for name, _ in times.by_cost(tasks)], ["the proof of a", "the tests of a", "START", "the rest of rt ci"])

    def test_a_task_that_grew_is_named(self):
        before = {"a": (100, 0), "b": (50, 0), "c": (10, 0)}
        self.assertEqual(times.grown({"a": (200, 0), "b": (100, 0), "c": (20, 0)}, before), [])
        self.assertEqual(times.grown({"a": (200, 0), "b": (200, 0), "c": (20, 0)}, before), ["b takes 2.0 times as long as in times.txt"])
        self.assertEqual(times.grown({"new": (9, 0)}, before), [])


if __name__ == "__main__":
    unittest.main()
