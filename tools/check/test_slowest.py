"""Tests of how the seconds of a check are told by function: `python3 tools/check/test_slowest.py`."""
import sys
import unittest
from pathlib import Path

sys.dont_write_bytecode = True
sys.path.insert(0, str(Path(__file__).resolve().parent))
import slowest  # noqa: E402


class Seconds(unittest.TestCase):
    def test_a_part_is_named_by_its_function(self):
        for part, name in {
            "Rattle-exports-proofs.places.part_by.Lts": "places::part_by",
            "Rattle-exports-proofs.maps.AsciiMap.get.Tie.decls": "maps::AsciiMap::get",
            "Rattle-exports-specs.contracts.places.part_by.Key.decls": "places::part_by",
            "Rattle-exports-proofs.HeadLemmas.decls": "HeadLemmas",
        }.items():
            self.assertEqual(slowest.name_of(part, "exports"), name)

    def test_a_part_took_the_time_since_the_one_before(self):
        parts = {"Rattle-a-proofs.b.one.Lts": 7.0, "Rattle-a-proofs.b.one.Tie": 10.0, "Rattle-a-proofs.b.two.Lts": 12.0}
        self.assertEqual(slowest.seconds_of(parts, "a"), {"b::one": 3.0, "b::two": 2.0})


if __name__ == "__main__":
    unittest.main()
