"""The guard around a judge, what is held to be read under it, and the search for a retrieval that reads more."""
import subprocess
import sys
import unittest
from pathlib import Path
from random import Random

from fuzz import bounded_worst
from fuzz.bounded_worst import FULLEST, Case, all_leaves, fast_first, final
from judges.guarded_judge import GREATEST, bounded, listed, most_reads, parts
from judges.judge_reads import JUDGES, Facts

TOOL = Path(__file__).resolve().parents[1] / "fuzz/bounded_worst.py"


def facts(building=False, scan=0, scanned=1, kept=0, estimate=17, spent=1, projected=1, guaranteed=100) -> Facts:
    return Facts(building, scan, scanned, kept, estimate, spent, projected, guaranteed, 0)


def ran(*words: str) -> subprocess.CompletedProcess:
    return subprocess.run([sys.executable, str(TOOL), *words], capture_output=True, text=True, timeout=300, check=False)


class Guard(unittest.TestCase):
    def test_shares_come_to_less_than_is_guaranteed(self):
        for guaranteed in range(1, 300):
            self.assertLess(sum(guaranteed // parts(scan) for scan in range(70)), guaranteed)
        self.assertEqual([parts(scan) for scan in range(6)], [8, 2, 4, 16, 32, 64])

    def test_what_is_sunk_or_listed_drops_a_scan_and_asks_nobody(self):
        rule = bounded(lambda _: self.fail("it is asked"))
        for asked in (facts(spent=14), facts(scan=1, spent=51), facts(scan=2, spent=26), facts(kept=100, scanned=100),
                      facts(scan=3, spent=8), facts(guaranteed=0), facts(projected=GREATEST)):  # fmt: skip
            self.assertEqual(rule(asked), "drop", asked)

    def test_else_the_judge_is_asked(self):
        for asked in (facts(spent=13), facts(scan=1, spent=50), facts(scan=2, spent=25), facts(kept=99, scanned=99), facts(scan=3, spent=7)):
            for answer in ("go on", "drop", "stop", "end"):
                self.assertEqual(bounded(lambda _: answer)(asked), answer, asked)
        self.assertEqual(bounded(JUDGES["patient"], leaves=False)(facts(spent=90)), "go on")

    def test_a_foreground_is_stopped_beside_a_long_list_alone(self):
        for kept, scan, answer in ((12, 0, "go on"), (13, 0, "stop"), (6, 1, "go on"), (7, 1, "stop")):
            told = facts(True, scan, scanned=40, kept=kept, estimate=40, projected=kept)
            self.assertEqual(bounded(JUDGES["patient"])(told), answer, told)
            self.assertEqual(bounded(JUDGES["patient"])(told._replace(building=False)), "go on", told)

    def test_keys_of_members_before_are_listed(self):
        alone = facts(scanned=20, kept=2, estimate=80, projected=12)  # four leaves and eight keys
        self.assertEqual([listed(alone), listed(alone._replace(projected=25))], [2, 15])


class Bounds(unittest.TestCase):
    def test_the_sums_are_not_above_what_is_told(self):
        for pages in [*range(1, 200), 513, 1000, 4096]:
            for scans in range(1, 9):
                self.assertLessEqual(all_leaves(pages, scans) + final(pages, pages), most_reads("background-only", pages, scans))
                self.assertLessEqual(all_leaves(pages, scans) + final(pages, pages, scans), most_reads("union", pages, scans))
        for pages in (1, 2, 3, 20, 60, 250, 1000):
            for scans in (1, 2, 3, 8):
                self.assertLessEqual(fast_first(pages, scans), most_reads("fast-first", pages, scans))
        self.assertIsNone(most_reads("sorted", 20, 3))

    def test_one_full_leaf_of_which_nobody_is_asked(self):
        case = Case(2, (bounded_worst.single,), True, 0, 1)
        for strategy in ("background-only", "fast-first"):
            reads, most = bounded_worst.tried(Random(1), strategy, case, bounded(JUDGES["patient"]))
            self.assertEqual(reads, 1 + FULLEST)
            self.assertGreaterEqual(most, reads)

    def test_starved_scans_cost_their_shares(self):
        case = Case(64, (bounded_worst.starve,) * 3, True, 0, 0)
        reads, most = bounded_worst.tried(Random(1), "background-only", case, bounded(JUDGES["patient"]))
        self.assertEqual(reads, (1 + 8) + (1 + 32) + (1 + 16) + 64)
        self.assertLessEqual(reads, most)


class Search(unittest.TestCase):
    def test_none_is_found_under_the_guard(self):
        told = ran("--tries", "25", "--seed", "3")
        self.assertEqual((told.returncode, told.stderr), (0, ""))
        self.assertEqual(told.stdout.splitlines()[-1], "150 retrievals tried, 0 above the bound")
        self.assertIn("race: 25 tried, 0 of them above what they may read", told.stdout)

    def test_some_are_found_where_what_is_sunk_is_forgotten(self):
        told = ran("--tries", "60", "--strategies", "background-only,race", "--forget")
        self.assertEqual((told.returncode, told.stderr), (1, ""))
        self.assertRegex(told.stdout.splitlines()[-1], r"^120 retrievals tried, [1-9]\d* above the bound$")

    def test_some_are_found_under_threshold_alone(self):
        told = ran("--tries", "60", "--strategies", "background-only", "--alone", "threshold")
        self.assertRegex(told.stdout.splitlines()[-1], r"^60 retrievals tried, [1-9]\d* above the bound$")

    def test_a_strategy_that_is_none(self):
        told = ran("--strategies", "table")
        self.assertEqual(told.returncode, 2)
        self.assertIn("there is no strategy table", told.stderr)


if __name__ == "__main__":
    unittest.main()
