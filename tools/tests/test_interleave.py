"""Orders and outcomes of small scripts, among them write skew."""
import shutil
import subprocess
import sys
import unittest
from collections import Counter
from pathlib import Path

from shell.interleave import Namer, by_model, every_order, how_many, outcomes, phases, random_orders

TOP = Path(__file__).resolve().parents[2]
FOLDER = TOP / "tools/tests/interleavings"
PROGRAM = [sys.executable, str(TOP / "tools/shell/interleave.py")]


class Interleave(unittest.TestCase):
    def test_orders(self):
        counts = Counter({2: 3, 3: 2, 5: 1})
        orders = list(every_order(counts))
        self.assertEqual(len(orders), how_many(counts))
        self.assertEqual(len(set(orders)), 60)
        self.assertTrue(all(Counter(order) == counts for order in orders))

    def test_random_orders_are_different_and_repeat_with_the_seed(self):
        counts = Counter({2: 4, 3: 4})
        orders = list(random_orders(counts, 20, 1))
        self.assertEqual(len(set(orders)), 20)
        self.assertEqual(orders, list(random_orders(counts, 20, 1)))
        self.assertEqual(len(list(random_orders(counts, 1000, 1))), how_many(counts))

    def test_sessions_for_numbers(self):
        namer = Namer()
        self.assertEqual(namer.named(2, "began 7"), "began")
        self.assertEqual(namer.named(3, "held 4 by 7"), "held 4 by session 2")
        self.assertEqual(namer.named(2, "committed 3"), "committed")
        self.assertEqual(namer.named(3, "changed 4 by 3"), "changed 4 by session 2")
        self.assertEqual(namer.named(3, "row 5"), "row 5")

    def test_first_updater_wins(self):
        script = "1 CREATE TABLE T (A BIGINT)\n1 BEGIN\n1 INSERT INTO T VALUES (0)\n1 COMMIT\n--\n"
        script += "".join(f"{s} BEGIN\n{s} UPDATE T SET A = {s}\n{s} COMMIT\n" for s in (2, 3))
        of = phases(script, 2)
        told = outcomes(of, every_order(Counter({2: 3, 3: 3})), by_model(0, 1), False)
        both = [outcome.orders for outcome in told if outcome.replies.count("touched 1") == 2]
        # both go through exactly where one of them has committed before the other one begins
        self.assertEqual(sum(both), 2)
        self.assertEqual(sum(outcome.orders for outcome in told), 20)

    def test_expected_outcomes_of_files(self):
        for script in sorted(FOLDER.glob("*.script")):
            ran = subprocess.run([*PROGRAM, script, "--expected", script.with_suffix(".expected")], capture_output=True, check=False)
            self.assertEqual((ran.returncode, ran.stdout), (0, b""), script)

    def test_difference_is_told(self):
        script = FOLDER / "write-skew.script"
        ran = subprocess.run([*PROGRAM, script, "--numbers", "--expected", script.with_suffix(".expected")], capture_output=True, check=False)
        self.assertEqual(ran.returncode, 1)
        self.assertIn(b"+++ this run", ran.stdout)

    def test_phase_without_calls(self):
        ran = subprocess.run([*PROGRAM, FOLDER / "write-skew.script", "--phase", "99"], capture_output=True, check=False)
        self.assertEqual(ran.returncode, 2)
        self.assertIn(b"begins the next phase", ran.stderr)

    def test_too_many_orders_are_refused(self):
        ran = subprocess.run([*PROGRAM, FOLDER / "write-skew.script", "--most", "5"], capture_output=True, check=False)
        self.assertEqual(ran.returncode, 2)
        self.assertIn(b"give --random", ran.stderr)

    def test_program_that_does_not_answer(self):
        for program, words in (("true", b"answered 0 of "), ("false", b"ended with status 1")):
            ran = subprocess.run([*PROGRAM, FOLDER / "write-skew.script", "--program", shutil.which(program)], capture_output=True, check=False)
            self.assertEqual((ran.returncode, ran.stdout, ran.stderr.count(b"\n")), (2, b"", 1))
            self.assertIn(words, ran.stderr)


if __name__ == "__main__":
    unittest.main()
