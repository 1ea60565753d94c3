"""The course of a cursor whose reads are known from the example's trace."""
import subprocess
import sys
import unittest
import xml.etree.ElementTree as ElementTree
from pathlib import Path

from shell.timeline import NotThere, Sought, courses_of, picture, runs, text, wrap

TOP = Path(__file__).resolve().parents[2]
SCRIPT = (TOP / "examples/change-of-path").read_text(encoding="utf-8")

TWO = """1 CREATE TABLE T (A BIGINT)
1 BEGIN
2 BEGIN
1 INSERT INTO T VALUES (1)
2 INSERT INTO T VALUES (2)
1 OPEN C SELECT * FROM T
2 OPEN D SELECT * FROM T
1 FETCH C
2 FETCH D
1 SHOW C
2 SHOW D
2 STEP D 1
1 STEP C 1
1 CLOSE C
1 OPEN C SELECT * FROM T
1 FETCH C
"""


class Timeline(unittest.TestCase):
    @classmethod
    def setUpClass(cls):
        (cls.threshold,) = courses_of(SCRIPT, Sought(1, ("C",), (1,)), 0, 1)
        (cls.patient,) = courses_of(SCRIPT, Sought(1, ("C",), (1,)), 1, 1)

    def test_reads_are_those_of_the_trace(self):
        for course in (self.threshold, self.patient):
            counts = [sum(len(step.reads(kind)) for step in course.steps) for kind in ("page", "leaf", "record")]
            self.assertTrue(course.trace.endswith("pages {} leaves {} fetches {}".format(*counts)), course.trace)

    def test_why_the_scan_is_dropped(self):
        rulings = [ruling for step in self.threshold.steps for ruling in step.reads("ruled")]
        self.assertEqual([ruling.verdict for ruling in rulings], ["go on", "go on", "go on", "drop"])
        last = rulings[-1]
        self.assertEqual((last.projected, last.guaranteed), (22, 20))
        self.assertGreaterEqual(20 * last.projected, 19 * last.guaranteed)

    def test_text(self):
        told = text([self.threshold], 64)
        self.assertIn("reads leaves 16-18 of BYDAY", told)
        self.assertIn("projected 22, guaranteed 20: drop", told)
        self.assertIn("reads pages 0-9", told)

    def test_judge_by_its_name(self):
        script = (TOP / "examples/sunk-leaves").read_text(encoding="utf-8")
        (course,) = courses_of(script, Sought(1, ("C",), (1,)), "bounded", 1)
        self.assertEqual((course.judge, sum(step.cost for step in course.steps)), ("bounded", 28))
        self.assertTrue(course.trace.endswith("final-table done pages 20 leaves 8 fetches 0"), course.trace)

    def test_two_judges_side_by_side(self):
        lines = text([self.threshold, self.patient], 64).split("\n")
        self.assertTrue(lines[2].startswith("judge threshold"))
        self.assertEqual(lines[2].split(" | ")[1], "judge patient")
        self.assertTrue(all(line[64:67] in (" | ", " |") for line in lines[2:-1]))

    def test_picture_is_well_formed_and_has_both_panels(self):
        root = ElementTree.fromstring(picture([[self.threshold, self.patient]]))
        texts = [element.text for element in root.iter("{http://www.w3.org/2000/svg}text")]
        self.assertIn("judge threshold: 26 reads", texts)
        self.assertIn("judge patient: 40 reads", texts)
        self.assertIn("dropped", texts)
        self.assertIn("list of 30", texts)

    def test_picture_of_the_docs_is_this_one(self):
        drawn = picture([[self.threshold, self.patient]])
        self.assertEqual((TOP / "docs/change-of-path.svg").read_text(encoding="utf-8"), drawn, "draw it anew: docs/TOOLS.md says how")

    def test_opening_that_is_not_there(self):
        for sought in (Sought(1, ("C",), (9,)), Sought(2, ("C",), ()), Sought(None, ("C", "E"), ()), Sought(None, (), (5,))):
            with self.assertRaises(NotThere, msg=sought):
                courses_of(SCRIPT, sought, None, 1)

    def test_several_cursors(self):
        lines = lambda sought: [(course.opened.line, len(course.steps)) for course in courses_of(TWO, sought, None, 1)]
        self.assertEqual(lines(Sought(None, ("C", "D"), (1,))), [(6, 4), (7, 4)])
        self.assertEqual(lines(Sought(None, ("C",), (1, 2))), [(6, 4), (15, 2)])
        self.assertEqual(lines(Sought(None, (), (3,))), [(15, 2)])
        self.assertEqual(lines(Sought(None, (), ())), [(6, 4), (7, 4), (15, 2)])
        self.assertEqual(lines(Sought(2, (), (1,))), [(7, 4)])

    def test_each_cursor_has_its_own_reads(self):
        first, second, third = courses_of(TWO, Sought(None, (), ()), None, 1)
        self.assertEqual([step.reads("page") for step in first.steps], [[], [0], [], []])
        self.assertEqual([course.trace for course in (first, second, third)], ["trace table final-table pages 1 leaves 0 fetches 0"] * 3)

    def test_picture_of_several(self):
        one = courses_of(TWO, Sought(None, (), (1,)), None, 1)
        height = lambda drawn: float(ElementTree.fromstring(drawn).get("height"))
        self.assertEqual(height(picture([one, one, one])), 3 * height(picture([one])))

    def test_runs_and_wrap(self):
        self.assertEqual(runs([3, 5, 6, 7, 9]), "3, 5-7, 9")
        self.assertEqual(wrap("    aa bb cc", 9), ["    aa bb", "      cc"])

    def test_program(self):
        command = [sys.executable, TOP / "tools/shell/timeline.py", TOP / "examples/first-steps", "--cursor", "NONE"]
        ran = subprocess.run(command, capture_output=True, check=False)
        self.assertEqual(ran.returncode, 1)
        self.assertIn(b"opened are: ", ran.stderr)
        self.assertIn(b" of session ", ran.stderr)

    def test_cursors_of_the_words(self):
        command = [sys.executable, TOP / "tools/shell/timeline.py", "-", "--cursor", "d", "--cursor", "C", "--opening", "1"]
        ran = subprocess.run(command, input=TWO, capture_output=True, text=True, check=False)
        self.assertEqual((ran.returncode, ran.stderr), (0, ""))
        heads = [line for line in ran.stdout.split("\n") if line.startswith("line ")]
        self.assertEqual(heads, ["line 6, session 1: OPEN C SELECT * FROM T", "line 7, session 2: OPEN D SELECT * FROM T"])

    def test_what_is_no_script(self):
        ran = subprocess.run([sys.executable, TOP / "tools/shell/timeline.py", "-"], input="1 BEGIN\nBEGIN\n", capture_output=True, text=True, check=False)
        self.assertEqual((ran.returncode, ran.stdout), (2, ""))
        self.assertTrue(ran.stderr.startswith("-:2: script: line 2 has no session (a line is"), ran.stderr)


if __name__ == "__main__":
    unittest.main()
