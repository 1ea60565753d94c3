"""The Python module over the slow model."""
import subprocess
import sys
import tempfile
import unittest
from pathlib import Path

from shell import rvdyn

TOP = Path(__file__).resolve().parents[2]


class Databases(unittest.TestCase):
    def setUp(self):
        self.db = rvdyn.open(model=True)
        self.addCleanup(self.db.close)

    def test_rows_are_tuples(self):
        self.db.call("CREATE TABLE T (A BIGINT, B VARCHAR(8))")
        self.assertEqual(self.db.call("BEGIN"), "began 1")
        for row in ["1, 'it''s'", "-2, NULL", "3, 'a, b'"]:
            self.db.call(f"INSERT INTO T VALUES ({row})")
        self.assertEqual(self.db.call("COMMIT"), "committed 1")
        self.db.call("BEGIN", session=2)
        self.assertEqual(list(self.db.rows("SELECT * FROM T ORDER BY A", session=2)), [(-2, None), (1, "it's"), (3, "a, b")])
        # the cursor was closed, also where not all is taken
        self.assertEqual(next(self.db.rows("SELECT A FROM T ORDER BY A", session=2)), (-2,))
        self.assertEqual(self.db.call("OPEN ROWS_OF SELECT A FROM T", session=2), "opened")

    def test_a_trace_is_a_dict(self):
        for text in ["CREATE TABLE T (A BIGINT)", "CREATE INDEX I ON T (A)", "BEGIN", "INSERT INTO T VALUES (1)", "COMMIT", "BEGIN", "OPEN C SELECT * FROM T WHERE A = 1"]:
            self.db.call(text)
        self.assertEqual(self.db.call("FETCH C"), (1,))
        self.assertIsNone(self.db.call("FETCH C"))
        trace = self.db.trace("C")
        self.assertEqual(sorted(trace), ["events", "fetches", "leaves", "pages", "strategy"])
        told = "trace fast-first building scan IA list IA 20 final-list done pages 0 leaves 2 fetches 20"
        self.assertEqual(
            rvdyn.trace_of(told),
            {"strategy": "fast-first", "events": [("building",), ("scan", "IA"), ("list", "IA", "20"), ("final-list",), ("done",)], "pages": 0, "leaves": 2, "fetches": 20},
        )

    def test_what_is_refused(self):
        with self.assertRaisesRegex(rvdyn.Refused, "^syntax$"):
            self.db.call("COMIT")
        with self.assertRaisesRegex(rvdyn.Refused, "^no transaction$"):
            self.db.call("COMMIT", session=8)
        for session, text in [(0, "BEGIN"), (9, "BEGIN"), (1, "A\nB"), (1, "x" * 4095)]:
            with self.assertRaises(ValueError):
                self.db.call(text, session)
        self.db.mark(2)
        self.assertEqual(self.db.call("BEGIN"), "began 1")

    def test_an_engine_that_ends(self):
        with self.assertRaisesRegex(rvdyn.Ended, "status 2: script: line 1 has no session"):
            self.db.write("9 BEGIN")
            self.db.reply("BEGIN")
        with tempfile.TemporaryDirectory() as folder:
            program = Path(folder, "program")
            program.write_text("#!/bin/sh\nexit 4\n", encoding="utf-8")
            program.chmod(0o755)
            with rvdyn.open(program=str(program)) as db, self.assertRaisesRegex(rvdyn.Ended, "status 4"):
                db.call("BEGIN")

    def test_a_judge_by_its_name(self):
        with tempfile.TemporaryDirectory() as folder:
            program = Path(folder, "program")
            program.write_bytes(b"\x7fELF")
            program.chmod(0o755)
            with self.assertRaisesRegex(ValueError, "takes a judge by its number: .* 'bounded'"):
                rvdyn.open("bounded", program=str(program))
            # a script picks the program by the name
            program.write_text('#!/bin/sh\necho "$@" >&2\nexit 4\n', encoding="utf-8")
            with rvdyn.open("bounded", program=str(program)) as db, self.assertRaisesRegex(rvdyn.Ended, "status 4: --line --judge bounded --steps 1$"):
                db.call("BEGIN")


class Example(unittest.TestCase):
    def test_phone_book(self):
        told = subprocess.run([sys.executable, TOP / "examples/python/phone_book.py", "--model"], capture_output=True, check=True, text=True)
        self.assertEqual(told.stdout.splitlines(), ["commit: committed 1", "first: ('Ada', 17)", "then: [('Cleo', None)]", "refused: no transaction"])


if __name__ == "__main__":
    unittest.main()
