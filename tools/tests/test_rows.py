"""Rows of a transcript, as tables, CSV and JSON."""
import csv
import io
import json
import subprocess
import sys
import unittest
from argparse import Namespace
from pathlib import Path

from model.program import run, transcript
from shell import rows

TOP = Path(__file__).resolve().parents[2]

SCRIPT = """1 CREATE TABLE T (A BIGINT, B VARCHAR(9))
1 CREATE TABLE U (A BIGINT)
1 BEGIN
1 INSERT INTO T VALUES (7, 'it''s, ok')
1 INSERT INTO T VALUES (-9223372036854775808, NULL)
1 INSERT INTO T VALUES (NULL, '')
1 INSERT INTO U VALUES (1)
1 COMMIT
1 BEGIN
2 BEGIN
1 OPEN C SELECT * FROM T ORDER BY A
2 OPEN c SELECT B FROM T X WHERE A = 7
1 OPEN D SELECT X.A, B, U.A, Y.A, X.A FROM T X, U, U Y
1 FETCH C
2 FETCH C
1 FETCH D
1 FETCH C
1 OPEN C SELECT A FROM T
1 FETCH C
1 FETCH C
1 CLOSE C
1 OPEN C SELECT B FROM T WHERE A = 8
1 FETCH C
"""


def made(script: str) -> bytes:
    return transcript(run(script)).encode()


def words(**more) -> Namespace:
    return Namespace(**{"cursor": None, "session": None, "opening": None, "all": False, "csv": False, "json": False, "null": "", **more})


class Rows(unittest.TestCase):
    def setUp(self):
        self.found = rows.openings(made(SCRIPT))

    def told(self, **more) -> str:
        asked = words(**more)
        return "".join(rows.written(rows.chosen_of(self.found, asked), asked))

    def test_each_opening_has_its_own_rows_and_names(self):
        self.assertEqual([(opening.session, opening.cursor, opening.line, opening.ended) for opening in self.found],
                         [(1, "C", 21, True), (2, "C", 23, False), (1, "D", 25, False), (1, "C", 43, True)])  # fmt: skip
        self.assertEqual(self.found[0].columns, ["A", "B"])
        self.assertEqual(self.found[0].rows, [[None, ""], [-(2**63), None], [7, "it's, ok"]])
        self.assertEqual(self.found[2].columns, ["X.A_1", "B", "U.A", "Y.A", "X.A_2"])
        self.assertEqual(self.found[3].rows, [])

    def test_names_of_all_columns_of_two_items(self):
        (opening,) = rows.openings(made("1 CREATE TABLE T (A BIGINT, B BIGINT)\n1 BEGIN\n1 OPEN C SELECT * FROM T, T Y\n"))
        self.assertEqual(opening.columns, ["T.A", "T.B", "Y.A", "Y.B"])

    def test_which_opening_is_clear_or_asked(self):
        choose = lambda **more: rows.chosen_of(self.found, words(**more))
        self.assertEqual(choose(cursor="D"), [self.found[2]])
        self.assertEqual(choose(session=2), [self.found[1]])
        self.assertEqual(choose(cursor="C", opening=3), [self.found[3]])
        self.assertEqual(choose(cursor="C", all=True), [self.found[0], self.found[1], self.found[3]])
        self.assertTrue(choose(cursor="C").startswith("3 openings fit: --opening N or --session S chooses one, --all writes each apart\n  1: session 1, line 21: OPEN C"))
        self.assertIn("there is no opening 4", choose(cursor="C", opening=4))
        self.assertIn("no such cursor is opened in this transcript; opened are:\n  1: ", choose(cursor="X"))
        self.assertEqual(rows.chosen_of([], words()), "no such cursor is opened in this transcript; opened are: none")

    def test_table(self):
        self.assertEqual(self.told(cursor="C", opening=1), """session 1, line 21: OPEN C SELECT * FROM T ORDER BY A
                   A | B
---------------------+---------
                NULL |
-9223372036854775808 | NULL
                   7 | it's, ok
3 rows, and the end
""")
        self.assertTrue(self.told(session=2).endswith("it's, ok\n1 row, not read to the end\n"))

    def test_table_of_wide_letters(self):
        (opening,) = rows.openings(made("1 CREATE TABLE T (A VARCHAR(9), B BIGINT)\n1 BEGIN\n1 INSERT INTO T VALUES ('日本', 1)\n1 OPEN C SELECT * FROM T\n1 FETCH C\n"))
        self.assertEqual("".join(rows.as_table(opening)), "A    | B\n-----+--\n日本 | 1\n1 row, not read to the end\n")

    def test_csv(self):
        self.assertEqual(self.told(cursor="C", opening=1, csv=True), "A,B\n,\n-9223372036854775808,\n7,\"it's, ok\"\n")
        told = self.told(cursor="C", opening=1, csv=True, null="\\N")
        self.assertEqual(list(csv.reader(io.StringIO(told)))[1:], [["\\N", ""], ["-9223372036854775808", "\\N"], ["7", "it's, ok"]])
        self.assertEqual(self.told(cursor="C", all=True, csv=True).split("\n\n"), ["A,B\n,\n-9223372036854775808,\n7,\"it's, ok\"", "B\n\"it's, ok\"", "B\n"])

    def test_json(self):
        told = json.loads(self.told(cursor="C", opening=1, json=True))
        self.assertEqual(told, [{"A": None, "B": ""}, {"A": -(2**63), "B": None}, {"A": 7, "B": "it's, ok"}])
        self.assertEqual(json.loads(self.told(cursor="C", opening=3, json=True)), [])
        told = json.loads(self.told(all=True, json=True))
        self.assertEqual([(opening["session"], opening["line"], opening["end"], len(opening["rows"])) for opening in told],
                         [(1, 21, True, 3), (2, 23, False, 1), (1, 25, False, 1), (1, 43, True, 0)])  # fmt: skip
        self.assertEqual(told[1]["query"], "OPEN c SELECT B FROM T X WHERE A = 7")

    def test_what_is_no_transcript(self):
        for data, line, part in (
            (SCRIPT.encode(), 1 + 1, "no line of a transcript"),
            (made(SCRIPT).replace(b"\n", b"\r\n"), 2, "this line ends with CR LF"),
            (b"\xef\xbb\xbf" + made(SCRIPT), 1, "a byte order mark"),
            (b"# comment\n", 1, "no line of a transcript"),
            (b"1 OPEN C SELECT * FROM T\n= opened\n", 1, "CREATE TABLE of this OPEN"),
            (b"1 FETCH C\n= end\n", 1, "OPEN of this FETCH"),
            (made("1 CREATE TABLE T (A BIGINT)\n1 BEGIN\n1 OPEN C SELECT * FROM T\n") + b"1 FETCH C\n= row 1, 2\n", 8, "2 values for 1 column: A"),
        ):
            with self.assertRaises(rows.NoTranscript) as caught:
                rows.openings(data)
            self.assertEqual(caught.exception.line, line)
            self.assertIn(part, str(caught.exception))

    def test_examples(self):
        for name, cursors in (("join", 3), ("strategies", 8), ("eight-sessions", 1)):
            found = rows.openings((TOP / f"examples/{name}.transcript").read_bytes())
            self.assertGreaterEqual(len(found), cursors)
            self.assertEqual(sum(len(opening.rows) for opening in found), (TOP / f"examples/{name}.transcript").read_text(encoding="utf-8").count("\n= row "))

    def test_program(self):
        command = [sys.executable, TOP / "tools/shell/rows.py"]
        ran = subprocess.run([*command, "-", "--cursor", "d", "--csv"], input=made(SCRIPT), capture_output=True, check=True, env={"LC_ALL": "C"})
        self.assertEqual(ran.stdout, b"X.A_1,B,U.A,Y.A,X.A_2\n7,\"it's, ok\",1,1,7\n")
        for asked in (["--cursor", "x"], []):
            ran = subprocess.run([*command, "-", *asked], input=made(SCRIPT), capture_output=True, check=False)
            self.assertEqual((ran.returncode, ran.stdout), (1, b""))
        opened = made("1 CREATE TABLE T (A BIGINT)\n1 BEGIN\n1 OPEN C SELECT A FROM T\n1 FETCH C ALL\n")
        ran = subprocess.run([*command, "-", "--json"], input=opened, capture_output=True, check=True)
        self.assertEqual((ran.stdout, ran.stderr.decode()), (b"[\n]\n", "rows: session 1, line 5: OPEN C SELECT A FROM T: no FETCH of it was answered, so that it may have rows\n"))
        ran = subprocess.run([*command, TOP / "examples/bank"], capture_output=True, text=True, check=False)
        self.assertEqual((ran.returncode, ran.stderr), (1, f"{TOP}/examples/bank:1: this is no line of a transcript: ./rvdyn SCRIPT writes one\n"))


if __name__ == "__main__":
    unittest.main()
