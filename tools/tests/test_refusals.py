"""Why calls of a transcript were refused."""
import subprocess
import sys
import unittest
from pathlib import Path

from fuzz.random_scripts import Maker
from model.program import is_refusal, run, transcript
from shell.refusals import NoTranscript, Reasons, lines_of, refusal_of, summary

import random

TOP = Path(__file__).resolve().parents[2]
FILLED = """\
1 CREATE TABLE T (A BIGINT, B BIGINT)
1 CREATE UNIQUE INDEX UA ON T (A)
1 BEGIN
1 INSERT INTO T VALUES (1, 100)
1 INSERT INTO T VALUES (2, 200)
1 COMMIT
"""  # six lines


def reasons_of(script: str) -> list[tuple[int, str, list[str]]]:
    """Line, reply and reasons of each refused call of a script."""
    entries = list(run(script))
    lines = lines_of(entries, script.encode())
    return [(lines[at], entries[at][2], reasons) for at, reasons in Reasons(entries, lines).follow()]


class Refusals(unittest.TestCase):
    def last(self, *calls: str) -> tuple[str, list[str]]:
        """Reply and reasons of the last refused call."""
        _, reply, reasons = reasons_of(FILLED + "".join(call + "\n" for call in calls))[-1]
        return reply, reasons

    def test_held(self):
        calls = ["1 BEGIN", "2 BEGIN", "1 UPDATE T SET B = 90 WHERE A = 1", "2 UPDATE T SET B = 80 WHERE B = 100"]
        reply, reasons = self.last(*calls, "1 COMMIT")
        self.assertEqual(reply, "held 0 by 2")
        self.assertEqual(reasons, [
            "row 0 of T is (1, 100) to transaction 3 of session 2, from line 8 on, which has no end",
            "transaction 2 of session 1, from line 7 to line 11, has made it (1, 90) in line 9: UPDATE T SET B = 90 WHERE A = 1",
            "it commits in line 11; only a transaction that begins behind that can write the row",
        ])  # fmt: skip
        self.assertEqual(self.last(*calls, "1 ROLLBACK")[1][2], "it is rolled back in line 11; from there on the row is free")
        self.assertEqual(self.last(*calls)[1][2], "that transaction does not end, and keeps the row")

    def test_changed(self):
        reply, reasons = self.last("2 BEGIN", "1 BEGIN", "1 DELETE FROM T WHERE A = 2", "1 COMMIT", "2 UPDATE T SET B = 0", "2 COMMIT")
        self.assertEqual(reply, "changed 1 by 2")
        self.assertEqual(reasons, [
            "row 1 of T is (2, 200) to transaction 2 of session 2, from line 7 to line 12",
            "session 1 has deleted it in line 9: DELETE FROM T WHERE A = 2",
            "and committed that in line 10; only a transaction that begins behind that can write the row",
        ])  # fmt: skip

    def test_duplicate_in_what_is_seen(self):
        self.assertEqual(self.last("1 BEGIN", "1 INSERT INTO T VALUES (2, 0)"), (
            "duplicate 1",
            ["the key (2) of UA is that of row 1 of T, (2, 200), of the snapshot of this transaction, written in line 5: INSERT INTO T VALUES (2, 200)"],
        ))  # fmt: skip
        self.assertIn("row 2 of T, (3, 0), of this transaction itself, written in line 8: ", self.last("1 BEGIN", "1 INSERT INTO T VALUES (3, 0)", "1 INSERT INTO T VALUES (3, 1)")[1][0])
        self.assertEqual(self.last("1 BEGIN", "1 UPDATE T SET A = 5"), ("duplicate 1", ["the key (5) of UA is that of row 1 of T, (5, 200), of this call itself"]))

    def test_duplicate_of_others(self):
        calls = ["2 BEGIN", "1 BEGIN", "1 INSERT INTO T VALUES (3, 0)"]
        reply, reasons = self.last(*calls, "2 UPDATE T SET A = 3 WHERE A = 1", "1 ROLLBACK")
        self.assertEqual(reply, "duplicate 2 by txn 3")
        self.assertEqual(reasons, [
            "the key (3) of UA is that of row 2 of T, (3, 0), of transaction 3 of session 1, from line 8 to line 11, written in line 9: INSERT INTO T VALUES (3, 0)",
            "it is rolled back in line 11; from there on the key is free",
        ])  # fmt: skip
        reply, reasons = self.last(*calls, "1 COMMIT", "2 INSERT INTO T VALUES (3, 0)")
        self.assertEqual(reply, "duplicate 2 by commit 2")
        self.assertEqual(reasons[1], "transaction 2 of session 2, from line 7 on, which has no end, does not see that yet: one that begins behind it does")

    def test_duplicate_of_an_index(self):
        reply, reasons = self.last("1 BEGIN", "1 UPDATE T SET B = 200 WHERE A = 1", "1 COMMIT", "1 CREATE UNIQUE INDEX UB ON T (B)")
        self.assertEqual(reply, "duplicate 1")
        self.assertEqual(reasons[0], "two rows of T have the key (200):")
        self.assertEqual(reasons[1], "row 0 is (1, 200), written in line 8: UPDATE T SET B = 200 WHERE A = 1")

    def test_states(self):
        whole = "transaction 2 of session 1, from line 7 on, which has no end"
        self.assertEqual(self.last("1 BEGIN READ ONLY", "1 DELETE FROM T"), ("read only", [f"this is {whole}; it began with READ ONLY"]))
        self.assertEqual(self.last("1 BEGIN", "1 BEGIN")[1], [f"this is {whole}: it ends before another one begins"])
        self.assertEqual(self.last("1 BEGIN", "2 CREATE TABLE X (A BIGINT)")[1], [f"active is {whole}: CREATE stands where no session has a transaction"])
        self.assertEqual(self.last("1 COMMIT")[1], ["the last one of the session was transaction 1 of session 1, from line 3 to line 6: BEGIN begins another one"])
        self.assertEqual(self.last("2 COMMIT")[1], ["session 2 has begun no transaction yet: BEGIN comes first"])

    def test_cursors(self):
        opened = ["1 BEGIN", "1 OPEN C SELECT A FROM T"]
        self.assertEqual(self.last(*opened, "2 FETCH C")[1], ["session 2 has opened no cursor C; session 1 has one"])
        self.assertEqual(self.last(*opened, "1 CLOSE C", "1 FETCH C")[1], ["it was closed by line 9: CLOSE C"])
        self.assertEqual(self.last(*opened, "1 COMMIT", "1 SHOW C")[1], ["it was closed by line 9: COMMIT"])
        self.assertEqual(self.last("1 BEGIN", "1 OPEN C SELECT X FROM T", "1 FETCH C")[1], ["its OPEN was refused, line 8: unknown X"])
        self.assertEqual(self.last(*opened, "1 OPEN C SELECT B FROM T")[1], ["it is open since line 8: CLOSE C comes first, or another name is taken"])

    def test_names(self):
        self.assertEqual(self.last("1 SELECT * FROM T")[1][0][:30], "at column 3: `SELECT` does not")
        self.assertEqual(self.last("1 BEGIN", "1 INSERT INTO T VALUES (1)")[1], ["at column 25: 1 value for 2 columns: A, B"])
        self.assertEqual(self.last("1 BEGIN", "1 OPEN C SELECT A FROM X")[1], ["at column 24: there is no table X"])

    def test_lines_and_summary(self):
        entries = [(1, "BEGIN", "began 1"), (1, "COMMIT", "committed 0")]
        self.assertEqual(lines_of(entries, None), [1, 3])
        self.assertEqual(lines_of(entries, b"# one\r\n1 BEGIN\r\n\r\n1 COMMIT"), [2, 4])
        self.assertIsNone(lines_of(entries, b"1 COMMIT\n1 BEGIN\n"))
        self.assertIsNone(lines_of(entries, b"no script\n"))
        self.assertEqual(summary(["held 0 by 2", "held 1 by 2", "syntax"]), "3 calls refused: 2 held, 1 syntax")
        self.assertEqual(summary([]), "no call was refused")

    def test_what_is_no_history(self):
        for entries in ([(1, "COMMIT", "committed 0")], [(1, "BEGIN", "began 2")], [(1, "BEGIN", "active 7")], [(1, "DELETE FROM T", "held 0 by 1")]):
            with self.assertRaises(NoTranscript):
                list(Reasons(entries, lines_of(entries, None)).follow())

    def test_every_refusal_has_reasons(self):
        """Of the examples and of random scripts."""
        scripts = [path.with_suffix("").read_text(encoding="utf-8") for path in sorted((TOP / "examples").glob("*.transcript"))]
        scripts += [Maker(random.Random(seed), unique=seed % 2 == 0).script()[0] for seed in range(12)]
        refused = 0
        for script in scripts:
            entries = list(run(script))
            found = list(Reasons(entries, lines_of(entries, script.encode())).follow())
            self.assertEqual([at for at, _ in found], [at for at, (_, _, reply) in enumerate(entries) if is_refusal(reply)])
            self.assertTrue(all(reasons or refusal_of(entries[at][2]) == "unknown" for at, reasons in found))
            refused += len(found)
        self.assertGreater(refused, 100)

    def test_program(self):
        script = TOP / "examples/refusals"
        data = transcript(run(script.read_text(encoding="utf-8"))).encode()
        ran = subprocess.run([sys.executable, TOP / "tools/shell/refusals.py", "-", "--script", script, "--only", "held"], input=data, capture_output=True, check=False)
        self.assertEqual((ran.returncode, ran.stderr), (0, b""))
        self.assertIn("refused:", ran.stdout.decode().splitlines()[-1])
        ran = subprocess.run([sys.executable, TOP / "tools/shell/refusals.py"], input=b"no transcript\n", capture_output=True, check=False)
        self.assertEqual((ran.returncode, ran.stdout), (1, b""))


if __name__ == "__main__":
    unittest.main()
