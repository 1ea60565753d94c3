"""The model on what only it is tried: places of syntax, faults of scripts, and the log of what is read."""
import unittest

from model.language import END, Call, Mark, Syntax, calls_of, fault_of, read_statement, statement
from model.program import Session, is_refusal, run, summary


class Language(unittest.TestCase):
    def fails(self, text: str, at: int, *wanted: str) -> None:
        with self.assertRaises(Syntax) as raised:
            read_statement(text)
        self.assertEqual(raised.exception.at, at)
        for what in wanted:
            self.assertIn(what, raised.exception.wanted)

    def test_place_of_the_first_token_that_does_not_fit(self):
        self.fails("CREATE VIEW", 7, "TABLE", "UNIQUE", "INDEX")
        self.fails("COMMIT ; ;", 9, END)
        self.fails("OPEN C SELECT A FROM T WHERE (A = 1 OR B = 2 AND C = 3)", 45, ")", "OR")
        self.fails("OPEN C SELECT A FROM T ORDER", 28, "BY")
        self.fails("FETCH", 5, "a name")
        self.fails("FETCH 'C'", 6, "a name")
        self.fails("FETCH $", 6)

    def test_names_know_their_places(self):
        _, table, values = read_statement("insert into parts values (1)")
        self.assertEqual((table, table.at, values), ("PARTS", 12, [1]))

    def test_no_statement(self):
        self.assertEqual(statement("SELEC"), ("syntax",))

    def test_scripts(self):
        self.assertEqual(list(calls_of("\ufeff# x\r\n1 A\n\n-- 2\n--\n8 B")), [Call(2, 1, "A"), Mark(4, 2), Mark(5, None), Call(6, 8, "B")])
        self.assertIsNone(fault_of(b"1 BEGIN\n--\n"))
        self.assertEqual(fault_of(b"1 BEGIN\n9 COMMIT"), (2, "script: line 2 has no session"))
        self.assertEqual(fault_of(b"1 \xff"), (2, "script: byte 2 is not UTF-8"))
        self.assertEqual(fault_of(b"1" * 4097), (3, "limit: line 1 over 4096 bytes"))


class Program(unittest.TestCase):
    def test_a_search_asks_the_judge(self):
        lines = ["CREATE TABLE T (A BIGINT, B BIGINT)", "CREATE INDEX IA ON T (A)", "BEGIN"]
        lines += [f"INSERT INTO T VALUES ({i}, 0)" for i in range(80)] + ["COMMIT"]
        asked = {
            "BEGIN": (80, 0),
            "UPDATE T SET B = 1 WHERE A BETWEEN 20 AND 22": (3, 0),  # few entries: listed at once
            "UPDATE T SET B = 1 WHERE A BETWEEN 10 AND 60": (51, 0),  # the index has what the condition names
            "UPDATE T SET B = 2 WHERE B = 1": (51, 0),  # no index serves: page by page
            "UPDATE T SET B = 3 WHERE A BETWEEN 10 AND 60 AND B = 2": (51, 3),
            "DELETE FROM T WHERE A >= 40 AND B < 3": (19, 4),  # two leaves, of which the last asks nobody
        }
        session = Session(judge=2, steps=0)
        for line in lines:
            session.call(1, line)
        for text, (rows, questions) in asked.items():
            reply = session.call(1, text)
            self.assertEqual((reply, session.engine.judges[2].turn), ("began 2" if text == "BEGIN" else f"touched {rows}", questions), text)

    def test_log_of_reads(self):
        log: list[tuple] = []
        session = Session(log=log)
        for text in ("CREATE TABLE T (A BIGINT)", "BEGIN", "INSERT INTO T VALUES (1)", "COMMIT", "BEGIN", "OPEN C SELECT * FROM T"):
            session.call(1, text)
        self.assertEqual(log, [(0, "event", "final-table")])
        log.clear()
        self.assertEqual(session.call(1, "FETCH C"), "row 1")
        self.assertEqual(log, [(0, "page", 0)])

    def test_summary(self):
        replies = [reply for _, _, reply in run("1 BEGIN\n1 BEGIN\n1 COMMIT\n")]
        self.assertEqual(replies, ["began 1", "active 1", "committed 0"])
        self.assertEqual(summary(replies), "calls 3\nrows 0\nends 0\ncommits 1\nrefused 1\n")
        self.assertTrue(is_refusal("no transaction"))


if __name__ == "__main__":
    unittest.main()
