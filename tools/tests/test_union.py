"""The worked unions, by the model: forty rows (i, 0) in a paged store, with an index over the first column, or over both."""
import unittest

from model.program import run
from model.union import branches

MANY = "1 CREATE TABLE T (A BIGINT, B BIGINT)", "1 CREATE INDEX IA ON T (A)", "1 CREATE INDEX IB ON T (B)", "1 BEGIN"


class Unions(unittest.TestCase):
    def opened(self, condition: str, judge: int = 1, both: bool = False) -> list[str]:
        """The rows that a cursor gives, and its trace."""
        lines = [line for line in MANY if both or "IB" not in line]
        lines += [f"1 INSERT INTO T VALUES ({i}, 0)" for i in range(40)] + ["1 COMMIT", "2 BEGIN READ ONLY"]
        lines += [f"2 OPEN C SELECT * FROM T WHERE {condition}"] + 41 * ["2 FETCH C"] + ["2 SHOW C"]
        replies = [reply for _, _, reply in run("".join(line + "\n" for line in lines), judge, 0)]
        return replies[-42:]

    def tells(self, condition: str, rows: list[int], told: str, judge: int = 1, both: bool = False) -> None:
        replies = self.opened(condition, judge, both)
        self.assertEqual(replies[: len(rows)], [f"row {n}, 0" for n in rows])
        self.assertEqual(replies[len(rows)], "end")
        self.assertEqual(replies[-1], "trace " + told)

    def test_of_five(self):
        told = "union background scan IA list IA 2 final-list done pages 0 leaves 4 fetches 2"
        self.tells("A IN (5, 20, 20, NULL, 99)", [5, 20], told)

    def test_two_ranges_that_overlap(self):
        told = "union background scan IA list IA 40 final-list done pages 0 leaves 4 fetches 40"
        self.tells("A < 30 OR A > 5", list(range(40)), told)

    def test_no_key(self):
        told = "union background scan IA list IA 0 final-list done pages 0 leaves 2 fetches 0"
        self.tells("A IN (100, 200)", [], told)

    def test_it_is_dropped(self):
        # of the first range the leaf of 16 is scanned, and then 1 leaf and 30 keys are projected against two pages
        told = "union background scan IA drop IA final-table done pages 2 leaves 1 fetches 0"
        self.tells("A < 30 OR A > 5", list(range(40)), told, judge=0)

    def test_the_last_member_names_the_list(self):
        told = "union background scan IA scan IB list IA 12 final-list done pages 0 leaves 3 fetches 12"
        self.tells("A < 5 OR B > 7 OR A BETWEEN 20 AND 26", [0, 1, 2, 3, 4, *range(20, 27)], told, both=True)

    def test_the_second_group_serves(self):
        told = "union background scan IA list IA 2 final-list done pages 0 leaves 2 fetches 2"
        self.tells("(A IN (5, NULL) OR B <> 0) AND (A = 5 OR A = 4)", [5], told)

    def test_no_union(self):
        for condition in ["A = 3 OR B <> 7", "A IN (NULL)", "A IN (5, NULL)", "A = NULL OR A = 3", "A = 3 OR A = B"]:
            self.assertNotIn("union", self.opened(condition)[-1], condition)
        self.assertIn("trace union", self.opened("A IN (3, 4) ORDER BY B")[-1])  # gathered, without an index over B
        self.assertNotIn("union", self.opened("A IN (3, 4) ORDER BY B", both=True)[-1])

    def test_branches(self):
        self.assertEqual(branches([("in", 0, [5, None, 5]), ("null", 1, True)]), [("compare", 0, "=", 5)] * 2 + [("null", 1, True)])


if __name__ == "__main__":
    unittest.main()
