"""The sentences of docs/LANGUAGE.md, "Which conditions and which orders an index serves", each tried on the slow model."""
import unittest

from model.program import Session

TABLES = [
    "CREATE TABLE T (A BIGINT, B BIGINT, C VARCHAR(8), D BIGINT)", "CREATE TABLE S (K BIGINT, M BIGINT)",
    "CREATE INDEX IAB ON T (A, B)", "CREATE INDEX IC ON T (C)", "CREATE INDEX SK ON S (K)",
]  # fmt: skip


def made() -> Session:
    """320 rows: A is NULL or 0 to 8, B each of 0 to 319, C one of forty texts, D the row's number; S has K and M."""
    session = Session()
    for text in [*TABLES, "BEGIN"]:
        session.call(1, text)
    for row in range(320):
        first = "NULL" if row % 10 == 9 else row % 10
        session.call(1, f"INSERT INTO T VALUES ({first}, {row * 7 % 320}, 'c{row % 40:02d}', {row})")
        session.call(1, f"INSERT INTO S VALUES ({row}, {row % 10})")
    session.call(1, "COMMIT")
    session.call(1, "BEGIN READ ONLY")
    return session


class Sentences(unittest.TestCase):
    @classmethod
    def setUpClass(cls):
        cls.session = made()

    def trace(self, query: str, fetches: int = 0) -> str:
        self.assertEqual(self.session.call(1, f"OPEN C {query}"), "opened", query)
        for _ in range(fetches):
            self.session.call(1, "FETCH C")
        told = self.session.call(1, "SHOW C")
        self.session.call(1, "CLOSE C")
        return told

    def counts(self, query: str, fetches: int) -> dict[str, int]:
        words = self.trace(query, fetches).split()[-6:]
        return dict(zip(words[::2], map(int, words[1::2])))

    def test_conditions_that_an_index_serves(self):
        for condition in ("A = 3", "A < 3", "A <= 3", "A > 3", "A >= 3", "A BETWEEN 3 AND 4", "A IS NULL", "A IS NOT NULL", "(A = 3)",
                          "A = 3 AND D = 5", "A IS NULL AND B < 99", "A < 3 AND B = 99"):
            self.assertIn(" scan IAB", self.trace(f"SELECT * FROM T WHERE {condition}"), condition)
        self.assertIn(" scan IC", self.trace("SELECT * FROM T WHERE C STARTING WITH 'c0'"))

    def test_conditions_that_no_index_serves(self):
        for condition in ("A <> 3", "A IN (3)", "A IN (3, NULL)", "A = 3 OR B = 99", "A = NULL", "A = B", "A < D", "B = 99"):
            told = self.trace(f"SELECT * FROM T WHERE {condition}", 400)
            self.assertEqual(told, "trace table final-table done pages 10 leaves 0 fetches 0", condition)

    def test_parts_of_an_or_that_indexes_serve(self):
        for condition in ("A IN (3, 4)", "A = 3 OR A = 4", "(A = 3 OR A = 3)", "A = 3 OR C = 'c01'", "B <> 1 AND (A IS NULL OR C > 'c38')"):
            self.assertTrue(self.trace(f"SELECT * FROM T WHERE {condition}").startswith("trace union background scan I"), condition)
        self.assertIn(" scan IC", self.trace("SELECT * FROM T WHERE A IN (3, 4) AND C STARTING WITH 'c0'"))  # a range comes first

    def test_second_column_behind_an_equality_bounds(self):
        self.assertIn("list IAB 1 final-list", self.trace("SELECT * FROM T WHERE A = 3 AND B = 1"))  # a short range, read at once
        self.assertNotIn("list", self.trace("SELECT * FROM T WHERE A BETWEEN 3 AND 3 AND B = 1"))

    def test_column_of_an_earlier_item_counts_as_a_literal(self):
        served = self.counts("SELECT B, M FROM T, S WHERE T.D = S.K AND B < 20", 30)
        # of the twenty rows 19 find theirs by SK; for the last one the estimate is no exact one, and the pages are read
        self.assertEqual((served["pages"], served["fetches"]), (20, 19))
        other = self.counts("SELECT B, M FROM S, T WHERE T.D = S.K AND S.K < 2", 3)
        self.assertEqual(other["pages"], 20)  # no index is over D, so T is read for each of the two rows

    def test_other_conditions_are_tested_on_the_entries(self):
        for condition, rows in (("A < 3 AND B IN (1, 2, 14)", 1), ("A < 3 AND B <> 7 AND (B = 1 OR B = 14)", 1)):
            self.assertEqual(self.counts(f"SELECT * FROM T WHERE {condition}", 9)["fetches"], rows, condition)

    def test_index_that_has_all_columns_is_read_in_place_of_the_pages(self):
        for query in ("SELECT A, B FROM T", "SELECT B FROM T WHERE A IN (3, 4)", "SELECT A FROM T WHERE B = 99"):
            self.assertIn("trace index-only foreground done pages 0 leaves 16 fetches 0", self.trace(query, 400), query)

    def test_orders_that_an_index_serves(self):
        for order in ("ORDER BY A", "ORDER BY A, B", "WHERE A = 3 ORDER BY A, B", "WHERE A > 6 ORDER BY A"):
            self.assertTrue(self.trace(f"SELECT * FROM T {order}").startswith("trace sorted"), order)
        self.assertTrue(self.trace("SELECT T.D FROM T, S WHERE T.D = S.K ORDER BY T.A").startswith("trace sorted"))

    def test_orders_that_are_sorted(self):
        for order in ("ORDER BY B", "ORDER BY B, A", "ORDER BY A, B, C", "WHERE A = 3 ORDER BY B", "WHERE A = 3 ORDER BY B OPTIMIZE FOR FAST FIRST"):
            told = self.trace(f"SELECT * FROM T {order}", 1)
            self.assertFalse(told.startswith("trace sorted"), order)
            self.assertIn(" done pages", told, f"{order}: everything is read before the first row")
        self.assertFalse(self.trace("SELECT T.D FROM T, S WHERE T.D = S.K AND T.D < 9 ORDER BY S.K").startswith("trace sorted"))

    def test_short_range_goes_before_an_index_that_has_all_columns(self):
        told = self.trace("SELECT A, B FROM T WHERE A = 3 AND B = 1", 2)
        self.assertEqual(told, "trace background-only background scan IAB list IAB 1 final-list done pages 0 leaves 1 fetches 1")
        self.assertTrue(self.trace("SELECT A, B FROM T WHERE A = 3").startswith("trace index-only"))  # 32 entries: not short

    def test_order_by_an_index_that_has_all_columns(self):
        told = self.trace("SELECT A, B FROM T WHERE A < 4 ORDER BY A", 400)
        self.assertTrue(told.startswith("trace sorted foreground done") and told.endswith(" fetches 0"), told)
        self.assertIn(" scan IC", self.trace("SELECT * FROM T WHERE C STARTING WITH 'c0' ORDER BY A"))  # ranges of others are scanned
        self.assertNotIn(" scan", self.trace("SELECT A, B FROM T ORDER BY A"))

    def test_short_range_is_listed_when_the_cursor_is_opened(self):
        told = self.trace("SELECT * FROM T WHERE A = 3 AND B = 1 ORDER BY A")
        self.assertEqual(told, "trace sorted building scan IAB list IAB 1 foreground pages 0 leaves 1 fetches 0")

    def test_same_order_with_the_equality_written(self):
        rows = []
        for order in ("B", "A, B"):
            self.session.call(1, f"OPEN C SELECT * FROM T WHERE A = 3 ORDER BY {order}")
            rows.append([self.session.call(1, "FETCH C") for _ in range(33)])
            self.session.call(1, "CLOSE C")
        self.assertEqual(rows[0], rows[1])

    def test_fast_first_is_a_goal(self):
        for query, strategy in (
            ("WHERE A < 4 AND C STARTING WITH 'c1'", "fast-first"), ("WHERE D < 9", "table"), ("WHERE A < 4 ORDER BY A", "sorted"),
            ("WHERE A = 3 AND B = 1", "background-only"),
        ):  # fmt: skip
            self.assertEqual(self.trace(f"SELECT * FROM T {query} OPTIMIZE FOR FAST FIRST").split()[1], strategy)
        self.assertEqual(self.trace("SELECT A FROM T WHERE B < 9 OPTIMIZE FOR FAST FIRST").split()[1], "index-only")


if __name__ == "__main__":
    unittest.main()
