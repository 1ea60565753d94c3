"""The worked races, by the model: forty rows (i mod 4, i) in a paged store, of which the first value is at least 1 and the
second at least 10."""
import unittest

from model.program import run
from tables.try_retrievals import IA, IC, MUCH, Asked, Table, access, in_turn, patient, threshold


class Races(unittest.TestCase):
    def tells(self, judge, events: str, counts: str) -> None:
        table = Table(40, "fourths", paged=True)
        # IC is over the row's number mod 4, IA over the number; both have the estimate 16, and IC was created first
        race = access(table, Asked({2: (1, 3), 0: (10, MUCH)}, [IC, IA], race=True), judge)
        rows = []
        while (found := race.step()) != "end":
            if found is not None:
                rows.append(found)
        self.assertEqual(sorted(rows), [n for n in range(10, 40) if n % 4])
        self.assertEqual(race.trace(), f"background-only background {events} done {counts}")

    def test_patient(self):
        self.tells(patient, "scan IC list IC 30 scan IA list IA 23 final-list", "pages 0 leaves 4 fetches 23")

    def test_the_second_piece_drops_its_scan(self):
        self.tells(in_turn(["go on", "drop"], False), "scan IA drop IA scan IC list IC 30 final-list", "pages 0 leaves 3 fetches 30")

    def test_both_are_dropped(self):
        self.tells(threshold, "scan IC drop IC scan IA drop IA final-table", "pages 2 leaves 2 fetches 0")

    def test_the_end_shows_the_lower_scan(self):
        self.tells(in_turn(["go on", "end"], False), "scan IC drop IC final-table", "pages 2 leaves 2 fetches 0")

    def test_program(self):
        lines = ["1 CREATE TABLE S (A BIGINT, B BIGINT)", "1 CREATE INDEX IA ON S (A)", "1 CREATE INDEX IB ON S (B)", "1 BEGIN"]
        lines += [f"1 INSERT INTO S VALUES ({i % 4}, {i})" for i in range(40)] + ["1 COMMIT", "2 BEGIN READ ONLY"]
        lines += ["2 OPEN C SELECT * FROM S WHERE A >= 1 AND B >= 10"] + 24 * ["2 FETCH C"] + ["2 SHOW C"]
        replies = [reply for _, _, reply in run("".join(line + "\n" for line in lines), judge=1, steps=0, race=True)]
        self.assertEqual(replies[-25:-2], [f"row {n % 4}, {n}" for n in range(10, 40) if n % 4])
        told = "background-only background scan IA list IA 30 scan IB list IB 23 final-list done pages 0 leaves 4 fetches 23"
        self.assertEqual(replies[-2:], ["end", "trace " + told])


if __name__ == "__main__":
    unittest.main()
