import unittest
from xml.dom import minidom

from judges import judge_pictures, judge_reads
from judges.skewed_queries import script, workload
from model.language import calls_of
from model.program import Session
from model.trees import Tree


def traces(work, judge, steps):
    """The traces that the slow model shows of the whole script."""
    run = Session(judge, steps)
    return [reply for call, reply in run.run(calls_of("\n".join(script(work)) + "\n")) if call.text.startswith("SHOW")]


class Reads(unittest.TestCase):
    def test_a_seed_gives_one_workload(self):
        work = workload(3, 200, 10)
        self.assertEqual(work, workload(3, 200, 10))
        self.assertNotEqual(work, workload(4, 200, 10))
        self.assertEqual([query.soon for query in work.queries], [True, False] * 5)

    def test_half_of_the_queries_find_a_row(self):
        work = workload(3, 500, 200)
        found = sum(any(query.takes(row) for row in work.rows) for query in work.queries)
        self.assertGreater(found, 100)
        self.assertLess(found, 200)

    def test_a_tree_grows_as_it_does_by_put(self):
        entries = [(((1, number * 617 % 997),), number) for number in range(2000)]
        slow = Tree()
        for entry in entries:
            slow = slow.put(entry)
        self.assertEqual(judge_reads.grown(entries).leaves(), slow.leaves())

    def test_traces_are_those_of_the_engine(self):
        work = workload(5, 700, 12)
        for number, name in enumerate(("threshold", "patient")):
            for steps in (0, 1):
                asked = judge_reads.Table(work).asked()
                runs = [judge_reads.Judged(query, judge_reads.JUDGES[name], steps) for query in asked]
                for run in runs:
                    run.reads()
                self.assertEqual([run.trace() for run in runs], traces(work, number, steps))

    def test_patient_reads_what_the_path_by_all_lists_does(self):
        table = judge_reads.Table(workload(5, 700, 30))
        for asked in table.asked():
            if not asked.query.soon and not any(index.exact and index.estimate <= 20 for index in asked.indexes):
                path = max(asked.paths, key=len)
                if len(path) > 1:
                    self.assertEqual(asked.judged(judge_reads.patient, 0), asked.reads[path])

    def test_all_rows_are_given_whoever_rules(self):
        for told in judge_reads.told_of(7, 400, 20, 1):
            for reads in told.reads.values():
                self.assertEqual(len(reads.rows), told.rows)
                self.assertEqual(sorted(reads.rows), reads.rows)

    def test_judges_answer_as_those_of_skew_judges(self):
        """The questions of crates/try_judges/src/rulings.rt from the sixth on, but for the last one: foreground, position of the
        scan, entries scanned, keys kept, estimate, leaves read, guarantee, rows delivered; and the answers of AllRows and FirstRows."""
        for (building, scan, scanned, kept, estimate, spent, guaranteed, delivered), *answers in [
            ((False, 0, 20, 20, 80, 2, 61, 0), "go on", "go on"),
            ((False, 0, 20, 20, 80, 2, 60, 0), "drop", "drop"),
            ((False, 0, 20, 20, 80, 1, 60, 0), "go on", "go on"),
            ((False, 1, 20, 2, 80, 2, 16, 0), "go on", "go on"),
            ((False, 1, 20, 2, 80, 2, 15, 0), "drop", "drop"),
            ((False, 0, 20, 20, 256, 2, 125, 0), "go on", "go on"),
            ((False, 0, 20, 20, 256, 3, 125, 0), "drop", "drop"),
            ((True, 0, 20, 20, 80, 1, 61, 0), "stop", "go on"),
            ((True, 0, 20, 20, 80, 1, 60, 0), "drop", "drop"),
            ((True, 0, 60, 49, 80, 3, 61, 0), "stop", "stop"),
            ((True, 0, 20, 20, 80, 1, 61, 1), "stop", "stop"),
            ((True, 1, 20, 2, 80, 1, 61, 0), "stop", "stop"),
            ((True, 0, 20, 20, 256, 1, 125, 0), "stop", "drop"),
        ]:
            facts = judge_reads.Facts(building, scan, scanned, kept, estimate, spent, 0, guaranteed, delivered)
            self.assertEqual([judge_reads.all_rows(facts), judge_reads.first_rows(facts)], answers, facts)

    def test_reads_until_a_row(self):
        reads = judge_reads.Reads(9, [2, 5])
        self.assertEqual([reads.until(n) for n in (1, 2, 3)], [2, 5, 9])

    def test_a_guarded_judge_reads_no_more_than_it_may(self):
        for told in judge_reads.told_of(9, 700, 40, 0):
            self.assertLessEqual(told.reads["Bounded"].whole, told.most)
            self.assertEqual(told.pages, 22)

    def test_pictures_are_drawn(self):
        runs = {steps: {(rows, seed): judge_reads.told_of(seed, rows, 20, steps) for rows in (200, 400) for seed in (1, 2)} for steps in (0, 1)}
        for picture in (judge_pictures.by_seed, judge_pictures.dearest):
            minidom.parseString(picture(runs))
        for picture in (judge_pictures.by_row, judge_pictures.by_query):
            minidom.parseString(picture(runs[0]))
        told = "\n".join(judge_reads.tables(runs[1], 1))
        self.assertIn("| 400, 2 |", told)
        self.assertRegex(told, r"\| above the bound, of 80 \| 0 \|.* 0 \|$")


if __name__ == "__main__":
    unittest.main()
