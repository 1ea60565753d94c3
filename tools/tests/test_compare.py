"""What compare.py tells of a script: the reads of judges are those of the traces, and each fixed path gives each row once."""
import json
import subprocess
import sys
import tempfile
import unittest
import xml.etree.ElementTree as ElementTree
from pathlib import Path

from judges import judge_reads, skewed_queries
from model.engine import Plan
from model.language import Mark, calls_of, statement
from model.program import Session
from shell.compare import BEST, PLANNER, PathsOf, as_json, picture, table, told_of

TOP = Path(__file__).resolve().parents[2]

# A hundred rows: A and B are equal, C counts, D is NULL in each fourth row; 60 of the rows have A = 7.
ROWS = [(7, 7, n, n // 4 if n % 4 else None) if n < 60 else (n, n, n, None) for n in range(100)]
LOAD = [
    "1 CREATE TABLE T (A BIGINT, B BIGINT, C BIGINT, D BIGINT)",
    *(f"1 CREATE INDEX {name} ON T ({columns})" for name, columns in (("IA", "A"), ("IB", "B"), ("ICB", "C, B"))),
    "1 BEGIN",
    *("1 INSERT INTO T VALUES (" + ", ".join("NULL" if v is None else str(v) for v in row) + ")" for row in ROWS),
    "1 COMMIT",
    "1 BEGIN READ ONLY",
]
QUERIES = [
    "* FROM T WHERE A BETWEEN 7 AND 60 AND B BETWEEN 5 AND 90",
    "* FROM T WHERE A = 7 AND B = 7 AND D < 9 OPTIMIZE FOR FAST FIRST",
    "* FROM T WHERE A = 7 AND B = 8",
    "C FROM T WHERE B > 50",
    "B, C FROM T WHERE C < 40 AND A = 7",
    "* FROM T WHERE A = 70 OR B = 71 OR C = 72",
    "* FROM T WHERE B >= 7 AND A >= 7 ORDER BY C",
    "C FROM T WHERE B = 7 ORDER BY C",
    "* FROM T WHERE B >= 7 AND C < 90 ORDER BY D",
    "X.C, Y.A FROM T X, T Y WHERE X.C > 90 AND Y.A = X.D",
    "X.C, Y.A FROM T X, T Y WHERE X.C < 9 AND X.D = Y.C AND Y.B = 7 ORDER BY Y.C",
    "* FROM T WHERE D = NULL",
]


def script_of(queries: list[str]) -> str:
    return "".join(line + "\n" for line in LOAD + [f"1 OPEN C{n} SELECT {query}" for n, query in enumerate(queries)])


def shown(script: str, rows: list[int], run: Session) -> list[list[int]]:
    """The reads until each row and until the end, by the traces of a run in which each cursor is fetched to its end."""
    found = []
    for call in calls_of(script):
        if isinstance(call, Mark) or statement(call.text)[0] in ("fetch", "step", "show"):
            continue
        if run.call(call.session, call.text) == "opened":
            cursor, reads = statement(call.text)[1], []
            for _ in range(rows[len(found)] + 1):
                run.call(call.session, f"FETCH {cursor}")
                counts = run.call(call.session, f"SHOW {cursor}").split()[-5::2]
                reads.append(sum(map(int, counts)))
            found.append(reads)
    return found


class Reads(unittest.TestCase):
    def test_reads_are_those_of_the_traces(self):
        examples = [(TOP / "examples" / name).read_text(encoding="utf-8") for name in ("strategies", "race")]
        for script in [*examples, script_of(QUERIES)]:
            for steps, race in ((0, False), (1, True)):
                told = told_of(script, None, [], steps, race).cursors
                for place in range(2):
                    reads = [[*of.contenders[place].reads.rows, of.contenders[place].reads.whole] for of in told]
                    self.assertEqual(reads, shown(script, [of.rows for of in told], Session(place, steps, race=race)))

    def test_contrary_begins_anew(self):
        for query in QUERIES[0:8:2]:
            script = script_of([query])
            (of,) = told_of(script_of([QUERIES[0], query]), None, ["C1"], 1, False).cursors
            reads = of.contenders[2].reads
            self.assertEqual([[*reads.rows, reads.whole]], shown(script, [of.rows], Session(2, 1)))

    def test_judges_and_paths_are_those_of_judge_reads(self):
        work = skewed_queries.workload(4, 600, 12)
        script = "".join(line + "\n" for line in skewed_queries.script(work, first=1))
        for of, told in zip(told_of(script, None, [], 1, False).cursors, judge_reads.told_of(4, 600, 12, 1), strict=True):
            reads = {"planner" if it.name == PLANNER else "best" if it.name == BEST else it.name: it.reads for it in of.contenders}
            del reads["contrary"]
            self.assertEqual(reads, told.reads, of.call.text)
            self.assertEqual(of.fetched, min(1, told.rows + 1))

    def test_all_contenders_give_all_rows(self):
        for of in told_of(script_of(QUERIES), None, [], 1, True).cursors:
            for it in of.contenders:
                self.assertEqual(len(it.reads.rows), of.rows)
                self.assertEqual(sorted(it.reads.rows), it.reads.rows)
                self.assertEqual(sum((it.counts.pages, it.counts.leaves, it.counts.fetches)), it.reads.whole)


class Asking(Plan):
    """A plan that keeps what its first item is asked."""

    def access(self, query, item):
        self.query = query
        return super().access(query, item)


class Paths(unittest.TestCase):
    def paths(self, query: str) -> PathsOf:
        run = Session()
        for call in calls_of(script_of([query])):
            run.call(call.session, call.text)
        opened = run.engine.cursors[1, "C0"]
        asked = Asking(opened.select, opened.tables, run.engine, 0, None)
        return PathsOf(asked.query)

    def test_each_path_gives_each_row_once(self):
        for query in QUERIES[:9]:
            paths = self.paths(query)
            for path in paths.paths.values():
                given = [move for move in path.moves() if isinstance(move, int)]
                self.assertEqual(sorted(given), sorted(paths.wanted), (query, path.words))
                if paths.front is not None:
                    self.assertEqual(given, sorted(given))  # C counts as the rows do

    def words(self, query: str) -> list[str]:
        return [path.words for path in self.paths(query).paths.values()]

    def test_which_paths_there_are(self):
        self.assertEqual(sorted(self.words(QUERIES[0])), ["IA", "IA and IB", "IB", "table"])
        self.assertEqual(self.words(QUERIES[3]), ["table", "IB", "ICB alone"])
        self.assertEqual(self.words(QUERIES[5]), ["table", "union of IA, IB, ICB"])
        self.assertEqual(self.words(QUERIES[7]), ["in order of ICB"])
        self.assertEqual(sorted(self.words(QUERIES[6]))[-1], "in order of ICB")
        self.assertEqual(self.words(QUERIES[11]), ["table"])

    def test_reads_by_hand(self):
        # four pages; ICB was made before the rows came in ascending order, so that its leaves have 16 entries
        paths = self.paths("C, B FROM T WHERE C < 40 AND A = 7")
        self.assertEqual(paths.reads[()], (4, [1] * 32 + [2] * 8))
        self.assertEqual(paths.reads["ICB",], (3 + 40, [*range(2, 18), *range(19, 35), *range(36, 44)]))

    def test_estimates_that_are_believed(self):
        """Sixty rows of A = 7 and B = 7 are thought to be fewer by both."""
        paths = self.paths("* FROM T WHERE A = 7 AND B = 7 AND D > 90")
        self.assertEqual((paths.best, paths.planned), ((), ()))
        self.assertLess(paths.paths["IA", "IB"].cost, paths.reads["IA", "IB"].whole)

    def test_empty_table(self):
        script = "1 CREATE TABLE T (A BIGINT)\n1 CREATE INDEX IA ON T (A)\n1 BEGIN\n1 OPEN C SELECT * FROM T WHERE A > 1\n"
        (of,) = told_of(script, None, [], 1, False).cursors
        self.assertEqual(of.rows, 0)
        self.assertEqual({tuple(of.columns(it)[:3]) for it in of.contenders}, {(None, None, None)})


class Telling(unittest.TestCase):
    @classmethod
    def setUpClass(cls):
        cls.script = (TOP / "examples/change-of-path").read_text(encoding="utf-8")
        cls.told = told_of(cls.script, None, [], 1, False)

    def test_table(self):
        told = table("FILE", self.told, 1, False)
        self.assertIn("    threshold                  4        17        19        26  drops BYDAY\n", told)
        self.assertIn("    best in hindsight          9        11        13        20  table\n", told)
        self.assertIn("entries in range of PARCELS: BYDAY about 144 (152 are there)", told)
        self.assertIn("They are counted by the\nslow model, ", told)
        self.assertIn("all 4 cursors together", told)

    def test_cursor_that_is_not_read_to_its_end(self):
        told = table("FILE", told_of(script_of(QUERIES[:1]) + "1 FETCH C0\n1 STEP C0 3\n", None, [], 1, False), 1, False)
        self.assertIn("    the script does not read it to its end (1 of 62 FETCHes); here it is\n", told)
        self.assertNotIn("the script does not", table("FILE", self.told, 1, False))

    def test_order_that_an_index_gives(self):
        told = table("FILE", told_of(script_of(QUERIES[6:8]), None, [], 1, False), 1, False)
        self.assertEqual(told.count("the 4 pages of the table, read and then sorted, would be less"), 2)

    def test_join(self):
        told = table("FILE", told_of(script_of(QUERIES[9:11]), None, [], 1, False), 1, False)
        self.assertIn("a join of 2; no row\n", told)
        self.assertIn("a join of 2, then a sort;", told)
        self.assertIn("X: table; Y: table 3 times, ICB 6 times", told)

    def test_json(self):
        told = json.loads(as_json("FILE", self.told, 1, False))
        self.assertEqual((told["script"], told["by"], told["counted"]), ("FILE", "the slow model", "pages, leaves and records"))
        first = told["cursors"][0]
        self.assertEqual((first["line"], first["rows"], first["ended_in_script"]), (651, 30, True))
        threshold, *_, best = first["contenders"]
        self.assertEqual(threshold["reads"], {"first": 4, "tenth": 17, "last": 19, "end": 26})
        self.assertEqual(threshold["dropped"], ["BYDAY"])
        self.assertTrue(threshold["trace"].endswith(" done pages 20 leaves 4 fetches 2"))
        self.assertEqual((best["name"], best["path"], best["pages"]), (BEST, "table", 20))

    def test_picture(self):
        root = ElementTree.fromstring(picture(self.told.cursors, 1, False))
        texts = [element.text for element in root.iter("{http://www.w3.org/2000/svg}text")]
        self.assertEqual(texts.count("best in hindsight"), 4)
        self.assertIn("line 651, session 1, cursor C: fast-first; 30 rows", texts)


class Program(unittest.TestCase):
    def ran(self, script: str, *words: str) -> subprocess.CompletedProcess:
        with tempfile.TemporaryDirectory() as folder:
            path = Path(folder) / "script"
            path.write_text(script, encoding="utf-8")
            command = [sys.executable, TOP / "tools/shell/compare.py", path, *words]
            told = subprocess.run(command, capture_output=True, text=True, check=False)
            told.stderr = told.stderr.replace(str(path), "FILE")
            return told

    def test_chosen_cursors(self):
        told = self.ran(script_of(QUERIES[:4]), "--cursor", "c1", "--cursor", "C3", "--session", "1", "--json")
        self.assertEqual((told.returncode, told.stderr), (0, ""))
        self.assertEqual([of["cursor"] for of in json.loads(told.stdout)["cursors"]], ["C1", "C3"])

    def test_opening_that_is_refused(self):
        told = self.ran(script_of(["* FROM T", "* FROM U"]))
        self.assertEqual((told.returncode, told.stderr), (0, f"FILE:{len(LOAD) + 2}: not opened: unknown U\n"))

    def test_no_cursor(self):
        told = self.ran(script_of(["* FROM T"]), "--cursor", "D")
        self.assertEqual((told.returncode, told.stdout, told.stderr), (1, "", "compare: FILE: no such cursor is opened; opened are: C0 of session 1\n"))

    def test_no_script(self):
        told = self.ran("1 BEGIN\n\n9 COMMIT\n")
        self.assertEqual((told.returncode, told.stdout), (2, ""))
        self.assertTrue(told.stderr.startswith("FILE:3: script: line 3 has no session (a session is 1 to 8"), told.stderr)


if __name__ == "__main__":
    unittest.main()
