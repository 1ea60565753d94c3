"""The worked runs pass by the slow model over both stores, and a program that is wrong is refused."""
import argparse
import contextlib
import io
import sys
import tempfile
import unittest
from pathlib import Path

from model.language import fault_of
from model.program import run, transcript
from model.slow_program import add_run_options
from worked import worked_queries
from worked.worked_runs import Came, Runs, Service, faults, lines, texts, transcripts

WORDS = argparse.ArgumentParser()
add_run_options(WORDS)


class Model(Runs):
    """The slow model, in this process."""

    def run(self, script: bytes, *words: str) -> Came:
        fault = fault_of(script)
        if fault is not None:
            return fault[0], b"", fault[1].encode() + b"\n"
        asked = WORDS.parse_args([*self.command, *words])
        return 0, transcript(run(script.decode(), asked.judge, asked.steps, asked.plain, asked.race)).encode(), b""


class WorkedRuns(unittest.TestCase):
    def counted(self, runs: Runs, *tries: str) -> tuple[int, int]:
        with contextlib.redirect_stdout(io.StringIO()):
            for name in tries:
                getattr(runs, name)(*[False] * (name == "try_traces"))
        return runs.cases, runs.wrong

    def program(self, body: str) -> Runs:
        folder = tempfile.TemporaryDirectory()
        self.addCleanup(folder.cleanup)
        path = Path(folder.name, "program")
        path.write_text(f"#!/bin/sh\n{body}\n", encoding="utf-8")
        path.chmod(0o755)
        return Runs([str(path)])

    def test_the_model_passes(self):
        self.assertEqual(self.counted(Model([]), "try_scripts", "try_traces"), (181, 0))

    def test_the_model_serves(self):
        model = Runs([sys.executable, str(Path(__file__).resolve().parents[1] / "model/slow_program.py")])
        self.assertEqual(self.counted(model, "try_services"), (66, 0))

    def test_a_service_that_waits_for_the_end_is_refused(self):
        whole = Service(self.program("cat > /dev/null; echo; echo").command)
        self.assertFalse(whole.ask(b"1 BEGIN\n", 1, patience=0.2))
        self.assertEqual(whole.end(), (0, b"\n\n", b""))

    def test_the_model_over_the_plain_store_passes(self):
        runs = Model(["--plain"])
        runs.try_traces(True)
        self.assertEqual((runs.cases, runs.wrong), (3, 0))

    def test_each_transcript_is_of_its_own_script(self):
        found = list(transcripts())
        self.assertEqual(len(found), 43)
        self.assertTrue(all(script and status == 0 and output.count(b"\n= ") == script.count(b"\n") for _, script, (status, output, _) in found))

    def test_a_program_that_says_nothing_is_refused(self):
        silent = self.program("cat > /dev/null")
        self.assertEqual(self.counted(silent, "try_scripts"), (166, 158))
        silent.cases = silent.wrong = 0
        self.assertEqual(self.counted(silent, "try_queries", "try_words", "try_workload", "try_workers"), (40, 40))

    def test_a_program_that_reads_before_its_words_is_refused(self):
        early = self.program('cat > /dev/null; echo "usage: rvdyn [--line] [--threads] [--workers W] [--judge N] [--steps K] [--gen SEED] [--race]" >&2; exit 1')
        self.assertEqual(self.counted(early, "try_words"), (15, 15))
        late = self.program('echo "usage: rvdyn [--line] [--threads] [--workers W] [--judge N] [--steps K] [--gen SEED] [--race]" >&2; exit 1')
        self.assertEqual(self.counted(late, "try_words"), (15, 0))

    def test_queries_are_those_of_the_model(self):
        """Restrictions and races; the others take the model longer, and are of the same rules."""
        for made in (worked_queries.restricted, worked_queries.singles):
            for name, words, script, told in made():
                if name == "restrictions" or "--race" in words:
                    self.assertEqual(Model([]).run(script.encode(), *words), (0, told.encode(), b""), name)

    def test_queries_have_many_courses(self):
        told = "".join(told for _, _, _, told in worked_queries.cases())
        courses = {" ".join(line.split()[2:-6]) for line in told.split("\n") if line.startswith("= trace")}
        self.assertEqual((told.count("\n= opened"), len(courses)), (2886, 161))
        for word in ["stop", "full", "final-list", "final-table", "union", "sorted", "index-only", "fast-first", "background-only", "table"]:
            self.assertTrue(any(word in course for course in courses), word)

    def test_rows_of_equal_order_values_may_be_exchanged(self):
        call = "1 OPEN C SELECT W.B, W.C, W.A FROM T0 W ORDER BY W.A\n= opened\n"
        rows = ["1 FETCH C\n= row 2, 1, 1\n", "1 FETCH C\n= row NULL, 1, 1\n", "1 FETCH C\n= row 0, 0, 2\n"]
        tidy = call + rows[1] + rows[0] + rows[2]
        self.assertEqual(worked_queries.tidied(call + "".join(rows)), tidy)
        self.assertEqual(worked_queries.tidied(tidy), tidy)
        self.assertNotEqual(worked_queries.tidied(call + rows[2] + rows[0] + rows[1]), tidy)

    def test_mixed_kinds_are_left_out(self):
        """Rows that no table has: 9 of the 200 of the restriction table."""
        self.assertEqual(sum(len(rows) for _, _, rows, _ in worked_queries.restricted_cases()), 191)

    def test_cases_are_apart(self):
        names = [name for cases in (transcripts, lines, faults, texts) for name, _, _ in cases()]
        self.assertEqual(len(set(names)), len(names))


if __name__ == "__main__":
    unittest.main()
