"""FETCH C ALL becomes as many FETCHes as the cursor has rows, by the model and by a program."""
import subprocess
import sys
import tempfile
import unittest
import unittest.mock
from pathlib import Path

from model.language import calls_of
from model.program import run
from shell import expand
from shell.interleave import by_model as run_by_model

TOOLS = Path(__file__).resolve().parents[1]

SCRIPT = """# three sessions
1 CREATE TABLE T (A BIGINT)
1 FETCH X ALL
1 BEGIN
1 INSERT INTO T VALUES (1)
1 INSERT INTO T VALUES (2)
1 COMMIT
1 BEGIN
2 BEGIN
1 OPEN C SELECT * FROM T
2 INSERT INTO T VALUES (3)
1 fetch c
2 OPEN C SELECT * FROM T WHERE A > 1
-- 1
1\x20\x20fetch\tc  all ;
2 COMMIT
1 OPEN D SELECT X.A, Y.A FROM T X, T Y
1 FETCH D ALL

3 BEGIN
3 OPEN C SELECT * FROM T
3 FETCH C ALL
1 FETCH C ALL
2 FETCH C ALL
# done"""

FETCHES = {3: 1, 15: 2, 18: 5, 22: 4, 23: 1, 24: 1}  # by line


def counted(script: str, count=expand.by_model) -> dict[int, int]:
    entries = list(calls_of(script))
    return {line: found.fetches for line, found in count(entries, expand.wanted_in(entries)).items()}


class Expand(unittest.TestCase):
    def expanded(self, script: str) -> str:
        entries = list(calls_of(script))
        wanted = expand.wanted_in(entries)
        return expand.expanded(script.encode(), expand.by_model(entries, wanted), wanted).decode()

    def test_what_is_to_be_expanded(self):
        for text in ("FETCH C ALL", "fetch  c\tall;", " FETCH ALL ALL ; "):
            self.assertIsNotNone(expand.fetched_whole(text), text)
        for text in ("FETCH C", "FETCH ALL", "FETCH C ALL 1", "FETCH FROM ALL", "FETCH C ALL;;", "OPEN C ALL", "FETCH 'C ALL", ""):
            self.assertIsNone(expand.fetched_whole(text), text)

    def test_counts_are_those_at_their_place(self):
        self.assertEqual(counted(SCRIPT), FETCHES)

    def test_counts_by_runs(self):
        runs = []

        def run_it(calls):
            runs.append(len(calls))
            return run_by_model(0, 1)(calls)

        for first in (1, 2, 1000):
            runs.clear()
            with unittest.mock.patch.object(expand, "FIRST_TRY", first):
                self.assertEqual(counted(SCRIPT, expand.by_runs(run_it)), FETCHES)
            self.assertEqual(len(runs), {1: 3, 2: 2, 1000: 1}[first])

    def test_second_fetch_of_all_rows_by_runs(self):
        # where the first is given too few FETCHes, the second one finds rows and the end
        script = "1 CREATE TABLE T (A BIGINT)\n1 BEGIN\n" + "1 INSERT INTO T VALUES (1)\n" * 5
        script += "1 OPEN C SELECT * FROM T\n1 FETCH C ALL\n1 FETCH C ALL\n1 CLOSE C\n1 OPEN C SELECT * FROM T\n1 FETCH C\n1 FETCH C ALL\n"
        with unittest.mock.patch.object(expand, "FIRST_TRY", 1):
            self.assertEqual(counted(script, expand.by_runs(run_by_model(0, 1))), {9: 6, 10: 1, 14: 5})
        self.assertEqual(counted(script), {9: 6, 10: 1, 14: 5})

    def test_runs_within_the_limits(self):
        # 15 lines beside the FETCHes: together they have no room for all that is tried, one after another they have
        calls = sum(1 for call in calls_of(SCRIPT)) - len(FETCHES)
        room = sum(FETCHES.values())
        with unittest.mock.patch.object(expand, "SCRIPT_LINES", calls + room):
            self.assertEqual(counted(SCRIPT, expand.by_runs(run_by_model(0, 1))), FETCHES)
        with unittest.mock.patch.object(expand, "SCRIPT_LINES", calls + room - 1), self.assertRaises(expand.OverLimit):
            counted(SCRIPT, expand.by_runs(run_by_model(0, 1)))

    def test_all_other_lines_stay_as_they_are(self):
        wanted = [part if number not in FETCHES else "\n".join([f"{part[0]} FETCH {'XCDCCC'[list(FETCHES).index(number)]}"] * FETCHES[number])
                  for number, part in enumerate(SCRIPT.split("\n"), 1)]  # fmt: skip
        self.assertEqual(self.expanded(SCRIPT), "\n".join(wanted))
        crlf = SCRIPT.replace("\n", "\r\n")
        self.assertEqual(self.expanded(crlf), "\r\n".join("\n".join(wanted).split("\n")))
        self.assertEqual(self.expanded("\ufeff1 FETCH C ALL\n"), "\ufeff1 FETCH C\n")
        self.assertEqual(self.expanded(""), "")

    def test_the_last_fetch_of_each_is_the_first_that_answers_end(self):
        replies = [(session, text, reply) for session, text, reply in run(self.expanded(SCRIPT)) if text.startswith("FETCH D")]
        self.assertEqual([reply.split()[0] for _, _, reply in replies], ["row"] * 4 + ["end"])

    def test_program(self):
        command = [sys.executable, TOOLS / "shell/expand.py"]
        told = "-:3: FETCH X ALL: no cursor X\n-:24: FETCH C ALL: no cursor C\n"
        with tempfile.TemporaryDirectory() as folder:
            program, broken = Path(folder, "program"), Path(folder, "broken")
            program.write_text(f'#!/bin/sh\nexec {sys.executable} {TOOLS}/model/slow_program.py "$@"\n', encoding="utf-8")
            broken.write_text("#!/bin/sh\nexit 4\n", encoding="utf-8")
            for file in (program, broken):
                file.chmod(0o755)
            for more in ([], ["--program", program]):
                ran = subprocess.run([*command, "-", *more], input=SCRIPT, capture_output=True, text=True, check=False)
                self.assertEqual((ran.returncode, ran.stdout, ran.stderr), (0, self.expanded(SCRIPT), told))
            ran = subprocess.run([*command, "-", "--program", broken], input=SCRIPT, capture_output=True, text=True, check=False)
            self.assertEqual((ran.returncode, ran.stdout, ran.stderr), (1, "", f"expand: {broken} ended with status 4\n"))
        ran = subprocess.run([*command, "-", "--program", "/nowhere"], input=SCRIPT, capture_output=True, text=True, check=False)
        self.assertEqual((ran.returncode, ran.stdout, ran.stderr), (2, "", "expand: /nowhere: No such file or directory\n"))
        ran = subprocess.run([*command, "-"], input="BEGIN\n", capture_output=True, text=True, check=False)
        self.assertEqual((ran.returncode, ran.stdout, ran.stderr[:42]), (2, "", "-: script: line 1 has no session (a line i"))


if __name__ == "__main__":
    unittest.main()
