"""Runs with threads: a program that makes the calls is found right, and one that leaves a call out, or does not end, is not."""
import shutil
import subprocess
import sys
import tempfile
import unittest
from pathlib import Path

TOOLS = Path(__file__).resolve().parents[1]

# The slow model in place of a program with threads; what it writes goes through a filter.
PLAIN = """#!/bin/sh
words=
for word; do case $word in --threads | --workers=*) ;; *) words="$words $word" ;; esac; done
exec {python} {model} $words | {filter}
"""


class Runs(unittest.TestCase):
    def setUp(self):
        self.folder = Path(tempfile.mkdtemp())
        self.addCleanup(shutil.rmtree, self.folder)

    def told(self, text: str, *words: str) -> tuple[int, list[str]]:
        program = self.folder / "program"
        program.write_text(text, encoding="utf-8")
        program.chmod(0o755)
        tool = [sys.executable, str(TOOLS / "fuzz/thread_runs.py"), str(program), *words]
        ran = subprocess.run(tool, capture_output=True, text=True, timeout=300, check=False)
        self.assertEqual(ran.stderr, "")
        return ran.returncode, ran.stdout.splitlines()

    def model(self, after: str) -> str:
        return PLAIN.format(python=sys.executable, model=TOOLS / "model/slow_program.py", filter=after)

    def test_legal_runs(self):
        for more in ([], ["--shaken"]):
            status, lines = self.told(self.model("cat"), "2", "5", *more)
            self.assertEqual((status, len(lines)), (0, 1))
            self.assertRegex(lines[0], r"^2 scripts, [1-9][0-9]* calls, 0 not legal$")

    def test_a_call_that_is_left_out(self):
        status, lines = self.told(self.model("tail -n +3"), "2", "5")
        self.assertEqual((status, lines[-1]), (1, "2 scripts, 0 calls, 2 not legal"))

    def test_a_run_that_does_not_end(self):
        status, lines = self.told("#!/bin/sh\nexec sleep 30\n", "1", "5", "--seconds", "1")
        self.assertEqual(status, 1)
        self.assertIn("no end within 1 seconds", lines[0])

    def test_a_program_that_is_not_there(self):
        tool = [sys.executable, str(TOOLS / "fuzz/thread_runs.py"), str(self.folder / "none")]
        ran = subprocess.run(tool, capture_output=True, text=True, timeout=60, check=False)
        self.assertEqual(ran.returncode, 2)
        self.assertEqual(len(ran.stderr.splitlines()), 1)


if __name__ == "__main__":
    unittest.main()
