"""tools/check_tools.sh, in a folder whose tools only tell what they were asked and what is said to have failed."""
import os
import shutil
import signal
import subprocess
import tempfile
import time
import unittest
from pathlib import Path

TOOLS = Path(__file__).resolve().parents[1]
PARTS = """fuzz/hostile_table.py worked/worked_runs.py fuzz/random_scripts.py worked/doc_examples.py worked/program_words.py worked/audit_texts.py
    fuzz/bounded_worst.py gate_times prover_times check_pages.py believed.py crate_texts.py mutants""".split()
# Tells its words, and then what the case `NAME.says` has, with the status of `NAME.ends`.
PART = """#!/bin/sh
echo "${0##*/} $*" >> asked
cat "$0.says" 2> /dev/null
exit "$(cat "$0.ends" 2> /dev/null || echo 0)"
"""
TEST = "import unittest\nclass T(unittest.TestCase):\n    def test_a(self): pass\n    def test_b(self): self.assertEqual({}, 1)\n"


class CheckTools(unittest.TestCase):
    def setUp(self):
        self.folder = Path(tempfile.mkdtemp())
        self.addCleanup(shutil.rmtree, self.folder)
        self.tools = self.folder / "a top/tools"
        (self.tools / "tests").mkdir(parents=True)
        shutil.copy(TOOLS / "check_tools.sh", self.tools)
        for name in PARTS:
            (self.tools / name).parent.mkdir(exist_ok=True)
            self.program(self.tools / name, PART)
        (self.tools / "tests/__init__.py").touch()
        (self.tools / "tests/test_one.py").write_text(TEST.format(1), encoding="utf-8")
        (self.tools / "tests/test_two.py").write_text(TEST.format(1), encoding="utf-8")
        self.crates = self.folder / "a top/crates"
        self.programs = [self.crates / f"{name}/out/{name}" for name in ("rv_cli", "rv_auditcli")]
        for path in self.programs:
            path.parent.mkdir(parents=True)
            self.program(path, "#!/bin/sh\n")

    def program(self, path: Path, text: str) -> None:
        path.write_text(text, encoding="utf-8")
        path.chmod(0o755)

    def check(self, *words: object, **more: str) -> subprocess.CompletedProcess:
        command = [str(self.tools / "check_tools.sh"), *map(str, words)]
        return subprocess.run(command, capture_output=True, text=True, env={**os.environ, **more}, cwd=self.folder, timeout=120, check=False)

    def asked(self) -> list[str]:
        return sorted((self.tools / "asked").read_text().splitlines())

    def test_without_a_program(self):
        ran = self.check()
        self.assertEqual((ran.returncode, ran.stderr), (0, ""))
        self.assertEqual(self.asked(), ["believed.py --check", "believed.py --test", "bounded_worst.py --tries 300", "check_pages.py ", "check_pages.py --test", "crate_texts.py ", "doc_examples.py ", "gate_times check", "mutants check", "prover_times check"])
        *parts, last = ran.stdout.splitlines()
        self.assertRegex(last, r"^13 passed, 0 failed in \d+ s$")
        self.assertEqual(len(parts), 11)
        self.assertIn("    2 passed  tests.test_one (", "\n".join(parts))

    def test_program_and_auditor(self):
        other = self.folder / "an auditor"
        self.program(other, "#!/bin/sh\n")
        for words, auditor in ((self.programs[:1], self.programs[1]), ([self.programs[0], other], other)):
            (self.tools / "asked").unlink(missing_ok=True)
            ran = self.check(*words, CHECK_ENDING="and so on", CHECK_JOBS="2")
            self.assertRegex(ran.stdout.splitlines()[-1], r"^21 passed, 0 failed in \d+ s; and so on$")
            self.assertIn(f"audit_texts.py {auditor}", self.asked())
            self.assertIn(f"hostile_table.py {self.programs[0]}", self.asked())
            self.assertIn("1 passed  worked_runs.py, the program (", ran.stdout)
            self.assertIn("1 passed  audit_texts.py, the auditor (", ran.stdout)

    def test_crates_whose_wrong_bodies_are_due_are_told_and_fail_nothing(self):
        (self.tools / "mutants.says").write_text("mutants: changed since they were tried: rv_a\n", encoding="utf-8")
        (self.tools / "mutants.ends").write_text("1\n", encoding="utf-8")
        ran = self.check()
        self.assertEqual((ran.returncode, ran.stdout.splitlines()[-2]), (0, "mutants: changed since they were tried: rv_a"))

    def test_program_that_is_not_there(self):
        self.programs[1].unlink()
        for words in (self.programs[:1], self.programs, ["gone", self.programs[0]]):
            ran = self.check(*words)
            self.assertEqual((ran.returncode, ran.stdout, ran.stderr.count("\n")), (2, "", 1))
            self.assertIn("there is no program /", ran.stderr)

    def test_what_is_counted(self):
        for name, says, ends in (
            ("fuzz/hostile_table.py", "a case: status 3\n40 cases of hostile use, 3 end otherwise\n", 1), ("worked/worked_runs.py", "100 worked runs, 0 end otherwise\n", 0),
            ("worked/audit_texts.py", "Traceback: no such file\n", 1), ("worked/program_words.py", "7 command lines, 0 differ\n", 2), ("check_pages.py", "87 pages, 9 faults, 76 to be read\n", 1),
        ):  # fmt: skip
            (self.tools / f"{name}.says").write_text(says, encoding="utf-8")
            (self.tools / f"{name}.ends").write_text(f"{ends}\n", encoding="utf-8")
        (self.tools / "tests/test_two.py").write_text(TEST.format(2), encoding="utf-8")
        ran = self.check(self.programs[0])
        self.assertEqual(ran.returncode, 1)
        # 40 and 100 cases, 7 and the end of the tool, 4 tests, and thirteen of one case each, of which three fail.
        self.assertRegex(ran.stdout.splitlines()[-1], r"^158 passed, 8 failed in \d+ s$")
        self.assertRegex(ran.stdout, r"FAILED: 3 of 40 in hostile_table\.py, the program \(\d+ s, status 1\), which wrote:\na case: status 3\n")
        self.assertRegex(ran.stdout, r"FAILED: 1 of 1 in audit_texts\.py, the auditor \(\d+ s, status 1\), which wrote:\nTraceback: no such file\n")
        self.assertRegex(ran.stdout, r"FAILED: 1 of 2 in tests\.test_two \(")
        self.assertIn("AssertionError: 2 != 1", ran.stdout)
        self.assertIn("100 passed  worked_runs.py, the program", ran.stdout)

    def test_broken_off_it_ends_its_parts(self):
        self.program(self.tools / "worked/doc_examples.py", '#!/bin/sh\necho $$ > pid\nexec sleep 60\n')
        running = subprocess.Popen([str(self.tools / "check_tools.sh")], stdout=subprocess.DEVNULL, stderr=subprocess.DEVNULL)
        pid, until = self.tools / "pid", time.monotonic() + 60
        while not (pid.exists() and pid.read_text()) and time.monotonic() < until:
            time.sleep(0.02)
        running.send_signal(signal.SIGTERM)
        self.assertEqual(running.wait(timeout=60), 143)
        until = time.monotonic() + 60
        while Path(f"/proc/{pid.read_text().strip()}").exists() and time.monotonic() < until:
            time.sleep(0.02)
        self.assertFalse(Path(f"/proc/{pid.read_text().strip()}").exists())


if __name__ == "__main__":
    unittest.main()
