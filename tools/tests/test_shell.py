"""What the shell answers to lines that are typed."""
import io
import subprocess
import sys
import tempfile
import unittest
from pathlib import Path
from unittest.mock import Mock

from shell.shell import Model, Quit, Shell, completer

TOP = Path(__file__).resolve().parents[2]


class Shells(unittest.TestCase):
    def setUp(self):
        self.out = io.StringIO()
        self.shell = Shell(Model, self.out)

    def typed(self, *lines: str) -> list[str]:
        """What is answered to the last of these lines."""
        for line in lines:
            self.out.truncate(0)
            self.out.seek(0)
            self.shell.line(line)
        return self.out.getvalue().splitlines()

    def test_statements_of_the_session_in_the_prompt(self):
        self.assertEqual(self.typed("CREATE TABLE T (A BIGINT)"), ["= created"])
        self.assertEqual(self.typed("2 BEGIN"), ["= began 1"])
        self.assertEqual(self.shell.session, 2)
        self.assertEqual(self.typed("INSERT INTO T VALUES (7)"), ["= inserted 0"])
        self.assertEqual(self.typed("\\session 1", "INSERT INTO T VALUES (8)"), ["= no transaction", "# BEGIN begins a transaction, BEGIN READ ONLY one that only reads"])

    def test_syntax_has_its_place(self):
        self.assertEqual(self.typed("COMIT")[0], "= syntax")
        self.assertIn("column 1: `COMIT`", self.out.getvalue())
        self.typed("quit")
        self.assertIn("\\quit ends", self.out.getvalue())

    def test_undo_makes_the_calls_anew(self):
        self.typed("CREATE TABLE T (A BIGINT)", "BEGIN", "INSERT INTO T VALUES (7)")
        self.assertEqual(self.typed("\\undo"), ["# 2 lines stay"])
        self.assertEqual(self.typed("INSERT INTO T VALUES (9)"), ["= inserted 0"])

    def test_save_and_run(self):
        self.typed("CREATE TABLE T (A BIGINT)", "--", "3 BEGIN")
        with tempfile.TemporaryDirectory() as folder:
            file = f"{folder}/script"
            self.assertEqual(self.typed(f"\\save {file}"), [f"# 3 lines are in {file}"])
            other = Shell(Model, self.out)
            other.line(f"\\run {file}")
            self.assertIn("3 BEGIN\n= began 1\n", self.out.getvalue())

    def test_show_and_times(self):
        self.assertIn("no cursor was opened", self.typed("\\show")[0])
        self.typed("CREATE TABLE T (A BIGINT)", "BEGIN", "OPEN C SELECT * FROM T")
        self.assertTrue(self.typed("\\show")[0].startswith("= trace "))
        self.assertEqual(self.typed("\\show D"), ["= no cursor D", "# OPEN NAME SELECT .. opens a cursor, and COMMIT and ROLLBACK close all of the session"])
        self.typed("\\timing")
        self.assertRegex(self.typed("FETCH C")[-1], r"^# [0-9.]+ ms$")
        self.assertEqual(self.typed("\\timing"), ["# times are told no longer"])

    def test_names_are_completed(self):
        self.typed("CREATE TABLE Births (A BIGINT)")
        complete = completer(self.shell, Mock())
        self.assertEqual([complete("Bi", place) for place in range(3)], ["BIGINT", "Births", None])
        self.assertEqual(complete("comm", 0), "commit")

    def test_what_is_no_line(self):
        self.assertIn("no command", self.typed("\\foo")[0])
        self.assertIn("no line of a script", self.typed("--x")[0])
        self.assertIn("from 1 to 8", self.typed("\\session 9")[0])
        with self.assertRaises(Quit):
            self.shell.line("\\quit")

    def test_replies_are_those_of_the_transcript(self):
        example = TOP / "examples/conflicts"
        ran = subprocess.run([sys.executable, TOP / "tools/shell/shell.py", "--model"], input=example.read_bytes(), capture_output=True, check=True)
        lines = [line for line in ran.stdout.decode().splitlines() if line and not line.startswith(("#", "--"))]
        self.assertEqual(lines, (TOP / "examples/conflicts.transcript").read_text(encoding="utf-8").splitlines())

    def test_a_built_program_has_judges_by_numbers(self):
        with tempfile.TemporaryDirectory() as folder:
            program = Path(folder, "program")
            program.write_bytes(b"\x7fELF")
            ran = subprocess.run([sys.executable, TOP / "tools/shell/shell.py", "--program", program, "--judge", "bounded"], input=b"", capture_output=True, check=False)
        self.assertEqual((ran.returncode, ran.stdout), (2, b""))
        self.assertTrue(ran.stderr.decode().endswith(f"error: {program} takes a judge by its number: ./rvdyn has one by the name 'bounded', in the program that it picks\n"))


if __name__ == "__main__":
    unittest.main()
