"""The tools that write what a program is to print, or to read: the file in the program's crate is what they write now."""
import subprocess
import sys
import unittest
from pathlib import Path

TOOLS = Path(__file__).resolve().parents[1]
CRATES = TOOLS.parent / "crates"
TABLES = ["try_retrievals", "try_stores", "try_values"]


class Tables(unittest.TestCase):
    def written(self, tool: str, words: list[str], stdin: bytes) -> bytes:
        command = [sys.executable, str(TOOLS / f"{tool}.py"), *words]
        ran = subprocess.run(command, input=stdin, capture_output=True, timeout=300, check=False)
        self.assertEqual((ran.returncode, ran.stderr), (0, b""), tool)
        return ran.stdout

    def has(self, name: str, file: str, written: bytes) -> None:
        self.assertTrue(written == (CRATES / name / file).read_bytes(), f"{name}: {file} differs")

    def is_written(self, name: str, words: list[str], stdin: bytes, file: str) -> None:
        self.has(name, file, self.written(f"tables/{name}", words, stdin))

    def test_answers(self):
        for name in TABLES:
            self.is_written(name, [], b"", "stdout")

    def test_questions(self):
        for name in TABLES:
            self.is_written(name, ["--lines"], b"", "stdin")

    def test_own_judge(self):
        self.is_written("own_judge", [], (CRATES / "own_judge" / "stdin").read_bytes(), "stdout")

    def test_judges_of_another_program(self):
        # its words are --judge 1, and of its judges that is the one for all rows
        script = (CRATES / "skew_cli" / "stdin").read_bytes()
        self.has("skew_cli", "stdout", self.written("model/slow_program", ["--judge", "all-rows"], script))

    def test_own_sessions(self):
        for between in ("0", "7"):
            self.is_written("own_sessions", ["--between", between], b"", "stdout")


if __name__ == "__main__":
    unittest.main()
