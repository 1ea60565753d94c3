"""The first difference of two transcripts."""
import subprocess
import sys
import unittest
from pathlib import Path

from shell.expect import told

TOP = Path(__file__).resolve().parents[2]
SCRIPT = b"# one\n1 BEGIN\n\n1 COMMIT\n"
EXPECTED = b"1 BEGIN\n= began 1\n1 COMMIT\n= committed 0\n"


class Expect(unittest.TestCase):
    def said(self, came: bytes, expected: bytes = EXPECTED, script: bytes | None = SCRIPT) -> list[str]:
        return told("e", expected, came, ("s", script) if script is not None else None)

    def test_the_same(self):
        self.assertEqual(self.said(EXPECTED), [])
        self.assertEqual(self.said(b"", b""), [])

    def test_another_reply(self):
        lines = ["e:4: expected is `= committed 0`, and `= committed 1` came", "  as the answer to `1 COMMIT`"]
        self.assertEqual(self.said(EXPECTED.replace(b"d 0", b"d 1")), [*lines, "  which is line s:4"])
        self.assertEqual(self.said(EXPECTED.replace(b"d 0", b"d 1"), script=None), lines)

    def test_another_call(self):
        self.assertEqual(self.said(EXPECTED.replace(b"1 COMMIT", b"1 ROLLBACK")), ["e:3: expected is `1 COMMIT`, and `1 ROLLBACK` came", "  which is line s:4"])

    def test_one_is_longer(self):
        self.assertEqual(self.said(EXPECTED[:18]), ["e:3: expected is `1 COMMIT`, and nothing more came", "  which is line s:4"])
        self.assertEqual(self.said(EXPECTED + b"1 BEGIN\n= began 2\n"), ["e:5: expected is nothing more, and `1 BEGIN` came"])
        self.assertEqual(self.said(b"")[0], "e:1: expected is `1 BEGIN`, and nothing more came")
        self.assertEqual(self.said(EXPECTED[:-1])[1], "  they differ in the blanks at an end, or in the ends of lines")

    def test_ends_of_lines(self):
        self.assertEqual(self.said(EXPECTED.replace(b"\n", b"\r\n"))[1], "  they differ in the blanks at an end, or in the ends of lines")

    def test_byte_order_mark(self):
        self.assertEqual(self.said(EXPECTED, expected=b"\xef\xbb\xbf" + EXPECTED)[1], "  one of them begins with a byte order mark")

    def test_bytes_that_are_no_text(self):
        self.assertEqual(self.said(b"\xff")[0], "e:1: expected is `1 BEGIN`, and `\\xff` came")

    def test_program(self):
        command = [sys.executable, TOP / "tools/shell/expect.py"]
        expected = TOP / "examples/bank.transcript"
        data = expected.read_bytes()
        ran = subprocess.run([*command, expected], input=data, capture_output=True, check=False)
        self.assertEqual((ran.returncode, ran.stdout), (0, b""))
        came = data.replace(b"\n= touched 1\n", b"\n= touched 2\n", 1)
        ran = subprocess.run([*command, expected, "-", "--script", TOP / "examples/bank"], input=came, capture_output=True, check=False)
        self.assertEqual(ran.returncode, 1)
        first, answer, line = ran.stdout.decode().splitlines()
        self.assertTrue(first.endswith("expected is `= touched 1`, and `= touched 2` came"), first)
        number = int(line.rpartition(":")[2])
        self.assertIn((TOP / "examples/bank").read_text(encoding="utf-8").splitlines()[number - 1], answer)


if __name__ == "__main__":
    unittest.main()
