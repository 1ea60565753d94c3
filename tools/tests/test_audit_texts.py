"""The transcripts are read so by the slow auditor, and an auditor that is wrong is refused."""
import subprocess
import sys
import unittest
from pathlib import Path

from worked.audit_texts import cases, is_as_wanted

TOOL = Path(__file__).resolve().parents[1] / "worked/audit_texts.py"


class Texts(unittest.TestCase):
    def test_the_slow_auditor_reads_them_so(self):
        ran = subprocess.run([sys.executable, str(TOOL)], capture_output=True, timeout=300, check=False)
        self.assertEqual((ran.returncode, ran.stdout, ran.stderr), (0, b"174 transcripts, 0 read otherwise\n", b""))

    def test_verdicts(self):
        names = [name for name, *_ in cases()]
        self.assertEqual(len(set(names)), len(names))
        self.assertTrue(is_as_wanted(b"bad entry 1\n", None))
        for came, wants in [(b"text line 2\n", None), (b"", None), (b"legal 1", None), (b"text line 2\n", b"text line 1"), (b"legal 10\n", b"legal 1")]:
            self.assertFalse(is_as_wanted(came, wants), came)


if __name__ == "__main__":
    unittest.main()
