"""The slow judge of transcripts: every example is legal, and each answer other than legal comes where it should."""
import pathlib
import unittest

from model.slow_audit import entries_of, verdict

EXAMPLES = pathlib.Path(__file__).resolve().parents[2] / "examples"
SCRIPT = b"1 CREATE TABLE T (A BIGINT)\n--\n1 BEGIN\n2 BEGIN\n"
TRANSCRIPT = b"1 CREATE TABLE T (A BIGINT)\n= created\n2 BEGIN\n= began 1\n1 BEGIN\n= began 2\n"


class Verdicts(unittest.TestCase):
    def says(self, status: int, line: str, transcript: bytes, script: bytes = SCRIPT, mark: bytes = b"====\n") -> None:
        self.assertEqual(verdict(script + mark + transcript), (status, line))

    def test_examples_are_legal(self):
        for transcript in EXAMPLES.glob("*.transcript"):
            with self.subTest(transcript.name):
                status, line = verdict(transcript.with_suffix("").read_bytes() + b"====\n" + transcript.read_bytes())
                self.assertEqual((status, line.split()[0]), (0, "legal"))

    def test_each_answer(self):
        self.says(0, "legal 3", TRANSCRIPT)
        self.says(0, "legal 3", TRANSCRIPT, mark=b"====\r\n")
        self.says(7, "no mark", TRANSCRIPT, mark=b"=====\n")
        self.says(2, "script: line 1 has no session", TRANSCRIPT, script=b"BEGIN\n")
        self.says(3, "limit: line 1 over 4096 bytes", TRANSCRIPT, script=b"1" * 4097 + b"\n")
        self.says(7, "text line 7", TRANSCRIPT + b"9 BEGIN\n")
        self.says(8, "bad entry 2", TRANSCRIPT.replace(b"began 1", b"began 2"))
        self.says(9, "missing session 1 phase 2", TRANSCRIPT[: TRANSCRIPT.index(b"1 BEGIN")])

    def test_an_entry_of_a_later_phase_waits(self):
        calls = TRANSCRIPT.splitlines(keepends=True)
        self.says(8, "bad entry 1", b"".join(calls[2:4] + calls[:2] + calls[4:]))

    def test_texts_are_read_as_they_are_written(self):
        for reply in (b"row 1, 'it''s', NULL, -5", b"row ", b"limit rows 65536", b"trace table final-table pages 0 leaves 0 fetches 0"):
            self.assertEqual(entries_of(b"1 X\n= " + reply + b"\n"), [(1, "X", reply.decode())])
        for reply in (b"row 01", b"row -0", b"row 9223372036854775808", b"row 'a", b"began 18446744073709551616", b"Created", b"began  1"):
            self.assertEqual(entries_of(b"1 X\n= " + reply + b"\n"), 2)
        self.assertEqual(entries_of(b"1 X\n= created"), 2)
        self.assertEqual(entries_of(b"1 \xff\n= created\n"), 1)
        self.assertEqual(entries_of(b"1 X\r\n= created\n"), [(1, "X\r", "created")])


if __name__ == "__main__":
    unittest.main()
