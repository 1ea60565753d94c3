"""Each mistake is told at its place, and examples have none."""
import subprocess
import sys
import unittest
from pathlib import Path

from model.language import fault_of
from shell.check_script import Finding, findings, of_fault

TOP = Path(__file__).resolve().parents[2]
TABLE = "1 CREATE TABLE PARTS (NAME VARCHAR(4), WEIGHT BIGINT)\n"


def found(*lines: str) -> list[Finding]:
    return list(findings(TABLE + "".join(line + "\n" for line in lines)))


class CheckScript(unittest.TestCase):
    def told(self, line: str, column: int, *parts: str) -> None:
        """The line has one mistake, at this column, and its words have these parts."""
        (finding,) = found(line)
        self.assertEqual((finding.line, finding.column), (2, column), finding.words)
        for part in parts:
            self.assertIn(part, finding.words)

    def test_right_script_has_no_finding(self):
        lines = ["1 BEGIN", "1 INSERT INTO PARTS VALUES ('nut', NULL)", "1 COMMIT", "2 BEGIN", "2 OPEN C SELECT * FROM PARTS P", "2 FETCH c"]
        self.assertEqual(found(*lines), [])

    def test_token_that_fits_no_statement(self):
        self.told("1 CREATE TABEL T (A BIGINT)", 10, "`TABEL` does not fit", "`TABLE`, `UNIQUE` or `INDEX`")
        self.told("1 CREATE TABLE T (A VARCHAR(4) B BIGINT)", 32, "`B` does not fit", "`,` or `)`")
        self.told("1 UPDATE PARTS SET WEIGHT = WEIGHT", 29, "`NULL`, an integer or a text")

    def test_end_that_comes_too_soon(self):
        self.told("1 OPEN C SELECT NAME FROM PARTS WHERE", 38, "the statement ends here", "a name")

    def test_text_behind_the_end(self):
        self.told("1 COMMIT WORK", 10, "`WORK` does not fit", "the end of the statement")

    def test_keyword_as_a_name(self):
        self.told("1 CREATE TABLE STEP (A BIGINT)", 16, "`STEP` is a keyword, and no name")
        self.told("1 OPEN C SELECT TOTAL FROM PARTS", 17, "`TOTAL` is a keyword, and no name; here could stand `*` or a name")

    def test_table_whose_create_is_refused(self):
        # the call in a wrong state may be meant; that its table is not there is told, and why
        told = found("1 BEGIN", "2 CREATE TABLE Q (A BIGINT)", "1 INSERT INTO Q VALUES (1)", "1 INSERT INTO Q VALUES (2)")
        self.assertEqual([(f.line, f.words) for f in told], [(4, "there is no table Q: its CREATE TABLE in line 3 is refused (busy 1)")])

    def test_no_token(self):
        self.told("1 OPEN C SELECT NAME FROM PARTS WHERE NAME != 'a'", 44, "`<>`")
        self.told("1 INSERT INTO PARTS VALUES ('nut, 1)", 29, "no end")
        self.told("1 INSERT INTO PARTS VALUES ('a\tnut', 1)", 29, "this text has a tab")
        self.told("1 COMMIT\x00", 9, "a character U+0000 begins no token")
        self.told("1 BEGIN\r1 COMMIT", 8, "lines end with LF or CR LF")
        self.told("1 INSERT INTO PARTS VALUES ('nut', 9223372036854775808)", 36, "64 bits")

    def test_habits_of_sql(self):
        for line, word in (
            ("1 OPEN C SELECT NAME FROM PARTS WHERE NAME LIKE 'a%'", "STARTING WITH"),
            ("1 OPEN C SELECT NAME FROM PARTS ORDER BY NAME DESC", "least first"),
            ("1 OPEN C SELECT NAME FROM PARTS LIMIT 3", "FETCH as many"),
            ("1 OPEN C SELECT P.NAME FROM PARTS P JOIN PARTS Q", "commas"),
            ("1 SELECT NAME FROM PARTS", "OPEN C SELECT"),
            ("1 OPEN C SELECT NAME FROM PARTS WHERE NOT NAME = 'a'", "no NOT before a condition"),
            ("1 OPEN C SELECT NAME FROM PARTS WHERE 2 = WEIGHT", "a literal stands on the right"),
            ("1 OPEN C SELECT NAME FROM PARTS WHERE NAME STARTS WITH 'a'", "STARTING WITH"),
            ("1 END", "COMMIT"),
            ("1 COMMIT WORK", "without a further word"),
            ("1 BEGIN TRANSACTION", "without a further word"),
            ("1 FETCH NEXT FROM C", "the next one"),
            ("1 COMMIT # of all", "no comment behind it"),
            ("1 OPEN C SELECT NAME FROM PARTS WHERE NAME = 'a' OR NAME = 'b' AND WEIGHT = 1", "parentheses"),
        ):
            (finding,) = found(line)
            self.assertIn(word, finding.words)

    def test_unknown_names(self):
        self.told("1 OPEN C SELECT NAME FROM PART", 27, "there is no table PART")
        self.told("1 OPEN C SELECT WEIGHT, COLOUR FROM PARTS", 25, "no column COLOUR", "NAME, WEIGHT")
        self.told("1 OPEN C SELECT X.NAME FROM PARTS P", 19, "called X", "P")
        self.told("1 OPEN C SELECT NAME FROM PARTS P, PARTS Q", 17, "P.NAME, Q.NAME")
        self.told("1 FETCH C", 9, "no open cursor C")

    def test_an_unknown_table_is_told_once(self):
        self.assertEqual(len(found(*["1 BEGIN", *["1 INSERT INTO T VALUES (1)"] * 3000])), 1)

    def test_names_in_use(self):
        self.told("1 CREATE TABLE PARTS (A BIGINT)", 16, "already")
        told = found("1 CREATE TABLE T (A BIGINT)", "1 CREATE UNIQUE INDEX I ON T (A)", "1 CREATE INDEX I ON T (A)")
        self.assertEqual([finding.words for finding in told], ["there is an index I already, unless line 3 is answered `duplicate`, which rows decide"])
        self.told("1 CREATE TABLE T (A BIGINT, A BIGINT)", 29, "twice")

    def test_values(self):
        self.told("1 INSERT INTO PARTS VALUES ('nut')", 29, "1 value for 2 columns", "NAME, WEIGHT")
        self.told("1 INSERT INTO PARTS VALUES ('nut', 1, 2)", 39, "3 values for 2 columns")
        self.told("1 INSERT INTO PARTS VALUES (5, 1)", 29, "an integer does not fit", "NAME is VARCHAR(4)")
        self.told("1 INSERT INTO PARTS VALUES ('a', 'b')", 34, "a text does not fit", "WEIGHT is BIGINT")
        self.told("1 INSERT INTO PARTS VALUES ('äöü', 1)", 29, "6 bytes", "NAME is VARCHAR(4)")
        self.told("1 OPEN C SELECT NAME FROM PARTS WHERE WEIGHT = 1 AND WEIGHT = 'x'", 54, "WEIGHT")

    def test_limits(self):
        self.told("1 STEP C 10001", 3, "limit steps 10000")

    def test_line_that_is_none_of_a_script(self):
        for line, words in (
            ("9 BEGIN", "a session is 1 to 8"),
            ("10 BEGIN", "a line is `S statement`"),
            ("1\tBEGIN", "no tab"),
            ("-- 3", "0, 1 or 2"),
            ("-- a comment", "a comment begins with #"),
            ("  # a comment", "first character"),
            ("  ", "no spaces"),
            ("   WHERE A = 1", "begins with its session"),
            ("BEGIN", "all of the statement on it"),
        ):
            data = f"# first\n{line}\n".encode()
            told = of_fault(fault_of(data), data)
            self.assertTrue(told.startswith("script: line 2 has no session ("), told)
            self.assertIn(words, told)

    def test_bytes_that_are_no_text(self):
        for data, words in (
            (b"1 A\n1 B 'M\xfcller'\n", "byte 10 is not UTF-8 (line 2, column 7: a byte FC, which is `\u00fc` in CP1252: `iconv -f CP1252 -t UTF-8` makes the file UTF-8)"),
            ("\ufeff\u00e4".encode() + b"\x81", "byte 5 is not UTF-8 (line 1, column 2: a byte 81)"),
            ("1 COMMIT\n".encode("utf-16"), "byte 0 is not UTF-8 (the file is UTF-16: `iconv -f UTF-16 -t UTF-8` makes it UTF-8)"),
        ):
            self.assertEqual(of_fault(fault_of(data), data), "script: " + words)
        data = b"1 COMMIT\r" * 500
        self.assertIn("LF or CR LF ends a line", of_fault(fault_of(data), data))

    def test_program(self):
        command = [sys.executable, TOP / "tools/shell/check_script.py"]
        ran = subprocess.run([*command, TOP / "examples/first-steps", "-"], input=b"1 COMIT\n", capture_output=True, check=False)
        self.assertEqual(ran.returncode, 1)
        self.assertTrue(ran.stdout.startswith(b"-:1:3: `COMIT` does not fit"), ran.stdout)
        ran = subprocess.run(command, input=b"9 COMMIT\n", capture_output=True, check=False)
        self.assertEqual((ran.returncode, ran.stdout[:46]), (1, b"-: script: line 1 has no session (a session is"))
        self.assertEqual(subprocess.run([*command, "no such file"], capture_output=True, check=False).returncode, 2)


if __name__ == "__main__":
    unittest.main()
