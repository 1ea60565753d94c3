"""A CSV file becomes the script that makes its table, or is refused with the line that does not fit."""
import io
import subprocess
import sys
import tempfile
import unittest
import unittest.mock
from pathlib import Path

from model.language import fault_of
from model.program import is_refusal, run
from shell import load

TOOLS = Path(__file__).resolve().parents[1]


class Load(unittest.TestCase):
    def loaded(self, data: str | bytes, *words: str) -> list[str]:
        """The lines of the script of a file; what is told of the file stays in `told`."""
        self.told: list[tuple[int, str]] = []
        asked = load.words_of(["-", "--table", "T", *words])
        file = io.BytesIO(data.encode() if isinstance(data, str) else data)
        source = load.Source(file, asked.delimiter, asked.encoding, not asked.no_header)
        try:
            script = load.script_of(source, asked, lambda line, words: self.told.append((line, words)))
        except load.Misfit as fault:
            self.told.append((fault.line, str(fault)))
            return []
        if script is None:
            return []
        self.assertIsNone(fault_of("".join(line + "\n" for line in script.lines).encode()))
        return script.lines

    def rows(self, data: str | bytes, *words: str) -> list[str]:
        """What stands between the parentheses of the INSERTs."""
        return [line.partition("VALUES ")[2][1:-1] for line in self.loaded(data, *words) if " INSERT " in line]

    def refused(self, data: str | bytes, words: tuple[str, ...], *faults: tuple[int, str]) -> None:
        """Nothing is written, and this is told last, by lines of the file and parts of the words."""
        self.assertEqual(self.loaded(data, *words), [])
        told = self.told[-len(faults) :]
        self.assertEqual([line for line, _ in told], [line for line, _ in faults], self.told)
        for (_, said), (_, part) in zip(told, faults):
            self.assertIn(part, said)

    def wrong(self, data: str, words: tuple[str, ...], part: str) -> None:
        with self.assertRaisesRegex(load.WrongWords, part):
            self.loaded(data, *words)

    # What is written.

    def test_script(self):
        lines = self.loaded("id,name\n1,O'Brien\n2,\n", "--unique", "id", "--index", "BYNAME=name,id")
        self.assertEqual(lines, [
            "1 CREATE TABLE T (ID BIGINT, NAME VARCHAR(255))",
            "1 BEGIN",
            "1 INSERT INTO T VALUES (1, 'O''Brien')",
            "1 INSERT INTO T VALUES (2, NULL)",
            "1 COMMIT",
            "1 CREATE UNIQUE INDEX T_ID ON T (ID)",
            "1 CREATE INDEX BYNAME ON T (NAME, ID)",
        ])  # fmt: skip
        self.assertEqual(self.told, [])

    def test_commits_and_session(self):
        lines = self.loaded("a\n1\n2\n3\n", "--commit", "2", "--session", "7")
        self.assertEqual([line[:8] for line in lines], ["7 CREATE", "7 BEGIN", "7 INSERT", "7 INSERT", "7 COMMIT", "7 BEGIN", "7 INSERT", "7 COMMIT"])

    def test_no_rows(self):
        self.assertEqual(self.loaded("a\n"), ["1 CREATE TABLE T (A VARCHAR(255))"])

    def test_forms_of_files(self):
        for data in (b"\xef\xbb\xbfa,b\r\n1,\"x, \"\"y\"\"\"\r\n\r\n2,z\r\n", "a,b\n1,\"x, \"\"y\"\"\"\n2,z", "a,b\r1,\"x, \"\"y\"\"\"\r2,z\r"):
            self.assertEqual(self.rows(data), ["1, 'x, \"y\"'", "2, 'z'"])
        self.assertEqual(self.rows("a;b\n1;2\n", "--delimiter", ";"), ["1, 2"])
        self.assertEqual(self.rows("a\tb\n1\t2\n", "--delimiter", "tab"), ["1, 2"])
        self.assertEqual(self.rows("a,b\ngrün,1\n".encode("latin-1"), "--encoding", "latin-1"), ["'grün', 1"])
        self.assertEqual(self.rows("a,b\nž,1\n".encode("utf-16"), "--encoding", "utf-16"), ["'ž', 1"])

    def test_first_rows_and_some_columns(self):
        data = "a,b,c\n1,2,3\n4,5,6\n"
        self.assertEqual(self.rows(data, "--first", "1"), ["1, 2, 3"])
        self.assertEqual(self.rows(data, "--only", "c,a"), ["3, 1", "6, 4"])
        self.assertEqual(self.rows(data, "--no-header", "--first", "2"), ["'a', 'b', 'c'", "'1', '2', '3'"])

    # Kinds and values.

    def kinds(self, data: str, *words: str) -> str:
        return self.loaded(data, *words)[0].partition("(")[2][:-1]

    def test_kinds_are_guessed(self):
        self.assertEqual(self.kinds("a,b,c,d,e\n1,x,007,,9223372036854775808\n-2,3,8,,1\n"), "A BIGINT, B VARCHAR(255), C VARCHAR(255), D VARCHAR(255), E VARCHAR(255)")
        self.assertEqual(self.kinds("a\n-9223372036854775808\n 9223372036854775807 \n\n"), "A BIGINT")
        self.assertEqual(self.kinds("a\n1.0\n"), "A VARCHAR(255)")

    def test_field_that_makes_a_column_of_integers_one_of_texts_is_told(self):
        self.kinds("a\n1\n2\nn/a\n3\n")
        self.assertEqual(self.told, [(4, "column A is VARCHAR(255): here stands `n/a`, and 3 of its 4 fields are integers (--types says it otherwise)")])
        self.assertEqual(self.rows("a\n1\nn/a\n", "--null", "n/a"), ["1", "NULL"])

    def test_kinds_that_are_given(self):
        self.assertEqual(self.kinds("a,b\n1,2\n", "--types", ",varchar(9)"), "A BIGINT, B VARCHAR(9)")
        self.assertEqual(self.kinds("a,b\n1,2\n", "--types", "B=text"), "A BIGINT, B VARCHAR(255)")
        self.assertEqual(self.rows("a\n007\n+5\n -0\n", "--types", "integer"), ["7", "5", "0"])
        self.refused("a\n1\n\"1,5\"\n", ("--types", "BIGINT"), (3, "`1,5` is no integer"))
        self.refused("a\n9223372036854775808\n" + "9" * 5000 + "\n", ("--types", "BIGINT"), (2, "no integer of 64 bits"), (3, "no integer of 64 bits"))
        self.wrong("a,b\n1,2\n", ("--types", "BIGINT"), "1 kind for 2 columns: A, B")
        self.wrong("a\n1\n", ("--types", "DATE"), "`DATE` is no kind")
        self.wrong("a\n1\n", ("--types", "VARCHAR(300)"), "limit text 255")

    def test_null_and_the_empty_text(self):
        self.assertEqual(self.rows("a,b\nx,\n\"\",1\n"), ["'x', NULL", "NULL, 1"])
        self.assertEqual(self.rows("a,b\nx,\\N\n\"\",1\n", "--null", "\\N"), ["'x', NULL", "'', 1"])
        self.assertEqual(self.rows("a,b\nNULL,1\n"), ["'NULL', 1"])

    # Names.

    def names(self, header: str) -> list[str]:
        self.loaded(header + "\n")
        return [load.name_of(name, at) for at, name in enumerate(next(load.csv.reader([header])), 1)]

    def test_names_are_made(self):
        names = self.names("First name,Größe (cm),order,2020,,名字,x_,A__B," + "long " * 9)
        self.assertEqual(names, ["FIRST_NAME", "GROSSE_CM", "ORDER_", "C_2020", "C5", "C6", "X_", "A__B", "LONG_LONG_LONG_LONG_LONG_LONG_L"])
        self.assertEqual(self.told[0], (1, "column 1, `First name`, is called FIRST_NAME"))
        self.assertEqual(len(self.told), 7)
        self.assertTrue(all(load.is_name(name) for name in names))

    def test_names_that_are_given(self):
        self.assertEqual(self.kinds("x,x\n1,2\n", "--names", "a,b"), "A BIGINT, B BIGINT")
        self.assertEqual(self.kinds("1,2\n", "--no-header"), "C1 BIGINT, C2 BIGINT")
        self.assertEqual(self.kinds("1,2\n", "--no-header", "--names", "a,b"), "A BIGINT, B BIGINT")
        self.wrong("x,x\n1,2\n", ("--names", "a"), "1 name for 2 columns")
        self.wrong("x\n1\n", ("--names", "2x"), "2x is no name")

    def test_names_that_are_refused(self):
        self.refused("Name,name\n1,2\n", (), (1, "columns 1 and 2 would both be called NAME: --names"))
        self.refused("a,A\n1,2\n", ("--only", "a"), (1, "2 columns would be called A"))
        self.wrong("a\n1\n", ("--table", "step"), "`STEP` is a keyword")
        self.wrong("a\n1\n", ("--only", "b"), "no column b; the file has A")
        self.refused(",".join(f"c{at}" for at in range(17)) + "\n", (), (1, "17 columns, and a table has at most 16: --only"))

    def test_indexes_that_are_refused(self):
        self.wrong("a\n1\n", ("--index", "b"), r"INDEX T_B ON T \(B\): there is no column B; T has A")
        self.wrong("a\n1\n", ("--index", "a,a"), "A stands here twice")
        self.wrong("a\n1\n", ("--index", "a", "--unique", "a"), "there is an index T_A already")
        self.wrong("a,b,c,d,e\n1,1,1,1,1\n", ("--index", "a,b,c,d,e"), "limit key 4")
        self.wrong("a" * 30 + "\n1\n", ("--index", "a" * 30), "limit name 31.*--index NAME=COLUMNS")
        self.wrong("a\n1\n", tuple(word for at in range(9) for word in ("--index", f"I{at}=a")), "limit indexes 8")

    # What does not fit.

    def test_rows_that_do_not_fit_are_told_with_their_lines(self):
        self.refused('a,b\n"x\ny",1\nz\n1,2,3\nw,2\n', ("--spaces",), (4, "1 field for 2 columns"), (5, "3 fields"))
        self.refused('a\n"x\r\ny"\n"x\ty"\n\x7f\n', (), (2, "a line end in a text"), (4, "a tab in a text"), (5, "a character U+007F"))
        self.assertEqual(self.rows('a\n"x\r\ny"\n"x\ty"\n', "--spaces"), ["'x y'", "'x y'"])
        self.refused("a\n" + "ä" * 128 + "\n", (), (2, "column A: this text has 256 bytes, and the column is VARCHAR(255)"))
        self.assertEqual(self.rows("a\n" + "'" * 255 + "\n"), ["'" + "''" * 255 + "'"])

    def test_line_that_would_be_too_long(self):
        header = ",".join(f"c{at}" for at in range(16)) + "\n" + ("x" * 251 + ",") * 15
        room = 4096 - len("1 INSERT INTO T VALUES ()") - 15 * len(", ") - 16 * len("''") - 15 * 251
        self.assertEqual(len(self.loaded(header + "z" * room + "\n")[2]), 4096)
        self.refused(header + "z" * (room + 1) + "\n", (), (2, "a line of 4097 bytes, and a script's has at most 4096"))

    def test_files_that_are_none(self):
        self.refused("", (), (1, "the file is empty"))
        self.refused('a\n1\n"x\n2\n', (), (3, "has no end"))
        self.refused('a\n"x"y\n', (), (2, "a quote within quotes is written twice"))
        self.refused(b"a\nx\ngr\xfcn\n", (), (3, "not utf-8: --encoding"))
        self.refused(b"\xff\xfea\x00\n\x00", (), (1, "not utf-8"))

    def test_delimiter_that_may_be_meant(self):
        self.loaded("a;b\n1;2\n")
        self.assertEqual(self.told[0], (1, "there is one column: --delimiter ';' may be meant"))

    def test_equal_rows_in_a_unique_index(self):
        data = "a,b\n1,x\n2,x\n,x\n,x\n1,x\n"
        self.refused(data, ("--unique", "a,b"), (6, "the row of line 2 is equal in the unique index T_A_B: 1, 'x'"))
        self.assertEqual(len(self.rows(data, "--first", "4", "--unique", "a,b")), 4)

    def test_rows_for_which_a_script_has_no_room(self):
        for limit, most in (("SCRIPT_LINES", 100), ("SCRIPT_BYTES", 3000)):
            with unittest.mock.patch.object(load, limit, most):
                words = ("--index", "A", "--commit", "50")
                self.assertEqual(self.loaded("a\n" + "1\n" * 200, *words), [])
                ((line, told),) = self.told
                self.assertIn("--first N", told)
                fitting = self.loaded("a\n" + "1\n" * 200, *words, "--first", str(line - 2))
                size = sum(len(row) + 1 for row in fitting)
                row = len("1 INSERT INTO T VALUES (1)\n")
                self.assertTrue(len(fitting) == most if limit == "SCRIPT_LINES" else most - row < size <= most, (len(fitting), size))

    # The whole.

    def test_script_is_run_by_the_model(self):
        lines = self.loaded("id,text\n1,\"it's, \"\"so\"\"\"\n2,\n3,äöü\n", "--unique", "id")
        replies = [reply for _, _, reply in run("\n".join([*lines, "1 BEGIN", "1 OPEN C SELECT TEXT FROM T ORDER BY ID", *["1 FETCH C"] * 4]))]
        self.assertFalse(any(map(is_refusal, replies)))
        self.assertEqual(replies[-4:], ["row 'it''s, \"so\"'", "row NULL", "row 'äöü'", "end"])

    def test_program(self):
        command = [sys.executable, TOOLS / "shell/load.py", "--table", "T"]
        ran = subprocess.run([*command, "-"], input="a,b\n1,ä\n".encode(), capture_output=True, check=True, env={"LC_ALL": "C"})
        self.assertEqual(ran.stdout.decode().splitlines()[2], "1 INSERT INTO T VALUES (1, 'ä')")
        with tempfile.TemporaryDirectory() as folder:
            file = Path(folder, "people.csv")
            file.write_text("a\n1\n2,3\n", encoding="utf-8")
            ran = subprocess.run([*command, file], capture_output=True, text=True, check=False)
            self.assertEqual((ran.returncode, ran.stdout, ran.stderr), (1, "", f"{file}:3: 2 fields for 1 column\n"))
            ran = subprocess.run([*command, file, "--first", "1"], capture_output=True, text=True, check=False)
            self.assertEqual(ran.stdout.splitlines()[0], "# made by tools/shell/load.py from people.csv")

    def test_fractions(self):
        self.assertEqual(self.rows('ID,AMOUNT\n1,12.50\n2,7\n3,"-0,5"\n4,\n', "--scale", "amount=2"), ["1, 1250", "2, 700", "3, -50", "4, NULL"])
        self.assertEqual(self.rows("A\n0.000\n000.10\n+3.\n", "--scale", "A=1", "--types", "BIGINT"), ["0", "1", "30"])

    def test_fractions_that_do_not_fit(self):
        self.refused("A\n1.234\nx\n", ("--scale", "A=2"), (2, "`1.234` has 3 digits of a fraction, and column A 2"), (3, "`x` is no number"))
        self.refused("A\n99999999999999999.99\n", ("--scale", "A=3"), (2, "no integer of 64 bits"))
        self.wrong("A\n1\n", ("--scale", "A=0"), "digits from 1 to 9, as AMOUNT=2")
        self.wrong("A\n1\n", ("--scale", "A=2", "--types", "VARCHAR"), "--scale makes A a BIGINT, and --types a VARCHAR")

    def test_fractions_that_become_texts_are_told(self):
        self.assertEqual(self.rows("A\n1.5\n2\n"), ["'1.5'", "'2'"])
        (line, words), = self.told
        self.assertEqual(line, 2)
        self.assertIn("--scale A=2 makes it an integer of hundredths", words)
        for data in ("A\n1.5\n01\n", "A\n01\n02\n", "A\n1.5\n1.2.3\n"):
            self.rows(data)
            self.assertEqual(self.told, [])


if __name__ == "__main__":
    unittest.main()
