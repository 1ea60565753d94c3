"""The table of hostile use refuses programs that are wrong, and takes the model where that has the cases."""
import contextlib
import io
import shutil
import subprocess
import sys
import tempfile
import unittest
from pathlib import Path

from fuzz.hostile_table import FIRST, Table, told

MODEL = Path(__file__).resolve().parents[1] / "model/slow_program.py"

# A program that tells a transcript, each call behind an allocation, and ends with status 4 where that is refused. Where it is
# wrong it tells each line behind one.
TELLER = r"""
#include <stdio.h>
#include <stdlib.h>
#include <unistd.h>
static const char *lines[] = {LINES};
static int wants_memory(void) {
    fputs("no memory\n", stderr);
    return 4;
}
int main(void) {
    setvbuf(stdout, NULL, _IONBF, 0);
    for (int i = 0; i < COUNT; i++) {
        if ((i % 2 == 0 || WRONG) && !malloc(1000)) return wants_memory();
        puts(lines[i]);
    }
    return 0;
}
"""


class HostileTable(unittest.TestCase):
    def table(self, folder: str, body: str) -> Table:
        """The table over a program that a shell's words make."""
        path = Path(folder, "program")
        path.write_text(f"#!/bin/sh\n{body}\n", encoding="utf-8")
        path.chmod(0o755)
        return Table(str(path))

    def test_the_model_passes(self):
        with tempfile.TemporaryDirectory() as folder:
            table = self.table(folder, f'exec {sys.executable} {MODEL} "$@"')
            Table.rows(table)
            Table.texts(table)
            self.assertEqual((table.cases, table.wrong), (3, 0))

    def test_a_program_that_always_wants_memory_is_refused(self):
        with tempfile.TemporaryDirectory() as folder:
            table = self.table(folder, "cat > /dev/null; echo no memory >&2; exit 4")
            with contextlib.redirect_stdout(io.StringIO()) as told_of:
                Table.rows(table)
            self.assertEqual((table.cases, table.wrong), (2, 2))
            self.assertIn("an empty script: status 4", told_of.getvalue())

    def test_a_program_that_tells_no_fault_is_refused(self):
        with tempfile.TemporaryDirectory() as folder:
            table = self.table(folder, f"{sys.executable} {MODEL} 2> /dev/null; exit 0")
            script = b"1 BEGIN\n" * 4
            status, output, _ = table.limited(script, 20)
            self.assertEqual((status, output), (0, b"1 BEGIN\n= began 1\n1 "))
            self.assertEqual(table.reset(script)[0], 0)

    @unittest.skipUnless(shutil.which("cc"), "there is no C compiler")
    def test_half_a_call_before_memory_was_wanting_is_refused(self):
        lines = FIRST.splitlines()
        with tempfile.TemporaryDirectory() as folder:
            source = Path(folder, "teller.c")
            source.write_text(TELLER.replace("LINES", ", ".join(f'"{line}"' for line in lines)).replace("COUNT", str(len(lines))), encoding="utf-8")
            for wrong in (0, 1):
                program = Path(folder, f"teller{wrong}")
                subprocess.run(["cc", "-O0", f"-DWRONG={wrong}", "-o", program, source], check=True)
                table = Table(str(program))
                with contextlib.redirect_stdout(io.StringIO()) as told_of:
                    Table.memory(table)
                self.assertGreater(table.cases, 60)
                self.assertEqual(table.wrong > 0, bool(wrong), told_of.getvalue())

    def test_fronts_of_a_transcript(self):
        self.assertEqual(told(FIRST, 2), b"1 CREATE TABLE T (A BIGINT, B VARCHAR(4))\n= created\n1 BEGIN\n= began 1\n")


if __name__ == "__main__":
    unittest.main()
