"""The tools that have no test of their own: each says what it is for, and finds what it is there to find."""
import os
import shutil
import stat
import subprocess
import sys
import tempfile
import unittest
from pathlib import Path

from worked import doc_examples, program_words

TOOLS = Path(__file__).resolve().parents[1]
MODEL = [sys.executable, str(TOOLS / "model/slow_program.py")]

# A program that takes ten allocations before its one call, and ends as the statuses say, or as it should not.
TEN = r"""
#include <stdio.h>
#include <stdlib.h>
#include <unistd.h>
int run(void) {
    for (int i = 0; i < 10; i++)
        if (!malloc(1000)) return i == WRONG ? 9 : write(2, "no memory\n", 10) == 10 ? 4 : 9;
    return write(1, "1 COMMIT\n= no transaction\n", 26) == 26 ? 0 : 9;
}
int main(void) {
    if (AT_ONCE) _exit(run()); /* as a program with threads ends */
    return run();
}
"""


def ran(*command: object, **more) -> subprocess.CompletedProcess:
    return subprocess.run(list(map(str, command)), capture_output=True, text=True, timeout=300, check=False, **more)


class Folder(unittest.TestCase):
    def setUp(self):
        self.folder = Path(tempfile.mkdtemp())
        self.addCleanup(shutil.rmtree, self.folder)

    def program(self, text: str, name: str = "program") -> Path:
        path = self.folder / name
        path.write_text(text, encoding="utf-8")
        path.chmod(0o755)
        return path


class Help(unittest.TestCase):
    def test_each_tool_says_what_it_is_for(self):
        tools = [path for path in sorted(TOOLS.rglob("*")) if path.is_file() and path.stat().st_mode & stat.S_IXUSR]
        self.assertGreater(len(tools), 25)
        for tool in tools:
            told = ran(tool, "--help", stdin=subprocess.DEVNULL)
            self.assertEqual((told.returncode, told.stderr), (0, ""), tool)
            self.assertGreater(len(told.stdout.split()), 15, tool)

    def test_a_word_that_is_none_is_told(self):
        for tool in sorted(TOOLS.rglob("*.py")):
            if tool.stat().st_mode & stat.S_IXUSR and "argparse" in tool.read_text(encoding="utf-8"):
                told = ran(tool, "--no-such-word", stdin=subprocess.DEVNULL)
                self.assertEqual((told.returncode, told.stdout), (2, ""), tool)


class NotThere(unittest.TestCase):
    def test_file_or_program_that_is_not_there_is_told_in_one_line(self):
        gone, bank = "/nowhere", TOOLS.parent / "examples" / "bank"
        for name, *words in [
            ("shell/check_script.py", gone), ("shell/timeline.py", gone), ("shell/timeline.py", bank, "--svg", "/nowhere/x.svg"),
            ("shell/compare.py", gone), ("shell/compare.py", bank, "--svg", "/nowhere/x.svg"), ("shell/interleave.py", gone),
            ("shell/interleave.py", TOOLS / "tests/interleavings/lost-update.script", "--expected", gone), ("model/slow_audit.py", gone, gone),
            ("fuzz/hostile_scripts.py", gone, "--damaged", 1), ("fuzz/hostile_table.py", gone), ("fuzz/random_scripts.py", gone, 1),
            ("shell/load.py", gone, "--table", "T"), ("shell/rows.py", gone), ("shell/expand.py", gone), ("shell/refusals.py", gone),
            ("shell/expect.py", gone), ("shell/expect.py", bank, gone), ("worked/program_words.py", gone), ("worked/worked_runs.py", gone),
            ("worked/doc_examples.py", gone), ("fuzz/refused_memory.py", gone, gone, gone), ("gate_times", "tell", gone),
        ]:  # fmt: skip
            told = ran(TOOLS / name, *words)
            self.assertEqual((told.returncode, told.stderr.count("\n")), (2, 1), (name, told.stderr))
            self.assertIn("/nowhere", told.stderr)

    def test_nobody_reads_on(self):
        told = ran("bash", "-c", f"set -o pipefail; {' '.join(MODEL)} < {TOOLS.parent}/examples/eight-sessions | head -c 9")
        self.assertEqual((told.stdout, told.stderr), ("1 CREATE ", ""))

    def test_nothing_can_be_written(self):
        told = ran("bash", "-c", f"{' '.join(MODEL)} < {TOOLS.parent}/examples/bank > /dev/full")
        self.assertEqual((told.returncode, told.stdout, told.stderr), (2, "", "slow_program: No space left on device\n"))


class Pages(Folder):
    def test_examples_by_another_program(self):
        program = self.program("#!/bin/sh\ncat\n")
        told = list(doc_examples.differences([str(program)]))
        self.assertGreater(len(told), 20)
        # an excerpt is looked for in its file, whatever the program writes
        self.assertTrue(all(how for name, how in told if ", excerpt" not in name), told)
        self.assertFalse(any(how for name, how in told if ", excerpt" in name), told)

    def test_block_that_differs(self):
        body = "1 COMMIT\n= no transaction\n"
        self.assertIsNone(doc_examples.of_block(MODEL, "transcript", [], body))
        how = doc_examples.of_block(MODEL, "transcript", [], body.replace("no t", "t"))
        self.assertEqual(how, "'= no transaction' in place of '= transaction'")
        self.assertIn("not in", doc_examples.of_block(MODEL, "excerpt", ["examples/bank.transcript"], "1 BEGIN\n= began 77\n"))


class Words(Folder):
    def test_program_that_takes_its_words(self):
        # the forms of the command line, by the tool's own tables
        accepted = [[word.decode() for word in words] for words in program_words.ACCEPTED]
        text = f"""#!{sys.executable}
import sys
if sys.argv[1:] not in {accepted!r}:
    sys.stderr.write({program_words.USAGE.decode()!r})
    sys.exit(1)
"""
        good = ran(TOOLS / "worked/program_words.py", self.program(text))
        self.assertEqual((good.returncode, good.stdout), (0, "70 command lines, 0 differ\n"))
        bad = ran(TOOLS / "worked/program_words.py", self.program(text.replace("exit(1)", "exit(2)")))
        self.assertEqual((bad.returncode, bad.stdout.splitlines()[-1]), (1, "70 command lines, 53 differ"))


class Random(Folder):
    def test_model_beside_itself_and_a_program_that_loses_a_row(self):
        program = self.program(f'#!/bin/sh\n{" ".join(MODEL)} "$@"\n')
        told = ran(TOOLS / "fuzz/random_scripts.py", "--exact", program, 4, 1)
        self.assertEqual((told.returncode, told.stdout), (0, "4 scripts, 0 differ\n"))
        other = self.program(f'#!/bin/bash\nset -o pipefail\n{" ".join(MODEL)} "$@" | sed "s/= committed 1$/= committed 2/"\n')
        told = ran(TOOLS / "fuzz/random_scripts.py", other, 4, 1)
        self.assertEqual(told.returncode, 1)
        self.assertIn("'= committed 2' for committed 1", told.stdout)


@unittest.skipUnless(shutil.which("cc"), "there is no C compiler")
class Refused(Folder):
    def refuse(self, wrong: int, at_once: int = 0) -> subprocess.CompletedProcess:
        source, program = self.folder / "ten.c", self.folder / "ten"
        source.write_text(TEN, encoding="utf-8")
        subprocess.run(["cc", "-O0", f"-DWRONG={wrong}", f"-DAT_ONCE={at_once}", "-o", program, source], check=True)
        script, transcript = self.folder / "script", self.folder / "transcript"
        script.write_text("1 COMMIT\n", encoding="utf-8")
        transcript.write_text("1 COMMIT\n= no transaction\n", encoding="utf-8")
        return ran(TOOLS / "fuzz/refused_memory.py", program, script, transcript)

    def test_each_allocation_is_refused_in_turn(self):
        told = self.refuse(99)
        self.assertEqual(told.returncode, 0, told.stdout + told.stderr)
        self.assertIn("with memory enough: 10 allocations", told.stdout)
        self.assertIn("status 0 with 1 calls told: 1 runs\nstatus 4 with 0 calls told: 10 runs\n11 runs, 0 ended otherwise\n", told.stdout)

    def test_it_is_told_where_the_program_ends_at_once(self):
        told = self.refuse(99, at_once=1)
        self.assertEqual(told.returncode, 0, told.stdout + told.stderr)
        self.assertIn("11 runs, 0 ended otherwise\n", told.stdout)

    def test_wrong_end_is_found(self):
        told = self.refuse(6)
        self.assertEqual(told.returncode, 1)
        self.assertIn("{'number': 7}: status 9", told.stdout)
        self.assertIn("11 runs, 1 ended otherwise", told.stdout)


class Plain(Folder):
    """The maker of the program over the plain store, in a small repository whose ./rvdyn tells its words."""

    def repository(self, main: str) -> Path:
        top = self.folder / "top"
        (top / "crates/rv_cli/src").mkdir(parents=True)
        (top / "tools").mkdir()
        shutil.copy(TOOLS / "plain_program.sh", top / "tools")
        (top / "crates/rv_cli/src/main.rt").write_text(main, encoding="utf-8")
        (top / "crates.txt").write_text("rv_store:\nrv_plain:\nrv_cli: rv_core rv_store\n", encoding="utf-8")
        self.program('#!/bin/sh\necho "built with $*"\n', "top/rvdyn")
        named = ["-c", "user.name=a", "-c", "user.email=a@b"]
        for words in (["init", "-q"], ["add", "-A"], [*named, "commit", "-qm", "all"]):
            subprocess.run(["git", *words], cwd=top, check=True, env={**os.environ, "GIT_CONFIG_GLOBAL": os.devnull})
        return top

    MAIN = "use rv_store::Paged;\nfn main() {\n    let store = Paged::new(alloc);\n}\n"

    def test_copy_has_the_other_store(self):
        top, copy = self.repository(self.MAIN), self.folder / "copy"
        told = ran(top / "tools/plain_program.sh", copy, "--prove")
        self.assertEqual(told.returncode, 0, told.stderr)
        self.assertTrue(told.stdout.startswith("built with --prove\n"), told.stdout)
        self.assertEqual((copy / "crates/rv_cli/src/main.rt").read_text(), self.MAIN.replace("store::Paged", "plain::Plain").replace("Paged", "Plain"))
        self.assertIn("rv_cli: rv_core rv_plain", (copy / "crates.txt").read_text())
        self.assertEqual((top / "crates/rv_cli/src/main.rt").read_text(), self.MAIN)

    def test_wrong_uses(self):
        top = self.repository("fn main() {}\n")
        for words in ([], ["a", "b"], [top]):
            told = ran(top / "tools/plain_program.sh", *words)
            self.assertEqual((told.returncode, told.stdout), (1, ""), words)
            self.assertIn("usage", told.stderr)
        told = ran(top / "tools/plain_program.sh", self.folder / "copy")
        self.assertEqual((told.returncode, told.stderr), (1, "main makes its store in another way\n"))


if __name__ == "__main__":
    unittest.main()
