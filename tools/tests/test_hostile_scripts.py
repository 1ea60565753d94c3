"""What the maker of hostile scripts makes, what it finds, and runs with less memory."""
import random
import shutil
import subprocess
import sys
import tempfile
import unittest
from collections import Counter
from pathlib import Path

from fuzz.hostile_scripts import Edges, accepted, came, difference, of_number, shrunk, wanted
from fuzz.limited_memory import Ran, Shim, is_front, wrong_end
from model.language import fault_of
from worked import program_words

TOOLS = Path(__file__).resolve().parents[1]
TOOL = [sys.executable, str(TOOLS / "fuzz/hostile_scripts.py")]
MODEL = TOOLS / "model/slow_program.py"

# A program that takes 100 rooms of 1,000 bytes, each but the first four allowed to be refused, and tells how many it got.
TAKER = r"""
#include <stdio.h>
#include <stdlib.h>
int main(void) {
    int got = 0;
    for (int i = 0; i < 100; i++) got += malloc(1000) != NULL;
    char line[20];
    fwrite(line, 1, snprintf(line, sizeof line, "%d\n", got), stderr);
    return got == 100 ? 0 : 4;
}
"""


class Made(unittest.TestCase):
    def replies(self, theme, seeds=8) -> Counter[str]:
        """How often the first words of each reply come in a theme's scripts."""
        found: Counter[str] = Counter()
        for seed in range(seeds):
            edges = Edges(random.Random(seed))
            made = [text if isinstance(text, tuple) else (1, text) for text in theme(edges)]
            status, told, _ = wanted("".join(f"{s} {t}\n" for s, t in made).encode(), [])
            self.assertEqual(status, 0)
            found.update(" ".join(line.split()[1:3]) for line in told.decode().split("\n")[1::2])
        return found

    def test_each_limit_is_passed_and_is_met(self):
        for theme, refused, met in [
            (Edges.names_at_limit, "limit name", "created"), (Edges.texts_at_limit, "limit text", "inserted 0"),
            (Edges.columns_at_limit, "limit columns", "inserted 0"), (Edges.keys_at_limit, "limit key", "limit order"),
            (Edges.conditions_at_limit, "limit list", "limit atoms"), (Edges.conditions_at_limit, "limit groups", "opened"),
            (Edges.selects_at_limit, "limit joined", "opened"), (Edges.selects_at_limit, "limit returned", "end"),
            (Edges.steps_at_limit, "limit steps", "stepped 0"), (Edges.integers_at_limit, "syntax", "inserted 0"),
            (Edges.tables_at_limit, "limit tables", "created"), (Edges.indexes_at_limit, "limit indexes", "opened"),
            (Edges.cursors_at_limit, "limit cursors", "opened"), (Edges.sessions_in_conflict, "no transaction", "held 0"),
            (Edges.unique_at_limit, "duplicate 0", "inserted 0"), (Edges.own_changes, "limit cursors", "opened"),
        ]:  # fmt: skip
            found = self.replies(theme, 4 if theme in (Edges.tables_at_limit, Edges.cursors_at_limit) else 8)
            self.assertTrue(found[refused] and found[met], (theme, refused, met, found))

    def test_lines_at_limit(self):
        statuses = Counter((fault_of(Edges(random.Random(seed)).lines_at_limit()) or (0,))[0] for seed in range(60))
        self.assertTrue({0, 3} <= set(statuses), statuses)

    def test_a_number_makes_a_script(self):
        found = Counter()
        for number in range(60):
            script, words = of_number("damaged", 1, number, 0)
            self.assertEqual((script, words), of_number("damaged", 1, number, 0))
            found[1 if accepted(words) is None else (fault_of(script) or (0,))[0]] += 1
        self.assertGreater(found[0], 30)
        self.assertGreater(found[2], 5)

    def test_words(self):
        for words in program_words.ACCEPTED:
            self.assertIsNotNone(accepted(words), words)
        for words in program_words.FAULTY:
            self.assertIsNone(accepted([w if isinstance(w, bytes) else w.encode() for w in words]), words)


class Found(unittest.TestCase):
    def program(self, folder: str, change: str) -> str:
        """A program that writes what the model writes, but for a change by sed."""
        path = Path(folder, "program")
        path.write_text(f'#!/bin/bash\nset -o pipefail\n{sys.executable} {MODEL} "$@" | sed {change}\n', encoding="utf-8")
        path.chmod(0o755)
        return str(path)

    def test_the_model_does_not_differ(self):
        with tempfile.TemporaryDirectory() as folder:
            program = self.program(folder, "''")
            ran = subprocess.run([*TOOL, program, "--damaged", "6", "--limits", "2", "--heavy", "0"], capture_output=True, check=False)
            self.assertEqual(ran.returncode, 0, ran.stdout)
            self.assertIn(b"8 scripts, 0 differ; 0 were too slow", ran.stdout)

    def test_a_difference_is_told_and_made_short(self):
        with tempfile.TemporaryDirectory() as folder:
            program = [self.program(folder, "s/committed/comitted/")]
            script = b"".join(b"1 %s\n" % text for text in [b"BEGIN", b"ROLLBACK", b"BEGIN", b"COMMIT", b"COMMIT"])
            self.assertEqual(difference(wanted(script, []), came(program, script, [], 9)), "line 8: b'= comitted 0' for b'= committed 0'")
            less = shrunk(script, lambda s: b"committed" in wanted(s, [])[1])
            self.assertEqual(less, b"1 BEGIN\n1 COMMIT")
            ran = subprocess.run([*TOOL, *program, "--damaged", "0", "--limits", "1", "--first", "3", "--heavy", "0"], capture_output=True, check=False)
            self.assertEqual(ran.returncode, 1, ran.stdout)


class LessMemory(unittest.TestCase):
    SCRIPT = b"1 BEGIN\n1 COMMIT\n"
    WHOLE = (0, b"1 BEGIN\n= began 1\n1 COMMIT\n= committed 0\n", b"")

    def wrong(self, status: int, output: bytes, words: bytes = b"", refused: int = 1, whole=WHOLE) -> str | None:
        return wrong_end(Ran(status, output, words, 9, 9, refused), whole, self.SCRIPT)

    def test_ends(self):
        self.assertTrue(is_front(b"", self.WHOLE[1]))
        self.assertFalse(is_front(b"1 BEGIN\n", self.WHOLE[1]))
        self.assertIsNone(self.wrong(*self.WHOLE, refused=0))
        self.assertIsNone(self.wrong(4, b"", b"no memory\n"))
        self.assertIn("nothing was refused", self.wrong(4, b"", b"no memory\n", refused=0))
        self.assertIn("no front", self.wrong(4, b"1 BEGIN\n", b"no memory\n"))
        self.assertIn("status -6", self.wrong(-6, b""))
        self.assertIn("status 0", self.wrong(0, b""))

    def test_another_transcript_has_to_be_legal(self):
        other = (0, self.WHOLE[1] + b"1 ROLLBACK\n= no transaction\n", b"")
        self.assertIsNone(self.wrong(0, self.WHOLE[1], whole=other))
        self.assertIn("nothing was refused", self.wrong(0, self.WHOLE[1], refused=0, whole=other))
        self.assertIsNone(self.wrong(4, b"1 BEGIN\n= began 1\n", b"no memory\n", whole=(0, b"1 BEGIN\n= began 2\n", b"")))
        self.assertIn("no front", self.wrong(4, b"1 BEGIN\n= began 2\n", b"no memory\n"))
        self.assertIn("no legal transcript", self.wrong(0, b"1 BEGIN\n= began 1\n"))
        self.assertIn("status 0", self.wrong(0, self.WHOLE[1], whole=(1, b"", b"usage")))

    @unittest.skipUnless(shutil.which("cc"), "there is no C compiler")
    def test_shim(self):
        with tempfile.TemporaryDirectory() as folder, Shim() as shim:
            source, program = Path(folder, "taker.c"), str(Path(folder, "taker"))
            source.write_text(TAKER, encoding="utf-8")
            subprocess.run(["cc", "-O0", "-o", program, source], check=True)
            whole = shim.run([program], b"")
            self.assertEqual((whole.status, whole.words, whole.refused), (0, b"100\n", 0))
            self.assertGreaterEqual(whole.most, 100_000)
            one = shim.run([program], b"", number=50)
            self.assertEqual((one.status, one.words, one.refused), (4, b"99\n", 1))
            half = shim.run([program], b"", room=whole.most // 2)
            self.assertEqual(half.status, 4)
            self.assertLessEqual(half.most, whole.most // 2 + 64)
            self.assertGreater(half.refused, 40)


if __name__ == "__main__":
    unittest.main()
