"""What the gate refuses of the crates' texts before it proves anything, over a small repository and a formatter that only plays its part."""
import shutil
import subprocess
import tempfile
import unittest
from pathlib import Path

import crate_texts

# Says what `rattle fmt --check` does of a file that has the word `crooked`.
FORMATTER = """#!/bin/sh
shift 2
ends=0
for it; do ! grep -q crooked "$it" || { echo "$it is not in the layout" >&2; ends=1; }; done
exit $ends
"""
EDIT = "only: low::f\nfile: src/lib.rt\nold:     1\nnew:     2\nold:     2\nnew:\n"


class CrateTexts(unittest.TestCase):
    def setUp(self):
        self.top = Path(tempfile.mkdtemp())
        self.addCleanup(shutil.rmtree, self.top)
        self.write("crates.txt", "# NAME: the crates that it uses\nlow: std\nhigh status=2: low # above it\n")
        self.write("crates/low/src/lib.rt", "pub fn f() -> u8 {\n    1\n}\n")
        self.write("crates/low/specs/Low.antt", "it : Nat\n")
        self.write("crates/high/proofs/deep/High.antt", "has : it ≡ it\n")
        self.write("crates/low/mutants/in-gate/two.edit", EDIT)
        self.write("crates/low/out/rlib/crooked.rt", "crooked\n")
        self.formatter = self.write("rattle", FORMATTER)
        self.formatter.chmod(0o755)

    def write(self, name: str, text: str) -> Path:
        path = self.top / name
        path.parent.mkdir(parents=True, exist_ok=True)
        path.write_text(text, encoding="utf-8")
        return path

    def found(self) -> list[str]:
        return crate_texts.faults(self.top, str(self.formatter))[1]

    def test_nothing_is_refused(self):
        self.assertEqual(crate_texts.faults(self.top, str(self.formatter)), (4, []))

    def test_layout(self):
        self.write("crates/low/specs/Low.antt", "crooked\n")
        self.assertEqual(self.found(), ["crates/low/specs/Low.antt is not in the layout"])
        self.assertEqual(crate_texts.faults(self.top, None), (4, []))

    def test_file_that_no_check_reads(self):
        for name in ("crates/low/specs/lib.rt", "crates/low/proofs.antt", "crates/none/src/lib.rt", "tools/Low.antt"):
            path = self.write(name, "")
            self.assertEqual(self.found(), [f"{name}: no check reads it"])
            path.unlink()

    @unittest.skipUnless(shutil.which("git"), "there is no git on the path")
    def test_what_git_ignores_is_passed_over(self):
        subprocess.run(["git", "init", "-q", self.top], check=True)
        self.write(".gitignore", "out/\nkept/\n")
        self.write("kept/Low.antt", "crooked\n")
        self.assertEqual(crate_texts.faults(self.top, str(self.formatter)), (4, []))
        self.write("more/Low.antt", "has : it\n")
        self.assertEqual(self.found(), ["more/Low.antt: no check reads it"])

    def test_edit_that_cannot_be_tried(self):
        for text, why in (
            (EDIT.replace("    1", "    7"), "its old text stands in src/lib.rt 0 times: 7"), (EDIT.replace("old:     2", "old: u"), "its old text stands in src/lib.rt 2 times: u"),
            (EDIT.replace("src/lib", "src/gone"), "there is no file src/gone.rt"), (EDIT.replace("src/lib", "../high/src/lib"), "there is no file ../high/src/lib.rt"),
            (EDIT.replace("low::f", "low::gone"), "there is no function low::gone"), (EDIT.replace("file: src/lib.rt\n", ""), "a 'new:' line stands before any 'file:' or 'old:' line"),
        ):  # fmt: skip
            for place in ("must-fail", "mutants"):
                path = self.write(f"crates/low/{place}/wrong.edit", text)
                self.assertEqual(self.found(), [f"crates/low/{place}/wrong.edit: {why}"])
                path.unlink()


if __name__ == "__main__":
    unittest.main()
