"""The tool that tries wrong bodies: which it chooses, what it takes for refused, and when a crate's turn has come again."""
import contextlib
import importlib.machinery
import importlib.util
import io
import os
import re
import shutil
import sys
import tempfile
import unittest
from pathlib import Path
from types import SimpleNamespace
from unittest import mock

TOOLS = Path(__file__).resolve().parents[1]
loader = importlib.machinery.SourceFileLoader("mutants", str(TOOLS / "mutants"))
mutants = importlib.util.module_from_spec(importlib.util.spec_from_loader("mutants", loader))
sys.modules["mutants"] = mutants
loader.exec_module(mutants)

# A prover that refuses what a line of the code says it is to refuse, and notes which functions it was asked for.
PROVER = r"""#!/bin/sh
echo "$@" >> {log}
lost=$(sed -n 's/^refuse //p' src/lib.rt)
ending=$(sed -n 's/^end //p' src/lib.rt)
[ -n "$ending" ] && exit "$ending"
for word; do case $word in low::*) [ "$word" = "$lost" ] && echo "fn $word: not proved" || echo "fn $word: proved"; esac; done
case "$lost" in low::called) echo "fn $lost: not proved" ;; esac
case "$*" in *--only*) last=only=1 ;; *) last=logic=not-proved ;; esac
[ -z "$lost" ] || {{ echo "$last"; exit 1; }}
"""


def edited(edit: str, folder: str):
    """As the kit's rt: the files that an edit changes, or why it cannot be applied."""
    old, new = (re.search(rf"^{it}: (.*)$", Path(edit).read_text(encoding="utf-8"), re.M)[1] for it in ("old", "new"))
    text = Path(folder, "src/lib.rt").read_text(encoding="utf-8")
    return ({"src/lib.rt": text.replace(old, new)}, None) if text.count(old) == 1 else (None, "an 'old:' text is not there once")


class Crate:
    """A crate as the kit's rt tells of it, with no library below."""

    def __init__(self, top: Path, name: str):
        self.name, self.folder = name, str(top / "crates" / name)

    def words(self, flags: list[str], keeps: bool) -> list[str]:
        return flags

    def below(self) -> list:
        return []


class Repository(unittest.TestCase):
    """Two crates, of which low has edits: one of the gate's, two others."""

    def setUp(self):
        self.top = Path(tempfile.mkdtemp())
        self.addCleanup(shutil.rmtree, self.top)
        for crate, part in [("low", "src"), ("low", "specs"), ("low", "proofs"), ("high", "src"), ("low", "mutants/in-gate")]:
            (self.top / "crates" / crate / part).mkdir(parents=True)
        self.low = self.top / "crates" / "low"
        (self.low / "src/lib.rt").write_text("well\n", encoding="utf-8")
        self.edit("loses_a_row", "refuse low::f", "low::f")
        self.edit("gives_twice", "refuse low::g", "low::g")
        self.edit("in-gate/end_is_early", "refuse low::f", "low::f")
        self.rt = SimpleNamespace(
            read_edit=edited, unread=lambda line, _texts: "cannot be read" in line, LIMITS=re.compile("memory limit"),
            rtlib=SimpleNamespace(
                PARTS=("src", "specs", "proofs"), RATTLE=str(self.prover()), STALE=re.compile("stale"), guarded=lambda: [],
                crates_below=lambda _top: [Crate(self.top, "low"), Crate(self.top, "high")],
            ),
        )  # fmt: skip

    def edit(self, name: str, new: str, *only: str):
        lines = [*(f"only: {it}" for it in only), "file: src/lib.rt", "old: well", f"new: {new}"]
        (self.low / f"mutants/{name}.edit").write_text("\n".join(lines) + "\n", encoding="utf-8")

    def prover(self) -> Path:
        path = self.top / "prover"
        path.write_text(PROVER.format(log=self.top / "log"), encoding="utf-8")
        path.chmod(0o755)
        return path

    def ran(self, *words: str) -> tuple[int, str]:
        """What the tool ends with, and writes."""
        told = io.StringIO()
        with (
            mock.patch.object(mutants, "TOP", self.top), mock.patch.object(mutants, "load_rt", lambda: self.rt),
            mock.patch.object(sys, "argv", ["mutants", *words]), mock.patch.object(os, "chdir"), contextlib.redirect_stdout(told),
        ):  # fmt: skip
            return mutants.main(), told.getvalue()

    def test_all_are_refused_and_that_is_kept_until_the_crate_changes(self):
        self.assertEqual(self.ran("check"), (1, "mutants: changed since they were tried: low\n"))
        status, told = self.ran("--jobs", "1")
        self.assertEqual((status, told.count("refused, as it must be"), told.count("proved without an edit (2 functions)")), (0, 3, 1), told)
        self.assertEqual(self.ran("check"), (0, "mutants: all were tried over these sources\n"))
        (self.low / "proofs/Lib.antt").write_text("a shorter proof\n", encoding="utf-8")
        self.assertEqual(self.ran("check")[0], 0)
        for path in ("specs/Lib.antt", "src/lib.rt", "mutants/loses_a_row.edit"):
            old = (self.low / path).read_bytes() if (self.low / path).exists() else b""
            (self.low / path).write_bytes(old + b"\n")
            self.assertEqual(self.ran("check", "low")[0], 1, path)
            (self.low / path).write_bytes(old) if old else (self.low / path).unlink()
        self.assertEqual(self.ran("check")[0], 0)

    def test_a_kit_that_tells_no_limit_does_too(self):
        del self.rt.LIMITS
        status, told = self.ran("low/loses_a_row")
        self.assertEqual((status, "loses_a_row: refused, as it must be" in told), (0, True), told)

    def test_many_edits_are_tried_in_shares(self):
        for number in range(6):
            self.edit(f"one_more_{number}", "refuse low::f", "low::f")
        status, told = self.ran("--jobs", "2")
        self.assertEqual((status, told.count("refused, as it must be"), told.count("proved without an edit")), (0, 9, 3), told)
        self.assertTrue((self.low / "mutants/TRIED").exists())

    def test_only_the_functions_of_an_edit_are_checked(self):
        self.ran("low/gives_twice")
        asked = [line.split("--incremental")[1].split()[1:] for line in (self.top / "log").read_text(encoding="utf-8").splitlines()]
        self.assertEqual(asked, [["--only", "low::g"], ["--only", "low::g"]])
        self.assertFalse((self.low / "mutants/TRIED").exists(), "one edit alone is not the crate")

    def test_those_of_the_gate_alone(self):
        status, told = self.ran("--in-gate", "--built")
        self.assertEqual((status, "low/end_is_early: refused" in told, "loses_a_row" in told), (0, True, False), told)
        self.assertFalse((self.low / "mutants/TRIED").exists())

    def test_what_is_not_refused_fails_and_is_not_kept(self):
        self.edit("says_the_same", "well enough", "low::f")
        status, told = self.ran("low")
        self.assertEqual((status, "says_the_same: NOT REFUSED" in told, "FAILED: low" in told), (1, True, True), told)
        self.assertFalse((self.low / "mutants/TRIED").exists())

    def test_what_says_nothing_of_its_function_fails(self):
        for new, only, said in [
            ("refuse low::called", ["low::f"], "BAD EDIT: what is refused is none of its functions: low::called"),
            ("end 2", ["low::f"], "NOT TRIED: its check ended with status 2"),
            ("end 137", [], "NOT TRIED: its check ended with status 137"),
        ]:
            self.edit("new", new, *only)
            status, told = self.ran("low/new")
            self.assertEqual((status, said in told), (1, True), told)
        self.edit("new", "refuse low::f")
        (self.low / "src/lib.rt").write_text("changed\n", encoding="utf-8")
        self.assertIn("new: BAD EDIT: an 'old:' text is not there once", self.ran("low/new")[1])

    def test_functions_that_are_not_proved_as_they_stand_fail(self):
        (self.low / "src/lib.rt").write_text("refuse low::f\nwell\n", encoding="utf-8")
        status, told = self.ran("low/loses_a_row")
        self.assertEqual((status, "low: NOT SOUND: not proved without an edit: low::f" in told), (1, True), told)

    def test_an_edit_without_functions_is_tried_by_a_whole_check(self):
        self.edit("of_a_definition", "refuse low::h")
        status, told = self.ran("low/of_a_definition")
        self.assertEqual((status, "proved without an edit (all functions)" in told), (0, True), told)

    def test_a_crate_or_edit_that_is_not_there_is_told(self):
        for name in ("nowhere", "low/nowhere", "high"):
            with self.assertRaisesRegex(SystemExit, "no such crate with an edit"):
                self.ran(name)


class Limits(unittest.TestCase):
    def test_a_limit_of_the_prover_is_told_as_such(self):
        self.assertEqual(mutants.judged(3, ["outgrew it"], ["f"], True), (True, "refused, as it must be (only by a limit of the prover)"))
        self.assertFalse(mutants.judged(3, ["outgrew it"], ["f"], False)[0])
