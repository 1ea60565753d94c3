#!/usr/bin/env python3
"""Runs the examples of README.md, docs/ and examples/ through a program, and tells where it writes something else.

A block ```transcript of a page is a transcript, from an empty database on; words behind it are the program's. A block ```run
has words, and what is written without a script. A block ```excerpt FILE stands in that file as it is. Each file of examples/
has its transcript beside it, with the words that a line `# words: ..` of it says. Without PROGRAM it is the slow model."""
from __future__ import annotations

import argparse
import re
import subprocess
import sys
from pathlib import Path
from typing import Iterator

if not __package__:  # run as a file: the other folders are found from tools/
    sys.path[0] += "/.."

from ending import end

TOP = Path(__file__).resolve().parents[2]
MODEL = [sys.executable, str(TOP / "tools/model/slow_program.py")]
BLOCK = re.compile(r"^```(transcript|run|excerpt)([^\n]*)\n(.*?)^```$", re.M | re.S)


def written(command: list[str], script: str) -> str:
    ran = subprocess.run(command, input=script.encode(), capture_output=True, timeout=600, check=False)
    return ran.stdout.decode() if ran.returncode == 0 else f"status {ran.returncode}: {ran.stderr.decode()}"


def first_difference(told: str, wanted: str) -> str | None:
    if told == wanted:
        return None
    pairs = zip(told.split("\n"), wanted.split("\n"))
    return next((f"{a!r} in place of {b!r}" for a, b in pairs if a != b), "one of the two is longer")


def of_block(command: list[str], kind: str, words: list[str], body: str) -> str | None:
    """How a block of a page differs from what is written, or None."""
    if kind == "excerpt":
        whole = (TOP / words[0]).read_text(encoding="utf-8")
        return None if "\n" + body in "\n" + whole else f"not in {words[0]}"
    calls = "" if kind == "run" else "".join(line + "\n" for line in body.split("\n") if line and not line.startswith("= "))
    return first_difference(written(command + words, calls), body)


def of_file(command: list[str], script: Path) -> str | None:
    text = script.read_text(encoding="utf-8")
    words = re.search(r"^# words: (.*)$", text, re.M)
    transcript = script.with_name(script.name + ".transcript")
    if not transcript.exists():
        return "has no transcript"
    return first_difference(written(command + (words[1].split() if words else []), text), transcript.read_text(encoding="utf-8"))


def differences(command: list[str]) -> Iterator[tuple[str, str | None]]:
    """Each example and how it differs, or None."""
    for page in [TOP / "README.md", *sorted((TOP / "docs").glob("*.md"))]:
        for kind, words, body in BLOCK.findall(page.read_text(encoding="utf-8")):
            name = f"{page.name}, {kind}{words} {body.split(chr(10))[0]!r}"
            yield name, of_block(command, kind, words.split(), body)
    for script in sorted((TOP / "examples").iterdir()):
        if script.suffix != ".transcript" and script.is_file():
            yield f"examples/{script.name}", of_file(command, script)


def main() -> int:
    parser = argparse.ArgumentParser(description=__doc__, formatter_class=argparse.RawDescriptionHelpFormatter)
    parser.add_argument("program", nargs=argparse.REMAINDER, metavar="PROGRAM", help="a program and words of its own")
    words = parser.parse_args()
    found = list(differences(words.program or MODEL))
    wrong = [(name, how) for name, how in found if how is not None]
    for name, how in wrong:
        print(f"{name}: {how}")
    print(f"{len(found)} examples, {len(wrong)} differ")
    return 1 if wrong else 0


if __name__ == "__main__":
    end(main)
