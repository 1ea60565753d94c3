#!/usr/bin/env python3
"""Tells which texts of the crates the gate refuses before it proves anything, in seconds.

usage: tools/crate_texts.py

Those are a file that is not as `rattle fmt` lays it out (`rt fmt` in the crate's folder mends that), one of Rattle that stands not in src/
or one of antt not in specs/ or proofs/ of a crate that crates.txt names, which no check would read, and an edit whose old text
does not stand once in its file, or that names a function that is gone. Layouts need the kit whose `rt` is on the path, the rest needs
Python alone. Each fault has a line, and the last line counts them; with one the status is 1.
"""
from __future__ import annotations

import os
import re
import shutil
import subprocess
import sys
from pathlib import Path
from typing import Iterator

from ending import end

TOP = Path(__file__).resolve().parents[1]
# The folders of a crate whose files of a kind a check reads.
READ = {".rt": ("src",), ".antt": ("specs", "proofs")}
PARTS = ("src/", "specs/", "proofs/")


def crates(top: Path) -> list[str]:
    """The crates that crates.txt names."""
    lines = [line.partition("#")[0] for line in (top / "crates.txt").read_text(encoding="utf-8").splitlines()]
    return [line.split(":")[0].split()[0] for line in lines if ":" in line]


def files(top: Path) -> Iterator[str]:
    """The files of the repository, as paths from its top: those that git tracks or does not ignore, or outside a checkout all but what
    is built."""
    if (top / ".git").exists() and shutil.which("git"):
        words = ["git", "ls-files", "-z", "--cached", "--others", "--exclude-standard"]
        told = subprocess.run(words, cwd=top, capture_output=True, text=True, check=True).stdout
        yield from (path for path in told.split("\0") if (top / path).is_file())
        return
    for folder, folders, names in os.walk(top):
        folders[:] = (it for it in folders if it not in ("out", ".git"))
        yield from (os.path.relpath(f"{folder}/{name}", top) for name in names)


def texts(top: Path) -> list[str]:
    """The files of Rattle and of antt."""
    return sorted(path for path in files(top) if Path(path).suffix in READ)


def is_read(path: str, names: list[str]) -> bool:
    """Whether a check reads the file."""
    parts = Path(path).parts
    return len(parts) > 3 and parts[0] == "crates" and parts[1] in names and parts[2] in READ[Path(path).suffix]


def formatter() -> str | None:
    """The kit's rattle."""
    rt = shutil.which("rt")
    beside = rt and Path(rt).resolve().with_name("rattle")
    return str(beside) if beside and beside.is_file() else None


def unlaid(top: Path, paths: list[str], rattle: str) -> list[str]:
    """What the kit's formatter says of those files that it would change or cannot read."""
    ran = subprocess.run([rattle, "fmt", "--check", *paths], cwd=top, capture_output=True, text=True, check=False)
    said = (ran.stdout + ran.stderr).strip().splitlines()
    return [] if ran.returncode == 0 else said or [f"rattle fmt ended with status {ran.returncode}"]


def edits(top: Path, name: str) -> list[Path]:
    """The wrong bodies of a crate, those of the gate and the others."""
    return sorted(it for part in ("must-fail", "mutants") for it in (top / "crates" / name / part).rglob("*.edit"))


def wrong_in(edit: Path, folder: Path) -> Iterator[str]:
    """What stands against trying an edit: its pairs are applied one after another, each to what those before it left."""
    held: dict[str, str] = {}
    path = old = ""
    for line in edit.read_text(encoding="utf-8").split("\n"):
        word, _, rest = line.partition(":")
        rest = rest.removeprefix(" ")
        if word == "file":
            path = rest.strip()
            if not path.startswith(PARTS) or not (folder / path).is_file():
                yield f"there is no file {path}"
                return
            held.setdefault(path, (folder / path).read_text(encoding="utf-8"))
        elif word == "only":
            function = rest.strip().rpartition("::")[2]
            if not any(re.search(rf"\bfn {re.escape(function)}\b", it.read_text(encoding="utf-8")) for it in folder.glob("src/**/*.rt")):
                yield f"there is no function {rest.strip()}"
        elif word == "old":
            old = rest
        elif word == "new":
            if not path or not old:
                yield "a 'new:' line stands before any 'file:' or 'old:' line"
                return
            if (found := held[path].count(old)) != 1:
                yield f"its old text stands in {path} {found} times: {old.strip()[:80]}"
                return
            held[path], old = held[path].replace(old, rest), ""


def faults(top: Path, rattle: str | None) -> tuple[int, list[str]]:
    """How many texts were looked at, and what the gate would refuse of them."""
    names, paths = crates(top), texts(top)
    found = [f"{it}: no check reads it" for it in paths if not is_read(it, names)]
    if rattle:
        found += unlaid(top, paths, rattle)
    bodies = [(it, name) for name in names for it in edits(top, name)]
    found += [f"{it.relative_to(top)}: {why}" for it, name in bodies for why in wrong_in(it, top / "crates" / name)]
    return len(paths) + len(bodies), found


def main() -> int:
    if sys.argv[1:]:
        print(__doc__, end="")
        return 0 if sys.argv[1:] in (["--help"], ["-h"]) else 2
    rattle = formatter()
    if rattle is None:
        print("there is no kit on the path, so no layout was looked at")
    number, found = faults(TOP, rattle)
    print(*found, f"{number} texts of crates, {len(found)} refused", sep="\n")
    return 1 if found else 0


if __name__ == "__main__":
    end(main)
