#!/usr/bin/env python3
"""Lists the public calls that may fail while something to be changed is lent to them, each with its clauses, and compares them
with the table of docs/PROMISES.md, "Safe and total".

A call is public where the crate's lib.rt hands its name on, or that of its type; an impl of a trait counts as the trait. Where a
clause without a name is a record of the crate, the record's fields are clauses too. Looked at are the crates below rv_cli,
rv_lending and rv_replay. With --check it fails where such a call does not stand in the first column of the table, under its crate
or its type, or where the table names a clause that none of its row's calls has."""
from __future__ import annotations

import argparse
import re
from dataclasses import dataclass
from pathlib import Path
from typing import Iterator

from ending import end

TOP = Path(__file__).resolve().parent.parent
ABOVE = ("rv_cli", "rv_lending", "rv_replay")
TICKED = re.compile(r"`([^`]+)`")
CLAUSE = re.compile(r"ensures (?:(\w+) )?\{")
UNNAMED = re.compile(r"ensures \{ (?:\([^)]*\) → )*([A-Z]\w*)\b")
RECORD = re.compile(r"^pub record (\w+)(.*(?:\n .*)*)", re.M)
FIELD = re.compile(r"^  pub (\w+) : (\w*)", re.M)


@dataclass(frozen=True)
class Call:
    crate: str
    owner: str  # the type or the trait, or nothing
    name: str
    lent: bool  # whether something to be changed is lent to it, a counter too
    fails: bool  # whether it may answer an error
    clauses: frozenset[str]

    def __str__(self) -> str:
        return f"{self.crate}: {self.owner + '::' if self.owner else ''}{self.name}"


def crates(top: Path) -> list[str]:
    uses = {}
    for line in (top / "crates.txt").read_text(encoding="utf-8").split("\n"):
        name, colon, rest = line.partition("#")[0].partition(":")
        if colon:
            uses[name.split()[0]] = rest.split()
    found, waiting = [], list(ABOVE)
    while waiting:
        name = waiting.pop()
        if name in uses and name not in found:
            found.append(name)
            waiting += uses[name]
    return [name for name in uses if name in found and (top / "crates" / name / "src" / "lib.rt").exists()]


def public_names(library: str) -> set[str]:
    """The names that a lib.rt hands on, and those that it has itself."""
    listed = " ".join(re.findall(r"^pub use [\w:]*?(?:\{([^}]*)\}|::\w+);", library, re.M))
    single = re.findall(r"^pub use [\w:]*::(\w+);", library, re.M)
    return set(re.findall(r"\w+", listed)) | set(single) | set(re.findall(r"^pub (?:fn|struct|enum|trait) (\w+)", library, re.M))


def owner_of(line: str) -> str | None:
    """Of a line that begins an impl of a type or a trait its name, and nothing where it begins an impl of a trait."""
    head = re.match(r"(?:pub )?(?:impl|trait)\b(?:<(?:[^<>]|<[^<>]*>)*>)? ?(\w+)", line)
    if head is None:
        return None
    return "" if line.startswith("impl") and re.search(r"\bfor [A-Z&]", line) else head[1]


def signatures(text: str) -> Iterator[tuple[str, str]]:
    """The owner and the text up to its body of each function that is public or a trait's; an impl of a trait has none."""
    owner, inside, trait, lines = "", False, False, text.split("\n")
    for at, line in enumerate(lines):
        begins = owner_of(line)
        if begins is not None:
            owner, inside, trait = begins, True, "trait " in line.partition("{")[0].partition(":")[0]
        elif line == "}":
            owner, inside, trait = "", False, False
        function = re.match(r"( *)(pub )?fn \w+", line)
        if function is None or not (function[2] or trait) or (inside and not owner):
            continue
        whole = []
        for more in lines[at:]:
            whole.append(more)
            if more.strip() == "{" or more.endswith((";", ") {")) or (more.endswith("{") and "->" in more):
                break
        yield owner, "\n".join(whole)


def records(specs: Path) -> dict[str, frozenset[str]]:
    """The fields of each record that a crate's definitions have, and of the records that are its fields."""
    found = {}
    for path in specs.glob("**/*.antt"):
        for record in RECORD.finditer(path.read_text(encoding="utf-8")):
            found[record[1]] = dict(FIELD.findall(record[2]))

    def fields(name: str) -> frozenset[str]:
        return frozenset(found[name]).union(*(fields(inner) for inner in found[name].values() if inner in found and inner != name))

    return {name: fields(name) for name in found}


def calls(top: Path) -> list[Call]:
    found = []
    for crate in crates(top):
        fields = records(top / "crates" / crate / "specs")
        names = public_names((top / "crates" / crate / "src" / "lib.rt").read_text(encoding="utf-8"))
        for path in sorted((top / "crates" / crate / "src").glob("**/*.rt")):
            if path.name == "tests.rt":
                continue
            for owner, text in signatures(path.read_text(encoding="utf-8")):
                name = re.search(r"fn (\w+)", text)[1]
                if (owner or name) in names:
                    head = re.split(r"\brequires\b|\bensures\b", text)[0]
                    clauses = frozenset(filter(None, CLAUSE.findall(text)))
                    clauses = clauses.union(*(fields.get(record, ()) for record in UNNAMED.findall(text)))
                    found.append(Call(crate, owner, name, "&mut" in head, "Result<" in head.rpartition("->")[2], clauses))
    return found


def rows(page: str) -> list[tuple[str, str]]:
    part = page.partition("\n## Safe and total\n")[2].partition("\n## ")[0]
    lines = [line.split("|") for line in part.split("\n") if line.startswith("|")]
    return [(cells[1], cells[2]) for cells in lines if len(cells) == 4 and "`" in cells[1]]


def stands_in(call: Call, cell: str) -> bool:
    """Whether a row's first cell names the call: by its own name, behind its type or beside its crate or type."""
    ticked = TICKED.findall(cell)
    own = any(name in (call.name, f"{call.owner}::{call.name}") for name in ticked)
    return own and (call.crate in cell or any(call.owner and re.match(rf"{call.owner}\b", name) for name in ticked))


def faults(found: list[Call], page: str) -> list[str]:
    table, told = rows(page), []
    for call in found:
        if call.lent and call.fails and not any(stands_in(call, cell) for cell, _ in table):
            told.append(f"{call} does not stand in the table; its clauses: {' '.join(sorted(call.clauses)) or 'none'}")
    for cell, says in table:
        row = [call for call in found if stands_in(call, cell)]
        if not row:
            told.append(f"there is no public call of the row{cell}")
        known = {call.name for call in row}.union(*(call.clauses for call in row))
        named = [name for name in TICKED.findall(says) if re.fullmatch(r"[a-z]\w*", name)]
        told += [f"`{name}` is no clause of a call of the row{cell}" for name in named if name not in known]
    return told


def main() -> int:
    parser = argparse.ArgumentParser(description=__doc__, formatter_class=argparse.RawDescriptionHelpFormatter)
    parser.add_argument("--check", action="store_true", help="compare with the page")
    asked = parser.parse_args()
    found = calls(TOP)
    if not asked.check:
        for call in found:
            if call.lent and call.fails:
                print(f"{call}: {' '.join(sorted(call.clauses))}")
        return 0
    told = faults(found, (TOP / "docs" / "PROMISES.md").read_text(encoding="utf-8"))
    for line in told:
        print(line)
    lent = sum(call.lent and call.fails for call in found)
    print(f"{len(found)} public calls, {lent} that may fail with something lent, {len(told)} faults")
    return 1 if told else 0


if __name__ == "__main__":
    end(main)
