#!/usr/bin/env python3
"""Looks over scripts before they are run, and tells each mistake with file, line and column.

It finds the first token that fits no statement, with what could stand there; keywords used as names; limits of a
statement; names of tables, columns, indexes and cursors that are unknown or in use; values of the wrong kind, too many
and too few. Names are followed through the script as its calls would make them. Rows are not: so what depends on them
(held, changed, duplicate) is not told, and neither are calls in a wrong state (no transaction, active, busy, read only),
which a script may well mean to show."""
from __future__ import annotations

import argparse
import re
import sys
from codecs import BOM_UTF16_BE, BOM_UTF16_LE
from dataclasses import dataclass
from typing import Iterator

if not __package__:  # run as a file: the other folders are found from tools/
    sys.path[0] += "/.."

from ending import end
from model.database import Database, Refused, references_of
from model.language import END, KEYWORDS, NAME, Call, Syntax, Token, calls_of, fault_of, read_statement, tokens
from shell.sql_habits import hint_of, hint_of_cursor, why_no_token

TOLD = ("unknown", "exists", "kind", "no cursor", "cursor open", "limit")

# What the limits count that a statement may pass.
COUNTED = {
    "name": "the bytes of a name",
    "text": "the bytes of a text, and n of VARCHAR(n), which is at least 1",
    "columns": "the columns of a table, the values of INSERT, the columns of SET",
    "key": "the columns of an index",
    "list": "the literals of an IN",
    "atoms": "the conditions that OR joins",
    "groups": "the groups that AND joins",
    "joined": "the tables of FROM",
    "returned": "the columns between SELECT and FROM",
    "order": "the columns of ORDER BY",
    "steps": "the steps of STEP, of which there are none below 0",
    "tables": "the tables",
    "indexes": "the indexes of a table",
    "cursors": "the open cursors of a session",
}

@dataclass(frozen=True)
class Finding:
    line: int
    column: int
    words: str


class Names(Database):
    """The database without rows: what its calls make of names."""

    def view(self, name):
        return {}

    def opened(self, select):
        return None

    def fetch(self, name):
        self.need_cursor(name)
        return "end"

    def given(self, statement, reply):
        pass

    def need_different(self, rows, columns):
        pass

    def need_no_rival(self, name, written):
        pass


def listed(wanted: list[str]) -> str:
    words = [f"`{word}`" if word.upper() == word else word for word in wanted]
    return words[0] if len(words) == 1 else ", ".join(words[:-1]) + " or " + words[-1]


def token_at(found: list[Token], at: int) -> Token | None:
    return next((token for token in found if token.at == at), None)


def of_syntax(text: str, fault: Syntax) -> tuple[int, str]:
    """Where a text stops being a statement, and why."""
    if not fault.wanted:
        return fault.at, why_no_token(text, fault.at)
    found = tokens(text)
    token = token_at(found, fault.at)
    known = hint_of(found, fault.at)
    hint = f" ({known})" if known else ""
    if token is None:
        return fault.at, f"the statement ends here, and {listed(fault.wanted)} should follow{hint}"
    shown = text[token.at : token.end]
    if token.value in KEYWORDS and NAME in fault.wanted and not hint:
        others = [word for word in fault.wanted if word != NAME]
        return fault.at, f"`{shown}` is a keyword, and no name" + (f"; here could stand {listed(fault.wanted)}" if others else f": {token.value}_ is one")
    if fault.wanted == [END]:
        return fault.at, f"`{shown}` stands behind the end of the statement{hint}"
    return fault.at, f"`{shown}` does not fit; here could stand {listed(fault.wanted)}{hint}"


def why_not(value: int | str | None, width: int | None) -> str:
    """Why a column cannot hold a value."""
    if isinstance(value, str) and width is not None:
        return f"this text has {counted(len(value.encode()), 'byte')}, and"
    return "a text does not fit:" if isinstance(value, str) else "an integer does not fit:"


def of_insert(table_columns: list, values: list, found: list[Token], refused: Refused) -> tuple[int, str]:
    """A value of the wrong kind, or a wrong count of values."""
    literals = found[found.index(next(t for t in found if t.value == "(")) + 1 :: 2]
    at = literals[min(refused.at, len(values) - 1)].at
    if refused.at < min(len(values), len(table_columns)):
        width = table_columns[refused.at][1]
        return at, f"{why_not(values[refused.at], width)} column {refused.name} is {kind_words(width)}"
    names = ", ".join(name for name, _ in table_columns)
    return at, f"{counted(len(values), 'value')} for {counted(len(table_columns), 'column')}: {names}"


def tables_of(said: tuple) -> list[str]:
    """The tables that a statement names, other than one that it makes."""
    if said[0] == "open":
        return [table for table, _ in said[3]]
    return [said[2]] if said[0] == "index" else [said[1]] if said[0] in ("insert", "change") else []


def of_kind(said: tuple, refused: Refused) -> str:
    return f"column {refused.name} is of another kind than what stands beside it, or too short for it"


def of_open_cursor(said: tuple, refused: Refused) -> str:
    return f"the session has cursor {refused.name} open already"


def of_limit(words: str) -> str:
    """A limit, and what is counted."""
    which = words.split()[1]
    return f"{words}: {COUNTED[which]}" if which in COUNTED else words


def counted(number: int, noun: str) -> str:
    return f"{number} {noun}" + ("s" if number != 1 else "")


def kind_words(width: int | None) -> str:
    return "BIGINT" if width is None else f"VARCHAR({width})"


class Checker:
    """Follows the calls of a script."""

    def __init__(self):
        self.names = Names()
        self.missed: set[tuple] = set()  # names of tables and cursors that were told to be unknown
        self.unmade: dict[str, tuple[int, str]] = {}  # tables whose CREATE was refused: its line and the reply
        self.unique: dict[str, int] = {}  # unique indexes, which rows may have kept from being made: the line

    def look_at(self, call: Call) -> tuple[int, str] | None:
        """The first mistake of a call and its offset in the text, or None."""
        try:
            said = read_statement(call.text)
        except Syntax as fault:
            return of_syntax(call.text, fault)
        try:
            self.names.perform(call.session, said)
            if said[0] == "index" and said[4]:
                self.unique[said[1]] = call.line
            return None
        except Refused as refused:
            if said[0] == "create":
                self.unmade[said[1]] = call.line, str(refused)
            if not str(refused).startswith(TOLD) or self.is_known_to_miss(call.session, said, refused):
                return None
            return self.of_refusal(call.text, said, refused)

    def is_known_to_miss(self, session: int, said: tuple, refused: Refused) -> bool:
        """Whether this unknown table, or this cursor that is not open, was told before: one mistake is told once."""
        words = str(refused)
        if words.startswith("unknown") and refused.name in tables_of(said) and refused.name not in self.names.tables:
            missed = (words,)
        elif words.startswith("no cursor"):
            missed = (session, words)
        else:
            return False
        was_told = missed in self.missed
        self.missed.add(missed)
        return was_told

    def of_refusal(self, text: str, said: tuple, refused: Refused) -> tuple[int, str]:
        found = tokens(text)
        reply, _, _ = str(refused).rpartition(" ")
        if refused.at is not None:
            return of_insert(self.names.tables[said[1]].columns, said[2], found, refused)
        told = {"kind": of_kind, "unknown": self.of_unknown, "exists": self.of_exists, "no cursor": self.of_no_cursor, "cursor open": of_open_cursor}
        words = told[reply](said, refused) if reply in told else of_limit(str(refused))
        return self.offset(found, refused), words

    def of_no_cursor(self, said: tuple, refused: Refused) -> str:
        hint = hint_of_cursor(said[0], refused.name, self.names.tables)
        return f"the session has no open cursor {refused.name}" + (f" ({hint})" if hint else "")

    def of_unknown(self, said: tuple, refused: Refused) -> str:
        tables = tables_of(said)
        if any(name not in self.names.tables for name in tables):
            line, reply = self.unmade.get(refused.name, (0, ""))
            return f"there is no table {refused.name}" + (f": its CREATE TABLE in line {line} is refused ({reply})" if line else "")
        items = [(second or table, table) for table, second in said[3]] if said[0] == "open" else [(tables[0], tables[0])]
        qualifier = next((q for q, column in references_of(said) if column is refused.name), None)
        if qualifier is not None and qualifier not in [name for name, _ in items]:
            return f"no table of this statement is called {qualifier}; there is {', '.join(name for name, _ in items)}"
        having = [name for name, table in items if refused.name in self.columns(table)]
        if qualifier is None and having:
            return f"{refused.name} fits several columns: {', '.join(f'{name}.{refused.name}' for name in having)}"
        asked = [table for name, table in items if qualifier in (None, name)]
        return f"there is no column {refused.name}; " + "; ".join(f"{table} has {', '.join(self.columns(table))}" for table in asked)

    def columns(self, table: str) -> list[str]:
        return [name for name, _ in self.names.tables[table].columns]

    def of_exists(self, said: tuple, refused: Refused) -> str:
        made = self.names.tables if said[0] == "create" else self.names.indexes if said[0] == "index" else {}
        if refused.name is said[1] and refused.name in made:
            line = self.unique.get(refused.name) if said[0] == "index" else None
            unless = f", unless line {line} is answered `duplicate`, which rows decide" if line else ""
            return f"there is {'a table' if said[0] == 'create' else 'an index'} {refused.name} already{unless}"
        return f"{refused.name} stands here twice" + (": give one of the two a second name" if said[0] == "open" else "")

    @staticmethod
    def offset(found: list[Token], refused: Refused) -> int:
        at = getattr(refused.name, "at", None)
        if at is not None:
            return at
        same = [token.at for token in found if token.value == refused.name]
        return same[0] if same else found[0].at


def findings(script: str) -> Iterator[Finding]:
    checker = Checker()
    for call in calls_of(script):
        if isinstance(call, Call):
            mistake = checker.look_at(call)
            if mistake is not None:
                at, words = mistake
                yield Finding(call.line, at + 3, words)


def why_no_line(line: str) -> str:
    """Why a line is none of a script, or what a line may be."""
    if line.startswith("--"):
        return "behind `--` may stand a judge, 0, 1 or 2, and nothing else: a comment begins with #"
    if line[0].isdigit() and line[1:2] in ("", " "):
        return "a session is 1 to 8, and a space and a statement follow"
    if line[0] in "12345678" and line[1:2] == "\t":
        return "a space, and no tab, stands behind the session"
    if not line.strip():
        return "an empty line has no spaces"
    if line.lstrip().startswith("#"):
        return "the # of a comment is the first character of its line"
    if line[0].isspace():
        return "a line begins with its session"
    return "a line is `S statement` with a session S from 1 to 8, all of the statement on it; `# a comment`; `--`, `-- 0`, `-- 1` or `-- 2`; or empty"


CARRIAGE_RETURNS = "lines end with a carriage return alone here: LF or CR LF ends a line"


def why_no_text(data: bytes) -> str:
    """What stands where the bytes of a file are not UTF-8."""
    if data.startswith((BOM_UTF16_LE, BOM_UTF16_BE)):
        return "the file is UTF-16: `iconv -f UTF-16 -t UTF-8` makes it UTF-8"
    try:
        data.decode()
    except UnicodeDecodeError as fault:
        before = data[: fault.start].decode().removeprefix("\ufeff").split("\n")
        byte = data[fault.start : fault.start + 1]
        meant = byte.decode("cp1252", errors="replace")
        hint = f", which is `{meant}` in CP1252: `iconv -f CP1252 -t UTF-8` makes the file UTF-8" if meant.isalpha() else ""
        return f"line {len(before)}, column {len(before[-1]) + 1}: a byte {byte[0]:02X}{hint}"
    return ""


def of_fault(fault: tuple[int, str], data: bytes) -> str:
    """What is wrong with an input that is no script."""
    found = re.fullmatch(r"script: line (\d+) has no session", fault[1])
    if found is None:
        why = why_no_text(data) if fault[1].endswith("is not UTF-8") else CARRIAGE_RETURNS if b"\r" in data and b"\n" not in data else ""
        return fault[1] + (f" ({why})" if why else "")
    line = data.decode().removeprefix("\ufeff").split("\n")[int(found[1]) - 1].removesuffix("\r")
    return f"{fault[1]} ({why_no_line(line)})"


def check(name: str, data: bytes) -> int:
    """Prints the mistakes of a script, and gives their number."""
    fault = fault_of(data)
    if fault is not None:
        print(f"{name}: {of_fault(fault, data)}")
        return 1
    found = list(findings(data.decode()))
    for finding in found:
        print(f"{name}:{finding.line}:{finding.column}: {finding.words}")
    return len(found)


def main() -> int:
    parser = argparse.ArgumentParser(description=__doc__, formatter_class=argparse.RawDescriptionHelpFormatter)
    parser.add_argument("scripts", nargs="*", default=["-"], metavar="FILE", help="scripts, or - for standard input (the default)")
    parser.epilog = "Status 0: nothing was found; 1: something was; 2: a file cannot be read, or the words are none of these."
    words = parser.parse_args()
    mistakes = 0
    for name in words.scripts:
        if name == "-":
            mistakes += check("-", sys.stdin.buffer.read())
        else:
            with open(name, "rb") as file:
                mistakes += check(name, file.read())
    return 1 if mistakes else 0


if __name__ == "__main__":
    end(main)
