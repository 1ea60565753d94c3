#!/usr/bin/env python3
"""Writes the rows that a cursor gave, with their columns' names: as a table, as CSV or as JSON.

  ./rvdyn SCRIPT | tools/shell/rows.py - --cursor C --csv

A transcript has all that is needed: the CREATE and OPEN calls say how the columns are called, and the rows stand under FETCH. It
may be the program's, with threads too, or another engine's. A name that two columns of the rows have is told with its item of
FROM, as P.NAME. A cursor may be opened many times, by many sessions: --session and --opening choose one opening, --all writes each
apart: tables with a line above them, CSV parted by an empty line, JSON as a list of objects with session, line, query, rows, and
whether the rows were read to their end.

Where no FETCH was answered at all, the table's last line says so, and --csv and --json say it on standard error.

In CSV a NULL is an empty field, as an empty text is; --null '\\N' tells them apart, and tools/shell/load.py --null '\\N' reads that back.
In JSON it is null, and a row is an object by its columns' names."""
from __future__ import annotations

import argparse
import csv
import json
import sys
import unicodedata
from codecs import BOM_UTF8
from collections import Counter
from dataclasses import dataclass, field
from itertools import islice
from typing import Iterator, Sequence

if not __package__:  # run as a file: the other folders are found from tools/
    sys.path[0] += "/.."

from ending import end
from model.database import shown
from model.language import Reader, statement
from model.slow_audit import entries_of
from shell.check_script import counted
from shell.timeline import read_script

Value = int | str | None


class NoTranscript(Exception):
    """What is wrong with a transcript, and the line."""

    def __init__(self, line: int, words: str):
        super().__init__(words)
        self.line = line


@dataclass
class Opening:
    """A cursor from its OPEN on: the call with its line, the columns' names, the rows that came, and whether all did."""

    line: int
    session: int
    cursor: str
    text: str
    columns: list[str]
    rows: list[list[Value]] = field(default_factory=list)
    ended: bool = False

    @property
    def title(self) -> str:
        return f"session {self.session}, line {self.line}: {self.text}"

    @property
    def count(self) -> str:
        return f"{counted(len(self.rows), 'row')}, {'and the end' if self.ended else 'not read to the end'}"


def why_no_line(data: bytes, line: int) -> str:
    """Why a line is none of a transcript."""
    if data.startswith(BOM_UTF8):
        return "a byte order mark stands at the beginning, and in no transcript"
    if data.split(b"\n")[line - 1].endswith(b"\r"):
        return "this line ends with CR LF, and those of a transcript with LF alone"
    return "this is no line of a transcript: ./rvdyn SCRIPT writes one"


def openings(data: bytes) -> list[Opening]:
    """Each opening of a cursor in a transcript."""
    entries = entries_of(data)
    if isinstance(entries, int):
        raise NoTranscript(entries, why_no_line(data, entries))
    tables: dict[str, list[str]] = {}
    found: list[Opening] = []
    last: dict[tuple[int, str], Opening] = {}  # by session and name
    for at, (session, text, reply) in enumerate(entries):
        if reply == "created":
            said = statement(text)
            if said[0] == "create":
                tables[said[1]] = [str(name) for name, _ in said[2]]
        elif reply == "opened":
            said = statement(text)
            if said[0] != "open" or any(table not in tables for table, _ in said[3]):
                raise NoTranscript(2 * at + 1, "the CREATE TABLE of this OPEN stands nowhere above it")
            opening = Opening(2 * at + 1, session, str(said[1]), text, names_of(said[2], said[3], tables))
            found.append(opening)
            last[session, opening.cursor] = opening
        elif reply == "end" or reply.startswith("row "):
            said = statement(text)
            if said[0] != "fetch" or (session, said[1]) not in last:
                raise NoTranscript(2 * at + 1, "the OPEN of this FETCH stands nowhere above it")
            take(last[session, said[1]], reply, 2 * at + 2)
    return found


def take(opening: Opening, reply: str, line: int) -> None:
    """What a FETCH was answered."""
    if reply == "end":
        opening.ended = True
        return
    reader = Reader(reply.removeprefix("row "))
    row = reader.some(reader.literal)
    if len(row) != len(opening.columns):
        raise NoTranscript(line, f"{counted(len(row), 'value')} for {counted(len(opening.columns), 'column')}: {', '.join(opening.columns)}")
    opening.rows.append(row)


def names_of(returned: list | None, items: list, tables: dict[str, list[str]]) -> list[str]:
    """What the columns of the rows are called: by their own names, or with their items where these are not different."""
    called = {str(second or table): tables[table] for table, second in items}
    if returned is None:
        full = [(item, column) for item, columns in called.items() for column in columns]
    else:
        full = [(str(item or the_one(column, called)), str(column)) for item, column in returned]
    times = Counter(column for _, column in full)
    names = [column if times[column] == 1 else f"{item}.{column}" for item, column in full]
    return [name if names.count(name) == 1 else f"{name}_{names[:at].count(name) + 1}" for at, name in enumerate(names)]


def the_one(column: str, called: dict[str, list[str]]) -> str:
    return next((item for item, columns in called.items() if column in columns), "")


# Writing.


def as_csv(opening: Opening, null: str) -> Iterator[str]:
    class Lines:
        write = staticmethod(lambda line: line)

    writer = csv.writer(Lines, lineterminator="\n")
    yield writer.writerow(opening.columns)
    for row in opening.rows:
        yield writer.writerow([null if value is None else value for value in row])


def as_json(opening: Opening) -> Iterator[str]:
    """A list of objects, of which each has a line."""
    yield "["
    for at, row in enumerate(opening.rows):
        yield f"{',' * (at > 0)}\n{json.dumps(dict(zip(opening.columns, row)), ensure_ascii=False)}"
    yield "\n]"


def all_as_json(chosen: Sequence[Opening]) -> Iterator[str]:
    yield "["
    for at, opening in enumerate(chosen):
        head = {"session": opening.session, "line": opening.line, "cursor": opening.cursor, "query": opening.text, "end": opening.ended}
        yield f"{',' * (at > 0)}\n{json.dumps(head, ensure_ascii=False)[:-1]}, \"rows\": "
        yield from as_json(opening)
        yield "}"
    yield "\n]\n"


def wide(text: str) -> int:
    """How many places of a terminal a text takes."""
    return sum(0 if unicodedata.combining(c) else 2 if unicodedata.east_asian_width(c) in "WF" else 1 for c in text)


def as_table(opening: Opening) -> Iterator[str]:
    told = [[value if isinstance(value, str) else shown(value) for value in row] for row in opening.rows]
    widths = [max(map(wide, column)) for column in zip(opening.columns, *told)]
    right = [all(not isinstance(row[at], str) for row in opening.rows) for at in range(len(widths))]

    def line(parts: list[str]) -> str:
        padded = [" " * (width - wide(part)) + part if at_end else part + " " * (width - wide(part)) for part, width, at_end in zip(parts, widths, right)]
        return " | ".join(padded).rstrip() + "\n"

    yield line(opening.columns)
    yield "-+-".join("-" * width for width in widths) + "\n"
    yield from map(line, told)
    yield opening.count + "\n"


def written(chosen: Sequence[Opening], words: argparse.Namespace) -> Iterator[str]:
    if words.json:
        yield from all_as_json(chosen) if words.all else [*as_json(chosen[0]), "\n"]
        return
    for at, opening in enumerate(chosen):
        yield "\n" * (at > 0)
        if words.csv:
            yield from as_csv(opening, words.null)
        else:
            yield f"{opening.title}\n"
            yield from as_table(opening)


# Choosing.


def chosen_of(found: list[Opening], words: argparse.Namespace) -> list[Opening] | str:
    """The openings that are wanted, or what is to be said where that is not clear."""
    fitting = [opening for opening in found if words.session in (None, opening.session) and words.cursor in (None, opening.cursor)]
    if not fitting:
        return "no such cursor is opened in this transcript; opened are:" + (listed(found) if found else " none")
    if words.opening:
        if words.opening > len(fitting):
            return f"there is no opening {words.opening}; there are:{listed(fitting)}"
        return [fitting[words.opening - 1]]
    if len(fitting) > 1 and not words.all:
        return f"{len(fitting)} openings fit: --opening N or --session S chooses one, --all writes each apart{listed(fitting)}"
    return fitting


def listed(found: list[Opening], most: int = 20) -> str:
    more = [f"  and {len(found) - most} more"] if len(found) > most else []
    told = [f"  {number}: {opening.title}; {opening.count}" for number, opening in enumerate(islice(found, most), 1)]
    return "".join("\n" + line for line in told + more)


def words_of() -> argparse.Namespace:
    parser = argparse.ArgumentParser(description=__doc__, formatter_class=argparse.RawDescriptionHelpFormatter)
    parser.add_argument("transcript", metavar="TRANSCRIPT", help="a transcript, or - for standard input")
    parser.add_argument("--cursor", type=str.upper, metavar="NAME", help="the cursor's name (default: any)")
    parser.add_argument("--session", type=int, choices=range(1, 9), metavar="S", help="the cursor's session (default: any)")
    which = parser.add_mutually_exclusive_group()
    which.add_argument("--opening", type=int, metavar="N", help="the Nth opening that fits")
    which.add_argument("--all", action="store_true", help="each opening that fits, apart")
    form = parser.add_mutually_exclusive_group()
    form.add_argument("--table", action="store_true", help="a table for the eye (what is written if nothing is said)")
    form.add_argument("--csv", action="store_true", help="a line of names, and a line for each row")
    form.add_argument("--json", action="store_true", help="a list of objects, one for each row")
    parser.add_argument("--null", default="", metavar="TEXT", help="what stands for NULL in CSV (default: nothing)")
    parser.epilog = "Status 0: rows were written; 1: the cursor is not there, or several openings fit, or this is no transcript; 2: a file cannot be read, or the words do not fit."
    words = parser.parse_args()
    if words.opening is not None and words.opening < 1:
        parser.error("openings are counted from 1")
    return words


def main() -> int:
    words = words_of()
    try:
        chosen = chosen_of(openings(read_script(words.transcript)), words)
    except NoTranscript as fault:
        print(f"{words.transcript}:{fault.line}: {fault}", file=sys.stderr)
        return 1
    if isinstance(chosen, str):
        print(f"rows: {chosen}", file=sys.stderr)
        return 1
    for opening in chosen:
        if not opening.rows and not opening.ended and (words.csv or words.json):
            print(f"rows: {opening.title}: no FETCH of it was answered, so that it may have rows", file=sys.stderr)
    sys.stdout.reconfigure(encoding="utf-8", newline="\n")
    sys.stdout.writelines(written(chosen, words))
    return 0


if __name__ == "__main__":
    end(main)
