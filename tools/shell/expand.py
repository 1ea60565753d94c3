#!/usr/bin/env python3
"""Writes a script in which each `FETCH C ALL` has become as many `FETCH C` as the cursor still has rows, and one more, which is
answered `end`.

  tools/shell/expand.py SCRIPT | ./rvdyn

FETCH C ALL is no statement of the language, but a line for this tool: `2 FETCH C ALL` is for cursor C of session 2. Session and
place stay, all other lines are written as they stand. How many rows there are is right at that point of the script, whatever
other sessions do beside it, since a cursor reads its snapshot; with --threads, where calls of a phase are answered in another
order, let no session of the phase commit what a cursor of it is to read. Where the cursor is not open one FETCH C is left,
whose answer tells that, and it is told here too.

The rows are counted by the slow model, or with --program by a program, which runs the script a few times: with more
FETCHes each time, until all have found an end. It is faster where tables have thousands of rows."""
from __future__ import annotations

import argparse
import sys
from codecs import BOM_UTF8
from dataclasses import dataclass
from typing import Callable, Sequence

if not __package__:  # run as a file: the other folders are found from tools/
    sys.path[0] += "/.."

from ending import end
from model.database import Cursor, Database
from model.language import Call, Mark, Name, Reader, Syntax, calls_of, fault_of, statement
from shell.check_script import of_fault
from shell.interleave import NoReplies, by_program
from shell.load import SCRIPT_BYTES, SCRIPT_LINES
from shell.timeline import read_script

FIRST_TRY, TIMES = 1000, 4  # FETCHes for a FETCH C ALL in the first run of a program, and how many times more in each further one


class FetchAll(Reader):
    """Reads FETCH C ALL, which may end with `;` as a statement may."""

    def body(self) -> Name:
        self.want("FETCH")
        name = self.name()
        self.want("ALL")
        return name


def fetched_whole(text: str) -> Name | None:
    """The cursor of a FETCH C ALL; None where a text is something else."""
    if text.lstrip(" \t")[:5].upper() != "FETCH":
        return None
    try:
        return FetchAll(text).whole()
    except Syntax:
        return None


@dataclass(frozen=True)
class Count:
    """What a FETCH C ALL stands for: so many FETCHes, and the reply to the last."""

    fetches: int
    reply: str


Counts = dict[int, Count]  # by the line of the FETCH C ALL
Entries = Sequence[Call | Mark]


class OverLimit(Exception):
    """The script would have too many lines or bytes."""


def wanted_in(entries: Entries) -> dict[int, Call]:
    """The one FETCH of each FETCH C ALL, by its line."""
    calls = [call for call in entries if isinstance(call, Call)]
    return {call.line: Call(call.line, call.session, f"FETCH {name}") for call in calls if (name := fetched_whole(call.text)) is not None}


def by_model(entries: Entries, wanted: dict[int, Call]) -> Counts:
    """Counts rows by the model of the database, which knows all rows of a cursor when it is opened."""
    database, found = Database(), {}
    for call in entries:
        if len(found) == len(wanted):
            break
        if not isinstance(call, Call):
            continue
        said = statement(wanted.get(call.line, call).text)
        cursor = database.cursors.get((call.session, said[1])) if said[0] == "fetch" else None
        if call.line in wanted:
            found[call.line] = left_in(cursor) if cursor else Count(1, str(database.answer(call.session, said)))
        elif cursor:
            del cursor.offers[-1:]  # some row: it is only counted how many are left
        else:
            database.answer(call.session, said)
    return found


def left_in(cursor: Cursor) -> Count:
    """Takes all rows that a cursor of the model has left."""
    fetches, cursor.offers = len(cursor.offers) + 1, []
    return Count(fetches, "end")


def by_runs(run: Callable[[Entries], list[str]]) -> Callable[[Entries, dict[int, Call]], Counts]:
    """Counts rows by running the script with more and more FETCHes in the place of each FETCH C ALL."""

    def count(entries: Entries, wanted: dict[int, Call]) -> Counts:
        found: Counts = {}
        tried = FIRST_TRY
        while len(found) < len(wanted):
            left = [line for line in wanted if line not in found]
            room = room_beside(written_out(entries, wanted, found, frozenset(), 0), [wanted[line] for line in left])
            asked = frozenset(left[: max(1, room // tried)])
            each = min(tried, room)
            replies = iter(run(written_out(entries, wanted, found, asked, each)))
            unread: set[tuple[int, str]] = set()  # sessions and FETCHes whose cursors may have had rows left
            for call in entries:
                if isinstance(call, Call):
                    of_call = [next(replies) for _ in range(fetches_of(call, wanted, found, asked, each))]
                    take(found, wanted.get(call.line), of_call, unread)
            if each == room and left[0] not in found:
                raise OverLimit(f"there is no room for all rows of line {left[0]} in a script of {SCRIPT_LINES} lines and {SCRIPT_BYTES} bytes")
            tried *= TIMES
        return found

    return count


def take(found: Counts, fetch: Call | None, replies: list[str], unread: set[tuple[int, str]]) -> None:
    """Takes the count of a FETCH C ALL where one of its FETCHes gave no row, and none before it left rows of the cursor."""
    if fetch is None or fetch.line in found:
        return
    rows = sum(reply.startswith("row ") for reply in replies)
    if rows < len(replies) and (fetch.session, fetch.text) not in unread:
        found[fetch.line] = Count(rows + 1, replies[rows])
    else:
        unread.add((fetch.session, fetch.text))


def fetches_of(call: Call, wanted: dict[int, Call], found: Counts, asked: frozenset[int], each: int) -> int:
    """How often a call is made in a run."""
    if call.line not in wanted:
        return 1
    return found[call.line].fetches if call.line in found else each if call.line in asked else 0


def written_out(entries: Entries, wanted: dict[int, Call], found: Counts, asked: frozenset[int], each: int) -> list[Call | Mark]:
    """The calls with FETCHes for each FETCH C ALL: as many as it has where that is known, else where it is asked so many."""
    calls: list[Call | Mark] = []
    for call in entries:
        if isinstance(call, Mark):
            calls.append(call)
        else:
            calls += [wanted.get(call.line, call)] * fetches_of(call, wanted, found, asked, each)
    return calls


def room_beside(calls: Entries, fetches: list[Call]) -> int:
    """So many FETCHes a script may have beside these calls."""
    size = sum(len(call.text.encode()) + 3 if isinstance(call, Call) else 5 for call in calls)
    return min(SCRIPT_LINES - len(calls), (SCRIPT_BYTES - size) // max(len(fetch.text) + 3 for fetch in fetches))


def expanded(script: bytes, counts: Counts, wanted: dict[int, Call]) -> bytes:
    """The script with FETCHes in the place of each FETCH C ALL; the ends of lines stay as they are."""
    lines = script.split(b"\n")
    for line, call in wanted.items():
        before = lines[line - 1]
        mark, ending = (part if fits else b"" for part, fits in ((BOM_UTF8, before.startswith(BOM_UTF8)), (b"\r", before.endswith(b"\r"))))
        fetch = f"{call.session} {call.text}".encode() + ending
        lines[line - 1] = mark + b"\n".join([fetch] * counts[line].fetches)
    return b"\n".join(lines)


def main() -> int:
    parser = argparse.ArgumentParser(description=__doc__, formatter_class=argparse.RawDescriptionHelpFormatter)
    parser.add_argument("script", metavar="SCRIPT", help="a script, or - for standard input")
    parser.add_argument("--program", metavar="PROGRAM", help="count the rows by this program, as ./rvdyn, in place of the model")
    parser.epilog = "Status 0: the script was written; 1: the rows cannot be counted; 2, 3: this is no script, or the one to be written is over a limit; 2: a file cannot be read, or the words do not fit."
    words = parser.parse_args()
    script = read_script(words.script)
    fault = fault_of(script)
    if fault is not None:
        print(f"{words.script}: {of_fault(fault, script)}", file=sys.stderr)
        return fault[0]
    entries = list(calls_of(script.decode()))
    wanted = wanted_in(entries)
    try:
        counts = (by_runs(by_program([words.program], 0, 1)) if words.program else by_model)(entries, wanted)
    except NoReplies as fault:
        print(f"expand: {fault}", file=sys.stderr)
        return 1
    except OverLimit as limit:
        print(f"expand: {limit}", file=sys.stderr)
        return 3
    for line, count in counts.items():
        if count.reply != "end":
            print(f"{words.script}:{line}: {wanted[line].text} ALL: {count.reply}", file=sys.stderr)
    told = expanded(script, counts, wanted)
    fault = fault_of(told)
    if fault is not None:
        print(f"expand: with all FETCHes the script is over a limit: {fault[1]}", file=sys.stderr)
        return fault[0]
    sys.stdout.buffer.write(told)
    return 0


if __name__ == "__main__":
    end(main)
