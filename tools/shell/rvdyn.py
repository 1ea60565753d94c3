#!/usr/bin/env python3
"""The engine from Python: a database over `./rvdyn --line`, which answers each call before it takes the next.

    import rvdyn

    with rvdyn.open() as db:
        db.call("CREATE TABLE T (A BIGINT, B VARCHAR(8))")
        db.call("BEGIN")
        db.call("INSERT INTO T VALUES (1, 'x')")
        for row in db.rows("SELECT * FROM T"):
            print(row)  # (1, 'x')

`call` gives a FETCH's row as a tuple and None at its end, a SHOW's trace as a dict, and every other reply as its text; a call that
is refused raises `Refused`. `session=2` makes it a call of another session, of which there are eight."""
from __future__ import annotations

import re
import subprocess
import sys
from pathlib import Path
from typing import Iterator, Sequence

TOP = Path(__file__).resolve().parents[2]
VALUE = re.compile(r"NULL|-?\d+|'(?:[^']|'')*'")
ANSWERS = ("created", "opened", "closed", "rolled back", "began", "committed", "inserted", "touched", "row", "end", "stepped", "trace")

Value = int | str | None
Row = tuple[Value, ...]


class Refused(Exception):
    """A call was refused: its text is the reply."""


class Ended(Exception):
    """The engine ended: its status, and what it said."""

    def __init__(self, status: int, words: str):
        super().__init__(f"status {status}{': ' * bool(words)}{words}")
        self.status = status


def value_of(text: str) -> Value:
    if text == "NULL":
        return None
    return text[1:-1].replace("''", "'") if text.startswith("'") else int(text)


def row_of(reply: str) -> Row:
    """The values of a reply `row V, ..`."""
    return tuple(value_of(found) for found in VALUE.findall(reply.removeprefix("row ")))


def trace_of(reply: str) -> dict:
    """A reply `trace ..`: its strategy, its events in order, each a tuple of words, and its three counts."""
    strategy, *words = reply.removeprefix("trace ").split(" ")
    counts = {word: int(count) for word, count in zip(words[-6::2], words[-5::2])}
    events, rest = [], iter(words[:-6])
    for word in rest:
        events.append((word, *(next(rest) for _ in range({"scan": 1, "drop": 1, "list": 2}.get(word, 0)))))
    return {"strategy": strategy, "events": events, **counts}


def is_refusal(reply: str) -> bool:
    return not reply.startswith(tuple(f"{word} " for word in ANSWERS)) and reply not in ANSWERS


class Database:
    """A database in a process of its own, which ends with it. Calls are made one after another."""

    def __init__(self, command: Sequence[str]):
        pipe = subprocess.PIPE
        self.engine = subprocess.Popen(command, stdin=pipe, stdout=pipe, stderr=pipe)

    def __enter__(self) -> Database:
        return self

    def __exit__(self, *_fault: object) -> None:
        self.close()

    def close(self) -> None:
        """Ends the engine, with all that is in it."""
        self.engine.communicate()

    def ended(self) -> Ended:
        _, words = self.engine.communicate()
        return Ended(self.engine.returncode, words.decode().strip())

    def write(self, line: str) -> None:
        """A line of a script, as it stands."""
        if "\n" in line or line.endswith("\r") or len(line.encode()) > 4096:
            raise ValueError("a line has at most 4,096 bytes and no line end")
        try:
            self.engine.stdin.write(line.encode() + b"\n")
            self.engine.stdin.flush()
        except (BrokenPipeError, ValueError):
            raise self.ended() from None

    def reply(self, text: str, session: int = 1) -> str:
        """The reply to a call, as it stands, also to one that is refused."""
        if session not in range(1, 9):
            raise ValueError("a session is a number from 1 to 8")
        self.write(f"{session} {text}")
        called, reply = self.engine.stdout.readline(), self.engine.stdout.readline()
        if not (called.endswith(b"\n") and reply.endswith(b"\n")):
            raise self.ended()
        return reply[:-1].decode().removeprefix("= ")

    def call(self, text: str, session: int = 1) -> Row | dict | str | None:
        reply = self.reply(text, session)
        if is_refusal(reply):
            raise Refused(reply)
        if reply == "end":
            return None
        return row_of(reply) if reply.startswith("row ") else trace_of(reply) if reply.startswith("trace ") else reply

    def rows(self, query: str, session: int = 1, cursor: str = "ROWS_OF") -> Iterator[Row]:
        """The rows of a SELECT, within the session's transaction. Its cursor is closed behind the last one that is taken."""
        self.call(f"OPEN {cursor} {query}", session)
        try:
            while (row := self.call(f"FETCH {cursor}", session)) is not None:
                yield row
        finally:
            if self.engine.poll() is None:
                self.reply(f"CLOSE {cursor}", session)

    def trace(self, cursor: str, session: int = 1) -> dict:
        """What the cursor's retrieval did so far."""
        return self.call(f"SHOW {cursor}", session)

    def mark(self, judge: int | None = None) -> None:
        """The next phase begins, with another judge or the same one."""
        if judge not in (None, 0, 1, 2):
            raise ValueError("a judge is a number from 0 to 2")
        self.write("--" if judge is None else f"-- {judge}")


def takes_names(program: str) -> bool:
    """Whether a program takes a judge by its name: ./rvdyn does, and an installed one, which are scripts and pick the built program that
    has it. A built one takes its number."""
    with Path(program).open("rb") as file:
        return file.read(2) == b"#!"


def open(judge: int | str = 0, steps: int = 1, race: bool = False, program: str | None = None, model: bool = False) -> Database:
    """A new database: over ./rvdyn, or a built program, or the slow model, which needs no kit. What else can be asked is as on the command
    line."""
    command = [program] if program else [str(TOP / "rvdyn")]
    if model:
        command = [sys.executable, str(TOP / "tools/model/slow_program.py")]
    elif program and not str(judge).isdigit() and not takes_names(program):
        raise ValueError(f"{program} takes a judge by its number: ./rvdyn has one by the name {judge!r}, in the program that it picks")
    return Database([*command, "--line", "--judge", str(judge), "--steps", str(steps), *["--race"] * race])
