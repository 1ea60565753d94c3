#!/usr/bin/env python3
"""Runs scripts on a program and then, call by call, on PostgreSQL, and tells where the two differ.

A server of PostgreSQL 15 or later is started in a folder that is gone afterwards, on a unix socket alone; where the system has none,
this is said and nothing is compared. A session is a connection; its transaction is REPEATABLE READ, with the snapshot taken at
BEGIN; each call stands behind a savepoint, and where PostgreSQL would wait a lock timeout makes that a refusal. Each call of the
program's transcript is made there with these replies compared:

  FETCH           with the rows of the cursor that PostgreSQL declares: as a bag, and with ORDER BY in its order up to equal values
  UPDATE, DELETE  how many rows are touched, and by RETURNING which
  held, changed   the row and who wrote it; each row that the condition keeps is tried with SELECT .. FOR UPDATE, the lowest first
  duplicate       the rival stands where the reply says, with an equal key
  other refusals  that PostgreSQL refuses the statement too, and why
  numbers         of transactions and commits, by counting

SHOW, STEP and limits have no counterpart and are left out. Differences that docs/LANGUAGE.md tells are counted by their sentence;
any other one is told with the script's line and a shorter script that has it, and ends with status 1.

Without FILE the scripts are random ones, in two of five of which up to eight sessions meet in few rows, the others as
random_scripts.py makes them. A FILE is a script or a transcript, whose replies are left out; - is standard input. PROGRAM may be
tools/model/slow_program.py. With --spoil one reply of each transcript is made wrong, and those that are not seen are told."""
from __future__ import annotations

import argparse
import os
import random
import re
import signal
import subprocess
import sys
import time
from collections import Counter
from dataclasses import dataclass, field
from typing import Iterator, Sequence

if not __package__:  # run as a file: the other folders are found from tools/
    sys.path[0] += "/.."

from ending import end
from fuzz.hostile_scripts import shrunk
from fuzz.postgres_server import Answer, NoServer, Server
from fuzz.postgres_sessions import NUMBER, Columns, Sessions, Value, quoted, sql, theirs, where
from fuzz.random_scripts import Maker, spelled_words
from model.language import Call, Syntax, calls_of, statement, tokens

Told = tuple[int, str, str]  # session, text and reply of a call

REFUSALS = (
    "syntax", "limit", "unknown", "exists", "kind", "no transaction", "active", "busy", "read only", "no cursor", "cursor open",
    "changed", "held", "duplicate",
)  # fmt: skip
NAMES = {"unknown", "exists", "kind"}
LATE = {"read only", "changed", "wait", "duplicate"}  # what PostgreSQL may meet before a value of the wrong kind

# The differences that docs/LANGUAGE.md tells.
STILL_SEEN = "a key that the transaction sees in a row that a later commit deleted or changed is a duplicate; PostgreSQL lets it in"
GIVEN_UP = "a key that an active transaction wrote and gave up is free; PostgreSQL waits"
NO_CAST = "an integer in a VARCHAR column is of the wrong kind; PostgreSQL makes it a text"
BLANKS = "a text that is too long by blanks alone is of the wrong kind; PostgreSQL cuts them"
BYTES = "a text has too many bytes but not too many characters; PostgreSQL counts characters"
TWICE = "a column stands twice in an index; PostgreSQL makes it"
NOBODY_WAITS = "the call is refused at once; PostgreSQL waits"
FIRST_REASON = "of several reasons another one is answered"


class Differs(Exception):
    """The two differ in a way that the pages do not tell."""


def refusal_of(reply: str) -> str | None:
    return next((word for word in REFUSALS if reply.startswith(word)), None)


def values_of(reply: str) -> tuple[Value, ...]:
    """The values of a reply `row ..`."""
    try:
        return tuple(token.value if token.kind == "value" else None for token in tokens(reply[4:]) if token.kind != "symbol")
    except Syntax:
        raise Differs("these are no values") from None


# The comparison.


class Beyond(Exception):
    """PostgreSQL cannot follow any further."""


@dataclass
class Transaction:
    number: int
    base: int
    written: set[tuple[str, int]] = field(default_factory=set)


@dataclass
class Cursor:
    """The widths of the columns that PostgreSQL's rows have, of which the last ones are those of ORDER BY; and the rows so far."""

    widths: list[int | None]
    orders: int
    ours: list[tuple[Value, ...]] = field(default_factory=list)
    theirs: list[tuple[Value, ...]] = field(default_factory=list)
    ended: bool = False

    def take(self, rows: list[list[str | None]]) -> None:
        for row in rows:
            pairs = zip(row, self.widths)
            self.theirs.append(tuple(value if value is None or width is not None else int(value) for value, width in pairs))

    def parts(self, row: tuple[Value, ...]) -> tuple[tuple[Value, ...], tuple[Value, ...]]:
        """The values that are returned, and those of ORDER BY."""
        cut = len(row) - self.orders
        return row[:cut], row[cut:]


class Replay:
    """Makes the calls of a transcript on PostgreSQL. `agreed` counts replies, `known` the differences that the pages tell."""

    MOST = 30000  # rows of a cursor that was not read to its end

    def __init__(self, sessions: Sessions):
        self.sessions = sessions
        self.agreed: Counter[str] = Counter()
        self.known: Counter[str] = Counter()
        self.at, self.session, self.text, self.reply = 0, 0, "", ""
        self.columns: Columns = {}
        self.unique: dict[str, list[list[str]]] = {}
        self.active: dict[int, Transaction] = {}
        self.cursors: dict[tuple[int, str], Cursor] = {}
        self.begun = self.last = 0
        self.wrote: dict[tuple[str, int], int] = {}  # of each row the commit that last wrote it

    def run(self, told: Sequence[Told]) -> None:
        self.sessions.begin_again()
        for part in (self.make_calls, self.settle_all):
            try:
                part(told)
            except Beyond as why:
                (self.known if str(why) == GIVEN_UP else self.agreed)[str(why)] += 1

    def make_calls(self, told: Sequence[Told]) -> None:
        for self.at, (self.session, self.text, self.reply) in enumerate(told):
            self.call()

    def settle_all(self, _: Sequence[Told]) -> None:
        """The cursors that are left, also where the calls were not made to their end."""
        for self.session, name in list(self.cursors):
            self.settle(name)

    def need(self, true: object, words: str) -> None:
        if not true:
            raise Differs(words)

    def need_done(self, answer: Answer) -> None:
        if theirs(answer) == "long":
            raise Beyond("scripts whose rest is not compared, since PostgreSQL took too long")
        self.need(answer.done, f"PostgreSQL refuses it: {answer.state} {answer.words}")

    def make(self, text: str) -> Answer:
        return self.sessions.make(self.session, text)

    def call(self) -> None:
        said, refusal = statement(self.text), refusal_of(self.reply)
        self.need((refusal == "syntax") == (said[0] == "syntax"), f"as it is read this is {said}")
        word = refusal or said[0]
        if word not in ("syntax", "limit") and said[0] not in ("show", "step"):
            before = self.known.total()
            getattr(self, said[0])(said, refusal)
            self.agreed[word] += self.known.total() == before

    # Transactions.

    def begin(self, said: tuple, refusal: str | None) -> None:
        if refusal:
            self.need(self.session in self.active and self.reply == f"active {self.active[self.session].number}", "the session has no such transaction")
            return
        self.begun += 1
        self.need(self.session not in self.active and self.reply == f"began {self.begun}", f"this is BEGIN {self.begun}")
        self.need_done(self.sessions.begin(self.session, said[1]))
        self.active[self.session] = Transaction(self.begun, self.last)

    def commit(self, said: tuple, refusal: str | None) -> None:
        if refusal:
            self.need(self.session not in self.active, "the session has a transaction")
            return
        for session, name in list(self.cursors):
            if session == self.session:
                self.settle(name)
        own = self.active.pop(self.session)
        self.need_done(self.sessions.end(self.session, said[0].upper()))
        if said[0] == "rollback":
            return
        if own.written:
            self.last += 1
            self.wrote.update(dict.fromkeys(own.written, self.last))
        number = self.last if own.written else own.base
        self.need(self.reply == f"committed {number}", f"this is commit {number}")

    rollback = commit

    # Names.

    def create(self, said: tuple, refusal: str | None) -> None:
        if refusal == "busy":
            numbers = [own.number for own in self.active.values()]
            self.need(numbers and self.reply == f"busy {min(numbers)}", f"active are {numbers}")
            return
        text = sql(said, self.columns)
        if refusal is None:
            self.need_done(self.sessions.all[0].send(text))
            if said[0] == "create":
                self.columns[said[1]], self.unique[said[1]] = said[2], []
            elif said[4]:
                self.unique[said[2]].append(said[3])
            return
        answer = self.sessions.alone(0, text)
        twice = refusal == "exists" and said[0] == "index" and len(set(said[3])) < len(said[3])
        if twice and theirs(answer) in (None, "duplicate"):
            self.known[TWICE] += 1
        elif theirs(answer) == "wait" and self.active:
            self.known[NOBODY_WAITS] += 1
        else:
            self.agree(said, refusal, answer)

    index = create

    def agree(self, said: tuple, refusal: str, answer: Answer) -> None:
        """A call that was refused for its names, its kinds or its state."""
        why = theirs(answer)
        if why is None:
            self.known[self.looser(said, refusal)] += 1
        elif why != refusal:
            several = refusal in NAMES and why in NAMES or refusal == "kind" and why in LATE or refusal == "cursor open" and why in NAMES
            self.need(several, f"PostgreSQL refuses it otherwise: {answer.state} {answer.words}")
            self.known[FIRST_REASON] += 1

    def looser(self, said: tuple, refusal: str) -> str:
        """By which difference a call is refused that PostgreSQL makes."""
        if refusal == "kind" and said[0] in ("insert", "change") and said[2] is not None:
            widths = dict(self.columns[said[1]])
            values = list(zip(widths, said[2])) if said[0] == "insert" else said[2]
            pairs = [(widths[column], value) for column, value in values if widths[column] is not None and value is not None]
            if any(isinstance(value, int) for _, value in pairs):
                return NO_CAST
            over = [(width, value) for width, value in pairs if len(value.encode()) > width]
            if over and all(len(value.encode().rstrip(b" ")) <= width for width, value in over):
                return BLANKS
            if over and all(len(value.rstrip(" ")) <= width for width, value in over):
                return BYTES
        raise Differs("PostgreSQL does it")

    def outside(self, said: tuple, refusal: str | None) -> None:
        """A call that needs a transaction, where the session has none."""
        self.need(refusal, "it was made without a transaction")
        answer = self.sessions.alone(self.session, sql(said, self.columns))
        if refusal != "no transaction":
            self.agree(said, refusal, answer)
        else:
            self.need(theirs(answer) not in ("unknown", "exists"), f"PostgreSQL refuses it for a name: {answer.words}")

    # Writes.

    def insert(self, said: tuple, refusal: str | None) -> None:
        own = self.active.get(self.session)
        if own is None:
            return self.outside(said, refusal)
        self.need(refusal != "no transaction", "the session has a transaction")
        number = int(self.reply.split()[1]) if self.reply.startswith("inserted") else None
        answer = self.make(sql(said, self.columns, number))
        if refusal is None:
            self.done(said, own, answer)
            return
        if answer.done:
            self.sessions.undo(self.session)
        if refusal in ("changed", "held", "duplicate"):
            self.conflict(said, own, refusal, answer)
        else:
            self.agree(said, refusal, answer)

    change = insert

    def done(self, said: tuple, own: Transaction, answer: Answer) -> None:
        writes_keys = said[2] is not None  # DELETE does not
        if theirs(answer) == "wait" and writes_keys and not self.first_conflict(said) and not self.live_keys(said, own):
            raise Beyond(GIVEN_UP)
        self.need_done(answer)
        rows = {(said[1], int(number)) for [number] in answer.rows}
        if said[0] == "change":
            self.need(self.reply == f"touched {len(answer.rows)}", f"PostgreSQL touches the rows {sorted(number for _, number in rows)[:20]}")
        own.written |= rows

    def live_keys(self, said: tuple, own: Transaction) -> bool:
        """Whether a row that would be written equals in a unique index one that it may not: seen, committed or written by others."""
        table, names = said[1], [column for column, _ in self.columns[said[1]]]
        of = lambda session: {int(row[0]): row[1:] for row in self.sessions.look(session, f"SELECT * FROM {quoted(table)}")}
        kept: list[list[str | None]] = []
        touched: set[int] = set()
        if said[0] == "change":
            found = self.sessions.look(self.session, f"SELECT * FROM {quoted(table)}{where(said[3])}")
            touched, kept = {int(row[0]) for row in found}, [row[1:] for row in found]
        spelled = lambda value: None if value is None else str(value)
        if said[0] == "insert":
            new = [dict(zip(names, map(spelled, said[2])))]
        else:
            new = [{**dict(zip(names, row)), **{column: spelled(value) for column, value in said[2]}} for row in kept]
        mine = {number for of_table, number in own.written if of_table == table}
        rivals = [row for number, row in of(self.session).items() if number not in touched]
        rivals += [row for number, row in of(0).items() if number not in touched | mine]
        for session, other in self.active.items():
            if other is not own:
                rivals += [row for number, row in of(session).items() if (table, number) in other.written]
        keys = [[names.index(column) for column in columns] for columns in self.unique[table]]
        taken = [{tuple(row[place] for place in places) for row in rivals} for places in keys]
        wanted = [[tuple(row[names[place]] for place in places) for row in new] for places in keys]
        return any(None not in key and key in have for have, those in zip(taken, wanted) for key in those)

    def first_conflict(self, said: tuple) -> tuple[str, int] | None:
        """The lowest row which an UPDATE or DELETE may not write since a commit changed it, else the lowest that is held."""
        if said[0] == "insert":
            return None
        found = self.sessions.look(self.session, f"SELECT {NUMBER}, ctid FROM {quoted(said[1])}{where(said[3])} ORDER BY {NUMBER}")
        tried = self.sessions.conflicts(self.session, said[1], [place for _, place in found])
        for why, word in (("changed", "changed"), ("wait", "held")):
            if why in tried:
                return word, int(found[tried.index(why)][0])
        return None

    def conflict(self, said: tuple, own: Transaction, refusal: str, answer: Answer) -> None:
        """held, changed and duplicate: what PostgreSQL says of each row by itself, and of the statement."""
        table, words = said[1], self.reply.split()
        row = (table, int(words[1]))
        if theirs(answer) == "long":
            self.need_done(answer)
        first = self.first_conflict(said)
        wanted = None if refusal == "duplicate" else (refusal, row[1])
        self.need(first == wanted, f"row by row PostgreSQL has {first}")
        if refusal == "duplicate":
            self.rival(said, own, row, words[2:], answer)
            return
        if refusal == "changed":
            self.need(self.wrote.get(row, 0) > own.base and words[3] == str(self.wrote[row]), f"commit {self.wrote.get(row)} wrote it")
        else:
            self.need(self.writer(own, words[3], row), f"transaction {words[3]} has not written it")
        why = theirs(answer)
        self.need(why is not None, "PostgreSQL does it")
        if why != ("wait" if refusal == "held" else refusal):
            self.known[FIRST_REASON] += 1
        elif why == "wait":
            self.known[NOBODY_WAITS] += 1

    def writer(self, own: Transaction, number: str, row: tuple[str, int]) -> int | None:
        """The session whose active transaction, another one, has that number and has written the row."""
        fits = (session for session, other in self.active.items() if str(other.number) == number and other is not own and row in other.written)
        return next(fits, None)

    def rival(self, said: tuple, own: Transaction, row: tuple[str, int], by: list[str], answer: Answer) -> None:
        """A duplicate: the rival stands where the reply says, with an equal key."""
        table, number = row
        place: int | None = self.session
        later = self.wrote.get(row, 0) > own.base
        if by and by[1] == "commit":
            place = 0
            self.need(later and by[2] == str(self.wrote[row]), f"commit {self.wrote.get(row)} wrote it")
        elif by:
            place = self.writer(own, by[2], row)
            self.need(place, f"transaction {by[2]} has not written it")
        if said[0] == "insert":
            found = self.sessions.look(place, f"SELECT * FROM {quoted(table)} WHERE {NUMBER} = {number}")
            self.need(found, f"there is no row {number}")
            names = [column for column, _ in self.columns[table]]
            pairs = {name: (has, None if value is None else str(value)) for name, has, value in zip(names, found[0][1:], said[2])}
            equal = [all(pairs[name][0] is not None and pairs[name][0] == pairs[name][1] for name in key) for key in self.unique[table]]
            self.need(any(equal), f"row {number} is {found[0][1:]} there, which equals the new one in no unique index")
        why = theirs(answer)
        if why is None:
            self.need(not by and later, "PostgreSQL does it")
            self.known[STILL_SEEN] += 1
        elif why == "wait":
            others = any(of_table == table for other in self.active.values() if other is not own for of_table, _ in other.written)
            self.need(others, "PostgreSQL waits, and nobody has written in the table")
            self.known[NOBODY_WAITS] += 1
        else:
            self.need(why == "duplicate", f"PostgreSQL refuses it otherwise: {answer.state} {answer.words}")
            alone = said[0] == "insert" and len(self.unique[table]) == 1
            self.need(not (alone and by and by[1] == "txn"), f"PostgreSQL does not wait for transaction {by[2:]}: {answer.words}")

    # Cursors.

    def open(self, said: tuple, refusal: str | None) -> None:
        if self.session not in self.active:
            return self.outside(said, refusal)
        key = (self.session, said[1])
        self.need(refusal != "cursor open" or key in self.cursors, "it is not open")
        answer = self.make(sql(said, self.columns))
        if refusal is None:
            self.need_done(answer)
            self.cursors[key] = Cursor(self.widths(said), len(said[5]))
            return
        if answer.done:
            self.sessions.undo(self.session)
        self.agree(said, refusal, answer)

    def widths(self, said: tuple) -> list[int | None]:
        """The width of each column that is returned, and of each one of ORDER BY."""
        _, _, returned, items, _, order, _ = said
        all_columns = [(second or table, column, width) for table, second in items for column, width in self.columns[table]]
        found = [width for _, _, width in all_columns] if returned is None else []
        for qualifier, name in [*(returned or []), *order]:
            found.append(next(width for item, column, width in all_columns if column == name and qualifier in (None, item)))
        return found

    def fetch(self, said: tuple, refusal: str | None) -> None:
        cursor = self.cursors.get((self.session, said[1]))
        if refusal:
            self.need(cursor is None, "it is open")
            return
        self.need(cursor is not None, "it is not open")
        before = len(cursor.theirs)
        answer = self.make(f"FETCH 1 FROM {quoted(said[1])}")
        self.need_done(answer)
        cursor.take(answer.rows)
        if self.reply == "end":
            cursor.ended = True
            self.need(not answer.rows, f"PostgreSQL has another row: {cursor.theirs[-1:]}")
            return
        self.need(not cursor.ended, "a row behind the end")
        self.need(len(cursor.theirs) > before, "PostgreSQL is at its end")
        cursor.ours.append(values_of(self.reply))

    def close(self, said: tuple, refusal: str | None) -> None:
        if refusal:
            self.need((self.session, said[1]) not in self.cursors, "it is open")
            return
        self.settle(said[1])
        self.need_done(self.make(f"CLOSE {quoted(said[1])}"))

    def settle(self, name: str) -> None:
        """All that a cursor gave is among what PostgreSQL's has, in its order; of one that came to its end it is all."""
        cursor = self.cursors.pop((self.session, name))
        if not cursor.ended:
            answer = self.make(f"FETCH {self.MOST} FROM {quoted(name)}")
            self.need_done(answer)
            cursor.take(answer.rows)
            if len(answer.rows) == self.MOST:
                self.agreed["cursors too long to be compared"] += 1
                return
        left = Counter(cursor.theirs)
        for number, (ours, there) in enumerate(zip(cursor.ours, cursor.theirs), 1):
            order = cursor.parts(there)[1]
            near = [row for row in cursor.theirs if cursor.parts(row)[1] == order][:3]
            self.need(left[ours + order] > 0, f"row {number} of cursor {name} is {ours}; PostgreSQL has there {near}")
            left[ours + order] -= 1
        self.agreed["rows compared"] += len(cursor.ours)
        self.agreed["cursors compared to their end" if cursor.ended else "cursors compared in part"] += 1


# Scripts.


@dataclass(frozen=True)
class Script:
    name: str
    text: str
    words: tuple[str, ...] = ()
    broken: bool = False  # a line of it is none of a script


class Meetings(Maker):
    """Sessions that meet in few rows: they write the same ones, end between, and read what came of it."""

    def __init__(self, rng: random.Random):
        super().__init__(rng, unique=rng.random() < 0.7)
        self.large = self.huge = False

    def items(self):
        """At most two, since the maker follows each script slowly, and a join is a product to it."""
        found = super().items()
        return found if len(found) <= 2 else self.items()

    def calls(self):
        rng = self.rng
        yield from ((1, *made) for made in self.filled())
        yield 1, ("commit",), "COMMIT"
        for _ in range(rng.randint(3, 9)):
            first, second = rng.sample(range(1, 9), 2)
            yield from rng.choice([self.conflict(first, second), self.crowd(), self.changing(first)])
            if second not in self.database.active:
                yield second, ("begin", False), "BEGIN"
            said, text = self.open()
            yield second, said, text
            yield from ((second, *made) for made in self.drained(second, said[1]))
            if rng.random() < 0.3:
                yield second, ("commit",), "COMMIT"


KINDS = ("meetings", "unique", "meetings", "changes", "plain")


def random_script(seed: int, number: int, kind: str | None = None) -> Script:
    kind = kind or KINDS[number % len(KINDS)]
    rng = random.Random(seed * 1_000_000 + number)
    maker = Meetings(rng) if kind == "meetings" else Maker(rng, kind == "unique", kind == "changes")
    text, _, broken, words = maker.script()
    return Script(f"script {number} of seed {seed} ({kind})", text, tuple(spelled_words(words)), broken)


def given_script(path: str) -> Script:
    if path == "-":
        data = sys.stdin.buffer.read()
    else:
        with open(path, "rb") as file:
            data = file.read()
    lines = data.decode(errors="surrogateescape").split("\n")
    return Script(path, "\n".join("" if line.startswith("= ") else line for line in lines))


class NoRun(Exception):
    """The program has no transcript of a script."""


class Late(NoRun):
    """The program takes too long for a script."""


def transcript(program: str, script: Script, seconds: float) -> list[Told]:
    try:
        ran = subprocess.run([program, *script.words], input=script.text.encode(errors="surrogateescape"), capture_output=True, timeout=seconds, check=False)
    except subprocess.TimeoutExpired:
        raise Late(f"no end after {seconds:.0f} seconds") from None
    if ran.returncode:
        raise NoRun(f"status {ran.returncode}: {ran.stderr.decode(errors='replace').strip()[-200:]}")
    lines = ran.stdout.decode().split("\n")
    return [(int(call[0]), call[2:], reply[2:]) for call, reply in zip(lines[::2], lines[1::2])]


def spoiled(rng: random.Random, told: list[Told]) -> tuple[list[Told], int, str]:
    """A transcript of which one reply is wrong, at which call, and what is wrong with it."""
    ways: dict[str, list[tuple[int, str]]] = {}
    last: dict[tuple[int, str], str] = {}  # the last row of each cursor
    for at, (session, text, reply) in enumerate(told):
        word, *rest = reply.split(" ")
        cursor = (session, text)
        if word == "row":
            ways.setdefault("a value of a row", []).append((at, re.sub(r"(?:NULL|-?[0-9]+)$", "424242", reply) if reply[-1] != "'" else reply[:-1] + "x'"))
            ways.setdefault("a row is lost", []).append((at, "end"))
            last[cursor] = reply
        elif word == "end" and cursor in last:
            ways.setdefault("a row comes twice", []).append((at, last[cursor]))
        elif word == "touched":
            ways.setdefault("a count", []).append((at, f"touched {int(rest[0]) + 1}"))
        elif word in ("held", "changed"):
            number, _, by = rest
            other = "held" if word == "changed" else "changed"
            ways.setdefault(f"{word} is {other}", []).append((at, f"{other} {number} by {by}"))
            ways.setdefault(f"{word}: another row", []).append((at, f"{word} {int(number) + 1} by {by}"))
            ways.setdefault(f"{word}: another writer", []).append((at, f"{word} {number} by {int(by) + 1}"))
            ways.setdefault(f"{word} is done", []).append((at, "touched 1"))
        elif word == "duplicate" and "INSERT" in text.upper():
            ways.setdefault("duplicate: another row", []).append((at, " ".join([word, str(int(rest[0]) + 1000), *rest[1:]])))
            if len(rest) == 1 or rest[2] == "txn":
                ways.setdefault("a duplicate is inserted", []).append((at, "inserted 9999"))
        elif word == "inserted":
            ways.setdefault("what can be inserted is a duplicate", []).append((at, "duplicate 0"))
        elif word in ("committed", "began"):
            ways.setdefault("a number", []).append((at, f"{word} {int(rest[0]) + 1}"))
        elif word in ("opened", "created"):
            ways.setdefault("a right name is unknown", []).append((at, "unknown T"))
    if not ways:
        return told, -1, ""
    way = rng.choice(sorted(ways))
    at, reply = rng.choice(ways[way])
    return [*told[:at], (*told[at][:2], reply), *told[at + 1 :]], at, f"{way}: call {at + 1}, {told[at][1]!r}, {told[at][2]!r} made {reply!r}"


class Comparison:
    """The scripts that were compared, and what came of them."""

    def __init__(self, program: str, sessions: Sessions, asked: argparse.Namespace):
        self.program, self.sessions, self.asked = program, sessions, asked
        self.scripts = self.calls = self.wrong = self.late = self.spoils = 0
        self.agreed: Counter[str] = Counter()
        self.known: Counter[str] = Counter()
        self.name = "the first script"

    def difference(self, script: Script) -> tuple[str, Replay, list[Told]]:
        """What differs (nothing where nothing does)."""
        told, replay = transcript(self.program, script, self.asked.seconds), Replay(self.sessions)
        if self.asked.spoil:
            told, *self.spoil = spoiled(random.Random(script.name), told)
        try:
            replay.run(told)
        except Differs as why:
            return str(why), replay, told
        return "", replay, told

    def still(self, script: Script) -> bool:
        try:
            return bool(self.difference(script)[0])
        except NoRun:
            return False

    def one(self, script: Script) -> None:
        self.name = script.name
        try:
            words, replay, told = self.difference(script)
        except NoRun as why:
            self.late += isinstance(why, Late)
            self.wrong += not isinstance(why, Late)
            print(f"{script.name} {' '.join(script.words)}: {why}")
            return
        self.scripts += 1
        self.calls += min(replay.at + 1, len(told))
        self.agreed += replay.agreed
        self.known += replay.known
        if self.asked.known and replay.known:
            print(f"{script.name}: " + "; ".join(f"{count} {what}" for what, count in replay.known.items()))
        if self.asked.spoil:
            at, what = self.spoil
            self.spoils += 0 <= at <= replay.at
            if 0 <= at <= replay.at and not words:
                self.wrong += 1
                print(f"{script.name}: not seen: {what}")
            return
        if not words:
            return
        self.wrong += 1
        calls = [call for call in calls_of(script.text) if isinstance(call, Call)]
        print(f"{script.name} {' '.join(script.words)}")
        print(f"line {calls[replay.at].line}: {replay.session} {replay.text}\n= {replay.reply}\n    {words}")
        if self.asked.shorten:
            short = shrunk(script.text.encode(), lambda data: self.still(Script("", data.decode(), script.words)), self.asked.shorten)
            print("it differs with these lines too:")
            print("".join(f"    {line}\n" for line in short.decode().split("\n") if line))

    def tell(self, version: str, began: float) -> None:
        if self.asked.spoil:
            print(f"PostgreSQL {version}: {self.spoils} transcripts with a wrong reply, {self.wrong} not seen")
            return
        print(f"PostgreSQL {version}: {self.scripts} scripts, {self.calls} calls in {time.monotonic() - began:.0f} s; {self.wrong} differ as no page tells")
        if self.late:
            print(f"{self.late} more scripts took the program over {self.asked.seconds:.0f} s, and were not compared")
        for title, counts in (("alike", self.agreed), ("as docs/LANGUAGE.md tells", self.known)):
            print(title)
            for what, count in sorted(counts.items(), key=lambda one: (-one[1], one[0])):
                print(f"{count:9} {what}")


class Stopped(Exception):
    """A signal ends the comparison; what was compared until then is told."""


def stop(number: int, frame: object) -> None:
    signal.signal(number, signal.SIG_IGN)  # the server is ended in peace
    raise Stopped


def scripts(asked: argparse.Namespace, given: list[Script]) -> Iterator[Script]:
    if given:
        yield from given
    else:
        made = (random_script(asked.seed, number, asked.kind) for number in range(asked.first, asked.first + asked.count))
        yield from (script for script in made if not script.broken)


def main() -> int:
    parser = argparse.ArgumentParser(description=__doc__, formatter_class=argparse.RawDescriptionHelpFormatter)
    parser.add_argument("program", metavar="PROGRAM")
    parser.add_argument("files", nargs="*", default=[], metavar="FILE", help="scripts or transcripts of your own, in place of random scripts")
    parser.add_argument("--count", type=int, default=200, help="how many random scripts (default 200)")
    parser.add_argument("--seed", type=int, default=1, help="of which seed (default 1)")
    parser.add_argument("--first", type=int, default=0, metavar="NUMBER", help="the number of the first one (default 0)")
    parser.add_argument("--kind", choices=sorted(set(KINDS)), help="of one kind alone: sessions that meet, or those of random_scripts.py")
    parser.add_argument("--seconds", type=float, default=60, help="how long the program may take for a script (default 60)")
    parser.add_argument("--shorten", type=float, default=40, metavar="SECONDS", help="how long a script that differs is made shorter (default 40)")
    parser.add_argument("--spoil", action="store_true", help="whether a wrong reply is seen")
    parser.add_argument("--known", action="store_true", help="tell of each script the known differences that it has")
    parser.add_argument("--postgres", metavar="FOLDER", help="where initdb, postgres, pg_isready and psql are, if not where the system has them")
    asked = parser.parse_intermixed_args()
    sys.stdout.reconfigure(line_buffering=True)
    os.stat(asked.program)
    given, began = list(map(given_script, asked.files)), time.monotonic()
    signal.signal(signal.SIGTERM, stop)
    signal.signal(signal.SIGINT, stop)
    try:
        with Server(asked.postgres) as server:
            comparison = Comparison(asked.program, Sessions(server), asked)
            try:
                for script in scripts(asked, given):
                    comparison.one(script)
            except Stopped:
                print(f"stopped in {comparison.name}")
            comparison.tell(server.version, began)
    except NoServer as why:
        print(f"beside_postgres: {why}; nothing was compared", file=sys.stderr)
        return 0
    except Stopped:
        return 1
    return 1 if comparison.wrong else 0


if __name__ == "__main__":
    end(main)
