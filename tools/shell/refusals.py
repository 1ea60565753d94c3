#!/usr/bin/env python3
"""Tells of each refused call of a transcript why it was refused: which row was in the way, which call wrote it, when that
transaction began and ended, and from where on the call could be made.

  ./rvdyn SCRIPT | tools/shell/refusals.py - --script SCRIPT

The transcript may be the program's, with threads too, or another engine's. Lines are those of the transcript, or with --script
those of the script, whose calls stand in that order without threads. The calls are followed by the slow model of the database:
an UPDATE or DELETE takes the longer the more rows its table has. Refusals are explained here and not judged: whether they
are right says tools/model/slow_audit.py, or ./rvdyn --audit."""
from __future__ import annotations

import argparse
import sys
from collections import Counter
from dataclasses import dataclass
from typing import Iterable, Iterator, Sequence

if not __package__:  # run as a file: the other folders are found from tools/
    sys.path[0] += "/.."

from ending import end
from model.database import Database, Refused, shown, whole_key
from model.language import Call, calls_of, fault_of, statement
from model.slow_audit import entries_of
from shell.check_script import Checker, counted, of_limit
from shell.rows import NoTranscript, why_no_line
from shell.timeline import read_script

Entry = tuple[int, str, str]  # session, text and reply of a call
Row = Sequence[int | str | None] | None

OF_NAMES = ("syntax", "limit", "unknown", "exists", "kind")
OF_STATE = ("no transaction", "active", "busy", "read only", "no cursor", "cursor open")
OF_ROWS = ("changed", "held", "duplicate")


def refusal_of(reply: str) -> str | None:
    return next((word for word in OF_NAMES + OF_STATE + OF_ROWS if reply == word or reply.startswith(word + " ")), None)


@dataclass
class Transaction:
    """A transaction: the call that began it, and the one that ended it, if one did."""

    number: int
    session: int
    begun: int
    ended: int | None = None


def transactions_of(entries: Sequence[Entry]) -> dict[int, Transaction]:
    """The transactions of a transcript by their numbers."""
    found: dict[int, Transaction] = {}
    present: dict[int, Transaction] = {}
    for at, (session, _, reply) in enumerate(entries):
        if reply.startswith("began "):
            number = int(reply.split()[1])
            present[session] = found[number] = Transaction(number, session, at)
        elif (reply == "rolled back" or reply.startswith("committed ")) and session in present:
            present.pop(session).ended = at
    return found


def row_words(row: Row) -> str:
    return f"({', '.join(map(shown, row))})"


def became(row: Row) -> str:
    return "deleted it" if row is None else f"made it {row_words(row)}"


class Followed(Database):
    """The database as the calls that were made left it, with the call that last wrote each row. What was made is the
    transcript's: no row is in the way of another here, and cursors have no rows."""

    def __init__(self):
        super().__init__()
        self.hit: list[int] = []
        self.wrote: dict[tuple[str, int], int] = {}  # of each committed row
        self.pending: dict[int, dict[tuple[str, int], int]] = {}  # by session, of each row that its transaction has changed

    def opened(self, select):
        return None

    def need_no_rival(self, name, written):
        pass

    def need_different(self, rows, columns):
        pass

    def may_change(self, name, hit):
        self.hit = hit

    def make(self, at: int, session: int, said: tuple, reply: str) -> str:
        """Makes a call, and gives what it is answered."""
        if said[0] == "insert" and said[1] in self.tables and reply.startswith("inserted "):
            self.tables[said[1]].next = int(reply.split()[1])
        made = self.perform(session, said)
        if said[0] == "begin":
            self.pending[session] = {}
        elif said[0] == "insert":
            self.pending[session][said[1], self.tables[said[1]].next - 1] = at
        elif said[0] == "change":
            self.pending[session].update({(said[1], number): at for number in self.hit})
        elif said[0] == "commit":
            self.wrote.update(self.pending.pop(session))
        return made

    def to_write(self, said: tuple) -> dict[int, Row]:
        """The rows that an INSERT or an UPDATE of the present session would write."""
        table = self.tables[said[1]]
        if said[0] == "insert":
            return {table.next: said[2]}
        view = self.view(said[1])
        names = [name for name, _ in table.columns]
        sets = {names.index(column): value for column, value in said[2]}
        numbers = self.found(said[1], self.placed(said[3], [(said[1], table)]))
        return {number: [sets.get(at, value) for at, value in enumerate(view[number])] for number in numbers}


class Reasons:
    """Follows a transcript, and gives the reasons of what is refused. `lines` are those of the calls."""

    def __init__(self, entries: Sequence[Entry], lines: Sequence[int]):
        self.entries, self.lines = entries, lines
        self.transactions = transactions_of(entries)
        self.database = Followed()
        self.checker = Checker()
        self.checker.names = self.database
        self.at = 0
        self.opens: dict[tuple[int, str], int] = {}  # of each cursor the last OPEN, made or refused
        self.closes: dict[tuple[int, str], int] = {}  # and the call that last closed it
        self.commits: dict[int, int] = {}

    def follow(self) -> Iterator[tuple[int, list[str]]]:
        """Each refused call with its reasons."""
        for self.at, (session, text, reply) in enumerate(self.entries):
            said, refusal = statement(text), refusal_of(reply)
            if refusal:
                self.database.session, self.database.own = session, self.database.active.get(session)
                yield self.at, self.reasons(said, refusal)
            elif said[0] not in ("fetch", "step", "show"):
                self.make(said)
            if said[0] == "open":
                self.opens[session, said[1]] = self.at

    def make(self, said: tuple) -> None:
        session, text, reply = self.entries[self.at]
        before = set(self.database.cursors)
        try:
            made = "syntax" if said[0] == "syntax" else self.database.make(self.at, session, said, reply)
        except Refused as refused:
            made = str(refused)
        if made != reply:
            raise NoTranscript(2 * self.at + 2, f"behind the calls above `{text}` is answered `= {made}`; tools/model/slow_audit.py judges transcripts")
        self.closes.update(dict.fromkeys(before - set(self.database.cursors), self.at))
        if said[0] == "commit":
            self.commits.setdefault(int(reply.split()[1]), self.at)

    def reasons(self, said: tuple, refusal: str) -> list[str]:
        session, text, reply = self.entries[self.at]
        if refusal in OF_NAMES or said[0] == "create":
            mistake = self.checker.look_at(Call(self.lines[self.at], session, text))
            if refusal in OF_NAMES:
                return [f"at column {mistake[0] + 3}: {mistake[1]}"] if mistake else [of_limit(reply)] if refusal == "limit" else []
        try:
            return getattr(self, "of_" + refusal.replace(" ", "_"))(said, *(int(word) for word in reply.split() if word.isdigit()))
        except (KeyError, AttributeError, IndexError, TypeError, Refused):
            raise NoTranscript(2 * self.at + 2, f"behind the calls above `{text}` is not answered so; tools/model/slow_audit.py judges transcripts") from None

    # What stands in the transcript.

    def line(self, at: int) -> str:
        return f"line {self.lines[at]}"

    def whole(self, transaction: Transaction) -> str:
        """A transaction with its lines."""
        words = f"transaction {transaction.number} of session {transaction.session}, from {self.line(transaction.begun)}"
        if transaction.ended is None:
            return words + " on, which has no end"
        return words + f" to {self.line(transaction.ended)}"

    def call(self, at: int) -> str:
        return f"{self.line(at)}: {self.entries[at][1]}"

    def committed(self, transaction: Transaction) -> bool:
        return transaction.ended is not None and self.entries[transaction.ended][2] != "rolled back"

    def active(self, number: int) -> Transaction:
        """An active transaction."""
        transaction = self.transactions[number]
        if self.database.active[transaction.session].number != number:
            raise KeyError(number)
        return transaction

    # Calls in a wrong state.

    def of_no_transaction(self, said: tuple) -> list[str]:
        session = self.entries[self.at][0]
        before = [own for own in self.transactions.values() if own.session == session and own.begun < self.at]
        if not before:
            return [f"session {session} has begun no transaction yet: BEGIN comes first"]
        return [f"the last one of the session was {self.whole(before[-1])}: BEGIN begins another one"]

    def of_active(self, said: tuple, number: int) -> list[str]:
        return [f"this is {self.whole(self.active(number))}: it ends before another one begins"]

    def of_busy(self, said: tuple, number: int) -> list[str]:
        return [f"active is {self.whole(self.active(number))}: CREATE stands where no session has a transaction"]

    def of_read_only(self, said: tuple) -> list[str]:
        return [f"this is {self.whole(self.active(self.database.own.number))}; it began with READ ONLY"]

    def of_no_cursor(self, said: tuple, *_: int) -> list[str]:
        key = self.entries[self.at][0], said[1]
        opened, closed = self.opens.get(key), self.closes.get(key)
        if opened is None:
            others = sorted({f"session {session} has one" for session, name in self.database.cursors if name == said[1]})
            return [f"session {key[0]} has opened no cursor {said[1]}" + "".join(f"; {other}" for other in others)]
        if refusal_of(self.entries[opened][2]):
            return [f"its OPEN was refused, {self.line(opened)}: {self.entries[opened][2]}"]
        return [f"it was closed by {self.call(closed)}"]

    def of_cursor_open(self, said: tuple, *_: int) -> list[str]:
        key = self.entries[self.at][0], said[1]
        before = max(at for at in range(self.at) if self.entries[at][0] == key[0] and self.entries[at][2] == "opened" and statement(self.entries[at][1])[1] == said[1])
        return [f"it is open since {self.line(before)}: CLOSE {said[1]} comes first, or another name is taken"]

    # Rows in the way.

    def seen(self, name: str, number: int) -> str:
        own = self.database.own
        return f"row {number} of {name} is {row_words(self.database.view(name).get(number))} to {self.whole(self.transactions[own.number])}"

    def of_held(self, said: tuple, number: int, by: int) -> list[str]:
        other, key = self.active(by), (said[1], number)
        row = self.database.active[other.session].new[key]
        return [self.seen(*key), f"{self.whole(other)}, has {became(row)} in {self.call(self.database.pending[other.session][key])}", self.when(other)]

    def when(self, other: Transaction) -> str:
        """From when on a row that an active transaction has may be written."""
        return self.ends(other, "keeps the row", "; only a transaction that begins behind that can write the row", "the row is free")

    def ends(self, other: Transaction, keeps: str, where_committed: str, is_free: str) -> str:
        """How an active transaction ends, and what is free then."""
        if other.ended is None:
            return f"that transaction does not end, and {keeps}"
        if self.committed(other):
            return f"it commits in {self.line(other.ended)}{where_committed}"
        return f"it is rolled back in {self.line(other.ended)}; from there on {is_free}"

    def of_changed(self, said: tuple, number: int, by: int) -> list[str]:
        key, at = (said[1], number), self.commits[by]
        row = self.database.tables[said[1]].rows.get(number)
        return [
            self.seen(*key),
            f"session {self.entries[at][0]} has {became(row)} in {self.call(self.database.wrote[key])}",
            f"and committed that in {self.line(at)}; only a transaction that begins behind that can write the row",
        ]

    def of_duplicate(self, said: tuple, number: int, by: int | None = None) -> list[str]:
        if said[0] == "index":
            return self.of_equal_rows(said, number)
        name, own = said[1], self.database.own
        to_write, where = self.database.to_write(said), self.entries[self.at][2].split()[2:-1]
        lines = []
        if where == ["by", "txn"]:
            other = self.active(by)
            row, wrote = self.database.active[other.session].new[name, number], self.database.pending[other.session][name, number]
            of_whom, lines = self.whole(other), [self.when_free(other)]
        elif where:
            row, wrote, at = self.database.tables[name].rows[number], self.database.wrote[name, number], self.commits[by]
            of_whom = f"commit {by} in {self.line(at)}"
            lines = [f"{self.whole(self.transactions[own.number])}, does not see that yet: one that begins behind it does"]
        elif number in to_write:
            row, wrote, of_whom = to_write[number], None, "this call itself"
        else:
            row = self.database.view(name)[number]
            wrote = self.database.pending[self.entries[self.at][0]].get((name, number), self.database.wrote.get((name, number)))
            of_whom = "this transaction itself" if (name, number) in own.new else "the snapshot of this transaction"
        index, key = self.key_of(name, number, row, to_write)
        written = f", written in {self.call(wrote)}" if wrote is not None else ""
        return [f"the key ({', '.join(map(shown, key))}) of {index} is that of row {number} of {name}, {row_words(row)}, of {of_whom}{written}", *lines]

    def key_of(self, name: str, number: int, row: Row, to_write: dict[int, Row]) -> tuple[str, tuple]:
        """The unique index in which a row that would be written equals a rival, and their key."""
        for written in sorted(to_write):
            for called, index in self.database.indexes.items():
                key = whole_key(to_write[written], index.columns) if index.unique and index.table == name else None
                if key is not None and written != number and key == whole_key(row, index.columns):
                    return called, key
        raise KeyError(number)

    def when_free(self, other: Transaction) -> str:
        """From when on a key of an active transaction may be free."""
        return self.ends(other, "keeps the key unless it gives it up", "", "the key is free")

    def of_equal_rows(self, said: tuple, number: int) -> list[str]:
        """Two rows over which a unique index was to be made."""
        table = self.database.tables[said[2]]
        places = [[name for name, _ in table.columns].index(column) for column in said[3]]
        key = whole_key(table.rows[number], places)
        lower = min(n for n in table.rows if n < number and whole_key(table.rows[n], places) == key)
        told = [f"row {n} is {row_words(table.rows[n])}, written in {self.call(self.database.wrote[said[2], n])}" for n in (lower, number)]
        return [f"two rows of {said[2]} have the key ({', '.join(map(shown, key))}):", *told]


def lines_of(entries: Sequence[Entry], script: bytes | None) -> list[int] | None:
    """The line of each call: of the transcript, or of the script. None where that has other calls, or others first."""
    if script is None:
        return [2 * at + 1 for at in range(len(entries))]
    calls = [] if fault_of(script) else [call for call in calls_of(script.decode()) if isinstance(call, Call)]
    if [(call.session, call.text) for call in calls[: len(entries)]] != [(session, text) for session, text, _ in entries]:
        return None
    return [call.line for call in calls]


def summary(replies: Iterable[str]) -> str:
    counts = Counter(map(refusal_of, replies))
    if not counts:
        return "no call was refused"
    return f"{counted(counts.total(), 'call')} refused: " + ", ".join(f"{count} {word}" for word, count in counts.most_common())


def main() -> int:
    about, more = __doc__.split("\n\n", 1)
    statuses = "Status 0: all that was refused is told; 1: this is no transcript; 2: a file cannot be read, or the words do not fit."
    parser = argparse.ArgumentParser(description=about, epilog=f"{more}\n\n{statuses}", formatter_class=argparse.RawDescriptionHelpFormatter)
    parser.add_argument("transcript", nargs="?", default="-", metavar="TRANSCRIPT", help="a transcript; - or nothing for standard input")
    parser.add_argument("--script", metavar="SCRIPT", help="the script that it is of, for its lines")
    parser.add_argument("--only", action="append", choices=sorted(OF_NAMES + OF_STATE + OF_ROWS), metavar="REPLY", help="only these refusals, as held; may be said again for others")
    words = parser.parse_args()
    data, script = read_script(words.transcript), read_script(words.script) if words.script else None
    sys.stdout.reconfigure(encoding="utf-8", newline="\n")
    try:
        entries = entries_of(data)
        if isinstance(entries, int):
            raise NoTranscript(entries, why_no_line(data, entries))
        lines, name = lines_of(entries, script), words.script
        if lines is None:
            print(f"refusals: the calls of {words.transcript} are not those of {words.script} in their order; the lines are those of the transcript", file=sys.stderr)
        if lines is None or script is None:
            lines, name = lines_of(entries, None), words.transcript
        told = []
        for at, reasons in Reasons(entries, lines).follow():
            session, text, reply = entries[at]
            if words.only is None or refusal_of(reply) in words.only:
                told.append(reply)
                print(f"{name}:{lines[at]}: {session} {text}\n  = {reply}", *reasons, sep="\n  ")
        print(summary(told))
    except NoTranscript as fault:
        sys.stdout.flush()
        print(f"{words.transcript}:{fault.line}: {fault}", file=sys.stderr)
        return 1
    return 0


if __name__ == "__main__":
    end(main)
