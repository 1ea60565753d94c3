#!/usr/bin/env python3
"""Runs damaged scripts, and scripts at the limits of the language, through a built program, and compares each run with the slow
model: status, transcript and standard error have to be the same, byte by byte.

A damaged script is an example, a script of random_scripts.py or one at the limits, of which bytes, tokens or lines were changed,
lost, doubled or moved; now and then the words of the command line are wrong too. A script at the limits has counts, sizes and
numbers just below, at and just above each limit of the language, statements as long as a line may be, trees and lists at the
sizes where they change, rivals in unique indexes, and cursors over a transaction that changes on; and all that with cursors that
are fetched to their end.

With --rooms N each script is run N times more with a random part of the memory that it takes: each of these runs ends with
status 0 and the same transcript, or with status 4, `no memory` and the transcript of the first calls; or so with another legal
transcript, where a background step beside a FETCH found no memory.

A script has a number, and number and seed make it: `--only KIND:NUMBER --print` writes it. With --keep FOLDER each script that
differs is kept there, made as short as a difference allows, beside what the model and the program gave. --minutes M lets it run
for so long, whatever the counts are: a night is 480. Ends with status 1 where a script differed."""
from __future__ import annotations

import argparse
import collections
import contextlib
import random
import re
import signal
import subprocess
import sys
import time
from pathlib import Path
from typing import Callable, Iterator

if not __package__:  # run as a file: the other folders are found from tools/
    sys.path[0] += "/.."

from ending import end
from fuzz import random_scripts
from fuzz.limited_memory import Shim, wrong_end
from model.database import shown
from model.language import KEYWORDS, fault_of
from model.program import run, transcript

TOP = Path(__file__).resolve().parents[2]
USAGE = b"usage: rvdyn [--line] [--threads] [--workers W] [--judge N] [--steps K] [--gen SEED] [--race]\n"
MOST = {"workers": 8, "judge": 2, "steps": 64, "gen": 4294967295}
INTEGERS = [0, 1, -1, 7, 31, 32, 33, 2**31, 2**63 - 1, -(2**63), 2**63, -(2**63) - 1, 10**40]
NO_TEXT = [b"\xff", b"\xc3", b"\xc0\xaf", b"\xed\xa0\x80", b"\xf4\x90\x80\x80", b"\xe2\x80", b"\x80"]
ODD_TEXT = ["\0", "\t", "\r", "\x0b", "\x1f", "\x7f", "\x80", "\u2028", "\ufeff", "é", "Ａ", "１", "\U0001f98a", "\u0130", "\xa0"]


# What a script gives: by the model.


def accepted(words: list[bytes]) -> dict[str, int] | None:
    """The options of the program's words behind `--line`, which stands before them all, or None where they are not accepted."""
    if words[:1] == [b"--line"]:
        behind = None if words[1:2] == [b"--line"] else accepted(words[1:])
        return None if behind is None or "threads" in behind or "gen" in behind else behind
    found: dict[str, int] = {}
    rest = iter(words)
    for word in rest:
        if word in (b"--threads", b"--race") and word[2:].decode() not in found:
            found[word[2:].decode()] = 1
            continue
        name, equals, value = word.partition(b"=")
        value = value if equals else next(rest, b"")
        option = name.removeprefix(b"--").decode(errors="replace")
        if not name.startswith(b"--") or option not in MOST or option in found:
            return None
        if not re.fullmatch(rb"[0-9]{1,10}", value) or int(value) > MOST[option]:
            return None
        found[option] = int(value)
    return found


def wanted(script: bytes, words: list[bytes]) -> tuple[int, bytes, bytes]:
    """Status, output and words on standard error of a run with memory enough."""
    options = accepted(words)
    if options is None:
        return 1, b"", USAGE
    fault = fault_of(script)
    if fault is not None:
        return fault[0], b"", fault[1].encode() + b"\n"
    return 0, transcript(run(script.decode(), **options)).encode(), b""


# Scripts at the limits.


class Edges:
    """Makes a script at the limits. Each theme is a method that yields texts of session 1, or pairs of a session and a text."""

    def __init__(self, rng: random.Random, heavy: float = 0.01):
        self.rng = rng
        self.heavy = heavy
        self.names = 0

    # Parts.

    def near(self, limit: int) -> int:
        return limit + self.rng.choice([-1, 0, 0, 1])

    def name(self, size: int | None = None) -> str:
        """A name that no other one is."""
        self.names += 1
        begin = f"{self.rng.choice('NQXYZ')}{self.names}"
        filler = "".join(self.rng.choice("AZ_09") for _ in range(255))
        return begin + "_" + filler[: (size or len(begin)) - len(begin) - 1] if size else begin

    def text(self, size: int) -> str:
        """A text of so many bytes: ASCII, quotes, or characters of two to four bytes."""
        unit = self.rng.choice(["a", "'", "é", "\u2028", "\U0001f98a", "Ab "])
        cut = (unit * size).encode()[:size].decode(errors="ignore")
        return cut + "b" * (size - len(cut.encode()))

    def literal(self, width: int | None) -> str:
        if self.rng.random() < 0.1:
            return "NULL"
        if width is None:
            return self.rng.choice([str(self.rng.choice(INTEGERS[:10])), str(self.rng.randint(-5, 40)), "0" * self.rng.randint(1, 40) + "7", "-0"])
        return shown(self.text(self.rng.choice([0, 1, width - 1, width, width, width])) if width > 1 else "a")

    def table(self, widths: list[int | None], indexes: int = 0) -> Iterator[str]:
        """Makes a table with the columns A0, A1 .. and indexes of them. Sets `made`."""
        self.made, self.widths = self.name(), widths
        kinds = [f"A{i} {'BIGINT' if w is None else f'VARCHAR({w})'}" for i, w in enumerate(widths)]
        yield f"CREATE TABLE {self.made} ({', '.join(kinds)})"
        for _ in range(indexes):
            columns = self.rng.sample(range(len(widths)), self.rng.randint(1, min(4, len(widths))))
            yield f"CREATE {self.unique()}INDEX {self.name()} ON {self.made} ({', '.join(f'A{c}' for c in columns)})"

    def unique(self, part: float = 0.1) -> str:
        """Now and then the word for a unique index, with its blank."""
        return "UNIQUE " if self.rng.random() < part else ""

    def loaded(self, count: int) -> Iterator[str]:
        for _ in range(count):
            yield f"INSERT INTO {self.made} VALUES ({', '.join(map(self.literal, self.widths))})"

    def drained(self, select: str, most: int, steps: float = 0.05) -> Iterator[str]:
        """A cursor over a select, looked at, fetched up to so often, and closed."""
        cursor = self.name()
        yield f"OPEN {cursor} {select}"
        for _ in range(most):
            yield f"FETCH {cursor}"
            if self.rng.random() < steps:
                yield self.rng.choice([f"STEP {cursor} {self.rng.choice([0, 1, 2, 10000])}", f"SHOW {cursor}"])
        yield f"SHOW {cursor}"
        yield f"CLOSE {cursor}"

    def goal(self) -> str:
        return self.rng.choice(["", " OPTIMIZE FOR FAST FIRST", " OPTIMIZE FOR TOTAL TIME"])

    # Themes: counts and sizes of one statement.

    def names_at_limit(self):
        size = self.near(31)
        table, column, index, cursor, item = (self.name(size if self.rng.random() < 0.5 else self.rng.choice([1, 30, 31])) for _ in range(5))
        yield f"CREATE TABLE {table} ({column} BIGINT)"
        yield f"CREATE INDEX {index} ON {table.lower()} ({column})"
        yield "BEGIN"
        yield f"OPEN {cursor} SELECT {item}.{column} FROM {table} {item} WHERE {item}.{column} IS NULL ORDER BY {column}"
        yield from (f"{word} {cursor}" for word in ("FETCH", "STEP", "SHOW", "CLOSE"))
        yield f"UPDATE {table} SET {column} = 1 WHERE {table}.{column} = 1"
        yield "COMMIT"

    def texts_at_limit(self):
        width = self.rng.choice([1, 2, 254, 255, self.near(255), 256, 0, -1, 2**63 - 1])
        table, size = self.name(), self.near(max(1, min(width, 255)))
        yield f"CREATE TABLE {table} (A VARCHAR({width}))"
        yield f"CREATE INDEX {self.name()} ON {table} (A)"
        yield "BEGIN"
        for more in (size, size - 1, 255, 256, 0):
            yield f"INSERT INTO {table} VALUES ({shown(self.text(max(0, more)))})"
        yield "COMMIT"
        yield "BEGIN"
        begin = shown(self.text(self.near(255))[: self.rng.choice([1, 100, 300])])
        yield from self.drained(f"SELECT * FROM {table} WHERE A STARTING WITH {begin} OR A >= {shown(self.text(self.near(255)))}", 4)
        yield f"UPDATE {table} SET A = {shown(self.text(size))} WHERE A < {shown(self.text(size))}"
        yield "COMMIT"

    def columns_at_limit(self):
        count = self.near(16)
        widths = [self.rng.choice([None, None, 1, 255]) for _ in range(count)]
        yield from self.table(widths, self.rng.randint(0, 3))
        yield "BEGIN"
        for _ in range(3):
            yield f"INSERT INTO {self.made} VALUES ({', '.join(map(self.literal, self.widths))})"
        yield f"INSERT INTO {self.made} VALUES ({', '.join('NULL' for _ in range(self.near(16)))})"
        yield f"UPDATE {self.made} SET {', '.join(f'A{i} = NULL' for i in range(self.near(16)))}"
        yield "COMMIT"
        yield "BEGIN READ ONLY"
        yield from self.drained(f"SELECT * FROM {self.made}{self.goal()}", 5)
        yield "ROLLBACK"

    def keys_at_limit(self):
        yield from self.table([None] * 6)
        yield f"CREATE INDEX {self.name()} ON {self.made} ({', '.join(f'A{i}' for i in range(self.near(4)))})"
        yield f"CREATE INDEX {self.name()} ON {self.made} (A0, A1, A0)"
        yield "BEGIN"
        yield from self.loaded(20)
        yield "COMMIT"
        yield "BEGIN"
        depth = self.near(4)
        where = " AND ".join(f"A{i} = {self.rng.choice([0, 1, 7])}" for i in range(depth - 1)) + f" AND A{depth - 1} >= 0"
        yield from self.drained(f"SELECT A0 FROM {self.made} WHERE {where} ORDER BY {', '.join(f'A{i}' for i in range(self.near(4)))}", 22)
        yield "COMMIT"

    def conditions_at_limit(self):
        yield from self.table([None, 8], 2)
        yield "BEGIN"
        yield from self.loaded(self.rng.choice([3, 40]))
        yield "COMMIT"
        yield "BEGIN"
        listed = ", ".join(str(self.rng.randint(-3, 40)) for _ in range(self.near(32)))
        atoms = " OR ".join(f"A0 = {self.rng.randint(-3, 40)}" for _ in range(self.near(32)))
        groups = " AND ".join(self.rng.choice(["A0 >= -3", "A0 < 40", "(A0 = 1 OR A0 > 1)", "A1 IS NOT NULL"]) for _ in range(self.near(32)))
        for where in (f"A0 IN ({listed})", atoms, groups, f"({atoms}) AND A0 IN ({listed})"):
            yield from self.drained(f"SELECT A0, A1 FROM {self.made} WHERE {where}{self.goal()}", 5)
            yield f"DELETE FROM {self.made} WHERE {where} AND A0 IS NULL"
        yield "ROLLBACK"

    def selects_at_limit(self):
        yield from self.table([None, 4])
        yield "BEGIN"
        yield from self.loaded(self.rng.choice([0, 1, 4]))
        yield "COMMIT"
        yield "BEGIN"
        items = [self.rng.choice(["X", "Y"]) + str(i) for i in range(self.near(4))]
        source = ", ".join(f"{self.made} {item}" for item in items)
        returned = ", ".join(f"{self.rng.choice(items)}.A{self.rng.randint(0, 1)}" for _ in range(self.near(64)))
        order = ", ".join(f"{self.rng.choice(items)}.A0" for _ in range(self.near(4)))
        yield from self.drained(f"SELECT {returned} FROM {source} ORDER BY {order}", self.rng.randint(1, 20))
        yield from self.drained(f"SELECT * FROM {source} WHERE {items[0]}.A0 = {items[-1]}.A0{self.goal()}", self.rng.randint(1, 20))
        yield f"OPEN C SELECT * FROM {', '.join(f'{self.made} X{i}' for i in range(self.rng.choice([5, 9, 300])))}"
        yield "COMMIT"

    def unique_at_limit(self):
        """Unique indexes: rivals in the view, in the last commit and in other transactions, keys of each length, and NULLs, which
        have none."""
        rng, widths = self.rng, [None, self.rng.choice([None, 255]), None, None]
        yield from self.table(widths)
        columns = ", ".join(rng.sample(["A0", "A1", "A2", "A3"], rng.choice([0, 0, 1, 3]))) or "A0"
        name = self.name()
        index = f"CREATE UNIQUE INDEX {name} ON {self.made} ({columns})"
        if rng.random() < 0.7:
            yield index
        key = lambda most: rng.choice([str(rng.randint(0, most))] * 9 + ["NULL"])
        text = lambda: "NULL" if rng.random() < 0.1 else str(rng.randint(0, 2)) if widths[1] is None else shown("k" * rng.choice([254, 255]))
        row = lambda most: f"INSERT INTO {self.made} VALUES ({key(most)}, {text()}, {key(1)}, {key(1)})"
        yield "BEGIN"
        for _ in range(rng.choice([2, 20, 33, 70])):
            yield row(rng.choice([0, 100, 100]))
        yield rng.choice(["COMMIT", "COMMIT", "ROLLBACK"])
        yield index
        yield f"CREATE UNIQUE INDEX {self.name()} ON {self.made} ({rng.choice(['A0', 'A2', 'A0, A1, A2, A3', 'A3, A0'])})"
        sessions = rng.sample(range(1, 9), rng.choice([1, 2, 3, 8]))
        active: set[int] = set()
        for _ in range(60):
            session, most = rng.choice(sessions), rng.choice([5, 20, 20])
            if session not in active:
                active.add(session)
                yield session, "BEGIN"
                yield session, f"OPEN C SELECT A0, A1 FROM {self.made} WHERE A0 <= {most} ORDER BY A0"
            yield session, rng.choice([row(most)] * 8 + [f"UPDATE {self.made} SET A0 = {key(most)} WHERE A0 = {key(most)}"] * 5 + [
                f"DELETE FROM {self.made} WHERE A0 = {key(most)}", f"UPDATE {self.made} SET A0 = NULL", f"UPDATE {self.made} SET A0 = 3",
                f"UPDATE {self.made} SET A1 = {text()}, A2 = {key(1)} WHERE A0 >= {key(most)}", "FETCH C", "FETCH C", "SHOW C", "BEGIN", index,
            ])  # fmt: skip
            if rng.random() < 0.08:
                active.discard(session)
                yield session, rng.choice(["COMMIT", "COMMIT", "ROLLBACK"])

    def own_changes(self):
        """Cursors over the view of a transaction that changes on while they are open: at the sizes of leaves, pages and lists of
        views, behind the last page, and more than 16 of them."""
        rng = self.rng
        yield from self.table([None, None])
        yield f"CREATE {self.unique(0.3)}INDEX {self.name()} ON {self.made} (A1)"
        yield f"CREATE INDEX {self.name()} ON {self.made} ({rng.choice(['A0', 'A0, A1'])})"
        count = rng.choice([0, 1, 31, 32, 33, 64, 200])
        yield "BEGIN"
        yield from (f"INSERT INTO {self.made} VALUES ({i % rng.choice([7, 1000])}, {i})" for i in range(count))
        yield "COMMIT"
        yield "BEGIN"
        if rng.random() < 0.3:
            yield 2, "BEGIN"
            yield 2, f"UPDATE {self.made} SET A0 = 0 WHERE A1 = {rng.randint(0, max(0, count - 1))}"
        opened, last = [], count
        for _ in range(rng.choice([1, 3, 6, 18, 18])):
            for _ in range(rng.choice([1, 2])):
                low, way = rng.randint(-1, last), rng.randrange(5)
                if way < 3:
                    many = rng.choice([1, 1, 15, 16, 17, 33, 130])
                    yield from (f"INSERT INTO {self.made} VALUES ({rng.choice([i % 7, 5, i])}, {i})" for i in range(last, last + many))
                    last += many
                elif way == 3:
                    yield f"DELETE FROM {self.made} WHERE A1 BETWEEN {low} AND {low + rng.choice([0, 5, 40])}"
                else:
                    yield f"UPDATE {self.made} SET A0 = {rng.choice(['5', '-1', 'NULL'])} WHERE A1 BETWEEN {low} AND {low + rng.choice([0, 5, 40])}"
            where = rng.choice(["", " WHERE A0 >= 0", " WHERE A0 = 5", f" WHERE A1 >= {low} AND A0 <= 5", f" WHERE A1 BETWEEN {low} AND {low + 19}"])
            order = rng.choice(["", "", " ORDER BY A0", " ORDER BY A1", " ORDER BY A0, A1"])
            opened.append(self.name())
            yield f"OPEN {opened[-1]} SELECT {rng.choice(['*', 'A0', 'A1'])} FROM {self.made}{where}{order}{self.goal()}"
            for _ in range(rng.choice([0, 1, 4])):
                yield f"{rng.choice(['FETCH', 'FETCH', 'SHOW'])} {rng.choice(opened)}"
        for cursor in rng.sample(opened, min(4, len(opened))):
            yield from [f"FETCH {cursor}"] * rng.choice([3, 60])
            yield f"STEP {cursor} {rng.choice([1, 10000])}"
            yield f"SHOW {cursor}"
        yield rng.choice(["COMMIT", "ROLLBACK"])
        yield "BEGIN READ ONLY"
        yield from self.drained(f"SELECT A1 FROM {self.made} WHERE A0 >= 0", 10)

    def steps_at_limit(self):
        yield from self.table([None], 1)
        yield "BEGIN"
        yield from (f"INSERT INTO {self.made} VALUES ({i})" for i in range(self.rng.choice([1, 33, 200])))
        yield "COMMIT"
        yield "BEGIN"
        yield f"OPEN C SELECT * FROM {self.made} WHERE A0 >= 0{self.goal()}"
        for n in [self.near(10000), self.rng.choice([0, 1, 10000, 10001, -1, 2**63 - 1, -(2**63)])]:
            yield f"STEP C {n}"
            yield "SHOW C"
        yield from ["FETCH C"] * 3
        yield "COMMIT"

    def integers_at_limit(self):
        yield from self.table([None, None], 1)
        yield "BEGIN"
        for number in self.rng.sample(INTEGERS, 6):
            yield f"INSERT INTO {self.made} VALUES ({number}, {self.rng.choice(['', '-'])}{'0' * self.rng.choice([0, 30, 3900])}{abs(number)})"
        yield f"INSERT INTO {self.made} VALUES (-{'0' * 20}{2**63}, {'0' * 20}{2**63 - 1})"
        yield "COMMIT"
        yield "BEGIN"
        low, high = self.rng.sample(INTEGERS[:10], 2)
        yield from self.drained(f"SELECT A0, A1 FROM {self.made} WHERE A0 BETWEEN {low} AND {high} ORDER BY A1", 8)
        yield from self.drained(f"SELECT A0 FROM {self.made} WHERE A0 > {2**63 - 1} OR A0 < {-(2**63)} OR A0 >= {2**63 - 1} OR A0 <= {-(2**63)}", 4)
        yield "COMMIT"

    # Themes: the whole line.

    def longest_statements(self):
        """Statements of each kind that fill a line, of many parts or of one long one."""
        yield from self.table([None, 255])
        size, name = 4094 + self.rng.choice([-1, 0, 0]), self.made
        shapes = [
            ("CREATE TABLE W (A BIGINT", ", B BIGINT", ")"), (f"CREATE INDEX W ON {name} (A0", ", A0", ")"),
            (f"CREATE UNIQUE INDEX W ON {name} (A0", ", A0", ")"), (f"INSERT INTO {name} VALUES (1", ", NULL", ")"), (f"UPDATE {name} SET A0 = 1", ", A0 = 1", ""),
            (f"DELETE FROM {name} WHERE A0 IN (1", ", 1", ")"), (f"OPEN C SELECT A0 FROM {name} WHERE A0 = 1", " OR A0 = 1", ""),
            (f"OPEN C SELECT A0 FROM {name} WHERE A0 = 1", " AND A0 = 1", ""), ("OPEN C SELECT A0", ", A0", f" FROM {name}"),
            (f"OPEN C SELECT * FROM {name}", f", {name}", ""), (f"OPEN C SELECT * FROM {name} ORDER BY A0", ", A0", ""),
            ("", "(", ""), ("", "'", ""), ("", ";", ""), ("", "<", ""), ("FETCH C", " ", ""), ("COMMIT", ";", ""), ("FETCH ", "C", ""),
            ("STEP C ", "0", "1"), ("", "A.", "A"), ("", "-", "1"), (f"INSERT INTO {name} VALUES (1, '", "''", "')"), ("BEGIN", "\t", ""),
            (f"OPEN C SELECT * FROM {name} WHERE (A0 = 1", " OR A0 IN (1, 2, 3)", ") AND (A0 = 1 OR A0 > 2)"), ("", "é", ""),
        ]  # fmt: skip
        yield "BEGIN"
        for head, part, tail in self.rng.sample(shapes, 6):
            count = (size - len((head + tail).encode())) // len(part.encode())
            yield (head + part * count + tail).ljust(size if self.rng.random() < 0.5 else 0)
        yield "COMMIT"

    def widest_rows(self):
        """Rows as wide as a line may make them, in pages, an index and an order."""
        yield from self.table([255] * 15 + [None], 1)
        yield f"CREATE INDEX {self.name()} ON {self.made} (A0, A1, A2, A3)"
        yield "BEGIN"
        for i in range(self.rng.choice([5, 40])):
            values = ["'" + chr(97 + i % 5) * self.rng.choice([250, 255]) + "'" for _ in range(15)]
            yield f"INSERT INTO {self.made} VALUES ({', '.join(values)}, {i})"
        yield "COMMIT"
        yield "BEGIN"
        yield from self.drained(f"SELECT * FROM {self.made} ORDER BY A{self.rng.choice([0, 5])}, A1", self.rng.choice([3, 41]))
        yield f"UPDATE {self.made} SET {', '.join(f'A{i} = NULL' for i in range(15))} WHERE A0 STARTING WITH 'a'"
        yield "COMMIT"

    # Themes: the state.

    def tables_at_limit(self):
        for i in range(self.near(64) - 1):
            yield f"CREATE TABLE K{i} (A BIGINT)"
            if self.rng.random() < 0.1:
                yield f"CREATE INDEX L{i} ON K{i} (A)"
        yield "CREATE TABLE K_LAST (A BIGINT)"
        yield "CREATE TABLE K_PAST (A BIGINT)"
        yield "BEGIN"
        yield "INSERT INTO K_LAST VALUES (1)"
        yield "INSERT INTO K0 VALUES (1)"
        yield "COMMIT"

    def indexes_at_limit(self):
        yield from self.table([None, None, 4])
        if self.rng.random() < 0.5:
            yield from ["BEGIN", *self.loaded(40), "COMMIT"]
        for _ in range(self.near(8)):
            yield f"CREATE INDEX {self.name()} ON {self.made} ({', '.join(self.rng.sample(['A0', 'A1', 'A2'], self.rng.randint(1, 3)))})"
        yield "BEGIN"
        yield from self.loaded(40)
        yield f"UPDATE {self.made} SET A0 = 3 WHERE A0 < 20"
        yield "COMMIT"
        yield "BEGIN"
        yield from self.drained(f"SELECT A0, A1 FROM {self.made} WHERE A0 >= 0 AND A1 >= 0 AND A2 >= 'A'{self.goal()}", 12, 0.3)
        yield f"DELETE FROM {self.made} WHERE A1 IS NOT NULL"
        yield "COMMIT"

    def cursors_at_limit(self):
        yield from self.table([None], 1)
        yield "BEGIN"
        yield from self.loaded(40)
        yield "COMMIT"
        sessions = self.rng.sample(range(1, 9), self.rng.choice([1, 2, 8]))
        for session in sessions:
            yield session, "BEGIN"
            for i in range(self.near(16)):
                yield session, f"OPEN C{i} SELECT * FROM {self.made} WHERE A0 > {i}{self.goal()}"
            yield session, "OPEN C0 SELECT * FROM " + self.made
        for _ in range(40):
            yield self.rng.choice(sessions), f"{self.rng.choice(['FETCH', 'FETCH', 'STEP', 'SHOW'])} C{self.rng.randint(0, 16)}"
        for session in sessions:
            yield session, "CLOSE C0"
            yield session, f"OPEN C_NEW SELECT * FROM {self.made}"
            yield session, self.rng.choice(["COMMIT", "ROLLBACK"])

    def sessions_in_conflict(self):
        yield from self.table([None, None], 1)
        yield "BEGIN"
        yield from self.loaded(self.rng.choice([2, 33]))
        yield "COMMIT"
        for session in range(1, 9):
            yield session, self.rng.choice(["BEGIN", "BEGIN", "BEGIN READ ONLY"])
        for _ in range(40):
            session = self.rng.randint(1, 8)
            yield session, self.rng.choice([
                f"UPDATE {self.made} SET A1 = {session} WHERE A0 = {self.rng.randint(-3, 9)}", f"UPDATE {self.made} SET A1 = 9 WHERE A0 IS NOT NULL",
                f"DELETE FROM {self.made} WHERE A1 = {self.rng.randint(1, 8)}", f"INSERT INTO {self.made} VALUES ({session}, NULL)",
                f"UPDATE {self.made} SET A0 = {session}", "COMMIT", "ROLLBACK", "BEGIN", f"OPEN C SELECT * FROM {self.made}", "FETCH C",
                f"CREATE INDEX I ON {self.made} (A1)", "CREATE TABLE Z (A BIGINT)",
            ])  # fmt: skip

    # Themes: sizes at which trees, pages and lists change.

    def tree_edges(self):
        """An index that grows past its nodes, by rising, falling, scattered or equal keys, and is emptied again."""
        count = self.rng.choice([31, 32, 33, 48, 49, 63, 64, 65, 200, 528, 529])
        keys = self.rng.choice([lambda i: i, lambda i: -i, lambda i: i * 7919 % 1009, lambda i: 5, lambda i: i // 40])
        yield from self.table([None, None])
        yield f"CREATE INDEX IA ON {self.made} (A0)"
        yield "BEGIN"
        yield from (f"INSERT INTO {self.made} VALUES ({'NULL' if i % 37 == 36 else keys(i)}, {i})" for i in range(count))
        yield "COMMIT"
        yield "BEGIN READ ONLY"
        yield "OPEN OLD SELECT A0 FROM " + self.made + " WHERE A0 >= -600 ORDER BY A0"
        low, wide = self.rng.choice([-600, 0, 5, count - 20]), self.rng.choice([0, 19, 20, 21, 2000])
        yield 2, "BEGIN"
        yield 2, f"DELETE FROM {self.made} WHERE A0 BETWEEN {low} AND {low + wide}"
        if self.rng.random() < 0.5:
            yield 2, f"UPDATE {self.made} SET A0 = {self.rng.choice([-1000, 5, 2000])} WHERE A1 < {self.rng.choice([1, 33, 600])}"
        yield 2, "COMMIT"
        yield 2, "BEGIN"
        yield from ((2, text) for text in self.drained(f"SELECT A1 FROM {self.made} WHERE A0 BETWEEN {low} AND {low + wide + 10}{self.goal()}", 45, 0.2))
        yield from ["FETCH OLD"] * self.rng.choice([3, count + 1])
        yield "SHOW OLD"
        yield "COMMIT"

    def list_edges(self):
        """Ranges that keep 19 to 22 row numbers of two indexes, of sorted and fast-first retrievals."""
        yield from self.table([None, None, None])
        yield f"CREATE INDEX IA ON {self.made} (A0)"
        yield f"CREATE INDEX IB ON {self.made} (A1, A2)"
        yield "BEGIN"
        yield from (f"INSERT INTO {self.made} VALUES ({i}, {i * 37 % 160}, {i % 7})" for i in range(160))
        yield "COMMIT"
        yield "BEGIN"
        for _ in range(3):
            low, wide, other = self.rng.randint(0, 130), self.rng.choice([18, 19, 20, 21, 40, 80]), self.rng.randint(0, 120)
            order = self.rng.choice(["", " ORDER BY A0", " ORDER BY A1, A2", " ORDER BY A2"])
            where = f"A0 BETWEEN {low} AND {low + wide} AND A1 BETWEEN {other} AND {other + self.rng.choice([20, 60])}"
            yield from self.drained(f"SELECT * FROM {self.made} WHERE {where}{order}{self.goal()}", self.rng.choice([5, 40]), 0.2)
        yield "COMMIT"

    def full_buffer(self):
        """More rows than fast-first remembers, and lists that leave their first room."""
        count = self.rng.choice([1023, 1024, 1025, 1030])
        yield from self.table([None, None])
        yield f"CREATE INDEX IA ON {self.made} (A0)"
        yield f"CREATE INDEX IB ON {self.made} (A1)"
        yield "BEGIN"
        yield from (f"INSERT INTO {self.made} VALUES ({i}, {i % 3})" for i in range(count))
        yield "COMMIT"
        yield "BEGIN"
        where = self.rng.choice(["A0 >= 0", "A0 >= 0 AND A1 >= 0", "A1 <= 2 AND A0 <> 5"])
        yield from self.drained(f"SELECT * FROM {self.made} WHERE {where}{self.rng.choice(['', ' ORDER BY A0'])} OPTIMIZE FOR FAST FIRST", count + 1, 0.002)
        yield "COMMIT"

    def widest_join(self):
        """All choices of rows of four FROM items, sorted behind the last one."""
        yield from self.table([None])
        yield "BEGIN"
        yield from (f"INSERT INTO {self.made} VALUES ({i % 4})" for i in range(self.rng.choice([2, 4, 6])))
        yield "COMMIT"
        yield "BEGIN"
        items = ", ".join(f"{self.made} {item}" for item in "XYZW")
        yield from self.drained(f"SELECT X.A0, W.A0 FROM {items} ORDER BY {self.rng.choice('XYZW')}.A0, {self.rng.choice('XYZW')}.A0", 30)
        yield "COMMIT"

    # Scripts of one kind of line, and the limits of scripts.

    def lines_at_limit(self) -> bytes:
        """A script whose lines, or whose bytes, are at the limits of scripts."""
        rng, size = self.rng, self.near(4096)
        head = rng.choice([b"", b"\xef\xbb\xbf", b"1 BEGIN\n"])
        line = rng.choice([b"#" + b"x" * (size - 1), b"1 " + b"(" * (size - 2), b"1 BEGIN".ljust(size), b"1 " + "é".encode() * ((size - 2) // 2)])
        end = rng.choice([b"\n", b"\r\n", b"", b"\r", b"\r\r\n", b"\n\n\r\n"])
        return head + line + end + rng.choice([b"", b"1 COMMIT\n", b"-- 1", b"--", b"1 BEGIN\r", b"\r", b"#"])

    def script_at_limit(self) -> bytes:
        """A script of about as many lines, or as many bytes, as one may have, with few calls."""
        rng = self.rng
        if rng.random() < 0.5:
            count, line = self.near(200_000), rng.choice([b"\n", b"#\n", b"--\n", b"-- 1\n", b"\r\n"])
            text = b"1 BEGIN\n" + line * (count - 2)
            return text + rng.choice([b"1 COMMIT\n", b"1 COMMIT", line, b"x"])
        size = self.near(16_777_216)
        text = (b"#" + b"x" * 4095 + b"\n") * (size // 4097)
        text = b"1 BEGIN\n" + text[: size - 8]
        return text if rng.random() < 0.8 else text[:-1] + b"\xff"

    def changes_at_limit(self):
        """As many changes in one transaction as it may have."""
        yield from self.table([None], self.rng.choice([0, 1]))
        yield "BEGIN"
        yield from (f"INSERT INTO {self.made} VALUES ({i * 7919 % 100003})" for i in range(self.near(100_000) - 1))
        yield f"INSERT INTO {self.made} VALUES (1)"
        yield f"INSERT INTO {self.made} VALUES (2)"
        yield f"DELETE FROM {self.made} WHERE A0 < {self.rng.choice([10, 100])}"
        yield "COMMIT"

    SMALL = [
        names_at_limit, texts_at_limit, columns_at_limit, keys_at_limit, conditions_at_limit, selects_at_limit, steps_at_limit,
        integers_at_limit, longest_statements, widest_rows, indexes_at_limit, cursors_at_limit, sessions_in_conflict, tree_edges,
        list_edges, widest_join, unique_at_limit, unique_at_limit, own_changes, own_changes,
    ]  # fmt: skip

    def calls(self) -> Iterator[tuple[int, str]]:
        rng = self.rng
        themes = [rng.choice(self.SMALL) for _ in range(rng.randint(1, 3))]
        if rng.random() < 0.05:
            themes.append(Edges.tables_at_limit)
        if rng.random() < 0.05:
            themes.append(Edges.full_buffer)
        if rng.random() < self.heavy / 2:
            themes = [Edges.changes_at_limit]
        for theme in themes:
            for made in theme(self):
                session, text = made if isinstance(made, tuple) else (1, made)
                yield session, text
            yield from ((session, "ROLLBACK") for session in range(1, 9))

    def script(self) -> bytes:
        if self.rng.random() < 0.06:
            return self.lines_at_limit()
        if self.rng.random() < self.heavy:
            return self.script_at_limit()
        lines = []
        for session, text in self.calls():
            if self.rng.random() < 0.01:
                lines.append(self.rng.choice(["--", "-- 0", "-- 1", "-- 2", "# a note", ""]))
            lines.append(f"{session} {text}")
        return "".join(line + "\n" for line in lines).encode()


# Damage.


class Damager:
    """Damages a script, a few times over."""

    TOKEN = re.compile(rb"[A-Za-z0-9_]+|'[^'\n]*'|[ \t]+|[^\s]")

    def __init__(self, rng: random.Random):
        self.rng = rng

    def token(self) -> bytes:
        rng = self.rng
        number = str(rng.choice(INTEGERS))
        return rng.choice([
            rng.choice(sorted(KEYWORDS)), rng.choice("ABCTUV"), number, rng.choice(["(", ")", ",", ".", "*", ";", "=", "<>", "<", "<=", ">", ">="]),
            rng.choice(["''", "'x'", "'" + "é" * 127 + "'", "'''", "'", '"', "!=", "%", "--", "#", "\\", "/*"]), "N" * rng.choice([31, 32]),
            rng.choice(ODD_TEXT), number + rng.choice(["A", "_", ".5", "e3"]), "0" * rng.choice([20, 300]) + "1",
        ]).encode()  # fmt: skip

    def in_bytes(self, data: bytes) -> bytes:
        rng = self.rng
        at = rng.randint(0, len(data))
        end = min(len(data), at + rng.choice([0, 1, 1, 2, 5, 40]))
        odd = rng.choice([rng.choice(ODD_TEXT).encode(), b"\r\n", b"\n", b"'", b"--", bytes([rng.randrange(128)])])
        if rng.random() < 0.1:
            odd = rng.choice(NO_TEXT)
        kind = rng.choice([0, 0, 1, 1, 1, 2, 2, 3, 3, 4, 5, 6])
        if kind == 0 and at < len(data):
            return data[:at] + bytes([data[at] ^ 1 << rng.randrange(7)]) + data[at + 1 :]
        if kind == 1:
            return data[:at] + odd + data[end:]
        if kind == 2:
            return data[:at] + data[end:]
        if kind == 3:
            return data[:end] + data[at:end] * rng.choice([1, 1, 3]) + data[end:]
        if kind == 4:
            return data[:at]
        if kind == 5:
            return rng.choice([b"\xef\xbb\xbf"] * 3 + [b"\xef\xbb", b"\xff\xfe", b"\n", b" "]) + data
        return data.replace(b"\n", rng.choice([b"\r\n", b"\r\n", b"\n\n", b" \n", b"\r", b"\n\r"]), rng.choice([1, 3, len(data)]))

    def in_tokens(self, data: bytes) -> bytes:
        """Changes tokens of one line, nearly always behind its session."""
        rng, lines = self.rng, data.split(b"\n")
        at = rng.randrange(len(lines))
        head = lines[at][: 0 if rng.random() < 0.05 else 2]
        parts = self.TOKEN.findall(lines[at][len(head) :])
        for _ in range(rng.choice([1, 1, 2])):
            if not parts:
                break
            place = rng.randrange(len(parts))
            other = rng.randrange(len(parts))
            kind = rng.randrange(7)
            if kind == 0:
                parts[place] = self.token()
            elif kind == 1:
                del parts[place]
            elif kind == 2:
                parts.insert(place, parts[place])
            elif kind == 3:
                parts[place], parts[other] = parts[other], parts[place]
            elif kind == 4:
                parts.insert(place, b" " + self.token() + b" ")
            elif kind == 5:
                parts[place] = parts[place].swapcase() if rng.random() < 0.5 else parts[place] * rng.choice([2, 40])
            else:
                parts = parts[: place + 1] if rng.random() < 0.5 else [p for p in parts if p.strip()]
        lines[at] = head + b"".join(parts)
        return b"\n".join(lines)

    def in_lines(self, data: bytes) -> bytes:
        rng, lines = self.rng, data.split(b"\n")
        at, other = rng.randrange(len(lines)), rng.randrange(len(lines))
        kind = rng.randrange(8)
        if kind == 0:
            del lines[at : at + rng.choice([1, 1, 3])]
        elif kind == 1:
            lines[at:at] = [lines[at]] * rng.choice([1, 1, 5])
        elif kind == 2:
            lines[at], lines[other] = lines[other], lines[at]
        elif kind == 3:
            lines[at] = bytes([rng.choice(b"12345678" * 3 + b"09 #-xA")]) + lines[at][1:]
        elif kind == 4:
            lines[at : at + 2] = [b"".join(lines[at : at + 2])]
        elif kind == 5:
            lines.insert(at, rng.choice([b"-- 3", b"-- ", b"--1", b"-", b" ", b"1", b"1\tBEGIN", b"11 BEGIN", b"-- 00", b"#", b"\xef\xbb\xbf1 BEGIN"]))
        elif kind == 6:
            block = lines[at : at + 10]
            rng.shuffle(block)
            lines[at : at + 10] = block
        else:
            session = str(rng.randint(1, 8)).encode()
            lines[at : at + 4] = [session + line[1:] if line[:1].isdigit() else line for line in lines[at : at + 4]]
        return b"\n".join(lines)

    def damaged(self, data: bytes) -> bytes:
        ways = self.rng.choice([[self.in_bytes], [self.in_tokens], [self.in_tokens], [self.in_lines], [self.in_tokens, self.in_lines], [self.in_bytes, self.in_tokens, self.in_lines]])
        for _ in range(self.rng.choice([1, 1, 2, 3, 8])):
            data = self.rng.choice(ways)(data)
        return data

    def words(self) -> list[bytes]:
        """Words of the command line that are damaged."""
        rng = self.rng
        words = [b"--judge", str(rng.randint(0, 2)).encode(), b"--steps=" + str(rng.randint(0, 64)).encode()]
        for _ in range(rng.choice([1, 1, 2])):
            at = rng.randrange(len(words)) if words else 0
            kind = rng.randrange(4)
            if kind == 0:
                words.insert(at, rng.choice([b"", b"--", b"-h", b"--help", b"x", b"--judge", b"--steps=65", b"--gen=4294967296", b"\xff", b"--judge=\xd9\xa1", b"--Steps=1", b"-judge=1", b"--threads=1", b"--workers=9", b"--race", b"--race=0"]))
            elif kind == 1 and words:
                del words[at]
            elif kind == 2 and words:
                words.append(words[at])
            elif words:
                words[at] = words[at] + rng.choice([b"=", b"0", b"00000000000", b" ", b"-", b"x"])
        return words


# One script of a number.


class SmallMaker(random_scripts.Maker):
    """Makes random scripts whose joins are small, so that each is made soon; a part of them has unique indexes."""

    def __init__(self, rng: random.Random):
        super().__init__(rng, rng.random() < 0.4)
        self.huge = False

    def items(self) -> list[tuple]:
        return super().items()[: 1 if self.large else 2]


def usual_words(rng: random.Random) -> list[bytes]:
    words = []
    if rng.random() < 0.5:
        words += [b"--judge", str(rng.randint(0, 2)).encode()]
    if rng.random() < 0.6:
        words.append(b"--steps=" + str(rng.choice([0, 0, 1, 2, 64])).encode())
    if rng.random() < 0.2:
        words.append(b"--race")
    return words


def example(rng: random.Random) -> bytes:
    """The first lines of an example."""
    names = sorted(path for path in (TOP / "examples").iterdir() if path.is_file() and not path.suffix)
    lines = rng.choice(names).read_bytes().split(b"\n")
    return b"\n".join(lines[: rng.choice([5, 30, 120, 400])])


def of_number(kind: str, seed: int, number: int, heavy: float) -> tuple[bytes, list[bytes]]:
    """The script of a kind with this number, and the words."""
    rng = random.Random(f"{kind} {seed} {number}")
    if kind == "limits":
        return Edges(rng, heavy).script(), usual_words(rng)
    damager, way = Damager(rng), rng.random()
    if way < 0.4:
        base = example(rng)
    elif way < 0.8:
        base = SmallMaker(rng).script()[0].encode()
    else:
        base = Edges(rng, 0).script()
    words = damager.words() if rng.random() < 0.03 else usual_words(rng)
    return damager.damaged(base), words


# Runs.


class TooSlow(Exception):
    pass


@contextlib.contextmanager
def at_most(seconds: float) -> Iterator[None]:
    def late(*_: object) -> None:
        raise TooSlow

    before = signal.signal(signal.SIGALRM, late)
    signal.setitimer(signal.ITIMER_REAL, seconds)
    try:
        yield
    finally:
        signal.setitimer(signal.ITIMER_REAL, 0)
        signal.signal(signal.SIGALRM, before)


def came(program: list[str], script: bytes, words: list[bytes], seconds: float) -> tuple[int, bytes, bytes]:
    """Status, output and words on standard error of the program."""
    try:
        ran = subprocess.run([*program, *words], input=script, capture_output=True, timeout=seconds, check=False)
    except subprocess.TimeoutExpired:
        return -1, b"", b"no end after %d seconds" % seconds
    return ran.returncode, ran.stdout, ran.stderr


def difference(wants: tuple[int, bytes, bytes], has: tuple[int, bytes, bytes]) -> str | None:
    if wants == has:
        return None
    if wants[0] != has[0]:
        return f"status {has[0]} for {wants[0]}, {has[2][-200:]!r} for {wants[2]!r}"
    if wants[2] != has[2]:
        return f"on standard error {has[2][-200:]!r} for {wants[2]!r}"
    lines = list(zip(wants[1].split(b"\n"), has[1].split(b"\n")))
    at = next((i for i, (a, b) in enumerate(lines) if a != b), len(lines))
    if at == len(lines):
        return f"{len(has[1])} bytes for {len(wants[1])}"
    return f"line {at + 1}: {lines[at][1][:200]!r} for {lines[at][0][:200]!r}"


def shrunk(script: bytes, still: Callable[[bytes], bool], seconds: float = 60) -> bytes:
    """A script from which no block of lines can be taken without losing what `still` tells, as far as the time allows."""
    lines, until = script.split(b"\n"), time.monotonic() + seconds
    size = len(lines) // 2
    while size and time.monotonic() < until:
        at = 0
        while at < len(lines) and time.monotonic() < until:
            fewer = lines[:at] + lines[at + size :]
            if still(b"\n".join(fewer)):
                lines = fewer
            else:
                at += size
        size //= 2
    return b"\n".join(lines)


class Night:
    """The runs, and what came of them."""

    def __init__(self, asked: argparse.Namespace):
        self.asked, self.program = asked, [asked.program]
        self.statuses: collections.Counter[str] = collections.Counter()
        self.limited: collections.Counter[str] = collections.Counter()
        self.wrong = self.slow = 0

    def report(self, name: str, words: list[bytes], what: str, script: bytes, still: Callable[[bytes], bool]) -> None:
        self.wrong += 1
        print(f"{name} of seed {self.asked.seed}, words {b' '.join(words).decode(errors='replace')!r}: {what}", flush=True)
        if self.asked.keep is not None:
            self.asked.keep.mkdir(parents=True, exist_ok=True)
            less = shrunk(script, still)
            place = self.asked.keep / name.replace(":", "-")
            place.with_suffix(".script").write_bytes(less)
            place.with_suffix(".told").write_text(f"{words}\n{what}\n")
            print(f"  {len(script)} bytes, of which {len(less)} stand in {place}.script", flush=True)

    def model(self, script: bytes, words: list[bytes]) -> tuple[int, bytes, bytes]:
        with at_most(self.asked.seconds):
            return wanted(script, words)

    def differs(self, script: bytes, words: list[bytes]) -> bool:
        try:
            return came(self.program, script, words, self.asked.seconds) != self.model(script, words)
        except TooSlow:
            return False

    def one(self, kind: str, number: int, shim: Shim | None) -> None:
        script, words = of_number(kind, self.asked.seed, number, self.asked.heavy)
        try:
            wants = self.model(script, words)
        except TooSlow:
            self.slow += 1
            return
        self.statuses[f"{kind} {wants[0]}"] += 1
        what = difference(wants, came(self.program, script, words, 4 * self.asked.seconds))
        if what is not None:
            self.report(f"{kind}:{number}", words, what, script, lambda less: self.differs(less, words))
        elif shim is not None:
            self.with_less(f"{kind}:{number}", script, words, wants, shim)

    def with_less(self, name: str, script: bytes, words: list[bytes], wants: tuple[int, bytes, bytes], shim: Shim) -> None:
        """Runs of one script with less memory, of as many random rooms as asked."""
        rng, command = random.Random(name), [*self.program, *words]
        most = shim.run(command, script).most
        for _ in range(self.asked.rooms):
            room = rng.randint(1, max(1, most))
            ran = shim.run(command, script, room=room, seconds=4 * self.asked.seconds)
            self.limited[f"status {ran.status} " + ("with calls told" if ran.output else "with nothing written")] += 1
            what = wrong_end(ran, wants, script)
            if what is not None:
                still = lambda less: wrong_end(shim.run(command, less, room=room), wanted(less, words), less) is not None
                self.report(name, words, f"with room for {room} of {most} bytes: {what}", script, still)
                return

    def kinds(self) -> Iterator[tuple[str, int]]:
        """The kinds and numbers of the scripts that are asked for."""
        first = self.asked.first
        if self.asked.minutes is None:
            for kind, count in (("damaged", self.asked.damaged), ("limits", self.asked.limits)):
                yield from ((kind, number) for number in range(first, first + count))
            return
        until, number = time.monotonic() + 60 * self.asked.minutes, first
        while time.monotonic() < until:
            yield from (("damaged", 4 * number + i) for i in range(4))
            yield "limits", number
            number += 1

    def all(self) -> int:
        count = 0
        with Shim() if self.asked.rooms else contextlib.nullcontext() as shim:
            for kind, number in self.kinds():
                self.one(kind, number, shim)
                count += 1
        told = ", ".join(f"{what}: {many}" for what, many in sorted(self.statuses.items()))
        print(f"{count} scripts, {self.wrong} differ; {self.slow} were too slow for the model; by kind and status: {told}")
        if self.asked.rooms:
            print("with less memory: " + ", ".join(f"{what}: {many} runs" for what, many in sorted(self.limited.items())))
        return 1 if self.wrong else 0


def main() -> int:
    parser = argparse.ArgumentParser(description=__doc__, formatter_class=argparse.RawDescriptionHelpFormatter)
    parser.add_argument("program", metavar="PROGRAM")
    parser.add_argument("--damaged", type=int, default=200, metavar="N", help="how many damaged scripts (default 200)")
    parser.add_argument("--limits", type=int, default=50, metavar="N", help="how many scripts at the limits (default 50)")
    parser.add_argument("--seed", type=int, default=1, metavar="SEED", help="of which seed (default 1)")
    parser.add_argument("--first", type=int, default=0, metavar="NUMBER", help="the number of the first script of each kind (default 0)")
    parser.add_argument("--minutes", type=float, metavar="M", help="run for so long, four damaged scripts to one at the limits")
    parser.add_argument("--rooms", type=int, default=0, metavar="N", help="run each script with N smaller memories too (needs cc; default 0)")
    parser.add_argument("--heavy", type=float, default=0.01, metavar="PART", help="which part of those at the limits has 200,000 lines, 16,777,216 bytes or 100,000 changes (default 0.01)")
    parser.add_argument("--seconds", type=float, default=30, metavar="S", help="the model may take so long for a script, the program four times (default 30)")
    parser.add_argument("--keep", type=Path, metavar="FOLDER", help="keep scripts that differ, made short")
    parser.add_argument("--only", metavar="KIND:NUMBER", help="this script alone, as damaged:17 or limits:3")
    parser.add_argument("--print", action="store_true", help="with --only: write the script, its words on standard error, and run nothing")
    asked = parser.parse_args()
    night = Night(asked)
    if asked.only is None:
        return night.all()
    kind, _, number = asked.only.partition(":")
    if asked.print:
        script, words = of_number(kind, asked.seed, int(number), asked.heavy)
        print(*words, file=sys.stderr)
        sys.stdout.buffer.write(script)
        return 0
    with Shim() if asked.rooms else contextlib.nullcontext() as shim:
        night.one(kind, int(number), shim)
    return 1 if night.wrong else 0


if __name__ == "__main__":
    end(main)
