#!/usr/bin/env python3
"""Runs random scripts through a built program and replays each transcript against a slow evaluation of what the calls mean.

The evaluation (model/database.py) shares no code with the program and reads no text: each script is made as a list of statements
with their meaning, and spelled at random. A FETCH may give any row whose order values equal those of the first that is left; a
STEP answers a number that is not above the one asked for; a trace is a front of a course (model/course.py), only grows, and counts
what was stepped. With --exact each transcript is also the one that slow_program.py writes, traces and all.

With --beside a second program, or the same one over another store (tools/plain_program.sh builds the one over the plain
store), runs each script too. Both are replayed, and their transcripts are equal but for what the two may differ in: SHOW and
STEP, whose replies depend on the store's leaves and estimates, and which row a FETCH gives. There both give a row or both
`end`, and when a cursor comes to its end both gave the same rows.

With --changes most calls are UPDATE and DELETE by conditions of every form, of few rows and of many, of the own transaction's rows
too, on tables with indexes; cursors come between, so that traces tell what the searches have asked of the judge.

With --unique about half of the indexes are unique, values are spread so that about half of the INSERTs have no rival, and up to
eight sessions write at once; at the end of each script no two rows of the evaluation are equal in a unique index.

Prints the scripts that differ, with the first line at which they do, and ends with status 1 where one did."""
import argparse
import random
import subprocess
import sys

if not __package__:  # run as a file: the other folders are found from tools/
    sys.path[0] += "/.."

from ending import end
from model.course import Seen
from model.database import COMPARISONS, Database, shown, whole_key
from model.program import run


class Checked(Database):
    """The database, which looks at what STEP and SHOW answer too."""

    def __init__(self, race=False):
        super().__init__()
        self.race = race

    def opened(self, select):
        cursor = super().opened(select)
        table = select.tables[0]
        indexes = [name for name, index in self.indexes.items() if index.table == table]
        cursor.seen = Seen(indexes, len(self.view(table)), len(select.tables), select.soon, select.order, self.race)
        return cursor

    def given(self, statement, reply):
        super().given(statement, reply)
        cursor = self.cursors.get((self.session, statement[1])) if statement[0] == "fetch" else None
        if cursor is not None:
            cursor.seen.stepped = None
            cursor.seen.ended = reply == "end"

    def step(self, name, n):
        seen = self.need_cursor(name).seen

        def fits(reply):
            word, _, done = reply.partition(" ")
            if word != "stepped" or not done.isdigit() or int(done) > n:
                return False
            if seen.stepped is not None:
                seen.stepped += int(done)
            return True

        return fits

    def show(self, name):
        seen = self.need_cursor(name).seen
        return lambda reply: seen.fault(reply) is None


# Making scripts.


class Maker:
    """Makes a script of random statements and spells it. It follows what they do, so that most are answered well."""

    def __init__(self, rng, unique=False, changes=False):
        self.rng, self.unique, self.changes = rng, unique, changes
        self.database = Database()
        self.large = rng.random() < (0.8 if changes else 0.4)  # the table T has many rows, so that trees have several leaves
        self.huge = self.large and rng.random() < 0.06  # so many that what was given is remembered no more

    @property
    def known(self):
        """The columns of the tables."""
        return {name: table.columns for name, table in self.database.tables.items()}

    def follow(self, session, statement):
        allowed = self.database.answer(session, statement)
        if isinstance(allowed, set):
            self.database.given(statement, min(allowed))

    def word(self, text):
        return text.lower() if self.rng.random() < 0.2 else text

    def gap(self):
        return self.rng.choice([" ", " ", " ", "  ", "\t"])

    def spelled(self, *words):
        return self.gap().join(self.word(w) if not w.startswith("'") else w for w in words)

    def value(self, width="any"):
        rng = self.rng
        if rng.random() < 0.12:
            return None
        if width == "any":
            width = rng.choice([None, 4])
        if self.unique and rng.random() < 0.8:
            if width is None:
                return rng.randint(0, 300 if self.large else 24)
            return "".join(rng.choice("abcdefgh") for _ in range(rng.randint(1, min(width, 3 if self.large else 2) or 1)))
        if width is None:
            if self.large:
                return rng.choice([rng.randint(0, 60), rng.randint(0, 60), rng.randint(0, 9)])
            return rng.choice([rng.randint(-3, 3), rng.randint(-3, 3), rng.randint(-3, 3), -(2**63), 2**63 - 1])
        return "".join(rng.choice("ab' é") for _ in range(rng.randint(0, 2 if self.large else 3)))

    def table(self):
        if self.known and self.rng.random() < 0.99:
            return "T" if self.large and self.rng.random() < 0.8 else self.rng.choice(sorted(self.known))
        return self.rng.choice("TUV")

    def column(self, table):
        names = [c[0] for c in self.known.get(table, [])]
        return self.rng.choice(names) if names and self.rng.random() < 0.997 else self.rng.choice("ABCX")

    def reference(self, items):
        """A reference to a column of some item, which is a name and a table; nearly always it fits one."""
        rng = self.rng
        name, table = rng.choice(items)
        column = self.column(table)
        fits = sum(column in [c for c, _ in self.known.get(t, [])] for _, t in items)
        bare = rng.random() < (0.6 if fits == 1 else 0.003)
        qualifier = None if bare else name if rng.random() < 0.998 else rng.choice("TUX")
        return qualifier, column

    def width(self, items, reference):
        qualifier, column = reference
        widths = [dict(self.known.get(t, []))[column] for n, t in items if qualifier in (None, n) and column in dict(self.known.get(t, []))]
        return widths[0] if widths and self.rng.random() < 0.997 else "any"

    def create(self):
        table = self.rng.choice(["T", "U", "V"]) if self.known else "T"
        count = self.rng.choice([1, 2, 2, 2, 3, 3, 3, 3, 4, 4, 17] if self.known else [3, 4] if self.large else [1, 2, 3, 4])
        names = [f"C{i}" for i in range(count)] if count > 4 else [self.rng.choice("ABCDEFG") if self.known and self.rng.random() < 0.1 else "ABCD"[i] for i in range(count)]
        widths = [None, None, None, 4, 4, 12, 255] * 5 + ([0, 256] if self.known else [])
        columns = [(name, self.rng.choice(widths)) for name in names]
        if self.large and not self.known:
            columns = [(name, width if at > 1 else None) for at, (name, width) in enumerate(columns)]
        kinds = [f"{n} BIGINT" if w is None else f"{n} VARCHAR ({w})" for n, w in columns]
        return ("create", table, columns), self.spelled("CREATE", "TABLE", table, "(" + ", ".join(kinds) + ")")

    def index(self):
        name, table = self.rng.choice(["I", "J", "K", "I1", "I2", "I3", "I4", "I5", "I6"]), self.table()
        count = self.rng.choice([1, 1, 1, 1, 2, 2, 2] + ([3] if self.large else [3, 3, 4, 5]))
        names = [c[0] for c in self.known.get(table, [])]
        if len(names) >= count and self.rng.random() < 0.85:
            columns = self.rng.sample(names, count)
        else:
            columns = [self.column(table) for _ in range(count)]
        unique = self.unique and self.rng.random() < 0.5
        words = ["CREATE", "UNIQUE", "INDEX"] if unique else ["CREATE", "INDEX"]
        return ("index", name, table, columns, unique), self.spelled(*words, name, "ON", table, "(" + ", ".join(columns) + ")")

    def insert(self, table=None):
        table = table or self.table()
        widths = [w for _, w in self.known.get(table, [("A", None)])]
        values = [self.value(w if self.rng.random() < 0.99 else "any") for w in widths]
        if self.rng.random() < 0.02:
            values = values + [self.value()] if self.rng.random() < 0.5 or len(values) == 1 else values[1:]
        return ("insert", table, values), self.spelled("INSERT", "INTO", table, "VALUES", "(") + ", ".join(map(shown, values)) + ")"

    # Conditions.

    def atom(self, items):
        rng, left = self.rng, self.reference(items)
        width, text = self.width(items, left), spelled_reference(left)
        kinds = ["compare", "compare", "between", "in", "null"] + ["columns"] * (3 if len(items) > 1 else 1)
        kinds += ["between"] * 4 if self.large else []
        kind = rng.choice(kinds + ["start"] * (0 if width is None and rng.random() < 0.9 else 2))
        if kind == "compare":
            op = rng.choice(["=", "=", *COMPARISONS])
            value = self.value(width)
            return (kind, left, op, value), f"{text} {op} {shown(value)}"
        if kind == "columns":
            op, right = rng.choice(["=", "=", "=", *COMPARISONS]), self.reference(items)
            for _ in range(6):
                if (self.width(items, right) is None) != (width is None) or right == left:
                    right = self.reference(items)
            return (kind, left, op, right), f"{text}{op}{spelled_reference(right)}"
        if kind == "between":
            low, high = self.value(width), self.value(width)
            if isinstance(low, int) and isinstance(high, int) and rng.random() < 0.9:
                low, high = min(low, high), max(low, high)
            return (kind, left, low, high), f"{text} {self.spelled('BETWEEN')} {shown(low)} AND {shown(high)}"
        if kind == "in":
            values = [self.value(width) for _ in range(rng.choice([1, 2, 3, 4, 5, 33]) if rng.random() < 0.1 else rng.randint(1, 4))]
            return (kind, left, values), f"{text} {self.spelled('IN')} (" + ", ".join(map(shown, values)) + ")"
        if kind == "null":
            negated = rng.random() < 0.6
            return (kind, left, negated), f"{text} " + self.spelled("IS", *(["NOT"] if negated else []), "NULL")
        begin = (self.value(4) or "")[: rng.randint(0, 2)]
        return (kind, left, begin), f"{text} {self.spelled('STARTING', 'WITH')} {shown(begin)}"

    def group(self, items, most):
        atoms = [self.atom(items) for _ in range(self.rng.randint(1, most))]
        return [a for a, _ in atoms], " OR ".join(t for _, t in atoms), len(atoms)

    def where(self, items):
        rng = self.rng
        if rng.random() < (0.15 if self.large or len(items) > 1 else 0.3):
            return [], ""
        if rng.random() < 0.1:
            atoms, text, _ = self.group(items, 3)
            return [atoms], " WHERE " + text
        # OR groups are fewer, since a group of one atom is what bounds a range
        parts = [self.group(items, rng.choice([1, 1, 1, 3])) for _ in range(rng.randint(1, 3))]
        parts += [self.joining(items, at) for at in range(1, len(items)) if rng.random() < 0.7]
        rng.shuffle(parts)
        texts = [f"({t})" if n > 1 or rng.random() < 0.2 else t for _, t, n in parts]
        return [atoms for atoms, _, _ in parts], " WHERE " + " AND ".join(texts)

    def wide(self):
        """A condition on the large table that an index bounds, but not narrowly."""
        rng = self.rng
        bounded = [index.columns[0] for index in self.database.indexes.values() if index.table == "T"]
        groups, texts = [], []
        for column in sorted(set(bounded + [0])):
            name, width = self.known["T"][column]
            if width is None and rng.random() < 0.8:
                low = rng.randint(0, 30)
                groups.append([("between", (None, name), low, low + rng.randint(5, 40))])
                texts.append(f"{name} BETWEEN {groups[-1][0][2]} AND {groups[-1][0][3]}")
        if rng.random() < 0.4 or not groups:
            atoms, text, _ = self.group([("T", "T")], 2)
            groups.append(atoms)
            texts.append(f"({text})")
        return groups, " WHERE " + " AND ".join(texts)

    def joining(self, items, at):
        """A comparison of an item with an earlier one."""
        ends = [items[at], items[self.rng.randrange(at)]]
        pair = [(name, self.column(table)) for name, table in ends]
        for _ in range(4):
            if (self.width(items, pair[0]) is None) != (self.width(items, pair[1]) is None):
                pair[1] = (ends[1][0], self.column(ends[1][1]))
        self.rng.shuffle(pair)
        op = self.rng.choice(["=", "=", "=", "=", "<=", ">"])
        return [("columns", pair[0], op, pair[1])], f"{spelled_reference(pair[0])} {op} {spelled_reference(pair[1])}", 1

    def items(self):
        rng = self.rng
        joins = [] if self.huge else [2] if self.large else [2] * 6 + [3] * 4 + [4] * 2
        count = rng.choice([1] * 12 + joins + ([5] if rng.random() < 0.1 else []))
        tables = [self.table() for _ in range(count)]
        seconds = [None if count == 1 and rng.random() < 0.7 else rng.choice([None] + list("XYZW")) for _ in range(count)]
        named = []
        for table, second in zip(tables, seconds):
            if (second or table) in named and rng.random() < 0.97:
                second = next(n for n in ["X", "Y", "Z", "W", "Q"] if n not in named)
            named.append(second or table)
        return [(table, None if name == table else name) for table, name in zip(tables, named)]

    def open(self):
        rng, cursor, items = self.rng, rng_name(self.rng), self.items()
        named = [(second or table, table) for table, second in items]
        some = lambda counts: [self.reference(named) for _ in range(rng.choice(counts))]
        returned = None if rng.random() < (0.6 if self.large else 0.3) else some([1, 1, 2, 2, 3])
        groups, where = self.wide() if items == [("T", None)] and self.large and "T" in self.known and rng.random() < 0.5 else self.where(named)
        order = [] if rng.random() < 0.5 else some([1, 1, 1, 1, 2, 2, 3, 4, 5])
        soon = rng.random() < 0.4
        text = self.spelled("OPEN", cursor, "SELECT") + " " + ("*" if returned is None else ", ".join(map(spelled_reference, returned)))
        text += " " + self.spelled("FROM") + " " + ", ".join(t if s is None else f"{t} {s}" for t, s in items) + where
        if order:
            text += " " + self.spelled("ORDER", "BY") + " " + ", ".join(map(spelled_reference, order))
        text += " OPTIMIZE FOR FAST FIRST" if soon else rng.choice(["", " OPTIMIZE FOR TOTAL TIME"])
        return ("open", cursor, returned, items, groups, order, soon), text

    # Other statements.

    def begin(self):
        if self.rng.random() < 0.2:
            return ("begin", True), self.spelled("BEGIN", "READ", "ONLY")
        return ("begin", False), self.spelled("BEGIN")

    def on_cursor(self, kind, name=None):
        cursor = name or rng_name(self.rng)
        return (kind, cursor), self.spelled(kind.upper(), cursor)

    def step(self, name=None):
        cursor, n = name or rng_name(self.rng), self.rng.choice([0, 1, 1, 1, 2, 3, 5, 40, 10000, 10001, -1])
        return ("step", cursor, n), self.spelled("STEP", cursor, str(n))

    def update(self):
        rng, table = self.rng, self.table()
        sets = []
        for _ in range(rng.choice([1, 1, 1, 2, 2, 3])):
            column = self.column(table)
            sets.append((column, self.value(self.width([(table, table)], (None, column)))))
        groups, where = self.chosen(table)
        text = self.spelled("UPDATE", table, "SET") + " " + ", ".join(f"{c} = {shown(v)}" for c, v in sets) + where
        return ("change", table, sets, groups), text

    def chosen(self, table):
        """The condition of an UPDATE or DELETE."""
        way = self.rng.random() if self.changes else 1
        if way < 0.2 and self.large and table == "T" and "T" in self.known:
            return self.wide()
        if way < 0.45:
            atoms, text, _ = self.group([(table, table)], 1)
            return [atoms], " WHERE " + text
        return self.where([(table, table)])

    def replaced(self, table):
        """An UPDATE of the few rows that have one value."""
        column, by, items = self.column(table), self.column(table), [(table, table)]
        value, key = (self.value(self.width(items, (None, name))) for name in (column, by))
        text = self.spelled("UPDATE", table, "SET") + f" {column} = {shown(value)} WHERE {by} = {shown(key)}"
        return ("change", table, [(column, value)], [[("compare", (None, by), "=", key)]]), text

    def delete(self):
        table = self.table()
        groups, where = self.chosen(table)
        return ("change", table, None, groups), self.spelled("DELETE", "FROM", table) + where

    def filled(self):
        """Statements that make tables and commit rows, and begin. Indexes come before the rows, behind them, or both."""
        rng = self.rng
        yield from (self.create() for _ in range(rng.randint(1, 3)))
        yield from (self.index() for _ in range(rng.randint(1 if self.large else 0, 4)))
        yield ("begin", False), "BEGIN"
        rows = [None] * rng.randint(0, 18) + ["T"] * (1400 if self.huge else rng.choice([40, 80, 160, 320]) if self.large else 0)
        rng.shuffle(rows)
        yield from map(self.insert, rows)
        yield ("commit",), "COMMIT"
        yield from (self.index() for _ in range(rng.randint(0, 2)))
        yield self.begin()

    def statement(self, session):
        """A statement of a session, mostly one that its own earlier ones make likely to be answered well."""
        rng = self.rng
        if session not in self.database.active and rng.random() < 0.7:
            return self.begin()
        opened = [name for of, name in self.database.cursors if of == session]
        if opened and rng.random() < 0.75:
            cursor, way = opened[-1] if rng.random() < 0.6 else rng.choice(opened), rng.random()
            if way < 0.12:
                return self.step(cursor)
            return self.on_cursor("show" if way < 0.3 else "fetch", cursor)
        way = rng.random()
        if way < 0.03 or (not self.known and way < 0.3):
            return self.create() if rng.random() < 0.3 else self.index()
        if self.unique and way < 0.6:
            return self.insert() if way < 0.4 else self.update()
        if self.changes and way < 0.7:
            return self.insert() if way < 0.1 else self.update() if way < 0.5 else self.delete() if way < 0.6 else self.open()
        if way < 0.05:
            return self.begin()
        if way < 0.14:
            return self.insert()
        if way < 0.32:
            if self.large and rng.random() < 0.6:
                return self.open()
            return self.update() if way < 0.28 else self.delete()
        if way < 0.40:
            return ("commit",), self.spelled("COMMIT")
        if way < 0.43:
            return ("rollback",), self.spelled("ROLLBACK")
        if way < 0.90:
            return self.open()
        if way < 0.97:
            return self.step() if way < 0.91 else self.on_cursor(rng.choice(["fetch", "show", "close", "close"]))
        return ("syntax",), rng.choice(SYNTAX)

    def calls(self):
        """Sessions, statements and their spellings."""
        rng = self.rng
        sessions = [rng.randint(1, 8) for _ in range(rng.randint(2, 8) if self.unique else rng.randint(1, 4))]
        if rng.random() < 0.95:
            yield from ((1, *made) for made in self.filled())
            sessions.append(1)
            for _ in range(1 if self.huge else rng.choice([1, 2, 3]) if self.large else 0):
                yield 1, *self.whole()
                yield from ((1, *made) for made in self.drained(1, "C"))
                yield 1, *self.on_cursor("close", "C")
        session = sessions[-1]
        for _ in range(rng.randint(20, 80) if self.large else rng.randint(0, 60)):
            session = session if rng.random() < 0.7 else rng.choice(sessions)
            if rng.random() < 0.04:
                yield from self.conflict(session, rng.randint(1, 8))
            if rng.random() < 0.05:
                yield from self.changing(session)
            if self.unique and rng.random() < 0.1:
                yield from self.crowd()
            statement, text = self.statement(session)
            yield session, statement, text
            if statement[0] in ("open", "fetch") and rng.random() < 0.3:
                yield from ((session, *made) for made in self.drained(session, statement[1]))

    def whole(self):
        """A cursor over nearly all rows of the table T that an index bounds, with the first rows soon."""
        indexes = [i for i in self.database.indexes.values() if i.table == "T"]
        column, width = self.known["T"][self.rng.choice(indexes).columns[0] if indexes else 0]
        returned = None if self.rng.random() < 0.7 else [(None, column)]
        atom, text = ("null", (None, column), True), "IS NOT NULL"
        if not self.huge and width is None and self.rng.random() < 0.6:
            low = self.rng.randint(0, 20)
            atom, text = ("compare", (None, column), ">", low), f"> {low}"
        groups = [[atom]]
        text = f"OPEN C SELECT {column if returned else '*'} FROM T WHERE {column} {text} OPTIMIZE FOR FAST FIRST"
        return ("open", "C", returned, [("T", None)], groups, [], True), text

    def conflict(self, first, second):
        """Two sessions make one change, with the first one's end between."""
        change = self.update() if self.rng.random() < 0.7 else self.delete()
        for session in (first, second):
            yield session, ("begin", False), "BEGIN"
        yield first, *change
        yield second, *change
        end = "commit" if self.rng.random() < 0.7 else "rollback"
        yield first, (end,), self.spelled(end.upper())
        yield second, *change

    def crowd(self):
        """Sessions write rows of one table beside each other, and some of them end between."""
        rng, table = self.rng, self.table()
        sessions = rng.sample(range(1, 9), rng.randint(2, 8))
        for _ in range(rng.randint(6, 30)):
            session = rng.choice(sessions)
            if session not in self.database.active:
                yield session, ("begin", False), "BEGIN"
            way = rng.random()
            if way < 0.14:
                end = "commit" if way < 0.1 else "rollback"
                yield session, (end,), self.spelled(end.upper())
            else:
                yield session, *(self.insert(table) if way < 0.7 else self.replaced(table) if way < 0.95 else self.delete())

    def changing(self, session):
        """A session changes rows, opens a cursor, changes rows while it is open, and opens another one."""
        if session not in self.database.active:
            yield session, ("begin", False), "BEGIN"
        for _ in range(self.rng.randint(1, 3)):
            for _ in range(self.rng.choice([1, 1, 2, 5, 40 if self.large else 5])):
                yield session, *self.rng.choice([self.insert, self.insert, self.update, self.delete])()
            statement, text = self.open()
            yield session, statement, text
            for _ in range(self.rng.randint(0, 4)):
                yield session, *self.on_cursor("fetch", statement[1])

    def drained(self, session, name):
        """A cursor is fetched to its end, or nearly, and looked at on the way."""
        cursor = self.database.cursors.get((session, name))
        left = len(cursor.offers) if cursor is not None else 0
        left = self.rng.randint(left // 2, left) if self.rng.random() < 0.3 else left + 1
        for _ in range(min(left, 1400 if self.huge else 400)):
            yield self.on_cursor("fetch", name)
            way = self.rng.random()
            if way < 0.02 and not self.huge:
                yield self.step(name)
            elif way < 0.06:
                yield self.on_cursor("show", name)
        yield self.on_cursor("show", name)

    def script(self):
        rng, lines, calls = self.rng, [], []
        for session, statement, text in self.calls():
            self.follow(session, statement)
            if rng.random() < 0.03:
                lines.append(rng.choice(["# a note", "", "--"] + ([] if self.huge else [f"-- {rng.randint(0, 2)}"] * 3)))
            if statement[0] != "syntax" and rng.random() < 0.05:
                text += rng.choice([";", " ;", " "])
            lines.append(f"{session} {text}")
            calls.append((session, text, statement))
        broken = rng.random() < 0.02
        if broken:
            lines.insert(rng.randint(0, len(lines)), rng.choice(["9 BEGIN", "0 BEGIN", "BEGIN", "1", "-- 3"]))
        words = {"judge": rng.choice([0, 1, 2, 2])} if rng.random() < 0.7 else {}
        if rng.random() < 0.6:
            words["steps"] = rng.choice([0, 0, 0, 1, 2, 7, 64])
        if self.huge and rng.random() < 0.8:
            words = {"judge": 1, "steps": 0}
        elif self.large and rng.random() < 0.5:
            words = {"judge": rng.choice([1, 1, 2]), "steps": 0}
        if rng.random() < 0.25:
            words["race"] = True
        return "".join(line + "\n" for line in lines), calls, broken, words


SYNTAX = [
    "", "SELECT", "FETCH", "BEGIN BEGIN", "OPEN C SELECT * FROM T WHERE", "INSERT INTO T VALUES ()", "COMMIT ?", "FETCH 'C'",
    "CREATE TABLE T ()", "OPEN C SELECT * FROM T WHERE A = 1 OR A = 2 AND A = 3", "COMMIT;;", "FETCH C -1", "STEP C", "STEP C 'x'",
    "OPEN C SELECT * FROM T,", "OPEN C SELECT * FROM T X Y", "SHOW", "SHOW C 1", "OPEN C SELECT X. FROM T X", "OPEN C SELECT *, A FROM T",
    "OPEN C SELECT * FROM T ORDER BY", "OPEN C SELECT * FROM T OPTIMIZE FOR", "OPEN C SELECT * FROM T WHERE 1 = A",
]  # fmt: skip


def spelled_reference(reference):
    return ".".join(name for name in reference if name is not None)


def rng_name(rng):
    return rng.choice(["C", "C", "D", "E", "F"])


# Comparing.


def spelled_words(words):
    """The words of the command line that ask this."""
    return [word for name, value in words.items() for word in ([f"--{name}"] if value is True else [f"--{name}", str(value)])]


def transcript(program, script, words):
    command = [program, *spelled_words(words)]
    return subprocess.run(command, input=script.encode(), capture_output=True, timeout=120)


def differs(ran, script, calls, broken, words, exact):
    """The first difference between a transcript and what the calls mean, or None."""
    if broken:
        return None if ran.returncode == 2 and ran.stdout == b"" else f"a broken script: status {ran.returncode}"
    if ran.returncode != 0:
        return f"status {ran.returncode}: {ran.stderr.decode()}"
    told = ran.stdout.decode().split("\n")
    if len(told) != 2 * len(calls) + 1 or told[-1] != "":
        return f"{len(told) - 1} lines for {len(calls)} calls"
    database = Checked(words.get("race", False))
    sure = [reply for _, _, reply in run(script, **words)] if exact else None
    for at, (session, text, statement) in enumerate(calls):
        if told[2 * at] != f"{session} {text}":
            return f"line {2 * at + 1}: {told[2 * at]!r} for {text!r}"
        reply, allowed = told[2 * at + 1], database.answer(session, statement)
        if not reply.startswith("= ") or not fits(reply[2:], allowed):
            return f"line {2 * at + 2}: {text!r} has {reply!r} for {allowed if not callable(allowed) else 'what it tells'}"
        database.given(statement, reply[2:])
        if exact and reply[2:] != sure[at]:
            return f"line {2 * at + 2}: {text!r} has {reply!r} for {sure[at]!r}"
    return equal_rows(database)


def equal_rows(database):
    """Where two rows are equal in a unique index that are not allowed to be, or None: rows of the last commit, rows that one
    transaction sees, or what one has written and another one or the last commit has."""
    for name, index in database.indexes.items():
        if not index.unique:
            continue
        last = database.tables[index.table].rows
        written = {own: {n: values for (table, n), values in own.new.items() if table == index.table} for own in database.active.values()}
        seen = [last]
        for own, new in written.items():
            seen += [{**own.rows[index.table], **new}, {**last, **new}]
            seen += [{**other, **new} for at, other in written.items() if at is not own]
        for rows in seen:
            keys = [whole_key(values, index.columns) for values in rows.values() if values is not None]
            keys = [key for key in keys if key is not None]
            if len(keys) != len(set(keys)):
                return f"two rows are equal in {name}"
    return None


def fits(reply, allowed):
    if callable(allowed):
        return allowed(reply)
    return reply in allowed if isinstance(allowed, set) else reply == allowed


def apart(first, second, calls):
    """The first difference of two transcripts that they may not have, or None."""
    given = {}  # by session and cursor: the rows of both
    replies = [ran.stdout.decode().split("\n")[1::2] for ran in (first, second)]
    for (session, text, statement), a, b in zip(calls, *replies):
        key = (session, statement[1] if len(statement) > 1 else None)
        if statement[0] in ("show", "step") and a.split()[1] == b.split()[1] in ("trace", "stepped"):
            continue
        if statement[0] == "open" and a == b == "= opened":
            given[key] = ([], [])
        if statement[0] == "fetch" and a.startswith("= row") and b.startswith("= row"):
            given[key][0].append(a)
            given[key][1].append(b)
        elif a != b:
            return f"{text!r} has {a!r} and {b!r}"
        elif a == "= end" and sorted(given[key][0]) != sorted(given[key][1]):
            return f"{text!r} came to the end of other rows"
    return None


def main():
    parser = argparse.ArgumentParser(description=__doc__, formatter_class=argparse.RawDescriptionHelpFormatter)
    parser.add_argument("program", metavar="PROGRAM")
    parser.add_argument("count", type=int, nargs="?", default=1000, metavar="COUNT", help="how many scripts (default 1000)")
    parser.add_argument("seed", type=int, nargs="?", default=1, metavar="SEED", help="of which seed (default 1)")
    how = parser.add_mutually_exclusive_group()
    how.add_argument("--exact", action="store_true", help="each transcript is the one of the slow model")
    how.add_argument("--beside", metavar="PROGRAM", help="compare with this program too")
    parser.add_argument("--unique", action="store_true", help="with unique indexes, in up to eight sessions")
    parser.add_argument("--changes", action="store_true", help="with many UPDATE and DELETE by conditions of every form")
    asked = parser.parse_args()
    count, seed, wrong = asked.count, asked.seed, 0
    for number in range(count):
        script, calls, broken, words = Maker(random.Random(seed * 1_000_000 + number), asked.unique, asked.changes).script()
        ran = transcript(asked.program, script, words)
        difference = differs(ran, script, calls, broken, words, asked.exact)
        if difference is None and asked.beside is not None:
            other = transcript(asked.beside, script, words)
            difference = differs(other, script, calls, broken, words, False)
            difference = "beside: " + difference if difference else None if broken else apart(ran, other, calls)
        if difference is not None:
            wrong += 1
            print(f"script {number} of seed {seed}, {words}: {difference}")
    print(f"{count} scripts, {wrong} differ")
    return 1 if wrong else 0


if __name__ == "__main__":
    end(main)
