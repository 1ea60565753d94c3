"""Scripts of queries with the transcript that the rules in words give. The rows, leaves and verdicts of a query are found as
model/retrieval.py, race.py and union.py have them, over tables that are filled here; restrictions are judged by
restriction_table.py, and the offers of joins are found among all combinations of rows (try_joins.py). The parser, catalog and
cursors of the slow model have no part in it.

  restrictions  each restriction of the table by an index over rows of every kind, many of each: which rows come, and by the leaves
                read which entries are in the range
  retrievals    every strategy, race and union over 400 rows, under each judge, with none, one and five background steps, and under
                lists of verdicts
  verdicts      a query, a race and a union under every list of three verdicts, by marks that change the judge
  searches      UPDATEs that find their rows by an index: how many, and by what the judge answers next, that it was asked
  reads         what a join on an index reads, at three sizes
  joins         one to four FROM items, with every form of restriction and order"""
from __future__ import annotations

import functools
import itertools
import re
from typing import Callable, Iterable, Iterator

from model.retrieval import Counts, Retrieval
from model.trees import Tree, leaf_in
from model.union import Union
from tables import restriction_table as restrictions
from tables import try_joins
from tables.try_retrievals import (
    IA, IB, IC, ICA, NAMES, Asked, Table, access, kinds, narrow_unions, no_races, one_of, patient, races, threshold, wide_unions,
)  # fmt: skip

Case = tuple[str, list[str], str, str]  # a name, words, a script and its transcript

CONTRARY = ["stop", "go on", "drop", "end"]


class Player:
    """A script that is written call by call, with the transcript that the rules give. It has the judges of a run: the contrary one
    keeps its state while another rules."""

    def __init__(self, steps: int = 0):
        self.steps, self.judge, self.turn = steps, 0, 0
        self.began = self.committed = 0
        self.script: list[str] = []
        self.told: list[str] = []

    def call(self, text: str, reply: str) -> None:
        self.script.append(f"1 {text}\n")
        self.told.append(f"1 {text}\n= {reply}\n")

    def begin(self, words: str = "") -> None:
        self.began += 1
        self.call("BEGIN" + words, f"began {self.began}")

    def fill(self, name: str, columns: str, indexes: Iterable[tuple[str, str]], rows: Iterable[str]) -> None:
        self.call(f"CREATE TABLE {name} ({columns})", "created")
        for index, over in indexes:
            self.call(f"CREATE INDEX {index} ON {name} ({over})", "created")
        self.begin()
        for at, row in enumerate(rows):
            self.call(f"INSERT INTO {name} VALUES ({row})", f"inserted {at}")
        self.committed += 1
        self.call("COMMIT", f"committed {self.committed}")

    def mark(self, judge: int) -> None:
        if judge != self.judge:
            self.judge = judge
            self.script.append(f"-- {judge}\n")

    def rule(self, facts: dict[str, int]) -> str:
        if self.judge == 2:
            self.turn += 1
            return CONTRARY[(self.turn - 1) % 4]
        return [threshold, patient][self.judge](facts)

    def step(self, cursor: str, retrieval, steps: int) -> None:
        done = 0
        while done < steps and retrieval.awaits():
            retrieval.background()
            done += 1
        self.call(f"STEP {cursor} {steps}", f"stepped {done}")

    def fetch(self, retrieval, text_of: Callable[[int], str]) -> bool:
        """Whether a row came."""
        found = None
        while found is None:
            found = retrieval.step()
            for _ in range(self.steps):
                if retrieval.control == "building":
                    retrieval.background()
        self.call("FETCH C", "end" if found == "end" else "row " + text_of(found))
        return found != "end"

    def drain(self, retrieval, text_of: Callable[[int], str]) -> None:
        while self.fetch(retrieval, text_of):
            pass

    def case(self, name: str, *words: str) -> Case:
        return name, ["--steps", str(self.steps), *words], "".join(self.script), "".join(self.told)


# Restrictions.

SPELLED = {"null": "IS NULL", "present": "IS NOT NULL", "starts": "STARTING WITH", "between": "BETWEEN", "in": "IN"}
COPIES = 20  # of each row, so that each key has leaves of its own
TRUTHS = {"true": "X.K = 1", "false": "X.K = 2", "unknown": "X.K = NULL"}


def literal(value) -> str:
    return "NULL" if value is None else str(value) if isinstance(value, int) else "'" + value.replace("'", "''") + "'"


def spelled_atom(text: str) -> str:
    if text in TRUTHS:
        return TRUTHS[text]
    column, word, *rest = text.split()
    values = [other.upper() if other in restrictions.COLUMNS else literal(restrictions.value(other)) for other in rest]
    told = f"({', '.join(values)})" if word == "in" else " AND ".join(values)
    return f"{column.upper()} {SPELLED.get(word, word)} {told}".strip()


def spelled_groups(groups: list[list[str]]) -> str:
    return " AND ".join("(" + " OR ".join(map(spelled_atom, group)) + ")" for group in groups)


def kind_of(column: str, groups: list[list[str]], rows: list[list]) -> str:
    """The kind of a column: that of the literals with which it is compared, or else of its first value."""
    words = [word.split() for group in groups for word in group]
    literals = [restrictions.value(v) for c, _, *rest in (w for w in words if len(w) > 1) if c == column for v in rest if v not in restrictions.COLUMNS]
    values = [v for v in [*literals, *(row[restrictions.COLUMNS[column]] for row in rows)] if v is not None]
    return "VARCHAR(9)" if values and isinstance(values[0], str) else "BIGINT"


def fits(value, kind: str) -> bool:
    return value is None or isinstance(value, str) == kind.startswith("VARCHAR")


class RestrictedIndex:
    """An index as a retrieval sees it, by the restriction table: the place of a key in the range, and whether it passes."""

    def __init__(self, name: str, columns: list[str], groups: list[list[str]], entries: list[tuple]):
        self.name, self.columns, self.names, self.groups = name, tuple(restrictions.COLUMNS[c] for c in columns), columns, groups
        self.range = restrictions.range_of(groups, columns)
        tree = Tree()
        for entry in entries:
            tree = tree.put(entry)
        self.leaves = [lows for _, lows in tree.leaves()]
        self.restricted = self.range[0] is not None or self.range[1] is not None
        self.estimate, self.exact = tree.estimate(self)
        self.covers = len(columns) == 3

    def is_empty(self) -> bool:
        low, high, starts = self.range
        if starts or low is None or high is None or len(low[0]) != len(high[0]):
            return False
        apart = restrictions.first_difference(low[0], high[0])
        return apart > 0 or (apart == 0 and not (low[1] and high[1]))

    def values(self, key) -> list:
        return [None if kind == 0 else number if kind == 1 else text.decode() for kind, number, text in key]

    def side(self, key) -> int:
        return {"before": -1, "in": 0, "after": 1}[restrictions.place(self.range, self.values(key))]

    def passes(self, key) -> bool:
        row = [None, None, None]
        for column, value in zip(self.columns, self.values(key)):
            row[column] = value
        return restrictions.passes(self.groups, self.names, row) == "yes"

    def leaf(self, at):
        return leaf_in(self.leaves, self.side, at)


class Rows:
    """Rows and a restriction of them, under the patient judge."""

    def __init__(self, groups: list[list[str]], rows: list[list], *more):
        self.groups, self.rows = groups, rows
        super().__init__(*more)

    def is_wanted(self, number: int) -> bool:
        return restrictions.truth(self.groups, self.rows[number]) == restrictions.TRUE

    def page_rows(self, page: int) -> list[int]:
        return list(range(page * 32, min(page * 32 + 32, len(self.rows))))

    def rule(self, projected: int, guaranteed: int) -> str:
        return "go on"


class Restricted(Rows, Retrieval):
    pass


class United(Rows, Union):
    pass


def branches(group: list[str]) -> list[str]:
    """The atoms of which a group is the OR: IN is an `=` for each literal that is not NULL."""
    told = []
    for atom in group:
        column, word, *rest = [*atom.split(), ""]
        told += [f"{column} = {it}" for it in rest if it not in ("N", "")] if word == "in" else [atom]
    return told


def restricted_retrieval(name: str, columns: list[str], groups: list[list[str]], rows: list[list]):
    """A retrieval by one index, or a union where the table would be read and each branch of a group bounds it."""
    entries = [(tuple(restrictions.rank(row[restrictions.COLUMNS[c]]) for c in columns), n) for n, row in enumerate(rows)]
    pages, whole = -(-len(rows) // 32), RestrictedIndex(name, columns, groups, entries)
    if not whole.restricted and not whole.covers:
        for parts in map(branches, groups):
            members = [RestrictedIndex(name, columns, [[atom]], entries) for atom in parts]
            if len(members) > 1 and all(member.restricted for member in members):
                return United(groups, rows, members, pages, Counts())
    return Restricted(groups, rows, [whole], pages, (), False, Counts())


def traced(retrieval) -> str:
    counts = retrieval.counts
    return " ".join(["trace", retrieval.strategy, *retrieval.events, f"pages {counts.pages} leaves {counts.leaves} fetches {counts.fetches}"])


def restricted_cases() -> Iterator[tuple[list[str], list[list[str]], list[list], list[str]]]:
    """Columns, groups, rows and kinds of each restriction. A row whose value is of another kind than its column is left out: no
    table has it."""
    for columns, text, texts in restrictions.CASES:
        groups, rows = restrictions.groups(text), [[restrictions.value(word) for word in row.split()] for row in texts]
        kinds_of = [kind_of(column, groups, rows) for column in "abc"]
        yield columns.split(), groups, [row for row in rows if all(map(fits, row, kinds_of))], kinds_of


def restricted() -> Iterator[Case]:
    player, queries = Player(), []
    player.fill("X", "K BIGINT", [], ["1"])
    for at, (columns, groups, rows, kinds_of) in enumerate(restricted_cases()):
        every = [row for _ in range(COPIES) for row in rows]
        told = [", ".join(map(literal, row)) for row in every]
        player.fill(f"R{at}", ", ".join(f"{c} {kind}" for c, kind in zip("ABC", kinds_of)), [(f"I{at}", ", ".join(columns).upper())], told)
        queries.append((f"I{at}", columns, groups, every, told))
    player.begin(" READ ONLY")
    player.mark(1)
    for name, columns, groups, every, told in queries:
        where = f" WHERE {spelled_groups(groups)}" if groups else ""
        if any(atom in TRUTHS for group in groups for atom in group):
            # an atom that is no comparison comes of a row of an item before
            player.call(f"OPEN C SELECT A, B, C FROM X, R{name[1:]}{where}", "opened")
            for row, text in zip(every, told):
                if restrictions.truth(groups, row) == restrictions.TRUE:
                    player.call("FETCH C", "row " + text)
            player.call("FETCH C", "end")
        else:
            retrieval = restricted_retrieval(name, columns, groups, every)
            player.call(f"OPEN C SELECT * FROM R{name[1:]}{where}", "opened")
            player.drain(retrieval, lambda number: told[number])
            player.call("SHOW C", traced(retrieval))
        player.call("CLOSE C", "closed")
    yield player.case("restrictions")


# Retrievals.

COLUMNS = ["A", "B", "C, A", "C"]


def told_values(row, columns: Iterable[int]) -> str:
    return ", ".join("NULL" if row[c] == (0, 0) else str(row[c][1]) for c in columns)


def span(column: int, bounds: tuple[int, int]) -> str:
    return f"{'ABC'[column]} BETWEEN {bounds[0]} AND {bounds[1]}"


class Filled:
    """A table of three columns in a script, with some indexes of its own, and what is asked of it."""

    def __init__(self, player: Player, name: str, count: int, filling: str, uses: Iterable[int]):
        self.player, self.name = player, name
        self.table = Table(count, filling, paged=True)
        made = [(NAMES[i] + name, COLUMNS[i]) for i in uses]
        player.fill(name, "A BIGINT, B BIGINT, C BIGINT", made, [told_values(row, range(3)) for row in self.table.rows])

    def where(self, asked: Asked) -> str:
        parts = [span(column, bounds) for column, bounds in asked.spans.items()]
        if asked.either:
            parts.append("(" + " OR ".join(span(column, bounds) for column, bounds in asked.either) + ")")
        return " WHERE " + " AND ".join(parts) if parts else ""

    def open(self, cursor: str, asked: Asked):
        """The retrieval of a cursor, and what its rows are."""
        columns = range(3) if 1 in asked.needed else (0, 2)
        text = f"OPEN {cursor} SELECT {'*' if 1 in asked.needed else 'A, C'} FROM {self.name}{self.where(asked)}"
        self.player.call(text + " ORDER BY C" * asked.ordered + " OPTIMIZE FOR FAST FIRST" * asked.soon, "opened")
        return access(self.table, asked, self.player.rule), lambda number: told_values(self.table.rows[number], columns)

    def show(self, retrieval) -> None:
        self.player.call("SHOW C", "trace " + re.sub(r"\b(IA|IB|ICA|IC)\b", lambda m: m[0] + self.name, retrieval.trace()))

    def all_rows(self, asked: Asked) -> None:
        retrieval, text_of = self.open("C", asked)
        self.player.drain(retrieval, text_of)
        self.show(retrieval)
        self.player.call("CLOSE C", "closed")

    def update(self, asked: Asked) -> None:
        """An UPDATE that searches, and is taken back."""
        self.player.begin()
        asked.needed = set(asked.spans)
        search, found = access(self.table, asked, self.player.rule), 0
        while (number := search.step()) != "end":
            found += number is not None
        self.player.call(f"UPDATE {self.name} SET B = 0{self.where(asked)}", f"touched {found}")
        self.player.call("ROLLBACK", "rolled back")


# Verdicts that stop, end or drop at some question, before the patient judge rules.
LISTED = [["stop"], ["go on", "end"], ["drop", "stop"], ["go on", "go on", "go on", "end"], ["go on", "go on", "drop", "drop"]]

WIDE = {0: (60, 300), 1: (120, 380), 2: (10, 12)}


class Ruled:
    """Queries of which each verdict is chosen, by a judge that is changed between two steps. A table with the indexes IA and IB
    helps."""

    def __init__(self, player: Player, filled: Filled):
        self.player, self.filled, self.helper = player, filled, Asked({0: (60, 300)}, [IA, IB], soon=True)

    def will_say(self, verdict: str) -> None:
        """The next verdict will be this one: the contrary judge gives others to a cursor beside, of which it is asked once."""
        self.player.mark(1 if verdict == "go on" else 2)
        while self.player.judge == 2 and CONTRARY[self.player.turn % 4] != verdict:
            turn = self.player.turn
            retrieval, _ = self.filled.open("H", self.helper)
            self.player.step("H", retrieval, 1)
            self.player.call("CLOSE H", "closed")
            assert self.player.turn == turn + 1

    def query(self, filled: Filled, asked: Asked, verdicts: Iterable[str], first: int = 0) -> None:
        """So many rows, a step under each verdict, and the other rows under the patient judge."""
        self.player.mark(1)
        retrieval, text_of = filled.open("C", asked)
        for _ in range(first):
            self.player.fetch(retrieval, text_of)
        for verdict in verdicts:
            if retrieval.awaits():
                self.will_say(verdict)
            self.player.step("C", retrieval, 1)
        self.player.mark(1)
        self.player.drain(retrieval, text_of)
        filled.show(retrieval)
        self.player.call("CLOSE C", "closed")


def retrievals() -> Iterator[Case]:
    """The kinds of try_retrievals, each over a table that has the indexes which it uses and no other."""
    for race in (False, True):
        some = [asked for _, asked in [*kinds(), *races(), *no_races(), *wide_unions(), *narrow_unions()] if asked.race == race]
        for steps in (0, 1, 5):
            player, tables = Player(steps), {}
            for asked in some:
                if tuple(asked.uses) not in tables:
                    tables[tuple(asked.uses)] = Filled(player, f"T{len(tables)}", 400, "same", asked.uses)
            player.begin(" READ ONLY")
            for judge in range(3):
                player.mark(judge)
                for asked in some:
                    tables[tuple(asked.uses)].all_rows(asked)
            ruled = Ruled(player, tables[IA, IB])
            for verdicts_of, asked in itertools.product(LISTED if steps == 0 else [], some):
                ruled.query(tables[tuple(asked.uses)], asked, verdicts_of)
            yield player.case("retrievals", *["--race"] * race)


def verdicts() -> Iterator[Case]:
    lists = list(itertools.product(CONTRARY, repeat=3))
    for race in (False, True):
        player = Player()
        filled = Filled(player, "T", 400, "same", [IA, IB])
        ordered = Filled(player, "U", 400, "same", [IA, IB, IC])
        alone = Filled(player, "V", 400, "same", [IA, ICA])
        player.begin(" READ ONLY")
        ruled = Ruled(player, filled)
        asked = [(filled, Asked(WIDE, [IA, IB], race=True), 0)]
        if not race:
            asked = [
                (filled, Asked(WIDE, [IA, IB], soon=True), 2),
                (ordered, Asked({0: (100, 150), 1: (120, 380)}, [IA, IB, IC], ordered=True), 3),
                (alone, Asked({0: (60, 160), 2: (10, 15)}, [IA, ICA], whole=False), 2),
                (filled, one_of([(0, (60, 140)), (1, (120, 180))]), 0),
            ]
        for table, query, first in asked:
            for some in lists:
                ruled.query(table, query, some, first)
        yield player.case("verdicts", *["--race"] * race)


def singles() -> Iterator[Case]:
    """Single retrievals whose reads are known from hand (try_retrievals), and searches."""
    whole = {0: (0, 9_999_999)}
    for race in (False, True):
        player = Player()
        filled = Filled(player, "T", 400, "same", [IA, IB])
        ruled = Ruled(player, filled)
        fourths = Filled(player, "Q", 40, "fourths", [IA, IB, IC] if not race else [IA, IC])
        queries = [(fourths, Asked({0: (10, 9_999), 2: (1, 3)}, [IA, IC], race=True), some, 0) for some in (["go on"] * 9, ["go on", "drop"], ["drop"])]
        if not race:
            eighty = Filled(player, "E", 80, "same", [IA, IB])
            flat = Filled(player, "F", 80, "zero", [IA])
            forty = Filled(player, "P", 40, "zero", [IA])
            many = Filled(player, "M", 1100, "zero", [IA])
            twice = Filled(player, "N", 1100, "zero", [IA, ICA])
            both, soon, twenty = Asked({0: (10, 40), 1: (30, 70)}, [IA, IB]), Asked({0: (10, 40)}, [IA], soon=True), Asked({0: (10, 29)}, [IA], soon=True)
            nearly = one_of([(0, (0, 29)), (0, (6, 39))], [IA])
            queries = [
                (eighty, both, ["go on"] * 9, 0), (eighty, both, ["drop"] * 2, 0),
                *[(table, asked, some, 4) for table, asked in ((flat, soon), (forty, twenty)) for some in (["go on"] * 5, ["drop"], ["stop"])],
                (forty, Asked({0: (20, 22)}, [IA]), [], 0),
                (fourths, Asked({1: (10, 29)}, [IA, IB, IC], ordered=True), ["go on"] * 9, 3),
                (many, Asked(whole, [IA], soon=True), [], 0), (twice, Asked(whole, [IA, ICA], whole=False), [], 0),
                (forty, one_of([(0, (3, 8)), (0, (6, 12))], [IA]), [], 0), (forty, nearly, [], 0), (forty, nearly, ["drop"], 0),
            ]  # fmt: skip
        player.begin(" READ ONLY")
        for query in queries:
            ruled.query(*query)
        if not race:
            player.call("COMMIT", f"committed {player.committed}")
            searched = [
                (forty, {0: (20, 22)}, [IA]), (eighty, both.spans, [IA, IB]), (eighty, {0: (10, 9_999)}, [IA, IB]), (filled, WIDE, [IA, IB]),
                (filled, {2: (10, 12)}, [IA, IB]), (many, {0: (20, 22)}, [IA]), (many, whole, [IA]),
            ]  # fmt: skip
            for judge in (2, 2, 2, 2, 0, 1):
                for table, spans, uses in searched:
                    player.mark(judge)
                    table.update(Asked(spans, uses))
                    player.begin(" READ ONLY")
                    player.mark(2)
                    filled.all_rows(ruled.helper)
                    player.call("COMMIT", f"committed {player.committed}")
        yield player.case("singles", *["--race"] * race)


# Joins.

ALIASES = ["W", "X", "Y", "Z"]


def spelled_join_atom(text: str) -> str:
    """An atom of try_joins, whose columns are a place, a dot and a letter."""
    place = lambda word: f"{ALIASES[int(word[0])]}.{word[2].upper()}" if re.fullmatch(r"\d\.[abc]", word) else word
    column, word, *rest = map(place, text.split())
    told = f"({', '.join(rest)})" if word == "in" else " AND ".join(rest)
    return f"{column} {SPELLED.get(word, word)} {told}".strip()


def spelled_join(form: str) -> str:
    # (`false` beside other atoms says nothing)
    groups = [[spelled_join_atom(atom) for atom in group.split("/") if atom != "false"] for group in form.split("&")]
    return " AND ".join("(" + " OR ".join(group) + ")" for group in groups)


def joins() -> Iterator[Case]:
    """Of rows with equal order values the transcript has them in the order of their values."""
    indexes = [[("IA0", "A"), ("IBC0", "B, C")], [("IA1", "A"), ("ICB1", "C, B")], [("IB2", "B")], [("ICAB3", "C, A, B")]]
    for steps in (0, 3):
        player = Player(steps)
        for table, made in enumerate(indexes):
            rows = [", ".join(map(literal, row)) for row in try_joins.table_rows(table, 6)]
            player.fill(f"T{table}", "A BIGINT, B BIGINT, C BIGINT", made, rows)
        player.begin(" READ ONLY")
        for tables in try_joins.FROM:
            for form, (items, text, _) in enumerate(try_joins.FORMS):
                for number, order in enumerate(try_joins.orders(len(tables) - 1)):
                    if items <= len(tables) and (form + number) % 2 == steps % 2:
                        player.mark(number % 3)
                        join(player, tables, form, text, order)
        yield player.case("joins")


def join(player: Player, tables: list[int], form: int, text: str, order: list[tuple[int, int]]) -> None:
    last = len(tables) - 1
    column = lambda place, at: f"{ALIASES[place]}.{'ABC'[at]}"
    returned = [column(place, 1) for place in range(len(tables))] + [column(last, 2)]
    sorted_by = [column(*it) for it in order]
    words = f"OPEN C SELECT {', '.join(returned + sorted_by)} FROM " + ", ".join(f"T{table} {ALIASES[at]}" for at, table in enumerate(tables))
    words += f" WHERE {spelled_join(text)}" if text else ""
    words += f" ORDER BY {', '.join(sorted_by)}" if order else ""
    player.call(words + ("" if form % 2 else " OPTIMIZE FOR FAST FIRST"), "opened")
    for sorting, values in try_joins.offers_of(tables, form, order, 6):
        player.call("FETCH C", "row " + ", ".join(map(literal, values + sorting)))
    player.call("FETCH C", "end")
    player.call("CLOSE C", "closed")


def reads() -> Iterator[Case]:
    """What a join reads whose second item is opened anew, by an index, for each row of the first."""
    player = Player()
    tables = [(Filled(player, f"X{rows}", rows, "same", []), Filled(player, f"Y{rows}", rows - 1, "same", [IA])) for rows in (40, 80, 120)]
    player.begin(" READ ONLY")
    for outer, inner in tables:
        player.call(f"OPEN C SELECT * FROM {outer.name}, {inner.name} WHERE {outer.name}.A = {inner.name}.A", "opened")
        first = access(outer.table, Asked({}, []), player.rule)
        while (number := first.step()) != "end":
            if number is None:
                continue
            second = access(inner.table, Asked({0: (number, number)}, [IA]), player.rule)
            while (found := second.step()) != "end":
                if found is not None:
                    values = [told_values(table.table.rows[number], range(3)) for table in (outer, inner)]
                    player.call("FETCH C", "row " + ", ".join(values))
            first.counts.pages += second.counts.pages
            first.counts.leaves += second.counts.leaves
            first.counts.fetches += second.counts.fetches
        player.call("FETCH C", "end")
        outer.show(first)
        player.call("CLOSE C", "closed")
    yield player.case("reads")


def tidied(transcript: str) -> str:
    """The transcript of joins, where rows of equal order values stand in the order of their values: those behind the columns
    returned, of which there is one more than FROM items."""
    told, held, returned = [], [], 0

    def key(reply: str):
        values = reply[6:].rstrip("\n").split(", ")
        return [try_joins.key([None if v == "NULL" else int(v)])[0] for v in values]

    def let_go() -> None:
        # a row that comes before one of lesser order values stays there
        while held:
            same = [held[0]]
            while len(same) < len(held) and key(held[len(same)])[returned:] == key(held[0])[returned:]:
                same.append(held[len(same)])
            del held[: len(same)]
            told.extend("1 FETCH C\n" + reply for reply in sorted(same, key=key))

    lines = transcript.splitlines(keepends=True)
    for call, reply in zip(lines[::2], lines[1::2]):
        if reply.startswith("= row "):
            held.append(reply)
            continue
        let_go()
        told += [call, reply]
        if call.startswith("1 OPEN C"):
            returned = len(re.findall(r" T\d [W-Z]", call)) + 1
    let_go()
    return "".join(told)


@functools.cache
def cases() -> list[Case]:
    return [case for made in (restricted, retrievals, verdicts, singles, reads, joins) for case in made()]


def as_told(name: str, transcript: str) -> str:
    """A transcript of the case of a name, as it is to be compared."""
    return tidied(transcript) if name == "joins" else transcript
