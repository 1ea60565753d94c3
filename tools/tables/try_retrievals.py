#!/usr/bin/env python3
"""Writes what the program `try_retrievals` is to print, by the rules in words: joins (try_joins.py), and then retrievals.

A table has the rows 0 to n - 1. Row i has the values i, then i or 0, and then NULL where 11 divides i, else
37 * (i mod 50) mod 50, or in one table of worked_queries.py i, i and i mod 4. There are indexes over the first column (IA), the second (IB), the
third and the first (ICA) and the third (IC); NULL is the least value, and entries are ordered by key and then by row. A page
has the rows of 32 numbers.

A leaf of a plain store has 32 entries, and an estimate is the number of entries in the range. An index of a paged store, as
worked_queries.py asks for it, is
a tree, into which the entries are put in the order of the rows. A leaf has up to 32 entries, a node above up to 32 children,
each with a low entry. What would be 33 becomes the first 16 and the last 17; a root that is split becomes the parent of its
halves. An entry belongs to the last child that does not begin above it. An estimate goes down from the root while one child
may have the range; where k > 1 children may, at level l, it is (k - 1) * 16 ** l, and not exact.

A retrieval is asked for the rows whose columns lie in spans, and of which one lies in one of further spans, by some of the
indexes, with some columns, in the order of the third column or in any, the first rows soon or all rows soon. How it goes is
written in model/retrieval.py. Where a race is asked and indexes can race, how they do is written in model/race.py, and where
keys are put together in model/union.py. A search is a retrieval that
needs the columns in which it is restricted, in any order, all rows soon."""

import argparse
import sys

if not __package__:  # run as a file: the other folders are found from tools/
    sys.path[0] += "/.."

from model.race import Race, can_race
from model.retrieval import LEAF, PAGE, Counts, Retrieval
from model.trees import Tree, leaf_in
from model.union import Union, can_unite
from tables import try_joins

NULL = (0, 0)
NAMES = ["IA", "IB", "ICA", "IC"]
COLUMNS = [(0,), (1,), (2, 0), (2,)]


def value(number):
    return (1, number)


def tree(entries):
    root = Tree()
    for entry in entries:
        root = root.put(entry)
    return root


def values_of(i, filling):
    if filling == "fourths":
        return value(i), value(i), value(i % 4)
    third = NULL if i % 11 == 0 else value(i % 50 * 37 % 50)
    return value(i), value(i if filling == "same" else 0), third


class Table:
    """The rows of a table, and the leaves of its indexes; in a paged store the trees too."""

    def __init__(self, count, filling, paged=False):
        self.rows = [values_of(i, filling) for i in range(count)]
        self.trees, self.leaves = [], []
        for columns in COLUMNS:
            entries = [(tuple(row[c] for c in columns), n) for n, row in enumerate(self.rows)]
            root = tree(entries) if paged else None
            entries.sort()
            parts = [entries[start:start + LEAF] for start in range(0, count, LEAF)]
            self.trees.append(root)
            self.leaves.append([lows for _, lows in root.leaves()] if paged else parts)
        self.pages = -(-count // PAGE)


class Asked:
    def __init__(self, spans, uses, whole=True, ordered=False, soon=False, race=False, either=()):
        self.spans = spans  # column -> (low, high)
        self.either = either  # columns with spans of which one is enough
        self.uses = uses
        self.needed = {0, 2} | ({1} if whole or 1 in spans or either else set())
        self.ordered = ordered and any(COLUMNS[i][0] == 2 for i in uses)
        self.soon, self.race = soon, race

    def qualifies(self, row):
        return all(in_span(row[c], span) for c, span in self.spans.items()) and (
            not self.either or any(in_span(row[c], span) for c, span in self.either)
        )


def in_span(v, span):
    """A comparison with NULL is not True."""
    return v != NULL and span[0] <= v[1] <= span[1]


class Index:
    """An index as a query sees it: its range is the span of its first column, whole where that has none. The spans are the
    query's, or of a branch its one."""

    def __init__(self, table, asked, number, spans=None):
        spans = asked.spans if spans is None else spans
        self.name, self.columns = NAMES[number], COLUMNS[number]
        self.leaves = table.leaves[number]
        self.range = spans.get(self.columns[0])
        self.restricted = self.range is not None
        if table.trees[number] is not None:
            self.estimate, self.exact = table.trees[number].estimate(self)
        else:
            self.estimate, self.exact = sum(self.side(key) == 0 for leaf in self.leaves for key, _ in leaf), True
        self.covers = asked.needed <= set(self.columns)
        # the part of the restriction that it tests by itself
        self.part = {c: span for c, span in spans.items() if c in self.columns}

    def is_empty(self):
        return self.range is not None and self.range[0] > self.range[1]

    def side(self, key):
        """-1 before the range, 0 in it, 1 after it."""
        if self.range is None:
            return 0
        low, high = value(self.range[0]), value(self.range[1])
        return -1 if key[0] < low else 1 if key[0] > high else 0

    def passes(self, key):
        values = dict(zip(self.columns, key))
        return all(in_span(values[c], span) for c, span in self.part.items())

    def leaf(self, at):
        return leaf_in(self.leaves, self.side, at)


# The judges.


def threshold(facts):
    """A scan is dropped that is not projected to cost less than 19 of 20 parts of what is guaranteed."""
    return "drop" if 20 * facts["projected"] >= 19 * facts["guaranteed"] else "go on"


def patient(facts):
    return "go on"


def in_turn(verdicts, again):
    left = list(verdicts)

    def rule(facts):
        if not left:
            return "go on"
        verdict = left.pop(0)
        if again:
            left.append(verdict)
        return verdict

    return rule


JUDGES = [
    ("threshold", lambda: threshold),
    ("patient", lambda: patient),
    ("contrary", lambda: in_turn(["stop", "go on", "drop", "end"], True)),
    ("stops first", lambda: in_turn(["stop"], False)),
    ("ends second", lambda: in_turn(["go on", "end"], False)),
    ("drops, then stops", lambda: in_turn(["drop", "stop"], False)),
    ("ends fourth", lambda: in_turn(["go on", "go on", "go on", "end"], False)),
    ("drops third", lambda: in_turn(["go on", "go on", "drop", "drop"], False)),
]


class Driven:
    """What is asked of a table, under a judge."""

    def __init__(self, table, asked, judge, *more):
        self.table, self.asked, self.judge = table, asked, judge
        super().__init__(*more)

    def is_wanted(self, number):
        return self.asked.qualifies(self.table.rows[number])

    def page_rows(self, page):
        return list(range(page * PAGE, min((page + 1) * PAGE, len(self.table.rows))))

    def rule(self, projected, guaranteed):
        return self.judge({"projected": projected, "guaranteed": guaranteed})

    def trace(self):
        counts = f"pages {self.counts.pages} leaves {self.counts.leaves} fetches {self.counts.fetches}"
        return " ".join([self.strategy] + self.events + [counts])


class Competing(Driven, Retrieval):
    pass


class Racing(Driven, Race):
    pass


class Uniting(Driven, Union):
    pass


def members(table, asked):
    """An index for each of the further spans, of those that it bounds that with the least estimate; none where one has none."""
    seen = [[Index(table, asked, number, {column: span}) for number in asked.uses] for column, span in asked.either]
    bounded = [[index for index in indexes if index.restricted] for indexes in seen]
    return [min(some, key=lambda index: index.estimate) for some in bounded] if len(seen) > 1 and all(bounded) else []


def access(table, asked, judge):
    """A retrieval, or two indexes that race where that is asked and they can, or keys that are put together."""
    indexes = [Index(table, asked, number) for number in asked.uses]
    order = (2,) if asked.ordered else ()
    if asked.race and can_race(indexes, order, asked.soon):
        return Racing(table, asked, judge, indexes, table.pages, Counts())
    if can_unite(indexes, order) and members(table, asked):
        return Uniting(table, asked, judge, members(table, asked), table.pages, Counts())
    return Competing(table, asked, judge, indexes, table.pages, order, asked.soon, Counts())


class Way:
    """What is done of the background between two foreground steps: so many times the awaited piece is taken and put
    behind those in hand; where none is awaited, or more than `late` are in hand, the oldest is given, so many times."""

    def __init__(self, steps, late=0, times=1, after=None):
        self.steps, self.late, self.times, self.after = steps, late, times, after

    def work(self, retrieval, hand):
        for _ in range(self.steps):
            piece = retrieval.take()
            if piece is not None:
                hand.append(piece)
            if hand and (piece is None or len(hand) > self.late):
                oldest = hand.pop(0)
                for _ in range(self.times):
                    retrieval.give(oldest)


def mixed(rows):
    mix = 0
    for row in rows:
        mix = (mix * 31 + row + 1) % 1000003
    return mix


def rows_text(rows):
    """How many rows there are, and their runs, or where these are more than 40 a number that is mixed of all rows."""
    runs = []
    for row in rows:
        if runs and row == runs[-1][1] + 1:
            runs[-1][1] = row
        else:
            runs.append([row, row])
    text = f"{len(rows)} rows"
    if len(runs) > 40:
        return text + f" mixed {mixed(rows)}"
    return text + "".join(f" {a}" if a == b else f" {a}-{b}" for a, b in runs)


def outcome(table, asked, judge, way):
    retrieval = access(table, asked, judge)
    rows, hand = [], []
    while True:
        found = retrieval.step()
        if found == "end":
            break
        if found is not None:
            rows.append(found)
        if way.after is None or way.after == len(rows):
            way.work(retrieval, hand)
    # each row that qualifies came once, and in order
    wanted = [n for n, row in enumerate(table.rows) if asked.qualifies(row)]
    assert sorted(rows) == wanted, (retrieval.trace(), rows, wanted)
    if asked.ordered:
        assert all(table.rows[a][2] <= table.rows[b][2] for a, b in zip(rows, rows[1:]))
    return f"right, {rows_text(rows)}; {retrieval.trace()}"


WAYS = [
    ("no step", Way(0)),
    ("one step", Way(1)),
    ("five steps", Way(5)),
    ("late", Way(1, late=1)),
    ("twice", Way(1, times=2)),
    ("never", Way(1, times=0)),
    ("late and twice", Way(2, late=3, times=2)),
]

IA, IB, ICA, IC = range(4)
MUCH = 2**63 - 1


def singles():
    """Single retrievals whose reads are known from hand."""
    eighty = Table(80, "same")
    both = Asked({0: (10, 40), 1: (30, 70)}, [IA, IB])
    yield "two lists", eighty, both, patient, Way(0)
    yield "two scans dropped", eighty, both, threshold, Way(0)
    flat = Table(80, "zero")
    soon = Asked({0: (10, 40)}, [IA], soon=True)
    after = Way(5, after=4)
    yield "fast first borrows", flat, soon, patient, after
    yield "threshold drops", flat, soon, threshold, after
    yield "contrary stops", flat, soon, JUDGES[2][1](), after
    many = Table(1100, "zero")
    yield "full buffer", many, Asked({0: (0, MUCH)}, [IA], soon=True), patient, Way(0)
    yield "full buffer, by index alone", many, Asked({0: (0, MUCH)}, [IA, ICA], whole=False), patient, Way(0)


def kinds():
    wide = {0: (60, 300), 1: (120, 380), 2: (10, 12)}
    narrow = {0: (100, 140), 1: (50, 350), 2: (10, 14)}
    equal = {0: (100, 160), 1: (90, 150), 2: (10, 19)}
    short = {0: (100, 115), 1: (50, 350), 2: (10, 29)}
    none = {0: (900, 950), 2: (10, 29)}
    yield "table", Asked({2: (10, 11)}, [IA, IB])
    yield "table without an index", Asked({}, [])
    for name, soon in [("background only", False), ("fast first", True)]:
        yield name, Asked(wide, [IA, IB], soon=soon)
        yield name + ", narrow", Asked(narrow, [IB, ICA], soon=soon)
        yield name + ", equal", Asked(equal, [IA, IB], soon=soon)
    yield "sorted", Asked({0: (100, 150), 1: (130, 380)}, [IA, IB, IC], ordered=True)
    yield "sorted without background", Asked({2: (10, 11)}, [IC], ordered=True)
    yield "sorted by index alone", Asked({0: (100, 130)}, [IA, ICA], whole=False, ordered=True)
    yield "index only", Asked({0: (100, 160), 2: (10, 19)}, [IA, ICA, IC], whole=False)
    yield "index only without background", Asked({2: (10, 11)}, [ICA], whole=False)
    yield "short", Asked(short, [IA, IB], soon=True)
    yield "short, sorted", Asked(short, [IA, IB, IC], ordered=True)
    yield "short, of the order's index", Asked({2: (10, 10)}, [IC], ordered=True)
    yield "no entry", Asked(none, [IA])
    yield "no entry, sorted", Asked(none, [IA, IC], ordered=True)
    yield "crossed", Asked({0: (40, 10), 2: (10, 29)}, [IA])


def races():
    """Where indexes can race, and where they cannot."""
    wide = {0: (60, 300), 1: (120, 380), 2: (10, 12)}
    narrow = {0: (100, 140), 1: (50, 350), 2: (10, 14)}
    equal = {0: (100, 160), 1: (90, 150), 2: (10, 19)}
    many = {0: (60, 300), 1: (120, 380), 2: (3, 40)}
    apart = {0: (0, 150), 1: (200, 390)}
    yield "race", Asked(wide, [IA, IB], race=True)
    yield "race, narrow", Asked(narrow, [IB, ICA], race=True)
    yield "race, equal", Asked(equal, [IA, IB], race=True)
    yield "race of four", Asked(many, [IA, IB, ICA, IC], race=True)
    yield "race without a row", Asked(apart, [IA, IB], race=True)


def no_races():
    yield "no race, fast first", Asked({0: (60, 300), 1: (120, 380)}, [IA, IB], soon=True, race=True)
    yield "no race of one", Asked({0: (60, 300)}, [IA, IB], race=True)


def one_of(either, uses=(IA, IB)):
    return Asked({}, list(uses), either=either)


def wide_unions():
    apart = [(0, (60, 140)), (1, (300, 380))]
    four = [(0, (10, 30)), (1, (100, 150)), (2, (3, 5)), (0, (20, 60))]
    yield "union", one_of(apart)
    yield "union, overlapping", one_of([(0, (60, 200)), (0, (150, 300))])
    yield "union of four", one_of(four, range(4))
    yield "union, twice the same", one_of([(0, (100, 160)), (1, (100, 160))])
    yield "union by the lesser index", one_of([(2, (10, 12)), (0, (0, 40))], range(4))
    yield "union and a span", Asked({2: (10, 14)}, [IA, IB], either=apart)


def narrow_unions():
    yield "union without a row", one_of([(0, (900, 950)), (1, (900, 950))])
    yield "union, one empty", one_of([(0, (900, 950)), (1, (100, 160))])
    yield "union, crossed", one_of([(0, (40, 10)), (0, (20, 30))])
    yield "no union, an unbound branch", one_of([(0, (10, 30)), (1, (100, 150)), (2, (3, 5)), (0, (20, 60))])


# One of each strategy, a race and a union.
DRIVEN = ["table", "background only", "fast first", "sorted", "index only", "short", "no entry", "race", "union"]


def write_kinds(out, table, some):
    for name, asked in some:
        out.write(name + "\n")
        for ruling, judge in JUDGES:
            before = ""
            for pace, way in WAYS:
                told = outcome(table, asked, judge(), way)
                out.write(f"  {ruling}, {pace}: {'the same' if told == before else told}\n")
                before = told


def searches():
    """Searches whose reads are known from hand."""
    eighty = Table(80, "same")
    yield "short range", eighty, {0: (20, 22)}, [IA], threshold
    both = {0: (10, 40), 1: (30, 70)}
    yield "two lists", eighty, both, [IA, IB], patient
    yield "two scans dropped", eighty, both, [IA, IB], threshold
    yield "by index alone", eighty, {0: (10, MUCH)}, [IA], patient
    yield "by pages", eighty, {0: (10, 40)}, [], patient


def found(table, spans, uses, judge):
    """What a search finds and reads."""
    asked = Asked(spans, uses)
    asked.needed = set(spans)
    search = Competing(table, asked, judge, [Index(table, asked, i) for i in uses], table.pages, (), False, Counts())
    rows = []
    while (row := search.step()) != "end":
        rows += [] if row is None else [row]
    assert sorted(rows) == [n for n, row in enumerate(table.rows) if asked.qualifies(row)]
    counts = search.counts
    return f"{rows_text(sorted(rows))}; pages {counts.pages} leaves {counts.leaves} fetches {counts.fetches}"


def main(out):
    for name, table, asked, judge, way in singles():
        out.write(f"{name}: {outcome(table, asked, judge, way)}\n")
    for name, table, spans, uses, judge in searches():
        out.write(f"search, {name}: {found(table, spans, uses, judge)}\n")
    some = {name: asked for name, asked in [*kinds(), *races(), *wide_unions()]}
    write_kinds(out, Table(400, "same"), [(name, some[name]) for name in DRIVEN])


if __name__ == "__main__":
    parser = argparse.ArgumentParser(description=__doc__, formatter_class=argparse.RawDescriptionHelpFormatter)
    parser.add_argument("--lines", action="store_true", help="the lines that the program reads, which are joins")
    asked_for_lines = parser.parse_args().lines
    try_joins.write(asked_for_lines)
    if not asked_for_lines:
        main(sys.stdout)
