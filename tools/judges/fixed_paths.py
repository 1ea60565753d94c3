"""The fixed paths of a query over one table: what each of them reads, which one a planner takes by its estimates, and which one
is best in hindsight.

A **fixed path** is chosen before the query starts and kept: the table's pages, or some of the indexes that the query
restricts, whose lists are intersected before the records are fetched; of one index by itself the records are fetched as its
leaves are read, and none where it has all columns needed. Where an OR bounds indexes (docs/TRACES.md, "Unions"), their ranges
are read and the records fetched that any of them lists. Where an index is to give the order, it is followed behind the lists of
other indexes, and what these lack is not fetched.

The **best** path is the one that reads least in hindsight. The **planner** takes the path of least cost by the engine's own
estimates: the pages, or the leaves (estimate / 16) of its indexes and the records expected, which are the table's rows
multiplied by estimate / rows for each of them, as if columns were independent."""
from __future__ import annotations

from functools import cached_property
from itertools import combinations
from typing import Callable, Iterator, NamedTuple

from model.retrieval import PAGE, KeyList

PAGES, LEAVES, FETCHES = "pages", "leaves", "fetches"  # what is read, as `Counts` of the model names it

Moves = Iterator  # reads, by these names, and between them the numbers of the rows that are given


class Reads(NamedTuple):
    """Reads in all, and until each row was given."""

    whole: int
    rows: list[int]

    def until(self, number: int) -> int:
        """Until the row of this number (from 1), or until the end where there are fewer."""
        return self.rows[number - 1] if number <= len(self.rows) else self.whole


class Path(NamedTuple):
    """A fixed path: how it is told, what it costs by the estimates, and its moves."""

    words: str
    cost: float
    moves: Callable[[], Moves]

    def reads(self) -> Reads:
        reads, rows = 0, []
        for move in self.moves():
            if isinstance(move, str):
                reads += 1
            else:
                rows.append(reads)
        return Reads(reads, rows)


class FixedPaths:
    """The fixed paths of a query over a table of so many rows and pages. An index has `name`, `estimate`, `restricted`,
    `covers`, `passes(key)` and `read`, the entries in its range by leaf. Of the rows wanted the numbers are told, by page too.
    An index may be to give the order, or members may be to be put together (none: neither)."""

    front = members = None

    def __init__(self, rows: int, pages: int, indexes: list, wanted: set[int]):
        self.rows, self.pages, self.indexes, self.wanted = rows, pages, indexes, wanted

    @cached_property
    def paths(self) -> dict[tuple[str, ...], Path]:
        """The paths by the names of their indexes, in the order in which they are scanned (none: the table)."""
        some = sorted((i for i in self.indexes if i.restricted and i is not self.front), key=lambda i: i.estimate)
        lists = [chosen for size in range(len(some) + 1) for chosen in combinations(some, size)]
        if self.front is not None:
            found = [(chosen + (self.front,), self.in_order(chosen)) for chosen in lists if not (chosen and self.front.covers)]
        elif self.members is not None:
            found = [((), self.by_table()), (self.members, self.by_union())]
        else:
            found = [((), self.by_table())] + [(chosen, self.by_lists(chosen)) for chosen in lists[1:]]
            found += [((index,), self.by_lists((index,))) for index in self.indexes if index.covers and not index.restricted]
        return {tuple(index.name for index in chosen): path for chosen, path in found}

    @cached_property
    def reads(self) -> dict[tuple[str, ...], Reads]:
        return {names: path.reads() for names, path in self.paths.items()}

    @property
    def best(self) -> tuple[str, ...]:
        return min(self.paths, key=lambda names: self.reads[names].whole)

    @property
    def planned(self) -> tuple[str, ...]:
        return min(self.paths, key=lambda names: self.paths[names].cost)

    # The paths.

    @cached_property
    def by_page(self) -> dict[int, list[int]]:
        """The rows wanted, by their pages."""
        rows: dict[int, list[int]] = {}
        for number in sorted(self.wanted):
            rows.setdefault(number // PAGE, []).append(number)
        return rows

    def by_table(self) -> Path:
        def moves():
            for page in range(self.pages):
                yield PAGES
                yield from self.by_page.get(page, ())

        return Path("table", self.pages, moves)

    def by_lists(self, indexes: tuple) -> Path:
        if len(indexes) == 1:
            return self.by_index(*indexes)

        def moves():
            keys = yield from self.listed(indexes)
            yield from self.fetched(keys.keys)

        return Path(" and ".join(i.name for i in indexes), leaves_of(indexes) + self.keys_of(indexes), moves)

    def by_index(self, index) -> Path:
        def moves():
            for entries in index.read:
                yield LEAVES
                numbers = [number for key, number in entries if index.passes(key)]
                yield from (number for number in numbers if number in self.wanted) if index.covers else self.fetched(numbers)

        if index.covers:
            return Path(f"{index.name} alone", leaves_of([index]), moves)
        return Path(index.name, leaves_of([index]) + self.keys_of([index]), moves)

    def by_union(self) -> Path:
        def moves():
            keys: set[int] = set()
            for index in self.members:
                yield from [LEAVES] * len(index.read)
                keys.update(number for entries in index.read for key, number in entries if index.passes(key))
            yield from self.fetched(sorted(keys))

        keys = min(self.rows, sum(index.estimate for index in self.members))
        return Path("union of " + ", ".join(dict.fromkeys(i.name for i in self.members)), leaves_of(self.members) + keys, moves)

    def in_order(self, indexes: tuple) -> Path:
        front = self.front

        def moves():
            keys = (yield from self.listed(indexes)) if indexes else None
            for entries in front.read:
                yield LEAVES
                numbers = [number for _, number in entries if keys is None or keys.may_have(number)]
                yield from (number for number in numbers if number in self.wanted) if front.covers else self.fetched(numbers)

        first = " and ".join(i.name for i in indexes)
        words = f"{first}, then in order of {front.name}" if indexes else f"in order of {front.name}"
        both = [*indexes, front]
        return Path(words, leaves_of(both) + (0 if front.covers else self.keys_of(both)), moves)

    def listed(self, indexes: tuple) -> Moves:
        """Reads the indexes one after another, and ends with the list that remains."""
        keys = None
        for index in indexes:
            yield from [LEAVES] * len(index.read)
            entries = [entry for leaf in index.read for entry in leaf]
            keys = KeyList(sorted(n for key, n in entries if index.passes(key) and (keys is None or keys.may_have(n))))
            if not keys.keys:
                break
        return keys

    def fetched(self, numbers: list[int]) -> Moves:
        for number in numbers:
            yield FETCHES
            if number in self.wanted:
                yield number

    def keys_of(self, indexes) -> float:
        """The records to be expected: the table's rows multiplied by the share of each range, as if columns were independent."""
        keys: float = self.rows
        for index in indexes:
            keys *= min(index.estimate, self.rows) / self.rows if index.restricted and self.rows else 1
        return keys


def leaves_of(indexes) -> int:
    """The leaves to be expected, at 16 entries each."""
    return sum(-(-index.estimate // 16) for index in indexes)
