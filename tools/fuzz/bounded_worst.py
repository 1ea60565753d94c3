#!/usr/bin/env python3
"""Looks for retrievals that read more under a guarded judge (guarded_judge.py) than they are held to, over the slow model.

Tables and leaves are made to hurt: leaves without a key up to the one at which a scan is dropped, lists that end just below
the guarantee, lists that a foreground fetches from anew, keys of rows that do not qualify. Estimates lie; one to eight indexes
are scanned, under any schedule of steps; and the judge within the guard goes on, is threshold, or answers anything. What hurt
most is tried again with a change. What a store keeps to is kept to: a leaf has 48 entries at most, a row one in each index.

What is read at most, of P pages with m planned scans or members, G being what is guaranteed at first:

  background-only, race   2 P + 2 m + 46
  fast-first              9/4 P + 50 m - 2
  union                   2 P + 50 m
  index-only              the leaves of its range + 2 m + G + the greatest of P, G + 47 and 48
  sorted                  the leaves and records of its range + 2 m + G

Each retrieval is held to the sum behind these, which is a little less. It is tried and not proved that none is above it. With
--forget the guard forgets what a scan has sunk, and with --alone a judge has no guard: then some are found."""
from __future__ import annotations

import argparse
import math
import sys
from collections import defaultdict
from dataclasses import dataclass, replace
from functools import lru_cache
from random import Random
from typing import Callable, Iterator

if not __package__:  # run as a file: the other folders are found from tools/
    sys.path[0] += "/.."

from ending import end
from judges.guarded_judge import FULLEST, bounded, parts
from judges.judge_reads import JUDGES, Judge
from judges.named_judges import ruled_by
from model.race import Race
from model.retrieval import PAGE, SMALL, Counts, Retrieval
from model.union import Union

STRATEGIES = ["background-only", "fast-first", "race", "union", "sorted", "index-only"]
FOLLOWING = ("sorted", "index-only")  # those whose foreground follows an index
LONGEST = 400  # leaves of an index that is to be completed

Leaf = list[tuple[bool, int]]  # entries: whether it passes, and the row


def up(number: int, by: int) -> int:
    return -(-number // by)


# What may be read.


def leaves(guaranteed: int, scan: int) -> int:
    """A scan's leaves at most: those that its last question let pass, and one more."""
    return 1 + max(1, up(guaranteed, parts(scan)))


def all_leaves(guaranteed: int, scans: int) -> int:
    return sum(leaves(guaranteed, scan) for scan in range(scans))


def lent(guaranteed: int, scan: int) -> int:
    """The keys at most that a scan has kept where a foreground beside it was let go on."""
    return max(0, up(guaranteed, 8 << scan) - 1)


def final(guaranteed: int, pages: int, scans: int = 1) -> int:
    """The reads of a final stage: the table's pages, or a list, whose scans each end with a leaf of which nobody is asked."""
    return max(pages, guaranteed - 1 + FULLEST * scans)


@lru_cache(None)
def fast_first(pages: int, scans: int) -> int:
    """The most that a fast-first retrieval may read, over every way in which its scans may end."""

    @lru_cache(None)
    def most(scan: int, listed: int | None, building: bool) -> int:
        guaranteed = pages if listed is None else min(pages, listed)
        if scan == scans or listed == 0:
            return pages if listed is None else listed
        borrowed = lent(guaranteed, scan) if building and listed is None else 0
        ways = [leaves(guaranteed, scan) + borrowed + most(scan + 1, listed, building)]  # it is dropped
        kept = lent(guaranteed, scan) if building else guaranteed - 1
        for keys in {FULLEST, max(kept, 0) + FULLEST}:  # it is completed: by a leaf of which nobody is asked, or behind others
            if listed is not None and listed <= SMALL:
                keys = min(keys, listed)  # a list of its size tells exactly what it has
            again = keys if building and scan + 1 < scans else 0
            before = min(borrowed, keys) if keys > FULLEST else 0
            ways.append(leaves(guaranteed, scan) + before + again + most(scan + 1, keys, building))
        if building:  # the foreground is stopped
            ways.append(borrowed + most(scan, listed, False))
        return max(ways)

    return most(0, None, True)


# Indexes, and retrievals over them.


class Index:
    """An index of these leaves, with an estimate that need not fit them."""

    exact, restricted = False, True

    def __init__(self, place: int, read: list[Leaf], estimate: int, covers: bool = False):
        self.name, self.columns = f"I{place}", [place]
        self.read, self.estimate, self.covers = read, estimate, covers

    def passes(self, key: bool) -> bool:
        return key

    def leaf(self, place: int | None):
        place = place or 0
        return self.read[place], place + 1 if place + 1 < len(self.read) else None

    def rows(self) -> set[int]:
        return {row for leaf in self.read for passes, row in leaf if passes}


class Wanting:
    """Which rows qualify."""

    def want(self, rows: set[int]) -> None:
        self.wanted, self.by_page = rows, defaultdict(list)
        for row in sorted(rows):
            self.by_page[row // PAGE].append(row)

    def is_wanted(self, number):
        return number in self.wanted

    def page_rows(self, page):
        return list(self.by_page[page])

    def note(self, kind, what):
        pass


class Competing(Wanting, Retrieval):
    pass


class Racing(Wanting, Race):
    pass


class Uniting(Wanting, Union):
    pass


def read_by(run: Competing | Racing | Uniting, steps: int, random: Random) -> int:
    """All that is read until the end, with so many background steps beside each foreground step, or where that is below 0 with
    some, and some when the background runs alone too."""
    while run.step() != "end":
        for _ in range(steps if steps >= 0 else random.randrange(4)):
            if run.control == "building" or steps < 0 and run.control == "background":
                if run.awaits():
                    run.give(run.take())
    return run.counts.pages + run.counts.leaves + run.counts.fetches


# What hurts.


def packed(rows: list[int]) -> list[Leaf]:
    return [[(True, row) for row in rows[at : at + FULLEST]] for at in range(0, len(rows), FULLEST)]


def late(keys: int, count: int, last: int, rows: list[int]) -> list[Leaf]:
    """So many leaves: so many keys, as late as they fit before the last leaf, and `last` more in that."""
    made, at = [], 0
    for place in range(count - 1):
        here = min(FULLEST, max(0, keys - at - FULLEST * (count - 2 - place)))
        made.append([(True, row) for row in rows[at : at + here]])
        at += here
    return made + [[(True, row) for row in rows[at : at + last]]]


def early(keys: int, count: int, rows: list[int]) -> list[Leaf]:
    """So many leaves or two more than keys need: so many keys, as early as they fit."""
    made = packed(rows[:keys])
    return made + [[] for _ in range(max(2, count - len(made)))]


# Each way makes the leaves of an index whose scan has a position and a guarantee.


def starve(random: Random, rows: list[int], guaranteed: int, scan: int) -> list[Leaf]:
    """No key up to where the scan is dropped; behind that, more than are guaranteed."""
    none = leaves(guaranteed, scan) + random.choice([2, 2, guaranteed])
    return [[] for _ in range(none)] + packed(rows[: guaranteed + FULLEST]) + [[]]


def lend(random: Random, rows: list[int], guaranteed: int, scan: int) -> list[Leaf]:
    """As many keys as a foreground may fetch, at once, and then none until the scan is dropped."""
    return early(lent(guaranteed, scan), leaves(guaranteed, scan) + 2, rows)


def outgrow(random: Random, rows: list[int], guaranteed: int, scan: int) -> list[Leaf]:
    """Dropped for its keys."""
    return late(guaranteed + 40, up(guaranteed, FULLEST) + 3, 1, rows)


def complete(random: Random, rows: list[int], guaranteed: int, scan: int) -> list[Leaf]:
    """As many leaves and keys as may be, the keys late."""
    count = max(2, min(leaves(guaranteed, scan), LONGEST))
    keys = max(0, min(guaranteed - 1, FULLEST * (count - 1), len(rows) - FULLEST))
    return late(keys, count, FULLEST, rows)


def complete_lent(random: Random, rows: list[int], guaranteed: int, scan: int) -> list[Leaf]:
    """As many leaves as may be, and the keys that a foreground may fetch, at once."""
    count = max(2, min(leaves(guaranteed, scan), LONGEST))
    keys = max(0, min(lent(guaranteed, scan), FULLEST * (count - 1), len(rows) - FULLEST))
    if keys > FULLEST * max(1, count - 2):
        return late(keys, count, FULLEST, rows)
    return early(keys, count, rows)[: count - 1] + packed(rows[keys : keys + FULLEST])


def stop_complete(random: Random, rows: list[int], guaranteed: int, scan: int) -> list[Leaf]:
    """The keys that a foreground may fetch at once, and then as many leaves and keys as may be, the keys late."""
    count = max(2, min(leaves(guaranteed, scan), LONGEST))
    first = min(lent(guaranteed, scan), FULLEST * (count - 1), max(0, len(rows) - FULLEST))
    begin = packed(rows[:first])
    rest = max(0, min(guaranteed - 1 - first, FULLEST * max(0, count - 1 - len(begin)), len(rows) - FULLEST - first))
    return begin + late(rest, max(1, count - len(begin)), FULLEST, rows[first:])


def single(random: Random, rows: list[int], guaranteed: int, scan: int) -> list[Leaf]:
    """One full leaf, of which nobody is asked."""
    return packed(rows[:FULLEST])


def unasked(random: Random, rows: list[int], guaranteed: int, scan: int) -> list[Leaf]:
    """No key but in the last leaf, of which nobody is asked."""
    return [[] for _ in range(max(1, leaves(guaranteed, scan) - 1))] + packed(rows[:FULLEST])


def anything(random: Random, rows: list[int], guaranteed: int, scan: int) -> list[Leaf]:
    left, made = list(rows), []
    for _ in range(random.randrange(1, 3 + len(rows) // PAGE // 4)):
        here = min(len(left), random.choice([0, 1, 8, 32, FULLEST]))
        made.append([(random.random() < 0.8, left.pop()) for _ in range(here)])
    return made


WAYS = [starve, lend, outgrow, complete, complete_lent, stop_complete, single, unasked, anything]
COMPLETED = (complete, complete_lent, stop_complete, single, unasked)


@dataclass(frozen=True)
class Case:
    """A retrieval that is to hurt: how each of its scans is to end, of the same rows or of others, how many background steps
    come beside a foreground step (below 0: some), and which part of the rows that all indexes have qualifies."""

    pages: int
    ways: tuple[Callable[..., list[Leaf]], ...]
    nested: bool
    steps: int
    part: float

    def words(self) -> str:
        names = " ".join(way.__name__ for way in self.ways)
        return f"{self.pages} pages, {names}, steps {self.steps}, {'the same' if self.nested else 'other'} rows, {self.part} of them"

    def changed(self, random: Random) -> Case:
        case, ways = self, list(self.ways)
        if random.random() < 0.7:
            ways[random.randrange(len(ways))] = random.choice(WAYS)
            case = replace(case, ways=tuple(ways))
        if random.random() < 0.3:
            case = replace(case, steps=random.choice([0, 0, 1, 2, -1]))
        if random.random() < 0.3:
            case = replace(case, pages=max(2, case.pages + random.choice([-2, -1, 1, 2])))
        return case

    def indexes(self, random: Random, guaranteed: int) -> list[Index]:
        """The planned order is kept, as estimates ascend; else they lie."""
        every, made = list(range(PAGE * self.pages)), []
        lowest = random.choice([21, 21, 256, 4096, 2**40])
        if not self.nested:
            random.shuffle(every)
        for scan, way in enumerate(self.ways):
            read = way(random, every, guaranteed, scan)
            if way in COMPLETED:
                guaranteed = min(guaranteed, sum(map(len, read)))
            made.append(Index(scan, read, lowest + scan))
        return made


def drawn(random: Random, strategy: str) -> Case:
    pages = int(math.exp(random.random() * math.log(200))) + 1
    if random.random() < 0.02:
        pages = random.choice([257, 513, 1025])
    scans = random.choice([1, 2, 3, 5, 8, 8, 8] if strategy in ("background-only", "fast-first", "union") else [2, 3, 7, 7])
    ways, at = random.random(), random.randrange(scans)
    if ways < 0.25:
        chosen = [random.choice(WAYS) for _ in range(scans)]
    elif ways < 0.45:
        chosen = [complete] + [starve] * (scans - 1)
    elif ways < 0.6:
        chosen = [random.choice([single, unasked])] * scans
    elif ways < 0.8:
        chosen = [lend] * at + [stop_complete] + [starve] * (scans - at - 1)
    else:
        chosen = [lend] * at + [complete_lent] + [random.choice([single, starve, complete]) for _ in range(scans - at - 1)]
    return Case(pages, tuple(chosen), random.random() < 0.8, random.choice([0, 0, 1, 2, -1]), random.choice([0, 0, 0, 0.05, 0.5, 1]))


def within(random: Random) -> Judge:
    """A judge for the guard to be around."""
    kind = random.random()
    if kind < 0.6:
        return JUDGES["patient"]
    if kind < 0.7:
        return JUDGES["threshold"]
    odds = random.choice([0.02, 0.1, 0.3])
    return lambda facts: random.choice(["drop", "stop", "end", "stop"]) if random.random() < odds else "go on"


def tried(random: Random, strategy: str, case: Case, judge: Judge) -> tuple[int, int]:
    """What a case reads, and what it may read."""
    pages, scans, counts = case.pages, len(case.ways), Counts()
    followed, guaranteed = [], pages
    if strategy in FOLLOWING:
        followed = list(range(PAGE * pages))
        if random.random() < 0.5:
            random.shuffle(followed)
        followed = followed[: random.choice([0, 1, pages, 4 * pages, 32 * pages])]
        estimate = random.choice([len(followed), 16, 16 * pages, 256])
        guaranteed = estimate if strategy == "sorted" else up(estimate, 16)
    indexes = case.indexes(random, guaranteed)
    listed = [index.rows() for index in indexes]
    rows = set.union(*listed) if strategy == "union" else set.intersection(*listed)
    wanted = {row for row in sorted(rows) if random.random() < case.part}
    if strategy == "race":
        run, most = Racing(indexes, pages, counts), all_leaves(pages, scans) + final(pages, pages)
    elif strategy == "union":
        run, most = Uniting(indexes, pages, counts), all_leaves(pages, scans) + final(pages, pages, scans)
    elif strategy in FOLLOWING:
        read = [[(True, row) for row in followed[at : at + 32]] for at in range(0, len(followed), 32)] + [[]]
        indexes.append(Index(9, read, estimate, covers=strategy == "index-only"))
        wanted &= set(followed)
        run = Competing(indexes, pages, [9] if strategy == "sorted" else [], random.random() < 0.5, counts)
        most = all_leaves(guaranteed, scans) + len(read)
        most += len(followed) if strategy == "sorted" else max(final(guaranteed, pages), FULLEST)
    else:
        run = Competing(indexes, pages, [], strategy == "fast-first", counts)
        most = fast_first(pages, scans) if strategy == "fast-first" else all_leaves(pages, scans) + final(pages, pages)
    run.want(wanted)
    run.rule = ruled_by(judge, run)
    return read_by(run, case.steps, random), most


# The search.


@dataclass(frozen=True)
class Found:
    reads: int
    most: int
    case: Case

    @property
    def ratio(self) -> float:
        return self.reads / self.most

    def words(self) -> str:
        return f"{self.reads:,} of {self.most:,} ({self.ratio:.3f}): {self.case.words()}"


def search(strategy: str, seed: int, tries: int, judge_of: Callable[[Random], Judge]) -> Iterator[Found]:
    """So many retrievals. Of those that came nearest to what they may read, by the size of the table, some are changed."""
    random, best, pool = Random(f"{seed} {strategy}"), defaultdict(float), []
    for _ in range(tries):
        case = random.choice(pool).changed(random) if pool and random.random() < 0.4 else drawn(random, strategy)
        found = Found(*tried(random, strategy, case, judge_of(random)), case)
        size = case.pages.bit_length() // 2
        if found.ratio > best[size]:
            best[size] = found.ratio
            pool = (pool + [case])[-40:]
        yield found


def main() -> int:
    parser = argparse.ArgumentParser(description=__doc__, formatter_class=argparse.RawDescriptionHelpFormatter)
    parser.add_argument("--seed", type=int, default=1)
    parser.add_argument("--tries", type=int, default=200, help="retrievals of each strategy (200)")
    parser.add_argument("--strategies", default=",".join(STRATEGIES), help="as race,union (all six)")
    parser.add_argument("--forget", action="store_true", help="the guard forgets what a scan has sunk")
    parser.add_argument("--alone", choices=JUDGES, metavar="JUDGE", help=f"a judge without a guard: {', '.join(JUDGES)}")
    words = parser.parse_args()
    strategies = words.strategies.split(",")
    for name in strategies:
        if name not in STRATEGIES:
            parser.error(f"there is no strategy {name}")
    judge_of = lambda random: JUDGES[words.alone] if words.alone else bounded(within(random), leaves=not words.forget)
    count = over = 0
    for strategy in strategies:
        nearest, dearest, above = None, None, 0
        for found in search(strategy, words.seed, words.tries, judge_of):
            count += 1
            if nearest is None or found.ratio > nearest.ratio:
                nearest = found
            if dearest is None or found.reads / found.case.pages > dearest.reads / dearest.case.pages:
                dearest = found
            if found.reads > found.most:
                above += 1
        over += above
        print(f"{strategy}: {words.tries:,} tried, {above:,} of them above what they may read", flush=True)
        if nearest is not None and dearest is not None:
            print(f"  nearest to it, or above most: {nearest.words()}")
            print(f"  most reads for a page: {dearest.words()}", flush=True)
    print(f"{count} retrievals tried, {over} above the bound")
    return 1 if over else 0


if __name__ == "__main__":
    end(main)
