#!/usr/bin/env python3
"""Counts what judges and static paths read on the skewed queries of some seeds (skewed_queries.py): in all, and until the
n-th row.

The static paths, the **best** of them in hindsight and the one that the **planner** takes are those of fixed_paths.py. The
first rule of the strategy, a short index that is scanned at once, holds for the judges and not for static paths.

The reads of judges are those of the slow model, which gives the program's traces. --check compares them with the traces in a
transcript that the program wrote of the script of one seed."""
from __future__ import annotations

import argparse
import sys
from bisect import bisect_left, bisect_right
from dataclasses import dataclass
from itertools import combinations
from typing import Callable, Iterable, Iterator, NamedTuple

if not __package__:  # run as a file: the other folders are found from tools/
    sys.path[0] += "/.."

from ending import end
from judges import judge_pictures
from judges.fixed_paths import FixedPaths, Reads
from judges.guarded_judge import bounded, most_reads
from judges.skewed_queries import INDEXES, Query, Workload, workload
from model.database import place
from model.ranges import range_for
from model.retrieval import LEAF, PAGE, Counts, Retrieval, project
from model.trees import Node, Tree


class Facts(NamedTuple):
    """What a judge is told, as `Facts` of rv_judge has it; `building` says that the foreground runs too."""

    building: bool
    scan: int
    scanned: int
    kept: int
    estimate: int
    spent: int
    projected: int
    guaranteed: int
    delivered: int


Judge = Callable[[Facts], str]  # "go on", "drop" the scan, "stop" the foreground, "end" the background


# The judges: two of the supplied ones, and those of crates/skew_judges; of its guard, that around AllRows.


def threshold(facts: Facts) -> str:
    return "drop" if 20 * facts.projected >= 19 * facts.guaranteed else "go on"


def patient(facts: Facts) -> str:
    return "go on"


def is_dear(facts: Facts) -> bool:
    likely = facts.estimate + facts.estimate // (4 if facts.estimate < 256 else 2)
    cost = project(likely, facts.scanned, facts.kept)
    return 4 * cost >= 7 * facts.guaranteed if facts.scan == 0 else cost >= facts.guaranteed


def is_dropped(facts: Facts) -> bool:
    if facts.estimate in (256, 4096, 65536):
        granted = 1 + facts.guaranteed // 64
    else:
        granted = 0 if facts.building else 1
    return facts.spent > granted and is_dear(facts)


def all_rows(facts: Facts) -> str:
    if is_dropped(facts):
        return "drop"
    return "stop" if facts.building else "go on"


def first_rows(facts: Facts) -> str:
    if not facts.building:
        return "drop" if is_dropped(facts) else "go on"
    if is_dear(facts):
        return "drop"
    return "stop" if facts.delivered > 0 or facts.kept > 48 or facts.scan > 0 else "go on"


def sentence(facts: Facts, kept: tuple[int, ...]) -> str:
    """Scans of these positions are completed alone."""
    if facts.scan not in kept:
        return "drop"
    return "stop" if facts.building else "go on"


JUDGES: dict[str, Judge] = {
    "threshold": threshold,
    "patient": patient,
    "AllRows": all_rows,
    "FirstRows": first_rows,
    "Bounded": bounded(all_rows),
}


# Static paths, and judges.


class Ranged:
    """An index at a query's range, as a retrieval sees it: each leaf that it reads with the entries there, read once."""

    restricted, covers = True, False

    def __init__(self, name: str, tree: Tree, column: int, span: tuple[int, int]):
        bounds = range_for([[("between", column, *span)]], [column])
        self.name, self.columns = name, [column]
        self.estimate, self.exact = tree.estimate(bounds)
        low, high = (place(span[0]),), (place(span[1]),)
        leaves = tree.leaves()
        # the first reading is of the last leaf that begins before the range, found by halves, or of the first leaf
        at = max(0, bisect_left(leaves, low, 1, key=lambda leaf: leaf[0][0]) - 1)
        self.read = [[entry for entry in leaves[at][1] if low <= entry[0] <= high]]
        while at + 1 < len(leaves) and leaves[at + 1][0][0] <= high:
            at += 1
            self.read.append([entry for entry in leaves[at][1] if low <= entry[0] <= high])

    def passes(self, key) -> bool:
        return True

    def leaf(self, at: int | None):
        at = at or 0
        return self.read[at], at + 1 if at + 1 < len(self.read) else None


class Asked(FixedPaths):
    """A query with what its paths and judges need of the table: its indexes, and the rows wanted."""

    def __init__(self, query: Query, table: "Table"):
        self.query = query
        indexes = [Ranged(name, table.trees[name], column, query.ranges[column])
                   for name, column in INDEXES.items() if column in query.ranges]
        least = min(indexes, key=lambda index: sum(map(len, index.read)))
        wanted = {number for entries in least.read for _, number in entries if query.takes(table.rows[number])}
        super().__init__(len(table.rows), table.pages, indexes, wanted)

    def judged(self, judge: Judge, steps: int) -> Reads:
        return Judged(self, judge, steps).reads()

    def by_verdicts(self) -> int:
        """The reads in all by the verdicts that are best in hindsight, where each scan is dropped at its first question or
        completed, and the foreground is stopped."""
        scans = range(len(self.indexes))
        chosen = [kept for size in range(len(scans) + 1) for kept in combinations(scans, size)]
        return min(self.judged(lambda facts: sentence(facts, kept), 0).whole for kept in chosen)


class Judged(Retrieval):
    """A retrieval of a query under a judge, with so many background steps beside each foreground step."""

    def __init__(self, asked: Asked, judge: Judge, steps: int):
        self.asked, self.judge, self.steps, self.position = asked, judge, steps, -1
        super().__init__(asked.indexes, asked.pages, [], asked.query.soon, Counts())

    def begin(self):
        super().begin()
        self.position += 1
        self.pieces = self.number

    def is_wanted(self, number):
        return number in self.asked.wanted

    def page_rows(self, page):
        return list(self.asked.by_page.get(page, ()))

    def note(self, kind, what):
        pass

    def rule(self, projected, guaranteed):
        scan, spent = self.scan, self.number - self.pieces
        return self.judge(Facts(self.control == "building", self.position, scan.scanned, scan.kept, scan.index.estimate, spent,
                                projected, guaranteed, len(self.delivered)))

    def read(self) -> int:
        return self.counts.pages + self.counts.leaves + self.counts.fetches

    def reads(self) -> Reads:
        """Fetches all rows."""
        rows = []
        while True:
            found = self.step()
            if found != "end" and self.control == "building":
                for _ in range(self.steps):
                    if self.control == "building":
                        self.background()
            if found == "end":
                return Reads(self.read(), rows)
            if found is not None:
                rows.append(self.read())

    def trace(self) -> str:
        counts = self.counts
        return " ".join(["trace", self.strategy] + self.events + [f"pages {counts.pages} leaves {counts.leaves} fetches {counts.fetches}"])


def grown(entries) -> Tree:
    """The tree that `Tree.put` makes of these entries, one after another. Its nodes are changed in place, as nobody else
    has them."""
    root = Node(0, [], [])
    for entry in entries:
        split = put(root, entry)
        if split is not None:
            node, low = split
            root = Node(root.level + 1, [low, low], [root, node])
    return Tree(root)


def put(node: Node, entry) -> tuple[Node, tuple] | None:
    """Puts an entry into a node; the node that is split off, with its low entry, where there is one."""
    if node.level == 0:
        node.lows.insert(bisect_right(node.lows, entry), entry)
    else:
        at = node.at(entry)
        split = put(node.children[at], entry)
        if split is not None:
            node.children.insert(at + 1, split[0])
            node.lows.insert(at + 1, split[1])
    if len(node.lows) <= LEAF:
        return None
    rest = Node(node.level, node.lows[16:], node.children[16:]), node.lows[16]
    node.lows, node.children = node.lows[:16], node.children[:16]
    return rest


class Table:
    """The rows of a workload with their index trees."""

    def __init__(self, work: Workload):
        self.rows, self.queries = work.rows, work.queries
        self.pages = -(-len(work.rows) // PAGE)
        self.trees = {name: grown(((place(row[column]),), number) for number, row in enumerate(work.rows))
                      for name, column in INDEXES.items()}

    def asked(self) -> Iterator[Asked]:
        return (Asked(query, self) for query in self.queries)


# What is told.


@dataclass(frozen=True)
class Told:
    """Of one query: whether it is for the first rows, how many rows it has, and the reads of each contender."""

    soon: bool
    rows: int
    reads: dict[str, Reads]
    soonest: int  # reads until the first row by the static path that has it first
    pages: int  # of its table
    most: float  # what it may read under a guarded judge

    def tables(self, name: str) -> float:
        """The reads in all of a contender, by the table's pages."""
        return self.reads[name].whole / self.pages


def told_of(seed: int, rows: int, queries: int, steps: int) -> list[Told]:
    table, told = Table(workload(seed, rows, queries)), []
    for asked in table.asked():
        reads = {"best": asked.reads[asked.best], "planner": asked.reads[asked.planned]}
        for name, judge in JUDGES.items():
            reads[name] = asked.judged(judge, steps)
        soonest = min(reads.until(1) for reads in asked.reads.values())
        strategy = "fast-first" if asked.query.soon else "background-only"
        most = most_reads(strategy, asked.pages, len(asked.indexes))
        told.append(Told(asked.query.soon, len(asked.wanted), reads, soonest, asked.pages, most))
    return told


def whole(told: list[Told], name: str) -> int:
    return sum(query.reads[name].whole for query in told)


def until(told: list[Told], name: str, number: int) -> int:
    return sum(query.reads[name].until(number) for query in told)


def with_first(told: list[Told]) -> list[Told]:
    """The queries for the first rows that have a row."""
    return [query for query in told if query.soon and query.rows]


def table(title: str, columns: list[str], rows: Iterable[list[str]]) -> Iterator[str]:
    yield from (title, "", "| " + " | ".join(columns) + " |", "|" + "---|" * len(columns))
    yield from ("| " + " | ".join(cells) + " |" for cells in rows)


def tables(runs: dict[tuple[int, int], list[Told]], steps: int) -> Iterator[str]:
    beside, every = ["planner", *JUDGES], ["best", *JUDGES]
    runs_named = [(f"{rows:,}, {seed}", told) for (rows, seed), told in runs.items()]

    def in_all(name: str, told: list[Told]) -> list[str]:
        return [name, f"{whole(told, 'best'):,}"] + [f"{whole(told, it) / whole(told, 'best'):.2f}" for it in beside]

    def until_first(name: str, some: list[Told]) -> list[str]:
        planner = until(some, "planner", 1)
        return [name, str(len(some)), f"{planner:,}"] + [f"{until(some, it, 1) / planner:.2f}" for it in every]

    def with_soonest(name: str, some: list[Told]) -> list[str]:
        return [*until_first(name, some), f"{sum(query.soonest for query in some) / until(some, 'planner', 1):.2f}"]

    def all_of_first(name: str, some: list[Told]) -> list[str]:
        return [name] + [f"{whole(some, it) / whole(some, 'best'):.2f}" for it in beside]

    soon = [(name, [query for query in told if query.soon]) for name, told in runs_named]
    title = f"Reads in all, against the best path (--steps {steps}):"
    yield from table(title, ["Rows, seed", "best, reads", *beside], (in_all(*run) for run in runs_named))
    yield ""
    title = "Reads until the first row, over the queries for the first rows that have one, against the planner's:"
    with_rows = ((name, with_first(told)) for name, told in runs_named)
    yield from table(title, ["Rows, seed", "queries", "planner, reads", *every, "soonest path"], (with_soonest(*run) for run in with_rows))
    yield ""
    title = "Reads until the first row or, where there is none, the end, over all queries for the first rows, against the planner's:"
    yield from table(title, ["Rows, seed", "queries", "planner, reads", *every], (until_first(*run) for run in soon))
    yield ""
    title = "Reads in all of the queries for the first rows, against the best path:"
    yield from table(title, ["Rows, seed", *beside], (all_of_first(*run) for run in soon))
    yield ""
    yield from dearest(runs_named)


def dearest(runs: list[tuple[str, list[Told]]]) -> Iterator[str]:
    names = ["best", "planner", *JUDGES]
    every = [query for _, told in runs for query in told]
    worst = [[name] + [f"{max(query.tables(it) for query in told):.2f}" for it in names] for name, told in [*runs, ("all", every)]]
    over = [f"{sum(query.reads[it].whole > query.most for query in every):,}" for it in names]
    title = "Reads of the dearest query, against its table's pages, and the queries that read more than a guarded judge's may:"
    yield from table(title, ["Rows, seed", *names], [*worst, [f"above the bound, of {len(every):,}", *over]])


def verdicts(seed: int, rows: int, queries: int) -> float:
    """The reads in all by the best verdicts in hindsight, against the best path."""
    asked = list(Table(workload(seed, rows, queries)).asked())
    return sum(a.by_verdicts() for a in asked) / sum(a.reads[a.best].whole for a in asked)


def differences(seed: int, rows: int, queries: int, steps: int, judge: str, transcript: str) -> list[str]:
    """Where the traces of the program's transcript of a seed are not those of the model under the same judge."""
    shown = [line[2:] for line in transcript.splitlines() if line.startswith("= trace ")]
    found = []
    for number, asked in enumerate(Table(workload(seed, rows, queries)).asked()):
        run = Judged(asked, JUDGES[judge], steps)
        run.reads()
        if number >= len(shown) or shown[number] != run.trace():
            found.append(f"query {number}: {asked.query.text()}\n  model   {run.trace()}\n  program {shown[number] if number < len(shown) else 'none'}")
    return found


def numbers(text: str) -> list[int]:
    """1,2,5-7 as a list."""
    parts = [part.split("-") for part in text.split(",")]
    return [number for part in parts for number in range(int(part[0]), int(part[-1]) + 1)]


def main() -> int:
    parser = argparse.ArgumentParser(description=__doc__.split("\n\n")[0], epilog="\n\n".join(__doc__.split("\n\n")[1:]),
                                     formatter_class=argparse.RawDescriptionHelpFormatter)
    parser.add_argument("--seeds", type=numbers, default=[1], help="as 1,3-5 (1)")
    parser.add_argument("--rows", type=numbers, default=[4000], help="sizes of the table, as 4000,20000 (4000)")
    parser.add_argument("--queries", type=int, default=200, help="queries of a seed (200)")
    parser.add_argument("--steps", type=numbers, default=[0], help="background steps beside each foreground step, as 0,1 (0)")
    parser.add_argument("--verdicts", action="store_true", help="tell the reads by the best verdicts in hindsight, and no more")
    parser.add_argument("--svg", metavar="FOLDER", help="draw the pictures of bench/judges/README.md into this folder")
    parser.add_argument("--check", metavar="TRANSCRIPT", help="compare with the program's transcript of the first seed and size")
    parser.add_argument("--judge", choices=JUDGES, default="threshold", help="with --check: the judge that ruled (threshold)")
    words = parser.parse_args()
    if words.check:
        with open(words.check, encoding="utf-8") as file:
            found = differences(words.seeds[0], words.rows[0], words.queries, words.steps[0], words.judge, file.read())
        print("\n".join(found + [f"{words.queries - len(found)} of {words.queries} traces are equal"]))
        return 1 if found else 0
    if words.verdicts:
        for rows in words.rows:
            for seed in words.seeds:
                print(f"{rows:,}, {seed}: {verdicts(seed, rows, words.queries):.2f} times the best path")
        return 0
    runs = {steps: {(rows, seed): told_of(seed, rows, words.queries, steps) for rows in words.rows for seed in words.seeds} for steps in words.steps}
    print("\n\n".join("\n".join(tables(of, steps)) for steps, of in runs.items()))
    if words.svg:
        judge_pictures.draw(words.svg, runs)
    return 0


if __name__ == "__main__":
    end(main)
