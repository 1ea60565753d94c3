#!/usr/bin/env python3
"""Queries over skewed columns, of a seed: a table whose estimates are wrong in the usual ways, and ranges over it.

The table T has a column Z whose values are as frequent as Zipf's law has it (the r-th most frequent of 1,000 values in
proportion to 1 / r, scattered over 0 to 999), a column K that lies within 10 of Z, a column U that is uniform over 0 to
999, an index over each of the three, and a column P in no index, so that no index alone answers a query. A query returns
all columns of the rows in ranges over one to three of the columns. Half of the queries have a row to be found: each range
lies around the values of one and the same row; in the other half each range lies around the value of a row of its own. A
range is 1 to 500 values wide, each factor of two being as likely. The queries are for the first rows and for total time in
turn.

Written as a script: one phase that loads the table by one commit, and one in which a read-only transaction opens each query,
fetches all of its rows and the end (or the first of them, with --first), shows its trace and closes it."""
from __future__ import annotations

import argparse
import math
import sys
from dataclasses import dataclass
from itertools import accumulate
from bisect import bisect_right
from random import Random
from typing import Iterator

if not __package__:  # run as a file: the other folders are found from tools/
    sys.path[0] += "/.."

from ending import end

INDEXES = {"IZ": 0, "IK": 1, "IU": 2}  # each index with its column, in the order in which they are made
COLUMNS = "ZKU"
VALUES, NEAR, WIDEST = 1000, 10, 500
MOST_LINES = 200_000


@dataclass(frozen=True)
class Query:
    """Ranges by column, and whether the first rows are wanted soon."""

    ranges: dict[int, tuple[int, int]]
    soon: bool

    def takes(self, row: tuple[int, ...]) -> bool:
        return all(low <= row[column] <= high for column, (low, high) in self.ranges.items())

    def text(self) -> str:
        where = " AND ".join(f"{COLUMNS[column]} BETWEEN {low} AND {high}" for column, (low, high) in self.ranges.items())
        return f"SELECT * FROM T WHERE {where} OPTIMIZE FOR {'FAST FIRST' if self.soon else 'TOTAL TIME'}"


@dataclass(frozen=True)
class Workload:
    """Rows (their numbers are their places) and queries."""

    rows: list[tuple[int, ...]]
    queries: list[Query]


def workload(seed: int, rows: int, queries: int) -> Workload:
    """The workload of a seed. Only `random()` is drawn, which is the same in all versions of Python."""
    random = Random(seed)
    table = list(drawn_rows(random, rows))
    return Workload(table, [drawn_query(random, table, number) for number in range(queries)])


def drawn_rows(random: Random, rows: int) -> Iterator[tuple[int, ...]]:
    heights = list(accumulate(1 / (rank + 1) for rank in range(VALUES)))
    for _ in range(rows):
        rank = bisect_right(heights, random.random() * heights[-1])
        z = min(rank, VALUES - 1) * 617 % VALUES
        k = z + below(random, 2 * NEAR + 1) - NEAR
        yield z, k, below(random, VALUES), below(random, 1_000_000)


def drawn_query(random: Random, table: list[tuple[int, ...]], number: int) -> Query:
    count = 1 + below(random, len(COLUMNS))
    # the columns with the least of three numbers that are drawn
    lots = [random.random() for _ in COLUMNS]
    columns = sorted(sorted(range(len(COLUMNS)), key=lots.__getitem__)[:count])
    together, one = random.random() < 0.5, table[below(random, len(table))]
    ranges = {}
    for column in columns:
        around = one if together else table[below(random, len(table))]
        width = int(math.exp(random.random() * math.log(WIDEST + 1)))
        low = around[column] - below(random, width)
        ranges[column] = (low, low + width - 1)
    return Query(ranges, number % 2 == 0)


def below(random: Random, most: int) -> int:
    return int(random.random() * most)


def script(work: Workload, first: int | None = None) -> Iterator[str]:
    """The lines of a script that loads the table and fetches each query's rows, or its first ones."""
    yield "1 CREATE TABLE T (Z BIGINT, K BIGINT, U BIGINT, P BIGINT)"
    for index, column in INDEXES.items():
        yield f"1 CREATE INDEX {index} ON T ({COLUMNS[column]})"
    yield "1 BEGIN"
    for row in work.rows:
        yield f"1 INSERT INTO T VALUES ({', '.join(map(str, row))})"
    yield "1 COMMIT"
    yield "--"
    yield "1 BEGIN READ ONLY"
    for query in work.queries:
        found = sum(map(query.takes, work.rows)) + 1
        yield f"1 OPEN C {query.text()}"
        yield from ["1 FETCH C"] * (found if first is None else min(found, first))
        yield "1 SHOW C"
        yield "1 CLOSE C"
    yield "1 COMMIT"


def main() -> int:
    parser = argparse.ArgumentParser(description=__doc__.split("\n\n")[0], epilog="\n\n".join(__doc__.split("\n\n")[1:]),
                                     formatter_class=argparse.RawDescriptionHelpFormatter)
    parser.add_argument("seed", type=int)
    parser.add_argument("--rows", type=int, default=4000, help="rows of the table (4000)")
    parser.add_argument("--queries", type=int, default=200, help="queries (200)")
    parser.add_argument("--first", type=int, help="fetch at most so many rows of a query (all, and the end)")
    words = parser.parse_args()
    if words.rows < 1 or words.queries < 0 or (words.first is not None and words.first < 0):
        parser.error("a table has a row, and counts are not negative")
    lines = list(script(workload(words.seed, words.rows, words.queries), words.first))
    if len(lines) > MOST_LINES:
        print(f"skewed_queries.py: {len(lines)} lines, and a script has at most {MOST_LINES}: fewer --queries, or --first", file=sys.stderr)
        return 1
    print("\n".join(lines))
    return 0


if __name__ == "__main__":
    end(main)
