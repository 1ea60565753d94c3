#!/usr/bin/env python3
"""Writes what the program `try_retrievals` is to print of joins, or with --lines what it is to read of them, by the rules in words:
all combinations of rows, filtered by the restriction, counted, and mixed in their whole order. It shares no code with the program."""

import argparse
import itertools


def second(table, row):
    return None if (row + table) % 5 == 4 else (row * 2 + table) % 3


def third(table, row):
    return None if row % 7 == 3 else (row + table * 2) % 4


def table_rows(table, rows):
    return [(row, second(table, row), third(table, row)) for row in range(max(rows - table, 0))]


# A comparison with NULL is Unknown, here None.
def compare(a, op, b):
    if a is None or b is None:
        return None
    return {
        "=": a == b,
        "<>": a != b,
        "<": a < b,
        "<=": a <= b,
        ">": a > b,
        ">=": a >= b,
    }[op]


def in_list(a, values):
    return None if a is None else a in values


def some(truths):
    truths = list(truths)
    if True in truths:
        return True
    return None if None in truths else False


# Each restriction: how many FROM items it speaks of, and its groups, each with tests of one row per item: as the program reads
# them, and as they are made here.
FORMS = [
    (1, "", []),
    (1, "0.a between 1 4", [[lambda r: None if r[0][0] is None else 1 <= r[0][0] <= 4]]),
    (1, "0.b in 2 0/0.c null&0.a <> 2/false", [
        [lambda r: in_list(r[0][1], (2, 0)), lambda r: r[0][2] is None],
        [lambda r: compare(r[0][0], "<>", 2), lambda r: False],
    ]),
    (2, "0.a = 1.a", [[lambda r: compare(r[0][0], "=", r[1][0])]]),
    (2, "1.b = 0.b&0.c <> 1.c/1.c null", [
        [lambda r: compare(r[1][1], "=", r[0][1])],
        [lambda r: compare(r[0][2], "<>", r[1][2]), lambda r: r[1][2] is None],
    ]),
    (2, "0.b = 1/1.c = 2", [[lambda r: compare(r[0][1], "=", 1), lambda r: compare(r[1][2], "=", 2)]]),
    (2, "0.a >= 2&1.a <= 0.a&0.b null/0.c = 1.c/1.a < 2", [
        [lambda r: compare(r[0][0], ">=", 2)],
        [lambda r: compare(r[1][0], "<=", r[0][0])],
        [lambda r: r[0][1] is None, lambda r: compare(r[0][2], "=", r[1][2]), lambda r: compare(r[1][0], "<", 2)],
    ]),
    (2, "0.b null&1.c <> 0.c", [[lambda r: r[0][1] is None], [lambda r: compare(r[1][2], "<>", r[0][2])]]),
    (3, "2.b = 0.b&1.a = 2.a", [[lambda r: compare(r[2][1], "=", r[0][1])], [lambda r: compare(r[1][0], "=", r[2][0])]]),
    (3, "0.c < 2.c/1.b null&0.a <= 3&2.a > 1.a", [
        [lambda r: compare(r[0][2], "<", r[2][2]), lambda r: r[1][1] is None],
        [lambda r: compare(r[0][0], "<=", 3)],
        [lambda r: compare(r[2][0], ">", r[1][0])],
    ]),
    (4, "3.c = 0.c&1.b = 2.b/3.a > 1.a&0.a <= 2", [
        [lambda r: compare(r[3][2], "=", r[0][2])],
        [lambda r: compare(r[1][1], "=", r[2][1]), lambda r: compare(r[3][0], ">", r[1][0])],
        [lambda r: compare(r[0][0], "<=", 2)],
    ]),
    (4, "1.a = 0.a&2.a = 1.a&3.a = 2.a", [
        [lambda r: compare(r[1][0], "=", r[0][0])],
        [lambda r: compare(r[2][0], "=", r[1][0])],
        [lambda r: compare(r[3][0], "=", r[2][0])],
    ]),
]  # fmt: skip

FROM = [[0], [1], [0, 1], [1, 0], [1, 1], [2, 3], [0, 1, 2], [3, 0, 3], [0, 1, 2, 3], [3, 2, 1, 1]]

JUDGES = ["threshold", "contrary", "patient"]


def orders(last):
    return [[], [(0, 0)], [(0, 1), (0, 2)], [(0, 2)], [(last, 0)], [(last, 2), (0, 1)], [(0, 1), (last, 1)]]


def columns_text(columns):
    return " ".join(f"{place}.{'abc'[column]}" for place, column in columns)


def line_of(rows, tables, form, number, tell, steps=None):
    """The line of a join as the program reads it: the second column of each item and the third of the last are returned."""
    last = len(tables) - 1
    returned = [(place, 1) for place in range(len(tables))] + [(last, 2)]
    steps = (form % 4 + number % 4) % 4 if steps is None else steps
    fields = [rows, " ".join(map(str, tables)), FORMS[form][1], columns_text(orders(last)[number]), columns_text(returned)]
    return ";".join(map(str, [*fields, JUDGES[number % 3], steps, "total" if form % 2 else "soon", tell]))


# NULL comes first.
def key(values):
    return [(-1, 0) if value is None else (0, value) for value in values]


def mix(offers):
    total = 0
    for order, returned in offers:
        for value in order + returned:
            total = (total * 31 + (1 if value is None else value + 2) + 1) % 1000003
    return total


def offers_of(tables, form, order, rows):
    groups = FORMS[form][2]
    found = []
    last = len(tables) - 1
    for choice in itertools.product(*(table_rows(table, rows) for table in tables)):
        if all(some(test(choice) for test in group) is True for group in groups):
            found.append(
                (
                    [choice[p][c] for p, c in order],
                    [choice[p][1] for p in range(len(tables))] + [choice[last][2]],
                )
            )
    return sorted(found, key=lambda offer: (key(offer[0]), key(offer[1])))


def told(tables, form, order, rows):
    offers = offers_of(tables, form, order, rows)
    return f"{len(offers)} in order, mix {mix(offers)}"


def lines():
    """Each line that the program reads, and what it is to answer."""
    for tables in FROM:
        for form, (items, _, _) in enumerate(FORMS):
            if items <= len(tables):
                for number, order in enumerate(orders(len(tables) - 1)):
                    yield line_of(6, tables, form, number, "mix"), told(tables, form, order, 6)
    for size in (1, 2, 3):
        rows = size * 40
        # The outer table is read page by page, 32 rows each. Each outer row's inner retrieval reads the leaf with its key at
        # once, from the leaf before where a leaf of 32 entries begins with the key, and fetches the one record, if any.
        pages = (rows + 31) // 32
        matches = rows - 1
        leaves = rows + (matches - 1) // 32
        yield line_of(rows, [0, 1], 3, 0, "reads", 0), f"{told([0, 1], 3, [], rows)}, pages {pages} leaves {leaves} fetches {matches}"
    yield "three;0 1 2;0.a = 1.a&1.b = 2.a&2.a >= 11;;0.a 2.a;threshold;0;soon;rows", "; ".join(three())


# A join of three tables without an index: each scan of a table reads each of its pages, the second table's once for each row
# of the first, and the third's once for each pair of rows that is chosen.
def three():
    x = [1, 2]
    y = [(1, 10), (1, 11), (3, 12)]
    z = [10, 11, 11]
    pairs = [(k, m) for k in x for (l, m) in y if k == l]
    for k, m in pairs:
        for n in z:
            if m == n and n >= 11:
                yield f"row {k}, {n}"
    yield "end"
    yield f"trace table final-table done pages {1 + len(x) + len(pairs)} leaves 0 fetches 0"


def write(asked_for_lines=False):
    for line, answer in lines():
        print(line if asked_for_lines else f"{line}: {answer}")


if __name__ == "__main__":
    parser = argparse.ArgumentParser(description=__doc__, formatter_class=argparse.RawDescriptionHelpFormatter)
    parser.add_argument("--lines", action="store_true", help="the lines that the program reads")
    write(parser.parse_args().lines)
