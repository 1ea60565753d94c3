#!/usr/bin/env python3
"""Writes what the program `try_stores` is to print of scans: the rows that each one gives, by the rules in words.

A table has the rows 0 to 79. The first value of row n is NULL where 11 divides n, else 37 n modulo 50; the
second is n modulo 5. Then rows 3, 40 and 79 go, and row 10 gets the values of row 12. An index has the
second column and then the first; NULL comes before the numbers. The rows wanted have a first value of at
least 20 and a second value of at least 2. A scan by pages gives them by number; one along the index by
second value, first value and number. Rows 4, 32 and 62 may be counted as delivered, and a list may say
that only some rows are wanted."""

import argparse

DELIVERED = {4, 32, 62}
LISTED = {4, 9, 17, 32, 62, 74}


def values(n):
    return (None if n % 11 == 0 else 37 * n % 50, n % 5)


def tables():
    before = {n: values(n) for n in range(80)}
    after = {n: v for n, v in before.items() if n not in (3, 40, 79)}
    after[10] = values(12)
    return before, after


def wanted(v):
    return v[0] is not None and v[0] >= 20 and v[1] >= 2


def place(item):
    n, (first, second) = item
    return (second, first is not None, first or 0, n)


def line(name, rows):
    return name + ":" + "".join(f" {n}({'NULL' if a is None else a},{b})" for n, (a, b) in rows)


def write():
    before, after = tables()
    for when, table in (("before", before), ("after", after), ("swept", after)):
        for delivered in (False, True):
            for listed in (False, True):
                rows = [
                    (n, v)
                    for n, v in sorted(table.items())
                    if wanted(v) and not (delivered and n in DELIVERED) and not (listed and n not in LISTED)
                ]
                name = when + (", delivered" if delivered else "") + (", listed" if listed else "")
                print(line(name + ", by pages", rows))
                print(line(name + ", by fetches", sorted(rows, key=place)))
                print(line(name + ", by keys", sorted(rows, key=place)))
    for number in range(1, 61):
        print(f"refused {number}: 1 call, the same lists")


if __name__ == "__main__":
    argparse.ArgumentParser(description=__doc__, formatter_class=argparse.RawDescriptionHelpFormatter).parse_args()
    write()
