#!/usr/bin/env python3
"""Writes what the program `try_stores` is to print of two stores beside each other, by the rules in words.

Two tables have rows of two values. A hundred commits change each table in 64 steps; step k is of one of the rows
16 k to 16 k + 15. A generator says of which, and whether the row is taken away (two of five) or given values. Two
indexes are over table 0 (the first column; the second and the first), one over table 1 (both columns), and one more
over its first column comes after fifty commits, with the rows that are there.

After each commit its snapshot is compared, after each ten all snapshots that are kept, twice: before and after those
up to the third last commit are let go. A snapshot's comparison reads all rows of the tables, and of each index all
entries, those from the middle one on, those with a first value from 50 to 99 and those with a first value of 7.

A leaf of the paged store has up to 32 entries, a node above up to 32 children, each with a low entry. What would be
33 becomes the first 16 and the last 17; a root that is split becomes the parent of its halves. An entry belongs to
the last child that does not begin above it. An entry that is taken out leaves its leaf, even an empty one. A commit
takes the old entry of a row out before it puts the new one in, row by row; an entry that stays the same is not
touched. Leaves of the plain store have 32 entries each. A range is read from the last leaf that begins before it,
or the first one, to the last leaf that does not begin after it. The estimate of a range goes down from the root
while one child may hold the range; where k > 1 children may, at level l, it is (k - 1) * 16 ** l."""

import argparse
import sys

if not __package__:  # run as a file: the other folders are found from tools/
    sys.path[0] += "/.."

from model.trees import Tree


class Span:
    """A range of first values, as an estimate asks for it."""

    def __init__(self, low, high):
        self.low, self.high = (True, low), (True, high)

    def is_empty(self):
        return self.low > self.high

    def side(self, key):
        return -1 if key[0] < self.low else 1 if key[0] > self.high else 0


class Index:
    def __init__(self, columns):
        self.columns, self.tree = columns, Tree()

    def entry(self, row, values):
        # NULL comes before all numbers
        return tuple((values[c] is not None, values[c] or 0) for c in self.columns), row

    def put(self, entry):
        self.tree = self.tree.put(entry)

    def change(self, row, old, new):
        before = old and self.entry(row, old)
        after = new and self.entry(row, new)
        if before == after:
            return
        if before:
            self.tree = self.tree.without(before)
        if after:
            self.put(after)

    def shape(self):
        """The leaves, one after another, and the cuts between them."""
        leaves = self.tree.leaves()
        return [lows for _, lows in leaves], [cut for cut, _ in leaves[1:]]


def plain_shape(entries):
    return [entries[i:i + 32] for i in range(0, len(entries), 32)] or [[]], entries[32::32]


def key(entry):
    """The first value of an entry, with what tells NULL from a number."""
    return entry[0][0]


def read(shape, low, high):
    """The entries with a first value in a range, and the number of leaves that are read for them."""
    leaves, cuts = shape
    first = sum(key(cut) < (True, low) for cut in cuts)
    last = first
    while last < len(cuts) and key(cuts[last]) <= (True, high):
        last += 1
    found = [e for leaf in leaves[first:last + 1] for e in leaf if (True, low) <= key(e) <= (True, high)]
    return len(found), last - first + 1


def read_from(shape, start):
    """The entries from one on, and the number of leaves that are read for them."""
    leaves, cuts = shape
    first = 0 if start is None else sum(cut <= start for cut in cuts)
    found = [e for leaf in leaves[first:] for e in leaf if start is None or e >= start]
    return len(found), len(leaves) - first


def mixed(number):
    return number * 48271 % 2147483647


def changes_of(commit):
    for table in range(2):
        for step in range(64):
            mix = mixed(mixed(commit * 1000 + step * 2 + table) // 7)
            row = 16 * step + mix % 16
            mix = mixed(mix // 16)
            values = None
            if mix % 5 >= 2:
                mix = mixed(mix // 5)
                values = (None if mix % 11 == 0 else mix // 11 % 300, mix // 3300 % 1000)
            yield table, row, values


class Snapshot:
    """What a comparison of a snapshot counts."""

    def __init__(self, tables, indexes):
        self.rows = sum(len(t) for t in tables)
        self.entries = self.paged = self.plain = self.exact = 0
        for _, index in indexes:
            paged = index.shape()
            entries = [e for leaf in paged[0] for e in leaf]
            plain = plain_shape(entries)
            middle = entries[len(entries) // 2] if entries else None
            for start in (None, middle):
                self.add(read_from(paged, start), read_from(plain, start))
            for low, high in ((50, 99), (7, 7)):
                self.add(read(paged, low, high), read(plain, low, high))
                self.exact += index.tree.estimate(Span(low, high))[1]

    def add(self, paged, plain):
        assert paged[0] == plain[0]
        self.entries += paged[0]
        self.paged += paged[1]
        self.plain += plain[1]


def write():
    tables = [{}, {}]
    indexes = [(0, Index([0])), (0, Index([1, 0])), (1, Index([0, 1]))]
    kinds = {(False, True): 0, (True, True): 0, (True, False): 0, (False, False): 0}
    kept = {0: Snapshot(tables, indexes)}
    compared = []
    fetches = 0
    for commit in range(100):
        if commit == 50:
            for number in list(kept):
                if number < 50:
                    del kept[number]
            late = Index([0])
            for row in sorted(tables[1]):
                late.put(late.entry(row, tables[1][row]))
            indexes.append((1, late))
            kept[50] = Snapshot(tables, indexes)
        for table, row, values in changes_of(commit):
            old = tables[table].get(row)
            kinds[old is not None, values is not None] += 1
            fetches += 1
            for over, index in indexes:
                if over == table:
                    index.change(row, old, values)
            if values is None:
                tables[table].pop(row, None)
            else:
                tables[table][row] = values
        kept[commit + 1] = Snapshot(tables, indexes)
        compared.append(kept[commit + 1])
        if commit % 10 == 9:
            compared += kept.values()
            for number in list(kept):
                if number < commit - 2:
                    del kept[number]
            compared += kept.values()
    inserts, updates, deletes, none = kinds.values()
    print(f"100 commits: {inserts} inserts, {updates} updates, {deletes} deletes, {none} of no row")
    print(f"{len(compared)} snapshots: {sum(s.rows for s in compared)} rows, {fetches} fetches")
    print(f"{sum(s.entries for s in compared)} entries in {sum(s.paged for s in compared)} leaves, "
          f"in the plain store in {sum(s.plain for s in compared)}")
    print(f"{sum(s.exact for s in compared)} exact estimates")
    print("same")
    for number, (_, index) in enumerate(indexes):
        leaves, _ = index.shape()
        sizes = [len(leaf) for leaf in leaves]
        parts = "".join(f" {sizes.count(size)} of {size}" for size in range(33) if size in sizes)
        print(f"index {number}: {sum(sizes)} entries in {len(leaves)} leaves:{parts}")
        for low, high in ((7, 7), (50, 99), (100, 299), (299, 100), (0, 999)):
            value, exact = index.tree.estimate(Span(low, high))
            entries, read_leaves = read(index.shape(), low, high)
            print(f"  {low} to {high}: {'exactly' if exact else 'about'} {value}, {entries} in {read_leaves}")


if __name__ == "__main__":
    argparse.ArgumentParser(description=__doc__, formatter_class=argparse.RawDescriptionHelpFormatter).parse_args()
    write()
