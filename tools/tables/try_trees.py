#!/usr/bin/env python3
"""Writes what the program `try_stores` is to print of trees, by the rules of index trees in words.

A leaf has up to 32 entries, a node above up to 32 children, each with a low entry. What would be 33 becomes the first
16 and the last 17. A root that is split becomes the parent of its halves. An entry belongs to the last child that does
not begin above it. The estimate of a range goes down from the root while one child may hold the range; where k > 1
children may, at level l, it is (k - 1) * 16 ** l."""
import argparse
import sys

if not __package__:  # run as a file: the other folders are found from tools/
    sys.path[0] += "/.."

from model.trees import Tree


class Span:
    """A range of numbers, as an estimate asks for it. An entry is a number and the same number as its row."""

    def __init__(self, low, high):
        self.low, self.high = low, high

    def is_empty(self):
        return self.low > self.high

    def side(self, number):
        return -1 if number < self.low else 1 if number > self.high else 0


def nodes(node):
    return [node] + [n for child in node.children for n in nodes(child)]


def read(leaves, span):
    """How many entries are in the range, and the leaves that are read for them."""
    cuts = [None] + [cut[0] for cut, _ in leaves[1:]]
    first = max(i for i in range(len(leaves)) if i == 0 or cuts[i] < span.low)
    last = first
    while last + 1 < len(leaves) and cuts[last + 1] <= span.high:
        last += 1
    found = [number for _, lows in leaves[first:last + 1] for number, _ in lows if span.side(number) == 0]
    return len(found), last - first + 1


def write():
    for count in (40, 1100, 20000):
        tree = Tree()
        for row in range(count):
            tree = tree.put((row, row))
        print(f"{count} entries")
        for level in range(4):
            sizes = [len(node.lows) for node in nodes(tree.root) if node.level == level]
            for size in sorted(set(sizes)):
                print(f"  level {level}: {sizes.count(size)} of {size}")
        for low, high in ((10, 29), (20, 22), (100, 200), (29, 10), (500, 15000)):
            value, exact = tree.estimate(Span(low, high))
            entries, leaves = read(tree.leaves(), Span(low, high))
            print(f"  {low} to {high}: {'exactly' if exact else 'about'} {value}, {entries} in {leaves}")


if __name__ == "__main__":
    argparse.ArgumentParser(description=__doc__, formatter_class=argparse.RawDescriptionHelpFormatter).parse_args()
    write()
