#!/usr/bin/env python3
"""Writes what the program `try_stores` is to print of pieces, by the rules in words.

A table has the rows 0 to 79, and row i has the values i and i. Each index has the entries 0 to 79 in leaves of 32. A
joint scan reads the entries of one index from 10 to 40 and then those of the other from 30 to 70 (some rows of the
table ask otherwise). A piece is what one leaf has of the range. The first take of a piece reads the leaf. A given piece
is accepted where it is the awaited one and was taken; else it is stale, and nothing changes. An accepted piece adds its
marked entries that the list before has. After the last leaf of the range the list is complete; an empty one ends
everything. An abandoned scan leaves no list."""

import argparse

BOTH = ((10, 40), (30, 70), None)
WITHOUT = ((10, 40), (30, 70), 35)
NONE = ((90, 95), (30, 70), None)
OWN, CURSOR, OPENING, TURNED = (1, 1, False), (2, 1, False), (1, 2, False), (1, 1, True)


def pieces_of(span, without):
    """The entries of each leaf that is read, and the marked ones among them. A range that has no entry is looked for in
    the last leaf that begins before it."""
    low, high = span
    entries = [n for n in range(80) if low <= n <= high]
    leaves = sorted({n // 32 for n in entries}) or [min(low // 32, 79 // 32)]
    return [[n for n in entries if n // 32 == leaf] for leaf in leaves], without


def plans(query, turned):
    first, second, without = query
    made = [(0, *pieces_of(first, without)), (1, *pieces_of(second, None))]
    return made[::-1] if turned else made


class Joint:
    def __init__(self, query, name):
        self.cursor, self.opening, turned = name
        self.plans = plans(query, turned)
        self.number, self.at, self.present = 1, 0, 0
        self.held, self.building, self.list, self.reads = False, [], None, 0
        self.counts = [[0, 0, 0] for _ in self.plans]

    def under_way(self):
        return self.present < len(self.plans) and self.list != []

    def awaited(self):
        return (self.cursor, self.opening, self.number) if self.under_way() else None

    def awaited_piece(self):
        index, pieces, without = self.plans[self.present]
        return (self.awaited(), index, tuple(pieces[self.at]), without)

    def take(self):
        if not self.under_way():
            return None
        if not self.held:
            self.reads += 1
            self.counts[self.present][2] += 1
        self.held = True
        return self.awaited_piece()

    def give(self, piece):
        if not (self.under_way() and self.held and piece == self.awaited_piece()):
            return False
        _, _, entries, without = piece
        kept = [n for n in entries if n != without and (self.list is None or n in self.list)]
        self.counts[self.present][0] += len(entries)
        self.counts[self.present][1] += len(kept)
        self.building += kept
        self.held, self.number, self.at = False, self.number + 1, self.at + 1
        if self.at == len(self.plans[self.present][1]):
            done = self.building
            self.end()
            self.list = done
        return True

    def end(self):
        self.present, self.at, self.held, self.building = self.present + 1, 0, False, []

    def abandon(self):
        if self.under_way():
            self.end()


def text(name):
    return "none" if name is None else ".".join(str(n) for n in name)


def put_aside(piece, pieces):
    if piece is None:
        return "take: nothing"
    pieces.append(piece)
    name, _, entries, without = piece
    return f"take {text(name)}: {len(entries)} entries, {sum(n != without for n in entries)} marked"


def carry_out(act, query, joint, pieces):
    word, what = act
    if word == "take":
        return put_aside(joint.take(), pieces)
    if word == "other":
        return "other " + put_aside(Joint(query, what).take(), pieces)
    if word == "abandon":
        joint.abandon()
        return "abandon"
    if what >= len(pieces):
        return "give: no such piece"
    now = joint.awaited()
    name = pieces[what][0]
    accepted = joint.give(pieces[what])
    return f"give {text(name)}: " + ("accepted" if accepted else f"stale, asked {text(name)}, now {text(now)}")


def state(did, joint):
    whole = "none" if joint.list is None else len(joint.list)
    building = len(joint.building) if joint.under_way() else "none"
    line = f"  {did}; ended {joint.present}, list {whole}, building {building}"
    for scan, (scanned, kept, leaves) in enumerate(joint.counts):
        line += f"; scan {scan}: scanned {scanned}, kept {kept}, leaves {leaves}"
    return line


TAKE, ABANDON = ("take", None), ("abandon", None)


def acts(words):
    """T takes, A abandons, a number gives the piece in that place."""
    return [TAKE if w == "T" else ABANDON if w == "A" else ("give", int(w)) for w in words.split()]


ONCE = acts("T 0 T 1 T 2 T 3 T 4 T 4")
TABLE = [
    ("each once", BOTH, ONCE),
    ("one row does not pass", WITHOUT, ONCE),
    ("an empty list", NONE, acts("T 0 T 0")),
    ("taken twice", BOTH, acts("T T 1 0 T T 1 3 2")),
    ("given twice and late", BOTH, acts("T 0 0 T 0 1 1 T 0 1 2")),
    ("of another scan", BOTH, [("other", n) for n in (CURSOR, OPENING, TURNED, OWN)] + acts("3 T 0 1 2 3 4")),
    ("the first never given", BOTH, acts("T 0 T A 1 T 1 2 T 3 T 4 T A")),
    ("the second never given", BOTH, acts("T 0 T 1 T A 2 T")),
    ("both abandoned", BOTH, acts("A A T")),
]


def write():
    for name, query, row in TABLE:
        print(name)
        joint, pieces = Joint(query, OWN), []
        for act in row:
            print(state(carry_out(act, query, joint, pieces), joint))
        keys = " none" if joint.list is None else "".join(f" {n}" for n in sorted(joint.list))
        print(f"  {joint.reads} leaves read; keys{keys}")


if __name__ == "__main__":
    argparse.ArgumentParser(description=__doc__, formatter_class=argparse.RawDescriptionHelpFormatter).parse_args()
    write()
