"""Ranges of keys: what a restriction says of an index's columns."""
from .database import place, places_of

NULL = place(None)


class Bounds:
    """A range of keys: low and high are (values, closed) or None; `starts` where the last low value is a front."""

    def __init__(self, low, high, starts=None):
        self.low, self.high, self.starts = low, high, starts

    def is_whole(self):
        return self.low is None and self.high is None

    def is_empty(self):
        if self.starts is not None or self.low is None or self.high is None or len(self.low[0]) != len(self.high[0]):
            return False
        return self.low[0] > self.high[0] or (self.low[0] == self.high[0] and not (self.low[1] and self.high[1]))

    def side(self, key):
        """-1 before the range, 0 in it, 1 after it."""
        if self.low is not None:
            front = key[: len(self.low[0])]
            if front < self.low[0] or (front == self.low[0] and not self.low[1]):
                return -1
        if self.high is not None:
            front = key[: len(self.high[0])]
            if front > self.high[0] or (front == self.high[0] and not self.high[1]):
                return 1
        if self.starts is not None:
            at = len(self.low[0]) - 1
            begins = key[at][0] == 2 and key[at][1].startswith(self.starts.encode())
            return 0 if key[:at] == self.low[0][:at] and begins else 1
        return 0


def range_for(groups, columns):
    """The range of an index: what the groups of a single atom say of its columns, one after another."""
    prefix = ()
    for column in columns:
        atoms = [g[0] for g in groups if len(g) == 1 and places_of(g[0]) == [column] and bounds_something(g[0])]
        equal = [place(a[3]) if a[0] == "compare" else NULL for a in atoms if is_equal(a)]
        if equal:
            prefix += (equal[0],)
            continue
        fronts = [a[2] for a in atoms if a[0] == "start"]
        if fronts:
            return Bounds((prefix + (place(fronts[0]),), True), None, fronts[0])
        if atoms:
            # of equal low values one that is not closed is the greater bound, of equal high ones the less
            low = max((low_of(a) for a in atoms), key=lambda b: (b[0], not b[1]))
            highs = [b for b in map(high_of, atoms) if b is not None]
            high = min(highs, key=lambda b: (b[0], b[1])) if highs else None
            low = (prefix + (low[0],), low[1])
            if high is not None:
                return Bounds(low, (prefix + (high[0],), high[1]))
            return Bounds(low, (prefix, True) if prefix else None)
        break
    return Bounds((prefix, True), (prefix, True)) if prefix else Bounds(None, None)


def bounds_something(atom):
    if atom[0] == "compare":
        return atom[2] != "<>" and atom[3] is not None
    if atom[0] == "between":
        return atom[2] is not None and atom[3] is not None
    return atom[0] in ("start", "null")


def is_equal(atom):
    return (atom[0] == "compare" and atom[2] == "=") or (atom[0] == "null" and not atom[2])


def low_of(atom):
    if atom[0] == "between":
        return place(atom[2]), True
    if atom[0] == "compare" and atom[2][0] == ">":
        return place(atom[3]), atom[2] == ">="
    return NULL, False


def high_of(atom):
    if atom[0] == "between":
        return place(atom[3]), True
    if atom[0] == "compare" and atom[2][0] == "<":
        return place(atom[3]), atom[2] == "<="
    return None
