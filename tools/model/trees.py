"""Index trees. A node is never changed but copied, so that a snapshot keeps its trees. An index entry is (key, row number),
a key a tuple of values as `place` of database.py makes them."""
from bisect import bisect_left, bisect_right

from .retrieval import LEAF


class Node:
    """The entries of a leaf, or the children of a node above with their low entries."""

    def __init__(self, level, lows, children=()):
        self.level, self.lows, self.children = level, lows, children

    def at(self, entry):
        return max(0, bisect_right(self.lows, entry, 1 if self.lows else 0) - 1)

    def put(self, entry):
        """The node with the entry: itself, or its first 16 and last 17 parts."""
        lows, children = list(self.lows), list(self.children)
        if self.level == 0:
            lows.insert(bisect_right(lows, entry), entry)
        else:
            at = self.at(entry)
            first, *last = children[at].put(entry)
            children[at] = first
            for node, low in last:
                children.insert(at + 1, node)
                lows.insert(at + 1, low)
        if len(lows) <= LEAF:
            return [Node(self.level, lows, children)]
        return [Node(self.level, lows[:16], children[:16]), (Node(self.level, lows[16:], children[16:]), lows[16])]

    def without(self, entry):
        lows, children = list(self.lows), list(self.children)
        if self.level == 0:
            lows.remove(entry)
        else:
            at = self.at(entry)
            children[at] = children[at].without(entry)
        return Node(self.level, lows, children)

    def leaves(self, cut=None):
        """The leaves, each with the cut at which it begins."""
        if self.level == 0:
            return [(cut, self.lows)]
        cuts = [cut] + self.lows[1:]
        return [leaf for cut, child in zip(cuts, self.children) for leaf in child.leaves(cut)]

    def estimate(self, bounds):
        """How many entries are in a range, and whether exactly."""
        if self.level == 0:
            return sum(bounds.side(key) == 0 for key, _ in self.lows), True
        sides = [bounds.side(key) for key, _ in self.lows]
        last = max(i for i in range(len(sides)) if i == 0 or sides[i] <= 0)
        first = max(i for i in range(last + 1) if i == 0 or sides[i] < 0)
        if first == last:
            return self.children[first].estimate(bounds)
        return (last - first) * 16**self.level, False


class Tree:
    """An index of the paged store at a snapshot."""

    def __init__(self, root=Node(0, [])):
        self.root, self.read = root, None

    def put(self, entry):
        first, *last = self.root.put(entry)
        for node, low in last:
            first = Node(first.level + 1, [low, low], [first, node])
        return Tree(first)

    def without(self, entry):
        return Tree(self.root.without(entry))

    def leaves(self):
        if self.read is None:
            self.read = self.root.leaves()
        return self.read

    def estimate(self, bounds):
        return (0, True) if bounds.is_empty() else self.root.estimate(bounds)


class Sorted:
    """An index of the plain store at a snapshot: sorted entries, cut at each 32nd."""

    def __init__(self, entries=()):
        self.entries = list(entries)

    def put(self, entry):
        at = bisect_right(self.entries, entry)
        return Sorted(self.entries[:at] + [entry] + self.entries[at:])

    def without(self, entry):
        return Sorted(e for e in self.entries if e != entry)

    def leaves(self):
        parts = [self.entries[i : i + LEAF] for i in range(0, len(self.entries), LEAF)] or [[]]
        return [(part[0] if at else None, part) for at, part in enumerate(parts)]

    def estimate(self, bounds):
        return sum(bounds.side(key) == 0 for key, _ in self.entries), True


class Overlaid:
    """An index at a snapshot with entries of a transaction's changes laid over it: some are taken away, others are added,
    and each sixteenth added one, from the first on, begins a further leaf."""

    def __init__(self, below, taken, added):
        self.below, self.taken, self.added, self.read = below, set(taken), sorted(added), None

    def leaves(self):
        if self.read is None:
            below = self.below.leaves()
            cuts = sorted({cut for cut, _ in below[1:]} | set(self.added[::16]))
            entries = sorted([e for _, part in below for e in part if e not in self.taken] + self.added)
            at = [0] + [bisect_left(entries, cut) for cut in cuts] + [len(entries)]
            self.read = [(cut, entries[a:b]) for cut, a, b in zip([None] + cuts, at, at[1:])]
        return self.read

    def estimate(self, bounds):
        count, exact = self.below.estimate(bounds)
        inside = lambda entries: sum(bounds.side(key) == 0 for key, _ in entries)
        return count + inside(self.added) - (inside(self.taken) if exact else 0), exact


def leaf_in(leaves, side, at):
    """The entries in a range of a leaf, and the number of the next one where that may have more; `side` tells of a key whether it is
    before the range (below 0), in it (0) or behind it. The first reading (None) is of the last leaf whose first key is before
    the range, or of the first leaf."""
    begins = lambda i: side(leaves[i][0][0])
    if at is None:
        at = 0
        while at + 1 < len(leaves) and begins(at + 1) < 0:
            at += 1
    inside = [entry for entry in leaves[at] if side(entry[0]) == 0]
    return inside, at + 1 if at + 1 < len(leaves) and begins(at + 1) <= 0 else None
