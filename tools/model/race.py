"""A retrieval for which two indexes race, evaluated slowly by the rules in words (docs/LANGUAGE.md). Who uses it says what a
row and an index are and who judges, by the calls at the end of `Access` (model/retrieval.py).

While no scan has completed, the first two scans that are not over are under way; once one has, and its list has a key, the
first one that is not over. Their pieces come in turn. Here that is told of one piece at a time, from what was done before:
which scans are over, and which one was given the last accepted piece."""

from .retrieval import Access, KeyList, Scan, project

TOGETHER = 2


def can_race(indexes, order, soon):
    """Whether a background alone scans each restricted index, and there are two or more."""
    restricted = [i for i in indexes if i.restricted]
    short = any(i.exact and i.estimate <= 20 for i in restricted)
    covered = any(i.covers for i in indexes)
    return not order and not soon and not short and not covered and len(restricted) >= TOGETHER


class Race(Access):
    """A race of the restricted ones of these indexes over a table of so many pages."""

    strategy = "background-only"

    def __init__(self, indexes, pages, counts):
        super().__init__(pages, counts)
        planned = sorted((i for i in indexes if i.restricted), key=lambda i: i.estimate)
        self.scans = [Scan(i) for i in planned]
        self.ends = []  # the scans that are over, in the order in which they ended, each with its event
        self.served = None  # the scan that was given the last accepted piece
        self.guaranteed = pages
        self.control, self.last = "background", []
        self.told = []  # the scans whose beginning was told
        self.tell(self.control)
        self.tell_scans()

    # What is under way.

    def left(self):
        over = [scan for scan, _ in self.ends]
        return [scan for scan in self.scans if scan not in over]

    def under_way(self):
        if self.control != "background":
            return []
        return self.left()[: TOGETHER if self.list is None else 1]

    def turn(self):
        """The scan whose piece is awaited: of two the one that was not given the last accepted piece, at first the lower."""
        way = self.under_way()
        others = [scan for scan in way if scan is not self.served]
        return (others or way or [None])[0]

    def tell_scans(self):
        """Who watches is told which scans begin, both of a pair."""
        for scan in self.under_way():
            if scan not in self.told:
                self.told.append(scan)
                self.tell("scan " + scan.index.name)

    @property
    def events(self):
        """Each scan that is over stands with what became of it, in the order of the ends, and then the lower one under
        way."""
        told = ["background"]
        for scan, event in self.ends:
            told += ["scan " + scan.index.name, event]
        told += ["scan " + scan.index.name for scan in self.under_way()[:1]]
        return told + self.last

    # Pieces.

    def give(self, piece):
        scan = self.turn()
        if not super().give(piece):
            return False
        self.served = scan
        self.tell_scans()
        return True

    def completed(self, scan):
        """Its list is the complete one; of the other scan's keys those stay that it may have, and count as kept."""
        others = [other for other in self.under_way() if other is not scan]
        self.list = KeyList(sorted(scan.keys))
        self.guaranteed = min(self.guaranteed, len(scan.keys))
        for other in others:
            other.keys = [n for n in other.keys if self.list.may_have(n)]
            other.kept = len(other.keys)
        self.over(scan, f"list {scan.index.name} {len(scan.keys)}")
        if not scan.keys or not self.left():
            self.to("final-list")

    def question(self, scan):
        """The judge is asked of the scan: what can be had without it is the guarantee, or what the other one is projected
        to cost."""
        cost = lambda s: project(s.index.estimate, s.scanned, s.kept)
        least = min([self.guaranteed] + [cost(other) for other in self.under_way() if other is not scan])
        verdict = self.verdict(scan, cost(scan), least)
        final = "final-table" if self.list is None else "final-list"
        if verdict == "drop":
            self.over(scan, "drop " + scan.index.name)
            if not self.left():
                self.to(final)
        elif verdict == "end":
            lower = self.under_way()[0]
            self.over(lower, "drop " + lower.index.name)
            self.to(final)

    def over(self, scan, event):
        self.ends.append((scan, event))
        self.tell(event)

    def to(self, control):
        self.last.append(control)
        super().to(control)

    def tell(self, event):
        self.note("event", event)
