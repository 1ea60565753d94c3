"""A retrieval from one table by a union of key lists, evaluated slowly by the rules in words (docs/LANGUAGE.md). Who uses it
says what a row and an index are and who judges, by the calls at the end of `Access` (model/retrieval.py).

A group of a restriction is the OR of its branches, which are atoms. Each has an index that its range bounds; the scans of
these indexes are the union's members, one after another. Here a member's keys are kept as they came, and what the union has
is told of all members so far."""

from .retrieval import Access, KeyList, Scan, project


def branches(group):
    """The atoms of which a group is the OR: IN is an `=` for each literal that is not NULL."""
    told = []
    for atom in group:
        told += [("compare", atom[1], "=", v) for v in atom[2] if v is not None] if atom[0] == "in" else [atom]
    return told


def members_of(groups, indexes):
    """The members of the first group that has two branches or more, each with an index that its range bounds; of a
    branch's indexes that with the least estimate. `indexes` tells the indexes as a branch sees them."""
    for group in groups:
        bounded = [[i for i in indexes(atom) if i.restricted] for atom in branches(group)]
        if len(bounded) > 1 and all(bounded):
            return [min(some, key=lambda i: i.estimate) for some in bounded]  # of equal ones the first
    return None


def can_unite(indexes, order):
    """Whether the table would be read: no order is asked, and no index is restricted or has all columns."""
    return not order and not any(i.restricted or i.covers for i in indexes)


class Union(Access):
    """A union of members, each an index as a branch sees it, over a table of so many pages."""

    strategy = "union"

    def __init__(self, members, pages, counts):
        super().__init__(pages, counts)
        self.scans = [Scan(member) for member in members]
        self.present = 0  # the position of the member that is scanned
        self.control, self.events = "background", []
        self.tell("background")
        self.tell_scan()

    def tell_scan(self):
        """An index is told where it is scanned for the first time."""
        event = "scan " + self.scans[self.present].index.name
        if event not in self.events:
            self.tell(event)

    def put_together(self):
        """The keys of the members before the present one."""
        return [n for scan in self.scans[: self.present] for n in scan.keys]

    def turn(self):
        return self.scans[self.present] if self.control == "background" else None

    def fresh(self, numbers):
        """Those that no member before had added."""
        before = set(self.put_together())
        return [n for n in numbers if n not in before]

    def completed(self, scan):
        if self.present + 1 < len(self.scans):
            self.present += 1
            self.tell_scan()
            return
        self.list = KeyList(sorted(self.put_together() + scan.keys))
        self.tell(f"list {scan.index.name} {len(self.list.keys)}")
        self.to("final-list")

    def question(self, scan):
        """The judge is asked: the present scan is projected to cost what it costs alone, and a fetch for each key that was
        put together before; what can be had without it are the table's pages."""
        projected = project(scan.index.estimate, scan.scanned, scan.kept) + len(self.put_together())
        if self.verdict(scan, min(projected, 2**64 - 1), self.pages) in ("drop", "end"):
            self.tell("drop " + scan.index.name)
            self.to("final-table")
