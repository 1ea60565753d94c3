"""One retrieval, evaluated slowly by the rules in words: its strategy and scans, its course, its pieces and its steps. The
rules stand in docs/LANGUAGE.md. Who uses it says what a row and an index are and who judges, by the calls at the end of
`Access`, which is what a retrieval, a race and a union have in common.

An index has `name`, `columns`, `estimate`, `exact`, `restricted` and `covers`, and the calls `passes(key)` and `leaf(at)`."""
from dataclasses import dataclass

LEAF = PAGE = 32
SHORT, BUFFER, SMALL = 20, 1024, 1024


def project(estimate, scanned, kept):
    """The leaves to come, at 16 entries each, and the records of the list that is to be expected."""
    total = max(estimate, scanned)
    keys = total if scanned == 0 else -(-kept * total // scanned)
    return min(-(-(total - scanned) // 16) + keys, 2**64 - 1)


class Counts:
    def __init__(self):
        self.pages = self.leaves = self.fetches = 0


@dataclass(frozen=True)
class Ruling:
    """What a judge was asked after a leaf of a background scan, and what it answered."""

    scan: str
    scanned: int
    kept: int
    estimate: int
    projected: int
    guaranteed: int
    verdict: str


class KeyList:
    """A list of keys: in the order in which they came, then ascending. Up to 1,024 keys it tells exactly whether it has
    a key, above that by a filter of 65,536 bits."""

    def __init__(self, keys):
        self.keys = keys
        self.exact = set(keys)
        self.bits = {self.bit(k) for k in keys} if len(keys) > SMALL else None

    @staticmethod
    def bit(key):
        return (key * 0x9E3779B97F4A7C15 % 2**64) >> 48

    def may_have(self, key):
        return key in self.exact if self.bits is None else self.bit(key) in self.bits


class Scan:
    """A background scan: where it stands, and the keys that it has listed."""

    def __init__(self, index):
        self.index = index
        self.place, self.held = None, None
        self.scanned, self.kept, self.keys = 0, 0, []


class Walk:
    """A foreground's scan of an index: the entries held, and the place at which the next leaf begins."""

    def __init__(self, index):
        self.index, self.held = index, []
        self.place, self.more = None, True


class Access:
    """Rows by key lists of a table of so many pages: how pieces are taken and given, and the final stages."""

    def __init__(self, pages, counts):
        self.pages, self.counts = pages, counts
        self.delivered = set()
        self.list = None  # the complete list
        self.number = 1  # of the piece awaited
        self.at, self.page, self.held = 0, 0, []  # the final stages

    def tell(self, event):
        self.events.append(event)
        self.note("event", event)

    def to(self, control):
        self.control = control
        self.tell(control)

    # Pieces.

    def turn(self):
        """The scan whose piece is awaited, if one is."""
        raise NotImplementedError

    def awaits(self):
        return self.turn() is not None

    def take(self):
        """The awaited piece, which is a leaf of the scan; it is read where it was not yet."""
        scan = self.turn()
        if scan is None:
            return None
        if scan.held is None:
            scan.held = self.read_leaf(scan.index, scan.place)
        return (self.number, scan.held[0])

    def give(self, piece):
        """Whether the piece was accepted; its keys are added. That of another number is not, nor one that was never taken."""
        scan = self.turn()
        if scan is None or piece[0] != self.number or scan.held is None:
            return False
        entries, following = scan.held
        kept = self.fresh([n for key, n in entries if scan.index.passes(key)])
        scan.scanned += len(entries)
        scan.kept += len(kept)
        scan.keys += kept
        scan.place, scan.held = following, None
        self.number += 1
        if following is None:
            self.completed(scan)
        else:
            self.question(scan)
        return True

    def fresh(self, numbers):
        """Which of these keys are added."""
        return [n for n in numbers if self.list is None or self.list.may_have(n)]

    def completed(self, scan):
        """The scan has read its last leaf."""
        raise NotImplementedError

    def question(self, scan):
        """The judge is asked of a scan that goes on, and obeyed."""
        raise NotImplementedError

    def verdict(self, scan, projected, guaranteed):
        """What the judge answers of the scan."""
        verdict = self.rule(projected, guaranteed)
        self.note("ruled", Ruling(scan.index.name, scan.scanned, scan.kept, scan.index.estimate, projected, guaranteed, verdict))
        return verdict

    # Steps.

    def step(self):
        """A row's number, None where no row came yet, or "end"."""
        return self.stages()[self.control]()

    def stages(self):
        """What a step does, by the control."""
        return {"background": self.background, "final-list": self.list_step, "final-table": self.table_step, "done": lambda: "end"}

    def background(self):
        """The awaited piece is taken and given, where one is."""
        piece = self.take()
        if piece is not None:
            self.give(piece)

    def list_step(self):
        keys = self.list.keys
        while self.at < len(keys) and keys[self.at] in self.delivered:
            self.at += 1
        if self.at == len(keys):
            self.to("done")
            return "end"
        number = keys[self.at]
        self.at += 1
        return number if self.fetch(number) else None

    def table_step(self):
        while self.held:
            number = self.held.pop(0)
            if number not in self.delivered and self.is_wanted(number):
                return number
        if self.page == self.pages:
            self.to("done")
            return "end"
        self.counts.pages += 1
        self.note("page", self.page)
        self.held = self.page_rows(self.page)
        self.page += 1
        return None

    def fetch(self, number):
        """Whether the row qualifies, which is read."""
        self.counts.fetches += 1
        self.note("record", number)
        return self.is_wanted(number)

    def read_leaf(self, index, place):
        self.counts.leaves += 1
        read = index.leaf(place)
        self.note("leaf", index)
        return read

    # What the user says.

    def is_wanted(self, number):
        """Whether the row qualifies."""
        raise NotImplementedError

    def page_rows(self, page):
        """The numbers of a page's rows."""
        raise NotImplementedError

    def rule(self, projected, guaranteed):
        """The judge's verdict: "go on", "drop", "stop" or "end"."""
        raise NotImplementedError

    def note(self, kind, what):
        """Who wants to watch is told what happens: ("event", its text), ("page", number), ("leaf", index), ("record", number)
        and ("ruled", a Ruling)."""


class Retrieval(Access):
    """A retrieval by these indexes over a table of so many pages, in the order of these columns (none: any), with the first
    rows wanted soon or all rows soon."""

    def __init__(self, indexes, pages, order, soon, counts):
        super().__init__(pages, counts)
        self.lent, self.borrowed = None, 0  # which list is borrowed from, and how many of its keys were
        self.events, self.control = [], None
        self.choose(indexes, order, soon)
        self.to(self.first())
        self.begin()
        if self.at_once:
            while self.scan is not None:
                self.background()

    # The choice.

    def choose(self, indexes, order, soon):
        restricted = [i for i in indexes if i.restricted]
        few = [i for i in restricted if i.exact and i.estimate <= SHORT]
        covering = [i for i in indexes if i.covers]
        least = lambda some: min(some, key=lambda i: i.estimate)  # of equal ones the first
        self.front, self.at_once, planned = None, False, []
        if order:
            self.strategy = "sorted"
            self.front = next(i for i in indexes if begins_with(i.columns, order))
            if not self.front.covers:
                planned = [i for i in restricted if i is not self.front]
        elif covering and not few:
            self.strategy, self.front = "index-only", least(covering)
            planned = [i for i in restricted if i is not self.front]
        elif restricted:
            self.strategy = "fast-first" if soon and not few else "background-only"
            planned = restricted
        else:
            self.strategy = "table"
        if few:
            self.at_once, planned = True, [least(few)]
        self.planned = sorted(planned, key=lambda i: i.estimate)
        self.walk = Walk(self.front) if self.front else None
        if self.strategy == "sorted":
            self.guaranteed = self.front.estimate
        elif self.strategy == "index-only":
            self.guaranteed = -(-self.front.estimate // 16)
        else:
            self.guaranteed = self.pages

    def first(self):
        if self.strategy == "table":
            return "final-table"
        if self.strategy == "background-only":
            return "background"
        return "building" if self.planned else "foreground"

    # The course.

    def begin(self):
        """The next background scan begins, where one is planned."""
        self.scan = None
        if self.planned:
            self.scan = Scan(self.planned.pop(0))
            self.tell("scan " + self.scan.index.name)

    def more(self):
        return bool(self.planned) and (self.list is None or bool(self.list.keys))

    def ends(self, verdict):
        """A scan completed or was dropped and nothing is to follow, or the background was ended."""
        self.scan = None
        if self.control == "building" and self.strategy == "sorted":
            self.to("foreground")
        elif self.control == "building" and self.strategy == "index-only" and (verdict == "end" or self.list is None):
            self.to("foreground")
        else:
            self.to("final-table" if self.list is None else "final-list")

    def completed(self, scan):
        self.list = KeyList(sorted(scan.keys))
        self.guaranteed = min(self.guaranteed, len(scan.keys))
        self.tell(f"list {scan.index.name} {len(scan.keys)}")
        if self.more():
            self.begin()
        else:
            self.ends(None)

    def obey(self, verdict):
        if verdict == "stop" and self.control == "building" and self.strategy in ("fast-first", "index-only"):
            self.tell("stop")
            self.to("background")
        if verdict in ("drop", "end"):
            self.tell("drop " + self.scan.index.name)
            if verdict == "drop" and self.more():
                self.begin()
            else:
                self.ends(verdict)

    def turn(self):
        return self.scan if self.control in ("building", "background") else None

    def question(self, scan):
        if not self.at_once:
            projected = project(scan.index.estimate, scan.scanned, scan.kept)
            self.obey(self.verdict(scan, projected, self.guaranteed))

    # The foreground.

    def remember(self, number):
        self.delivered.add(number)
        if len(self.delivered) == BUFFER:
            self.tell("full")
            self.to("background" if self.strategy == "fast-first" else "foreground")

    def stages(self):
        return {**super().stages(), "building": self.building_step, "foreground": self.walk_step}

    def building_step(self):
        return self.borrow_step() if self.strategy == "fast-first" else self.walk_step()

    def borrow_step(self):
        """A key is fetched of the complete list, or else of the list that is built; where another list is borrowed from,
        borrowing begins anew. Without a fresh key it is a background step."""
        lent = self.list or self.scan
        if lent is not self.lent:
            self.lent, self.borrowed = lent, 0
        keys = lent.keys
        while self.borrowed < len(keys) and keys[self.borrowed] in self.delivered:
            self.borrowed += 1
        if self.borrowed == len(keys):
            return self.background()
        number = keys[self.borrowed]
        self.borrowed += 1
        if not self.fetch(number):
            return None
        self.remember(number)
        return number

    def walk_step(self):
        """A step of the foreground's scan of its index. One by the index alone passes over what does not qualify; one with
        fetches answers nothing for a row that does not qualify. Sorted skips what a complete list cannot have."""
        walk, sorts = self.walk, self.strategy == "sorted"
        while walk.held:
            _, number = walk.held.pop(0)
            if sorts and self.list is not None and not self.list.may_have(number):
                continue
            if not walk.index.covers:
                return number if self.fetch(number) else None
            if self.is_wanted(number):
                if self.control == "building" and not sorts:
                    self.remember(number)
                return number
        if not walk.more:
            self.to("done")
            return "end"
        walk.held, walk.place = self.read_leaf(walk.index, walk.place)
        walk.more = walk.place is not None
        return None


def begins_with(columns, order):
    return columns[: len(order)] == order
