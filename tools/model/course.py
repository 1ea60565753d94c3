"""Tells whether a trace is a front of some course of a retrieval, by the table of controls in words (docs/LANGUAGE.md).

A course begins with a control; a background scan begins behind it, behind a list with keys, or behind a drop. A list, drop,
full or stop leads to the next scan or control, and nothing stands between the two. A union's course is one of its own."""
import re

TRACE = re.compile(r"trace (table|background-only|fast-first|sorted|index-only|union)((?: [^ ]+)*) pages (\d+) leaves (\d+) fetches (\d+)")
CONTROLS = ["building", "foreground", "background", "final-list", "final-table", "done"]
FIRST = {
    "table": ["final-table"],
    "background-only": ["background"],
    "fast-first": ["building"],
    "sorted": ["building", "foreground"],
    "index-only": ["building", "foreground"],
}


class Fault(Exception):
    pass


def want(holds, what):
    if not holds:
        raise Fault(what)


def parts(reply):
    """Strategy, events and the three counts of a trace."""
    match = TRACE.fullmatch(reply)
    want(match, "no trace")
    words, events = match[2].split(), []
    while words:
        size = {"scan": 2, "drop": 2, "list": 3}.get(words[0], 1)
        want(len(words) >= size, "half an event")
        events.append(tuple(words[:size]))
        words = words[size:]
    return match[1], events, tuple(map(int, match.groups()[2:]))


class Course:
    def __init__(self, strategy, names, rows):
        self.strategy, self.names, self.rows = strategy, names, rows
        self.control, self.scan, self.list, self.led = None, None, None, None

    def follow(self, events):
        if self.strategy == "union":
            return self.follow_union(events)
        for event in events:
            kind = event[0]
            if kind in CONTROLS:
                want(kind in self.next_controls(), f"{kind} behind {self.led} in {self.control}")
                begins = self.control is None and (kind == "building" or kind == "background")
                self.control, self.led = kind, "first" if begins else None
            elif kind == "scan":
                self.begins(event[1])
            else:
                want(self.led is None, f"{kind} behind {self.led}")
                want(self.control in ("building", "background"), f"{kind} in {self.control}")
                getattr(self, "is_" + kind)(*event[1:])
                self.led = kind
        want(self.led is None and self.control, f"ends behind {self.led}")

    def follow_union(self, events):
        """A scan for each index, once; then the list of one of them and its fetches, or the drop of one and the table."""
        want(events[0] == ("background",), "a union begins with its members")
        begun = [event[1] for event in events if event[0] == "scan"]
        want(begun and set(begun) <= set(self.names) and len(set(begun)) == len(begun), "an index is told again, or is none")
        want([event[0] for event in events[1 : len(begun) + 1]] == len(begun) * ["scan"], "a scan stands late")
        rest = events[len(begun) + 1 :]
        if rest:
            kind, name, *count = rest[0]
            want(kind in ("list", "drop") and name in begun, f"{kind} in a union")
            want(all(int(n) <= self.rows for n in count), f"{count} keys of {self.rows} rows")
            final = ("final-list" if kind == "list" else "final-table",)
            want(rest[1:] in ([final], [final, ("done",)]), f"what a {kind} leads to")

    def next_controls(self):
        final = ["final-table" if self.list is None else "final-list"]
        if self.control is None:
            return FIRST[self.strategy]
        if self.led == "full":
            return ["background" if self.strategy == "fast-first" else "foreground"]
        if self.led == "stop":
            return ["background"]
        if self.led is None:
            ends = self.control in ("foreground", "final-list", "final-table")
            return ["done"] if ends or (self.control == "building" and self.strategy in ("sorted", "index-only")) else []
        if self.led == "first":
            return []
        if self.control == "background" or self.strategy == "fast-first":
            return final
        if self.strategy == "index-only" and self.list is not None:
            # the background's end by the judge's word gives the list up
            return final + (["foreground"] if self.led == "drop" else [])
        return ["foreground"]

    def begins(self, name):
        want(self.led in ("first", "list", "drop"), f"scan behind {self.led}")
        want(self.list != 0, "scan behind an empty list")
        want(name in self.names, f"{name} is scanned again, or is no index")
        self.names.remove(name)
        self.scan, self.led = name, None

    def is_list(self, name, count):
        want(self.scan == name, f"list of {name} in {self.scan}")
        want(int(count) <= self.rows, f"{count} keys of {self.rows} rows")
        self.scan, self.list = None, int(count)

    def is_drop(self, name):
        want(self.scan == name, f"drop of {name} in {self.scan}")
        self.scan = None

    def is_full(self):
        want(self.control == "building" and self.strategy in ("fast-first", "index-only"), "full")

    def is_stop(self):
        self.is_full()


class Seen:
    """What is known of a cursor's trace: it may only grow; but where indexes race, the scan that stands last may be put behind
    what the other one came to, or taken away with the end of the background."""

    def __init__(self, indexes, rows, items, soon, order, race=False):
        self.indexes, self.rows, self.items, self.soon, self.order, self.race = indexes, rows, items, soon, order, race
        self.before, self.counts, self.stepped, self.ended = None, (0, 0, 0), 0, False

    def fault(self, reply):
        """What is wrong with a trace, or None."""
        try:
            self.test(*parts(reply))
        except Fault as fault:
            return str(fault)
        return None

    def test(self, strategy, events, counts):
        Course(strategy, list(self.indexes), self.rows).follow(events)
        want(self.soon or strategy != "fast-first", "fast-first unasked")
        want(self.order or strategy != "sorted", "sorted unasked")
        want(self.indexes or strategy == "table", "an index out of nothing")
        if self.before is not None:
            past = self.before[1]
            if self.race and strategy == "background-only" and past[-1][0] == "scan":
                past = past[:-1]
            want(self.before[0] == strategy and events[: len(past)] == past, "the past is another one")
        want(all(a <= b for a, b in zip(self.counts, counts)), "counts fall")
        if self.stepped is not None and self.before is not None:
            want(counts == (self.counts[0], self.counts[1] + self.stepped, self.counts[2]), "steps read something else")
        want(not self.ended or ("done",) in events, "not done after the end")
        if strategy == "table" and self.items == 1:
            want(counts[1:] == (0, 0), "a table's scan reads pages alone")
        self.before, self.counts, self.stepped = (strategy, events), counts, 0
