#!/usr/bin/env python3
"""Compares what each query of a script reads under each judge, beside a planner's guess and the best path in hindsight.

For each OPEN it tells the strategy, the reads until the first, the tenth and the last row and until the end, and which scans
were dropped: under the program's judges threshold, patient and contrary, and under AllRows, FirstRows and Bounded (the guard
around AllRows) of crates/skew_judges, which whoever calls the library may hand in. Beside them stand two of the fixed paths (the table, one
index, some indexes with their lists intersected; of an OR the union; of an order that an index gives only this index, behind
lists of others):

  planner's guess    the one that is cheapest by the engine's own estimates, columns taken as independent
  best in hindsight  the one that reads least until the end

In a join each item has its path chosen anew whenever it is opened, with the values of the outer row.

What is counted: pages, leaves and records, one unit each, as SHOW does. From where: from the slow model, which writes the
program's traces and so reads what the program reads; no program is run. A cursor is read here alone from its OPEN, one FETCH
after another and to its end, whatever the script does with it: its FETCH, STEP and SHOW lines and the judges of its marks play
no part, and contrary, which answers in turn, begins anew with each cursor."""
from __future__ import annotations

import argparse
import json
import sys
from collections import Counter
from dataclasses import dataclass, field
from functools import cached_property
from typing import Callable, Iterable

if not __package__:  # run as a file: the other folders are found from tools/
    sys.path[0] += "/.."

from ending import end
from judges.fixed_paths import FETCHES, LEAVES, PAGES, FixedPaths, Path, Reads
from judges.judge_reads import JUDGES, Judge
from judges.named_judges import ruled_by
from model.database import qualifies
from model.engine import Contrary, Plan, Query, Used
from model.language import Call, Mark, calls_of, statement
from model.program import Session
from model.race import Race
from model.retrieval import Counts, begins_with
from model.slow_program import number_up_to
from model.union import can_unite, members_of
from shell.compare_picture import picture
from shell.timeline import NoScript, script_of

PLANNER, BEST = "planner's guess", "best in hindsight"


# Judges.


def judges() -> dict[str, Judge]:
    """The judges by their names, each as it begins: those of the program, then those of crates/skew_judges."""
    contrary = Contrary()
    in_turn = lambda facts: contrary.rule(facts.projected, facts.guaranteed)
    return {"threshold": JUDGES["threshold"], "patient": JUDGES["patient"], "contrary": in_turn, **JUDGES}


class Drops(list):
    """A log of the engine that keeps the indexes whose scans were dropped, of all items."""

    def append(self, noted: tuple[int, str, object]) -> None:
        _, kind, what = noted
        if kind == "event" and what.startswith("drop "):
            super().append(what.removeprefix("drop "))


class Judged(Plan):
    """A plan in which a judge rules."""

    def __init__(self, of: Plan, judge: Judge, steps: int, race: bool):
        self.judge, self.drops = judge, Drops()
        super().__init__(of.select, of.tables, None, steps, self.drops, race)

    def access(self, query, item):
        retrieval = super().access(query, item)
        retrieval.rule = ruled_by(self.judge, retrieval)
        return retrieval


# Fixed paths.


class Ranged(Used):
    """An index with the entries in its range, by leaf."""

    @cached_property
    def read(self) -> list[list]:
        read, place = [], None
        while True:
            entries, place = self.leaf(place)
            read.append(entries)
            if place is None:
                return read


class PathsOf(FixedPaths):
    """The fixed paths of a query of the model."""

    def __init__(self, query: Query):
        indexes = [Ranged(*index, query.groups, query.need) for index in query.indexes]
        if query.order:
            self.front = next(i for i in indexes if begins_with(i.columns, query.order))
        elif can_unite(indexes, query.order):
            members = members_of(query.groups, lambda atom: [Ranged(*index, [[atom]], query.need) for index in query.indexes])
            self.members = None if members is None else tuple(members)
        wanted = {n for n in self.looked_at(query, indexes) if qualifies(query.groups, lambda column: query.rows[n][column])}
        super().__init__(len(query.rows), query.pages, indexes, wanted)

    def looked_at(self, query: Query, indexes: list[Ranged]):
        """The numbers of rows among which are those wanted."""
        least = min((i for i in indexes if i.restricted), key=lambda i: i.estimate, default=None)
        ranges = self.members or ([] if least is None else [least])
        return {n for index in ranges for leaf in index.read for _, n in leaf} if ranges else query.rows


class Followed:
    """A retrieval by a fixed path."""

    control = "foreground"

    def __init__(self, path: Path, counts: Counts):
        self.moves, self.counts = path.moves(), counts

    def awaits(self) -> bool:
        return False

    def step(self):
        """A row's number, None where no row came yet, or "end"."""
        move = next(self.moves, "end")
        if move not in (PAGES, LEAVES, FETCHES):
            return move
        setattr(self.counts, move, getattr(self.counts, move) + 1)
        return None


class Fixed(Plan):
    """A plan whose retrievals follow fixed paths, each chosen when it is opened."""

    def __init__(self, of: Plan, choose: Callable[[FixedPaths], tuple[str, ...]]):
        self.choose = choose
        self.taken: list[list[str]] = [[] for _ in of.tables]  # of each item the paths by which it was opened, in words
        self.paths: PathsOf | None = None  # those of the first item
        super().__init__(of.select, of.tables, None, 0, None)

    def access(self, query, item):
        paths = PathsOf(query)
        self.paths = self.paths or paths
        path = paths.paths[self.choose(paths)]
        self.taken[item].append(path.words)
        return Followed(path, self.counts)

    def words(self, items: list[str]) -> str:
        """The path, or of a join those of each item, with how many times it was opened by it."""
        if len(items) == 1:
            return often(self.taken[0])
        return "; ".join(f"{item}: {often(paths) or 'not opened'}" for item, paths in zip(items, self.taken))


# What is told of a cursor.


@dataclass(frozen=True)
class Contender:
    """A judge or a fixed path: what it read until each row and in all; of a judge which scans were dropped, and the trace."""

    name: str
    reads: Reads
    counts: Counts
    dropped: list[str] | None
    told: str  # the trace, or the path

    @property
    def words(self) -> str:
        """The path, or what was dropped."""
        if self.dropped is None:
            return self.told
        return "drops " + often(self.dropped) if self.dropped else ""


def often(names: Iterable[str]) -> str:
    """Names, each once, and how many times it is among these."""
    return ", ".join(f"{name} {number:,} times" if number > 1 else name for name, number in Counter(names).items())


@dataclass
class Compared:
    """A cursor that the script opens, with all contenders, and how often the script fetches it."""

    call: Call
    cursor: str
    strategy: str
    first: str  # the first item of FROM, of whose ranges are
    estimates: list[dict]
    sorted_table: int | None  # the pages of the table, where it could be read and sorted in place of an index's order
    contenders: list[Contender]
    fetched: int = 0

    @property
    def rows(self) -> int:
        return len(self.contenders[0].reads.rows)

    @property
    def is_ended(self) -> bool:
        """Whether the script fetches the cursor until its end."""
        return self.fetched > self.rows

    def columns(self, contender: Contender) -> list[int | None]:
        """The reads until the first, the tenth and the last row, where there are such, and until the end."""
        until = lambda number: contender.reads.until(number) if 0 < number <= self.rows else None
        return [until(1), until(10), until(self.rows), contender.reads.whole]


def reads_of(plan: Plan) -> Reads:
    """Fetches all rows of a plan."""
    counts, rows = plan.counts, []
    read = lambda: counts.pages + counts.leaves + counts.fetches
    while plan.allowed() != {"end"}:
        rows.append(read())
    return Reads(read(), rows)


def compared(call: Call, opened: Plan, steps: int, race: bool) -> Compared:
    _, cursor, _, from_items, *_ = statement(call.text)
    items, contenders = [second or name for name, second in from_items], []
    for name, judge in judges().items():
        judged = Judged(opened, judge, steps, race)
        contenders.append(Contender(name, reads_of(judged), judged.counts, list(judged.drops), judged.trace().removeprefix("trace ")))
    for name, choose in ((PLANNER, lambda paths: paths.planned), (BEST, lambda paths: paths.best)):
        fixed = Fixed(opened, choose)
        contenders.append(Contender(name, reads_of(fixed), fixed.counts, None, fixed.words(items)))
    paths = fixed.paths
    sorts = paths.pages if paths.front is not None and len(opened.tables) == 1 else None
    return Compared(call, cursor, strategy_of(judged), items[0], estimates_of(paths), sorts, contenders)


def strategy_of(plan: Plan) -> str:
    """The strategy of the first item, with what is done beside it."""
    words = plan.open[0].strategy + (" with a race" if isinstance(plan.open[0], Race) else "")
    words += f", a join of {len(plan.tables)}" if len(plan.tables) > 1 else ""
    return words + (", then a sort" if plan.gathered is not None else "")


def estimates_of(paths: PathsOf) -> list[dict]:
    """What is estimated of the first item's ranges, and what is there."""
    used = paths.members or [i for i in paths.indexes if i.restricted or i is paths.front]
    return [{"index": i.name, "estimate": i.estimate, "exact": i.exact, "entries": sum(map(len, i.read))} for i in used]


@dataclass
class Told:
    """The cursors that a script opens, and the calls that look like an OPEN and are refused, with the replies."""

    cursors: list[Compared] = field(default_factory=list)
    refused: list[tuple[Call, str]] = field(default_factory=list)
    opened: list[str] = field(default_factory=list)


def told_of(script: str, session: int | None, names: list[str], steps: int, race: bool) -> Told:
    """Makes the calls of a script, but for those that only read a cursor, and compares each cursor that fits."""
    run, told = Session(), Told()
    present: dict[tuple[int, str], Compared] = {}  # the cursors that are open
    for call in calls_of(script):
        if isinstance(call, Mark):
            continue
        said = statement(call.text)
        if said[0] in ("fetch", "step", "show"):
            key = call.session, said[1]
            if said[0] == "fetch" and key in run.engine.cursors and key in present:
                present[key].fetched += 1
            continue
        reply = run.call(call.session, call.text)
        if reply != "opened":
            # one that is `syntax` is known by its first word
            told.refused += [(call, reply)] if call.text.upper().split()[:1] == ["OPEN"] else []
        else:
            key = call.session, said[1]
            told.opened.append(f"{said[1]} of session {call.session}")
            present.pop(key, None)
            if session in (None, call.session) and (not names or said[1] in names):
                present[key] = compared(call, run.engine.cursors[key], steps, race)
                told.cursors.append(present[key])
    return told


# The table.


COLUMNS = ["row 1", "row 10", "last row", "end"]


def line_of(name: str, cells: list, words: str = "") -> str:
    numbers = "".join(f"{'-' if cell is None else format(cell, ',') if isinstance(cell, int) else cell:>10}" for cell in cells)
    return f"    {name:<18}{numbers}  {words}".rstrip()


def estimate_words(of: dict) -> str:
    if of["exact"]:
        return f"{of['index']} {of['estimate']:,} (exact)"
    return f"{of['index']} about {of['estimate']:,} ({of['entries']:,} are there)"


def rows_words(number: int) -> str:
    return "no row" if number == 0 else "1 row" if number == 1 else f"{number:,} rows"


def block(name: str, of: Compared) -> list[str]:
    """The lines of a cursor."""
    lines = [f"{name}:{of.call.line}: session {of.call.session}, cursor {of.cursor}: {of.strategy}; {rows_words(of.rows)}", f"    {of.call.text}"]
    if of.estimates:
        lines.append(f"    entries in range of {of.first}: " + ", ".join(map(estimate_words, of.estimates)))
    if not of.is_ended:
        lines.append(f"    the script does not read it to its end ({of.fetched:,} of {of.rows + 1:,} FETCHes); here it is")
    lines.append(line_of("reads until", COLUMNS))
    for contender in of.contenders:
        lines.append(line_of(contender.name, of.columns(contender), contender.words))
    if of.sorted_table is not None and of.sorted_table < of.contenders[-1].reads.whole:
        lines.append(f"    the {of.sorted_table:,} pages of the table, read and then sorted, would be less; an order that an index gives is followed,")
        lines.append("    but not with one more column in ORDER BY that no index has there")
    return lines


def sums(cursors: list[Compared]) -> list[str]:
    """The reads of all cursors together; of each column, over those that have such a row."""
    cells = [[of.columns(contender) for contender in of.contenders] for of in cursors]
    having = [sum(of[0][column] is not None for of in cells) for column in range(len(COLUMNS))]
    lines = [f"all {len(cursors):,} cursors together", line_of("reads until", COLUMNS), line_of("cursors with one", having)]
    for place, contender in enumerate(cursors[0].contenders):
        lines.append(line_of(contender.name, [sum(of[place][column] or 0 for of in cells) for column in range(len(COLUMNS))]))
    return lines


def head(steps: int, race: bool) -> list[str]:
    return [
        "Reads are pages, leaves and records, one unit each, until a row is there, and until FETCH answers `end`. They are counted by the",
        f"slow model, which reads what the program reads, with --steps {steps}{' and --race' if race else ''}; each cursor alone, and to its end.",
        "threshold, patient, contrary: the program's judges (--judge 0, 1, 2). AllRows, FirstRows, Bounded (a guard around AllRows): of",
        "crates/skew_judges, for callers of the library. A planner's guess and the best in hindsight are fixed paths: by estimates, and",
        "by what it reads until the end.",
    ]


def table(name: str, told: Told, steps: int, race: bool) -> str:
    blocks = [head(steps, race), *(block(name, of) for of in told.cursors)]
    if len(told.cursors) > 1:
        blocks.append(sums(told.cursors))
    return "\n\n".join("\n".join(lines) for lines in blocks) + "\n"


# JSON.


def as_json(name: str, told: Told, steps: int, race: bool) -> str:
    def contender(of: Compared, it: Contender) -> dict:
        first, tenth, last, whole = of.columns(it)
        reads = {"first": first, "tenth": tenth, "last": last, "end": whole}
        counts = {PAGES: it.counts.pages, LEAVES: it.counts.leaves, FETCHES: it.counts.fetches}
        kind = {"path": it.told} if it.dropped is None else {"dropped": it.dropped, "trace": it.told}
        return {"name": it.name, "reads": reads, **counts, **kind}

    cursors = [
        {"line": of.call.line, "session": of.call.session, "cursor": of.cursor, "text": of.call.text, "strategy": of.strategy, "rows": of.rows,
         "fetches_in_script": of.fetched, "ended_in_script": of.is_ended, "estimates": of.estimates,
         "contenders": [contender(of, it) for it in of.contenders]}
        for of in told.cursors
    ]  # fmt: skip
    settings = {"script": name, "counted": "pages, leaves and records", "by": "the slow model", "steps": steps, "race": race}
    return json.dumps({**settings, "cursors": cursors}, indent=2) + "\n"


def main() -> int:
    about, more = __doc__.split("\n\n", 1)
    statuses = "Status 0: cursors were compared; 1: none is opened that fits; 2: a file or the words cannot be taken; 2 and 3: the input is no script.\n"
    statuses += "An OPEN that is refused is told on standard error with its line, and the others are compared."
    parser = argparse.ArgumentParser(description=about, epilog=f"{more}\n\n{statuses}", formatter_class=argparse.RawDescriptionHelpFormatter)
    parser.add_argument("script", metavar="SCRIPT", help="a script, or - for standard input")
    parser.add_argument("--session", type=int, choices=range(1, 9), metavar="S", help="only cursors of this session")
    parser.add_argument("--cursor", type=str.upper, action="append", default=[], metavar="NAME", help="only cursors of this name; may be said again for others")
    parser.add_argument("--steps", type=number_up_to(64), default=1, metavar="K", help="as the program's --steps (default 1)")
    parser.add_argument("--race", action="store_true", help="as the program's --race")
    parser.add_argument("--json", action="store_true", help="as JSON in place of the table, with the whole traces")
    parser.add_argument("--svg", metavar="FILE", help="also draw all cursors as one picture")
    words = parser.parse_args()
    try:
        script = script_of(words.script)
    except NoScript as fault:
        print(fault, file=sys.stderr)
        return fault.status
    told = told_of(script, words.session, words.cursor, words.steps, words.race)
    for call, reply in told.refused:
        print(f"{words.script}:{call.line}: not opened: {reply}", file=sys.stderr)
    if not told.cursors:
        opened = ", ".join(dict.fromkeys(told.opened)) or "none"
        print(f"compare: {words.script}: no such cursor is opened; opened are: {opened}", file=sys.stderr)
        return 1
    write = as_json if words.json else table
    sys.stdout.write(write(words.script, told, words.steps, words.race))
    if words.svg:
        with open(words.svg, "w", encoding="utf-8") as file:
            file.write(picture(told.cursors, words.steps, words.race))
    return 0


if __name__ == "__main__":
    end(main)
