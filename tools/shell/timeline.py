#!/usr/bin/env python3
"""Shows cursors of a script call by call: what was replied, which pages, leaves and records each call read, which scans
began, were completed or were dropped, and why.

The run is that of the slow model, which writes the program's transcript and so reads what the program reads. For each
ruling of a judge it tells what was scanned and kept, what the scan was projected to cost and what was guaranteed without
it. With two judges (--judge 0 --judge 1) both courses of a cursor are told side by side; a judge that is given so rules the
whole run, whatever the script's marks say. Of several cursors each is told by itself, in the order in which they are opened.
Without --cursor, --opening and --all it is the first cursor that is opened."""
from __future__ import annotations

import argparse
import re
import sys
from collections import Counter
from dataclasses import dataclass, field
from itertools import zip_longest
from typing import Iterable

if not __package__:  # run as a file: the other folders are found from tools/
    sys.path[0] += "/.."

from ending import end
from model.language import Call, Mark, calls_of, fault_of, statement
from model.retrieval import Ruling
from model.slow_program import SUPPLIED, judge_of, number_up_to, session
from shell.check_script import of_fault
from shell.timeline_picture import picture


@dataclass(frozen=True)
class Step:
    """A call to the cursor (or one that moves it): its line, its text and reply, and what happened meanwhile, as the log
    of the engine has it."""

    line: int
    text: str
    reply: str
    happened: list[tuple]

    def reads(self, kind: str, item: int | None = None) -> list:
        return [what for at, k, what in self.happened if k == kind and item in (None, at)]

    @property
    def cost(self) -> int:
        return sum(kind in ("page", "leaf", "record") for _, kind, _ in self.happened)


@dataclass
class Course:
    """A cursor's calls from OPEN on under a judge."""

    judge: str
    opened: Call
    steps: list[Step] = field(default_factory=list)
    trace: str = ""


class NotThere(Exception):
    """The script has not all of these cursors; these are opened."""

    def __init__(self, opened: Iterable[tuple[int, str]]):
        super().__init__(", ".join(f"{name} of session {session}" for session, name in opened) or "none")


@dataclass(frozen=True)
class Sought:
    """Which openings are looked for: of this session (None: of any) and these names (none: of any name), of each name those
    of these numbers among the ones that fit (none: each)."""

    session: int | None
    names: tuple[str, ...]
    numbers: tuple[int, ...]

    def fits(self, session: int, name: str) -> bool:
        return self.session in (None, session) and (not self.names or name in self.names)

    def key(self, name: str) -> str | None:
        """What openings are counted by."""
        return name if self.names else None

    def missing(self, found: Counter[str | None]) -> bool:
        """Whether openings are wanted that were not found."""
        least = max(self.numbers, default=1)
        return any(found[name] < least for name in self.names or (None,))


def courses_of(script: str, sought: Sought, judge: int | str | None, steps: int, race: bool = False) -> list[Course]:
    """The course of each cursor that is looked for, until it is closed or the script ends. A judge that is given rules the
    whole run."""
    log: list[tuple] = []
    run = session(judge or 0, steps, log=log, race=race)
    courses: list[Course] = []
    present: dict[tuple[int, str], Course] = {}  # those that are open
    found: Counter[str | None] = Counter()
    opened: dict[tuple[int, str], None] = {}  # sessions and names, in their order
    for call in calls_of(script):
        if isinstance(call, Mark):
            run.mark(call.judge if judge is None else None)
            continue
        log.clear()
        said = statement(call.text)
        reply = run.call(call.session, call.text)
        key = (call.session, said[1]) if said[0] in ("open", "fetch", "step", "show") else None
        if reply == "opened":
            opened[key] = None
            if sought.fits(*key):
                found[sought.key(said[1])] += 1
                if not sought.numbers or found[sought.key(said[1])] in sought.numbers:
                    present[key] = Course(judge if isinstance(judge, str) else SUPPLIED[run.engine.judge], call)
                    courses.append(present[key])
        if key in present:
            present[key].steps.append(Step(call.line, call.text, reply, list(log)))
        present = {key: course for key, course in present.items() if key in run.engine.cursors}
        for key, course in present.items():
            course.trace = run.engine.cursors[key].trace()
        if sought.numbers and not present and not sought.missing(found):
            break
    if sought.missing(found):
        raise NotThere(opened)
    return courses


# Text.


def runs(numbers: list[int]) -> str:
    """Numbers with runs told by their ends: 3, 5-9."""
    parts: list[list[int]] = []
    for number in numbers:
        if parts and number == parts[-1][1] + 1:
            parts[-1][1] = number
        else:
            parts.append([number, number])
    return ", ".join(str(low) if low == high else f"{low}-{high}" for low, high in parts)


def read_words(step: Step) -> list[str]:
    """What a call read, one kind after another."""
    words = []
    pages, records = step.reads("page"), step.reads("record")
    if pages:
        words.append(f"page{'s' * (len(pages) > 1)} {runs(pages)}")
    leaves = step.reads("leaf")
    for index in dict.fromkeys(name for name, _ in leaves):
        numbers = [at for name, at in leaves if name == index]
        words.append(f"lea{'ves' if len(numbers) > 1 else 'f'} {runs(numbers)} of {index}")
    if records:
        words.append(f"record{'s' * (len(records) > 1)} {runs(records)}")
    return words


def ruling_words(ruling: Ruling) -> str:
    told = f"{ruling.scan}: {ruling.scanned} of about {max(ruling.estimate, ruling.scanned)} entries scanned, {ruling.kept} kept; "
    why = f"projected {ruling.projected}, guaranteed {ruling.guaranteed}"
    return f"{told}{why}: {ruling.verdict}"


def happened_words(step: Step) -> list[str]:
    """Events and rulings, in their order. Of joins the item of FROM is told, from the second on."""
    words = []
    for item, kind, what in step.happened:
        if kind in ("event", "ruled"):
            told = what if kind == "event" else ruling_words(what)
            words.append(told if item == 0 else f"item {item + 1}: {told}")
    return words


def blocks(course: Course) -> list[list[str]]:
    """The lines of each call."""
    told = []
    for step in course.steps:
        shown = step.reply if not step.reply.startswith("trace") else "trace"
        lines = [f"{step.line}: {step.text.split()[0].upper()}: {shown}"]
        lines += [f"    reads {words}" for words in read_words(step)]
        lines += [f"    {words}" for words in happened_words(step)]
        told.append(lines)
    return told


def head(course: Course) -> list[str]:
    return [f"judge {course.judge}", course.trace.removeprefix("trace "), f"{sum(step.cost for step in course.steps)} reads in {len(course.steps)} calls", ""]


def text(courses: list[Course], width: int) -> str:
    """The courses, side by side where there are two."""
    opened = courses[0].opened
    lines = [f"line {opened.line}, session {opened.session}: {opened.text}", ""]
    if len(courses) == 1:
        lines += head(courses[0]) + [line for block in blocks(courses[0]) for line in block]
    else:
        pairs = [tuple(map(head, courses)), *zip_longest(*map(blocks, courses), fillvalue=[])]
        for left, right in pairs:
            wrapped = [[part for line in side for part in wrap(line, width)] for side in (left, right)]
            lines += [f"{a:{width}} | {b}".rstrip() for a, b in zip_longest(*wrapped, fillvalue="")]
    return "\n".join(lines) + "\n"


def wrap(line: str, width: int) -> list[str]:
    """A line cut at spaces to a width, with its indent and two more."""
    indent = " " * (len(line) - len(line.lstrip()))
    parts, now = [], indent
    for word in line.split():
        if len(now) + len(word) > width and now.strip():
            parts.append(now.rstrip())
            now = indent + "  "
        now += word + " "
    return parts + [now.rstrip()]


class NoScript(Exception):
    """What was read is no script: the place and what is wrong there, and the program's status for it."""

    def __init__(self, name: str, fault: tuple[int, str], data: bytes):
        place = re.search(r"line (\d+) ", fault[1])
        super().__init__(f"{name}:{place[1] + ':' if place else ''} {of_fault(fault, data)}")
        self.status = fault[0]


def read_script(name: str) -> bytes:
    """What a file holds, or what comes on standard input."""
    if name == "-":
        return sys.stdin.buffer.read()
    with open(name, "rb") as file:
        return file.read()


def script_of(name: str) -> str:
    """The script of a file, or of standard input."""
    data = read_script(name)
    fault = fault_of(data)
    if fault is not None:
        raise NoScript(name, fault, data)
    return data.decode()


def positive(word: str) -> int:
    if not word.isdecimal() or int(word) == 0:
        raise argparse.ArgumentTypeError(f"not a number from 1 on: {word}")
    return int(word)


def main() -> int:
    parser = argparse.ArgumentParser(description=__doc__, formatter_class=argparse.RawDescriptionHelpFormatter)
    parser.add_argument("script", metavar="FILE", help="a script, or - for standard input")
    parser.add_argument("--session", type=int, choices=range(1, 9), metavar="S", help="the session of the cursors (default: any)")
    parser.add_argument("--cursor", type=str.upper, action="append", default=[], metavar="NAME", help="a cursor's name (default: any); may be said again for others")
    parser.add_argument("--opening", type=positive, action="append", default=[], metavar="N", help="the Nth opening that fits, of each name (default 1); may be said again for others")
    parser.add_argument("--all", action="store_true", help="each opening that fits")
    parser.add_argument("--judge", type=judge_of, action="append", metavar="N", help="the judge of the whole run, by its number or its name, as bounded; twice for two side by side")
    parser.add_argument("--steps", type=number_up_to(64), default=1, metavar="K", help="as the program's --steps (default 1)")
    parser.add_argument("--race", action="store_true", help="as the program's --race")
    parser.add_argument("--svg", metavar="FILE", help="also write the courses as one picture")
    parser.add_argument("--width", type=int, default=64, metavar="N", help="columns of a side, where two are told (default 64)")
    parser.epilog = "Status 0: cursors were told; 1: none is opened that fits; 2: a file or the words cannot be taken; 2 and 3: the input is no script."
    words = parser.parse_args()
    if words.judge and len(words.judge) > 2:
        parser.error("at most two judges")
    if words.all and words.opening:
        parser.error("either --all or --opening")
    try:
        script = script_of(words.script)
    except NoScript as fault:
        print(fault, file=sys.stderr)
        return fault.status
    sought = Sought(words.session, tuple(words.cursor), () if words.all else tuple(words.opening or [1]))
    try:
        by_judge = [courses_of(script, sought, judge, words.steps, words.race) for judge in words.judge or [None]]
    except NotThere as fault:
        print(f"timeline: {words.script}: no such cursor is opened in this script; opened are: {fault}", file=sys.stderr)
        return 1
    told = [list(courses) for courses in zip(*by_judge)]  # of each cursor, under each judge
    sys.stdout.write("\n".join(text(courses, words.width) for courses in told))
    if words.svg:
        with open(words.svg, "w", encoding="utf-8") as file:
            file.write(picture(told))
    return 0


if __name__ == "__main__":
    end(main)
