#!/usr/bin/env python3
"""Runs the sessions of one phase of a script in every order, or in some random ones, and tells apart what comes of it.

A script's phases are parted by lines `--`. All phases but one (the second, or the one of --phase) run as they stand; the
calls of that one are made in each order that keeps each session's own. Orders with the same replies are told together: how
many they are, the first of them, its replies, and after it the replies of the later phases, which may look at what became
of the rows. Transactions and commits are named by their sessions there (`held 0 by session 2`), since their numbers only
tell who came first; --numbers leaves the numbers.

With --expected FILE the text is compared with a file, and a diff is told. The replies are those of the slow model, or with
--program of a program.

Status 0: all orders were run; 1: with --expected, the text differs; 2: a file cannot be read, this is no script, the phase has no
calls, there are too many orders, or the program does not answer all calls."""
from __future__ import annotations

import argparse
import difflib
import math
import random
import re
import subprocess
import sys
from collections import Counter
from dataclasses import dataclass
from typing import Callable, Iterator, Sequence

if not __package__:  # run as a file: the other folders are found from tools/
    sys.path[0] += "/.."

from ending import end
from model.language import Call, Mark, calls_of, fault_of
from model.program import Session
from model.slow_program import number_up_to
from shell.check_script import of_fault
from shell.timeline import positive, read_script

Order = tuple[int, ...]  # of each call of the phase the session
Runner = Callable[[Sequence[Call | Mark]], list[str]]


@dataclass(frozen=True)
class Phases:
    """A script's calls and marks: before the phase that is interleaved, in it, and from the mark behind it on."""

    before: list[Call | Mark]
    inside: list[Call]
    after: list[Call | Mark]

    @property
    def by_session(self) -> dict[int, list[Call]]:
        found: dict[int, list[Call]] = {}
        for call in self.inside:
            found.setdefault(call.session, []).append(call)
        return found


def phases(script: str, number: int) -> Phases:
    before: list[Call | Mark] = []
    inside: list[Call] = []
    after: list[Call | Mark] = []
    at = 1
    for call in calls_of(script):
        at += isinstance(call, Mark)
        if at == number and isinstance(call, Call):
            inside.append(call)
        elif at <= number:
            before.append(call)
        else:
            after.append(call)
    return Phases(before, inside, after)


# Orders.


def how_many(counts: Counter[int]) -> int:
    """The number of orders of so many calls of each session."""
    return math.factorial(counts.total()) // math.prod(map(math.factorial, counts.values()))


def every_order(counts: Counter[int]) -> Iterator[Order]:
    """Every order, those of the lower sessions first."""
    if not counts.total():
        yield ()
    for session in sorted(counts):
        if counts[session]:
            for rest in every_order(counts - Counter([session])):
                yield (session, *rest)


def random_orders(counts: Counter[int], number: int, seed: int) -> Iterator[Order]:
    """So many different orders, each as likely as any other."""
    rng = random.Random(seed)
    calls, seen = sorted(counts.elements()), set()
    while len(seen) < min(number, how_many(counts)):
        rng.shuffle(calls)
        if tuple(calls) not in seen:
            seen.add(tuple(calls))
            yield tuple(calls)


def in_order(by_session: dict[int, list[Call]], order: Order) -> list[Call]:
    left = {session: iter(calls) for session, calls in by_session.items()}
    return [next(left[session]) for session in order]


# Runs.


class NoReplies(Exception):
    """A program does not answer the calls of a script; the words tell how it ended."""


def by_model(judge: int, steps: int) -> Runner:
    return lambda calls: [reply for _, reply in Session(judge, steps).run(calls)]


def by_program(words: list[str], judge: int, steps: int) -> Runner:
    def run(calls: Sequence[Call | Mark]) -> list[str]:
        script = "".join(f"{call.session} {call.text}\n" if isinstance(call, Call) else mark_line(call) for call in calls)
        command = [*words, "--judge", str(judge), "--steps", str(steps)]
        ran = subprocess.run(command, input=script.encode(), stdout=subprocess.PIPE, check=False)
        if ran.returncode:
            raise NoReplies(f"{words[0]} ended with status {ran.returncode}")
        replies = [line[2:] for line in ran.stdout.decode(errors="replace").split("\n")[1::2]]
        wanted = sum(isinstance(call, Call) for call in calls)
        if len(replies) != wanted:
            raise NoReplies(f"{words[0]} answered {len(replies)} of {wanted} calls")
        return replies

    return run


def mark_line(mark: Mark) -> str:
    return "--\n" if mark.judge is None else f"-- {mark.judge}\n"


class Namer:
    """Puts sessions for the numbers of transactions and commits."""

    def __init__(self):
        self.transactions: dict[str, int] = {}
        self.commits: dict[str, int] = {}

    def named(self, session: int, reply: str) -> str:
        word, _, number = reply.partition(" ")
        if word == "began":
            self.transactions[number] = session
            return word
        if word == "committed":
            self.commits.setdefault(number, session)
            return word
        by = re.fullmatch(r"(held|changed) (\d+) by (\d+)", reply)
        known = {"held": self.transactions, "changed": self.commits}.get(word, {})
        if by and by[3] in known:
            return f"{word} {by[2]} by session {known[by[3]]}"
        if word in ("active", "busy") and number in self.transactions:
            return f"{word}, session {self.transactions[number]}"
        return reply


@dataclass
class Outcome:
    """The replies to each session's calls and to those behind, by session and place, and the orders that lead to them."""

    order: Order
    calls: list[Call]
    replies: list[str]
    behind: list[tuple[Call, str]]
    orders: int = 1


def outcomes(of: Phases, orders: Iterator[Order], run: Runner, numbers: bool) -> list[Outcome]:
    found: dict[tuple, Outcome] = {}
    for order in orders:
        inside = in_order(of.by_session, order)
        script = [*of.before, *inside, *of.after]
        calls = [call for call in script if isinstance(call, Call)]
        namer = Namer()
        replies = [reply if numbers else namer.named(call.session, reply) for call, reply in zip(calls, run(script))]
        start = sum(isinstance(call, Call) for call in of.before)
        of_phase = replies[start : start + len(inside)]
        behind = list(zip(calls, replies))[start + len(inside) :]
        key = (tuple(sorted((call.line, reply) for call, reply in zip(inside, of_phase))), tuple(reply for _, reply in behind))
        if key in found:
            found[key].orders += 1
        else:
            found[key] = Outcome(order, inside, of_phase, behind)
    return sorted(found.values(), key=lambda outcome: -outcome.orders)


def text(told: list[Outcome]) -> str:
    total = sum(outcome.orders for outcome in told)
    lines = [f"{total} orders, {len(told)} outcomes"]
    for number, outcome in enumerate(told, 1):
        lines += ["", f"outcome {number}: {outcome.orders} of {total}, as in the order {' '.join(map(str, outcome.order))}"]
        lines += [f"  {call.session} {call.text} -> {reply}" for call, reply in zip(outcome.calls, outcome.replies)]
        if outcome.behind:
            lines.append("  behind it:")
            lines += [f"  {call.session} {call.text} -> {reply}" for call, reply in outcome.behind]
    return "\n".join(lines) + "\n"


def differs(told: str, name: str) -> list[str]:
    """The lines of a diff with a file."""
    with open(name, encoding="utf-8") as file:
        return list(difflib.unified_diff(file.read().splitlines(), told.splitlines(), name, "this run", lineterm=""))


def main() -> int:
    parser = argparse.ArgumentParser(description=__doc__, formatter_class=argparse.RawDescriptionHelpFormatter)
    parser.add_argument("script", metavar="FILE", help="a script, or - for standard input")
    parser.add_argument("--phase", type=int, default=2, metavar="N", help="the phase that is interleaved, from 1 (default 2)")
    parser.add_argument("--random", type=positive, metavar="N", help="N random orders in place of all")
    parser.add_argument("--seed", type=int, default=1, help="of the random orders (default 1)")
    parser.add_argument("--most", type=int, default=20000, metavar="N", help="refuse to run more orders than these (default 20000)")
    parser.add_argument("--judge", type=number_up_to(2), default=0, metavar="N", help="as the program's")
    parser.add_argument("--steps", type=number_up_to(64), default=1, metavar="K", help="as the program's")
    parser.add_argument("--numbers", action="store_true", help="leave the numbers of transactions and commits")
    parser.add_argument("--program", metavar="PROGRAM", help="run this program in place of the model")
    parser.add_argument("--expected", metavar="FILE", help="compare with this file, and tell a diff")
    words = parser.parse_args()
    data = read_script(words.script)
    fault = fault_of(data)
    if fault is not None:
        print(f"{words.script}: {of_fault(fault, data)}", file=sys.stderr)
        return 2
    of = phases(data.decode(), words.phase)
    counts = Counter(call.session for call in of.inside)
    if not counts:
        print(f"interleave: phase {words.phase} has no calls (a line `--` in the script begins the next phase)", file=sys.stderr)
        return 2
    if words.random is None and how_many(counts) > words.most:
        print(f"interleave: there are {how_many(counts)} orders: give --random N, or --most", file=sys.stderr)
        return 2
    run = by_program([words.program], words.judge, words.steps) if words.program else by_model(words.judge, words.steps)
    orders = every_order(counts) if words.random is None else random_orders(counts, words.random, words.seed)
    try:
        told = text(outcomes(of, orders, run, words.numbers))
    except NoReplies as fault:
        print(f"interleave: {fault}", file=sys.stderr)
        return 2
    if words.expected is None:
        sys.stdout.write(told)
        return 0
    difference = differs(told, words.expected)
    for line in difference:
        print(line)
    return 1 if difference else 0


if __name__ == "__main__":
    end(main)
