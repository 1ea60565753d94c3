"""Runs a script through the model, and makes the workload of a seed."""
from __future__ import annotations

from typing import Iterable, Iterator

from .engine import Engine
from .language import Call, Mark, calls_of, statement

REFUSALS = frozenset("syntax unknown exists kind active no busy read changed held cursor limit duplicate".split())


def is_refusal(reply: str) -> bool:
    return reply.split()[0] in REFUSALS


class Session:
    """The engine with its calls one after another; any text of any session may come next."""

    def __init__(self, judge: int = 0, steps: int = 1, plain: bool = False, log: list | None = None, race: bool = False):
        self.engine = Engine(judge, steps, plain, log, race)

    def call(self, session: int, text: str) -> str:
        """The reply of a call."""
        said = statement(text)
        allowed = self.engine.answer(session, said)
        (reply,) = allowed if isinstance(allowed, set) else {allowed}
        self.engine.given(said, reply)
        return reply

    def mark(self, judge: int | None) -> None:
        """A phase begins, with another judge or the same one."""
        self.engine.judge = self.engine.judge if judge is None else judge

    def run(self, calls: Iterable[Call | Mark]) -> Iterator[tuple[Call, str]]:
        """Each call with its reply."""
        for call in calls:
            if isinstance(call, Mark):
                self.mark(call.judge)
            else:
                yield call, self.call(call.session, call.text)


def run(script: str, judge: int = 0, steps: int = 1, plain: bool = False, race: bool = False) -> Iterator[tuple[int, str, str]]:
    """Session, text and reply of each call of a script."""
    for call, reply in Session(judge, steps, plain, race=race).run(calls_of(script)):
        yield call.session, call.text, reply


def transcript(replies: Iterable[tuple[int, str, str]]) -> str:
    return "".join(f"{session} {text}\n= {reply}\n" for session, text, reply in replies)


def generated(seed: int) -> str:
    """The script of a seed: 2,000 rows with two indexes, then four cursors under 250 updates."""
    state = seed

    def draw(most: int) -> int:
        nonlocal state
        state = (state * 6364136223846793005 + 1442695040888963407) % 2**64
        return (state >> 33) % most

    lines = ["1 CREATE TABLE T (A BIGINT, B BIGINT, C VARCHAR(8))", "1 CREATE INDEX IA ON T (A)", "1 CREATE INDEX IB ON T (B)"]
    lines.append("1 BEGIN")
    for _ in range(2000):
        a, b, c = draw(1000), draw(100), draw(10)
        lines.append(f"1 INSERT INTO T VALUES ({a}, {b}, 'C{c}')")
    lines += ["1 COMMIT", "--"]
    for session in range(2, 6):
        low, below = draw(900), 1 + draw(100)
        goal = "TOTAL TIME" if session % 2 else "FAST FIRST"
        lines.append(f"{session} BEGIN READ ONLY")
        lines.append(f"{session} OPEN C SELECT A, B FROM T WHERE A BETWEEN {low} AND {low + 99} AND B < {below} OPTIMIZE FOR {goal}")
    for _ in range(250):
        lines += [f"{session} FETCH C" for session in range(2, 6)]
        a, b = draw(1000), draw(100)
        lines += ["1 BEGIN", f"1 UPDATE T SET A = {a} WHERE B = {b}", "1 COMMIT"]
    return "".join(line + "\n" for line in lines)


def summary(replies: Iterable[str]) -> str:
    """The five lines of --gen."""
    told = list(replies)
    count = lambda word: sum(reply.split()[0] == word for reply in told)
    counts = {"calls": len(told), "rows": count("row"), "ends": count("end"), "commits": count("committed")}
    counts["refused"] = sum(map(is_refusal, told))
    return "".join(f"{word} {number}\n" for word, number in counts.items())
