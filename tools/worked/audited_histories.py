"""Transcripts that are legal histories, and such that break, with the verdict on each. The verdicts were found by hand, by the rules in
words: which row may come, when `end` may, what STEP and SHOW may tell, and by which turns a retrieval goes on."""
from __future__ import annotations

from typing import Iterator

from fuzz.hostile_table import FIRST

# Three rows, two of them equal, and a cursor over all.
ROWS, _, _ = FIRST.partition("1 FETCH C\n")
END_OF_ROWS = "1 COMMIT\n= committed 1\n1 FETCH C\n= no cursor C\n"

ONE, NONE = "row 1, 'x'", "row NULL, ''"

# A cursor over an empty table, and one over a table of two indexes, beside another table with an index.
EMPTY = "1 CREATE TABLE T (A BIGINT)\n= created\n1 BEGIN\n= began 1\n1 OPEN C SELECT * FROM T\n= opened\n"
INDEXED = """\
1 CREATE TABLE S (A BIGINT)
= created
1 CREATE TABLE T (A BIGINT, B BIGINT)
= created
1 CREATE INDEX SA ON S (A)
= created
1 CREATE INDEX IA ON T (A)
= created
1 BEGIN
= began 1
1 OPEN C SELECT * FROM T
= opened
"""

# Two tables of a row each, and a cursor over both.
JOINED = """\
1 CREATE TABLE X (K BIGINT)
= created
1 CREATE TABLE Y (K BIGINT)
= created
1 BEGIN
= began 1
1 INSERT INTO X VALUES (1)
= inserted 0
1 INSERT INTO Y VALUES (2)
= inserted 0
1 COMMIT
= committed 1
1 BEGIN
= began 2
1 OPEN C SELECT X.K FROM X, Y WHERE X.K < Y.K
= opened
"""

# A row of one table has the value of both rows of the other.
EQUAL = """\
1 CREATE TABLE X (A BIGINT)
= created
1 CREATE TABLE Y (A BIGINT)
= created
1 BEGIN
= began 1
1 INSERT INTO X VALUES (1)
= inserted 0
1 INSERT INTO X VALUES (2)
= inserted 1
1 INSERT INTO Y VALUES (2)
= inserted 0
1 INSERT INTO Y VALUES (2)
= inserted 1
1 COMMIT
= committed 1
1 BEGIN
= began 2
1 OPEN C SELECT X.A, Y.A FROM X, Y WHERE X.A = Y.A
= opened
"""

TRANSACTIONS = """\
1 CREATE TABLE T (A BIGINT)
= created
3 BEGIN
= began 1
1 BEGIN READ ONLY
= began 2
3 BEGIN
= active 1
1 CREATE TABLE U (A BIGINT)
= busy 1
"""


def fetches(*replies):
    return "".join(f"1 FETCH C\n= {reply}\n" for reply in replies)


def asked(text, reply):
    return f"1 {text}\n= {reply}\n"


def shown(events):
    return asked("SHOW C", f"trace {events} pages 7 leaves 0 fetches 0")


# A transcript and the verdict on it.
HISTORIES = [
    ("", "legal"),
    # rows may come in any order without ORDER BY
    (ROWS + fetches(ONE, ONE, NONE, "end", "end") + END_OF_ROWS, "legal"),
    (ROWS + fetches(NONE, ONE, ONE, "end") + END_OF_ROWS, "legal"),
    # no row comes that is not left
    (ROWS + fetches("row 5, 'x'", ONE, NONE) + END_OF_ROWS, "bad entry 9"),
    (ROWS + fetches(NONE, NONE) + END_OF_ROWS, "bad entry 10"),
    (ROWS + fetches(NONE, "end") + END_OF_ROWS, "bad entry 10"),
    # transactions are counted from 1
    ("1 BEGIN\n= began 2\n", "bad entry 1"),
    ("1 begin;;\n= syntax\n", "legal"),
    # STEP does no more than is asked
    (EMPTY + asked("STEP C 3", "stepped 3"), "legal"),
    (EMPTY + asked("STEP C 3", "stepped 4"), "bad entry 4"),
    # SHOW tells a trace of the course
    (EMPTY + shown("table final-table"), "legal"),
    (EMPTY + shown("table final-list"), "bad entry 4"),
    # its scans have the names of indexes over the table
    (INDEXED + shown("fast-first building scan IA"), "legal"),
    (INDEXED + shown("fast-first building scan IB"), "bad entry 7"),
    (INDEXED + shown("fast-first building scan SA"), "bad entry 7"),
    # a join offers each choice of rows that qualifies, as often as there are such choices
    (JOINED + fetches("row 1"), "legal"),
    (JOINED + fetches("end"), "bad entry 9"),
    (EQUAL + fetches("row 2, 2", "row 2, 2", "end"), "legal"),
    (EQUAL + fetches("row 2, 2", "end"), "bad entry 12"),
    (EQUAL + fetches("row 2, 2", "row 2, 2", "row 2, 2"), "bad entry 13"),
    (EQUAL + fetches("row 1, 2"), "bad entry 11"),
    # offers in the order of their values: NULL is the least
    (ROWS.replace("FROM T", "FROM T ORDER BY A") + fetches(NONE, ONE, ONE, "end"), "legal"),
    (ROWS.replace("FROM T", "FROM T ORDER BY A") + fetches(ONE), "bad entry 9"),
    # a session has one transaction, and the first active one is told
    (TRANSACTIONS, "legal"),
    (TRANSACTIONS.replace("active 1", "active 2"), "bad entry 4"),
    (TRANSACTIONS.replace("busy 1", "busy 2"), "bad entry 5"),
    # a transcript that is none
    ("1 BEGIN\n= began\n", "text line 2"),
]

LIST = "building scan I0 list I0 20 final-list done"
FILLED = "building scan I0 full background list I0 1100 final-list done"
DROPPED = "building scan I0 drop I0 final-table done"
STOPPED = "building scan I0 stop background list I0 20 final-list done"
HIDDEN = "building scan I1 list I1 20 foreground done"
TWO = "background scan I0 list I0 {} scan I{} list I{} 23 final-list"

# Indexes, a strategy, events, and whether the course allows them.
COURSES = [
    ("0", "fast-first", LIST, True),
    ("0", "fast-first", "building scan I0", True),
    ("0", "fast-first", "building scan I0 list I0 20", False),
    ("1", "fast-first", LIST, False),
    ("0", "background-only", LIST, False),
    ("0", "fast-first", "", False),
    ("0", "fast-first", FILLED, True),
    ("0", "index-only", FILLED, False),
    ("0", "fast-first", DROPPED, True),
    ("0", "sorted", DROPPED, False),
    ("0", "fast-first", STOPPED, True),
    ("0", "sorted", STOPPED, False),
    ("0,1", "background-only", "background scan I0 list I0 0 final-list done", True),
    ("0,1", "background-only", "background scan I0 list I0 3 final-list done", True),
    ("0,1", "sorted", HIDDEN, True),
    ("0,1", "index-only", "building scan I1 done", True),
    ("-", "sorted", "foreground done", True),
    ("-", "table", "final-table done", True),
    ("0", "fast-first", "final-table done", False),
    ("-", "table", "final-table final-table", False),
    ("0,1", "background-only", TWO.format(30, 1, 1), True),
    ("0,1", "background-only", TWO.format(30, 0, 0), False),
    ("0,1", "background-only", TWO.format(30, 2, 2), False),
    ("0,1", "background-only", TWO.format(0, 1, 1), False),
    ("0,1", "background-only", "background scan I0 list I0 30 scan I1 drop I1 final-list", True),
    ("0,1", "union", "background scan I0", True),
    ("0,1", "union", "background scan I1 scan I0", True),
    ("0,1", "union", "background scan I0 scan I1 list I0 40 final-list done", True),
    ("0,1", "union", "background scan I1 drop I1 final-table", True),
    ("0,1", "union", "background", False),
    ("0,1", "union", "background scan I0 scan I0 list I0 40 final-list", False),
    ("0", "union", "background scan I0 scan I1", False),
    ("0,1", "union", "background scan I0 list I1 40 final-list", False),
    ("0,1", "union", "background scan I0 list I0 40 final-table", False),
    ("0,1", "union", "background scan I0 drop I0 final-list", False),
    ("0,1", "union", "background scan I0 drop I0 scan I1", False),
    ("0,1", "union", "background scan I0 list I0 40", False),
    ("0,1", "union", "building scan I0 list I0 40 final-list", False),
    ("0,1", "background-only", "background scan I0 scan I1 list I1 40 final-list", False),
]


def course(strategy: str, events: str) -> str:
    return " ".join([strategy, *events.split(), "pages 0 leaves 0 fetches 0"])


def histories() -> Iterator[tuple[str, str]]:
    """Transcripts with their verdicts, in the words of the auditor."""
    for transcript, verdict in HISTORIES:
        yield transcript, f"legal {transcript.count(chr(10)) // 2}" if verdict == "legal" else verdict


def courses() -> Iterator[tuple[str, str]]:
    """A SHOW of each trace, of a cursor over a table that has the indexes and no other."""
    for indexes, strategy, events, is_allowed in COURSES:
        made = "1 CREATE TABLE T (A BIGINT, B BIGINT)\n= created\n"
        made += "".join(f"1 CREATE INDEX I{at} ON T ({'AB'[int(at)]})\n= created\n" for at in indexes.split(",") if at != "-")
        made += "1 BEGIN\n= began 1\n1 OPEN C SELECT * FROM T\n= opened\n"
        transcript = made + f"1 SHOW C\n= trace {course(strategy, events)}\n"
        entries = transcript.count("\n") // 2
        yield transcript, f"legal {entries}" if is_allowed else f"bad entry {entries}"
