#!/usr/bin/env python3
"""Runs a built auditor on transcripts written by hand, and tells where the first line that is none's is another than the rules in words say.

  replies  each form of a reply is read
  others   texts that are near to a reply and none are told as line 2
  whole    calls may be any line
  broken   the first bad line of what is no transcript
  entries  session, text and reply of an entry are those of its two lines
  phases   no call comes before one of an earlier phase of the script
  histories  transcripts that are legal histories, and such that break: which row may come, when `end` may, what STEP may tell
  courses  traces that the course of a retrieval allows, and such that it does not (judged as replies to SHOW)

Without a program it is the slow auditor. That a transcript is read rightly is proved of the program; this shows that it is read
at all, and that the rules are those that a reader would take."""
from __future__ import annotations

import argparse
import subprocess
import sys
from typing import Iterator

if not __package__:  # run as a file: the other folders are found from tools/
    sys.path[0] += "/.."

from ending import end
from fuzz.hostile_table import script_of
from model import slow_audit
from worked.audited_histories import courses, histories

REPLIES = [
    b"created", b"began 1", b"inserted 0", b"touched 18446744073709551615", b"committed 7", b"rolled back", b"opened", b"row ",
    b"row NULL, -9223372036854775808, 9223372036854775807, 'it''s, b', ''", b"row '\xc3\xa4'", b"end", b"closed", b"stepped 3",
    b"trace table pages 0 leaves 0 fetches 0",
    b"trace background-only background scan IA list IA 30 scan IB drop IB final-list done pages 1 leaves 4 fetches 23",
    b"trace fast-first building scan I full background stop final-table pages 0 leaves 0 fetches 1",
    b"trace union background scan IA scan IB list IA 2 final-list done pages 0 leaves 4 fetches 2",
    b"syntax", b"unknown T_1", b"exists A", b"kind B9", b"active 2", b"no transaction", b"busy 1", b"read only",
    b"changed 3 by 4", b"held 3 by 4", b"no cursor C", b"cursor open C", b"limit atoms 65",
    b"duplicate 0", b"duplicate 12 by commit 3", b"duplicate 18446744073709551615 by txn 2",
]  # fmt: skip

OTHERS = [
    b"", b"Created", b"created ", b" created", b"created\r", b"began", b"began ", b"began 01", b"began +1", b"began -1", b"began 1 ",
    b"began 18446744073709551616", b"row", b"row 5,6", b"row 5, ", b"row 05", b"row -0", b"row 9223372036854775808", b"row 'a",
    b"row 'a'b'", b"row 'a\x1f'", b"row '\xff'", b"row null", b"unknown t", b"unknown ", b"kind 1A", b"limit rows", b"limit ROWS 1",
    b"changed 3 by ", b"trace table pages 0 leaves 0", b"trace table pages 0 leaves 0 fetches 0 ",
    b"trace unions background scan IA pages 0 leaves 0 fetches 0",
    b"trace tables pages 0 leaves 0 fetches 0", b"trace table scan pages 0 leaves 0 fetches 0", b"pending C", b"not built",
    b"duplicate", b"duplicate ", b"duplicate 1 ", b"duplicate 1 by 2", b"duplicate 1 by commit", b"duplicate 1 by commit 02",
    b"duplicate 1 by txn 2 ", b"duplicate 1 by Txn 2", b"duplicate 1 by commit 18446744073709551616", b"duplicate -1",
]  # fmt: skip

WHOLE = [b"1 \n= end\n", b"8 A\r\n= end\n", b"1 = end\n= end\n", b"2 A\x00\x1f\xc3\xa4\n= end\n", b"1 A\n= created\n2 B\n= syntax\n"]

BROKEN = [
    (b"\n", 1), (b"1", 1), (b"1 A", 1), (b"0 A\n= end\n", 1), (b"9 A\n= end\n", 1), (b"10 A\n= end\n", 1), (b"1A\n= end\n", 1),
    (b"1 \xff\n= end\n", 1), (b"1 A\n", 2), (b"1 A\n= end", 2), (b"1 A\n=end\n", 2), (b"1 A\n= end\n\n", 3),
    (b"1 A\n= end\n1 B\n", 4), (b"1 A\n= end\n1 B\n= closed\n1 C\n= Closed\n", 6),
]  # fmt: skip

# A script, its transcript, and the verdict on it.
ENTRIES = [
    (b"", b"", b"legal 0"),
    (b"8 FETCH C\n", b"8 FETCH C\n= no cursor C\n", b"legal 1"),
    (b"8 FETCH C\n", b"7 FETCH C\n= no cursor C\n", b"bad entry 1"),
    (b"8 FETCH C\n", b"8 FETCH D\n= no cursor D\n", b"bad entry 1"),
    (b"8 FETCH C\n", b"8 FETCH C\n= end\n", b"bad entry 1"),
]


# A script with marks, its transcript, and the verdict on it.
PHASES = [
    (b"1 BEGIN\n--\n2 COMMIT\n", b"1 BEGIN\n= began 1\n2 COMMIT\n= no transaction\n", b"legal 2"),
    (b"1 BEGIN\n--\n2 COMMIT\n", b"2 COMMIT\n= no transaction\n1 BEGIN\n= began 1\n", b"bad entry 1"),
    (b"1 BEGIN\n2 COMMIT\n", b"2 COMMIT\n= no transaction\n1 BEGIN\n= began 1\n", b"legal 2"),
    (b"1 BEGIN\n-- 1\n1 COMMIT\n-- 2\n", b"1 BEGIN\n= began 1\n1 COMMIT\n= committed 0\n", b"legal 2"),
    (b"1 BEGIN\n--\n1 COMMIT\n", b"1 BEGIN\n= began 1\n", b"missing session 1 phase 2"),
]


def cases() -> Iterator[tuple[str, bytes, bytes, bytes | None]]:
    """A name, a script, a transcript and the verdict; None where it is whichever tells of no line."""
    for reply in REPLIES:
        yield f"replies, {reply!r}", b"1 X\n", b"1 X\n= " + reply + b"\n", None
    for reply in OTHERS:
        yield f"others, {reply!r}", b"1 X\n", b"1 X\n= " + reply + b"\n", b"text line 2"
    for text in WHOLE:
        yield f"whole, {text!r}", b"", text, None
    for text, line in BROKEN:
        yield f"broken, {text!r}", b"", text, b"text line %d" % line
    for script, text, verdict in ENTRIES:
        yield f"entries, {text!r}", script, text, verdict
    for script, text, verdict in PHASES:
        yield f"phases, {script!r} {text!r}", script, text, verdict
    for transcript, verdict in [*histories(), *courses()]:
        yield f"histories, {transcript!r}", script_of(transcript), transcript.encode(), verdict.encode()


def is_as_wanted(came: bytes, wants: bytes | None) -> bool:
    if wants is None:
        return came.startswith((b"legal ", b"bad entry ")) and came.endswith(b"\n")
    return came == wants + b"\n"


def judged(program: str | None, script: bytes, transcript: bytes) -> tuple[bytes, bytes]:
    """What is said of a transcript, and what stands on standard error."""
    data = script + b"====\n" + transcript
    if program is None:
        return slow_audit.verdict(data)[1].encode() + b"\n", b""
    ran = subprocess.run([program], input=data, capture_output=True, timeout=120, check=False)
    return ran.stdout, ran.stderr


def main() -> int:
    parser = argparse.ArgumentParser(description=__doc__, formatter_class=argparse.RawDescriptionHelpFormatter)
    parser.add_argument("program", nargs="?", metavar="PROGRAM", help="crates/rv_auditcli/out/rv_auditcli; without it the slow auditor")
    asked = parser.parse_args()
    count = wrong = 0
    for name, script, text, wants in cases():
        came, said = judged(asked.program, script, text)
        count += 1
        if not is_as_wanted(came, wants) or said:
            wrong += 1
            print(f"{name}: {came!r:.200} {said!r:.200} for {wants!r}")
    print(f"{count} transcripts, {wrong} read otherwise")
    return 1 if wrong else 0


if __name__ == "__main__":
    end(main)
