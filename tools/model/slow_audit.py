#!/usr/bin/env python3
"""Judges a transcript against a script, slowly, by the rules in words. The input is the script, a line ====, the transcript.

Writes one line, and ends with its status: 0 `legal N`; 2 and 3 a fault of the script, in the words of rvdyn; 7 `no mark` or
`text line N`, the first line with which no transcript begins; 8 `bad entry N`, the first entry up to which the transcript is
no legal history that follows the script; 9 `missing session S phase P`. It stands on the package model/, and shares no code
with the engine: whoever wrote the transcript, a program, another engine or a hand, is not asked.

With --compare PROGRAM, a program that judges the same inputs, the transcript is changed at COUNT places, a byte or a line
dropped, doubled, swapped with the next or replaced by another, and what the program says is compared each time."""
import argparse
import collections
import pathlib
import random
import re
import subprocess
import sys

if not __package__:  # run as a file: the other folders are found from tools/
    sys.path[0] += "/.."

from ending import end
from model.course import Course, Fault, parts
from model.database import Database
from model.language import Mark, calls_of, fault_of, statement

NAME = r"[A-Z][A-Z0-9_]*"
NUMBER = r"(?:0|[1-9][0-9]*)"
VALUE = r"(?:NULL|-?[1-9][0-9]*|0|'(?:[^'\x00-\x1f]|'')*')"
CONTROL = "(?:building|foreground|background|final-list|final-table|done)"
EVENT = f"(?:{CONTROL}|full|stop|scan {NAME}|drop {NAME}|list {NAME} {NUMBER})"
LIMITS = "name text columns key list atoms groups joined returned order steps tables indexes cursors rows pending"
REPLY = re.compile(
    "created|rolled back|opened|end|closed|syntax|no transaction|read only"
    f"|(?:began|inserted|touched|committed|stepped|active|busy) {NUMBER}"
    f"|(?:unknown|exists|kind|no cursor|cursor open) {NAME}"
    f"|(?:changed|held) {NUMBER} by {NUMBER}"
    f"|duplicate {NUMBER}(?: by (?:commit|txn) {NUMBER})?"
    f"|limit (?:{'|'.join(LIMITS.split())}) {NUMBER}"
    f"|row (?:{VALUE}(?:, {VALUE})*)?"
    f"|trace (?:table|background-only|fast-first|sorted|index-only|union)(?: {EVENT})*"
    f" pages {NUMBER} leaves {NUMBER} fetches {NUMBER}"
)
QUOTED = re.compile(r"'(?:[^']|'')*'")


def is_reply(text):
    if not REPLY.fullmatch(text):
        return False
    numbers = [int(n) for n in re.findall(r"(?<![A-Z0-9_-])-?[0-9]+(?![A-Z0-9_])", QUOTED.sub("", text))]
    if text.startswith("row "):
        return all(-(2**63) <= n < 2**63 for n in numbers)
    return all(n < 2**64 for n in numbers)


def entries_of(data):
    """The entries of a transcript as (session, text, reply), or the number of the first line with which none begins."""
    *lines, rest = data.split(b"\n")
    decoded = []
    for number, line in enumerate(lines, 1):
        try:
            text = line.decode()
        except UnicodeDecodeError:
            return number
        fits = re.fullmatch("[1-8] .*", text, re.S) if number % 2 else text.startswith("= ") and is_reply(text[2:])
        if not fits:
            return number
        decoded.append(text)
    if rest or len(lines) % 2:
        return len(lines) + 1
    return [(int(call[0]), call[2:], answer[2:]) for call, answer in zip(decoded[::2], decoded[1::2])]


class Audited(Database):
    """The database, where a cursor's trace is any that its indexes allow."""

    def opened(self, select):
        cursor = super().opened(select)
        cursor.indexes = [name for name, index in self.indexes.items() if index.table == select.tables[0]]
        return cursor

    def show(self, name):
        indexes = list(self.need_cursor(name).indexes)

        def fits(reply):
            if not reply.startswith("trace "):
                return False
            strategy, events, _ = parts(reply)
            try:
                Course(strategy, indexes, 2**64).follow(events)
            except Fault:
                return False
            return True

        return fits


def fits(reply, allowed):
    if callable(allowed):
        return allowed(reply)
    return reply in allowed if isinstance(allowed, set) else reply == allowed


def without_mark(data):
    """The script and the transcript, which the first line that is exactly ==== parts."""
    at = 0
    while at < len(data):
        end = data.find(b"\n", at)
        line, behind = (data[at:], len(data)) if end < 0 else (data[at:end].removesuffix(b"\r"), end + 1)
        if line == b"====":
            return data[:at], data[behind:]
        at = behind
    return None


def verdict(data):
    """The status and the line of an input."""
    if len(data) > 268_435_456:
        return 3, "limit: input over 268435456 bytes"
    parted = without_mark(data)
    if parted is None:
        return 7, "no mark"
    script, transcript = parted
    fault = fault_of(script)
    if fault is not None:
        return fault
    left, phase = collections.defaultdict(collections.deque), 1
    for call in calls_of(script.decode()):
        if isinstance(call, Mark):
            phase += 1
        else:
            left[call.session].append((phase, call.text))
    entries = entries_of(transcript)
    if isinstance(entries, int):
        return 7, f"text line {entries}"
    database = Audited()
    for number, (session, text, reply) in enumerate(entries, 1):
        wanted = left[session].popleft() if left[session] else None
        if wanted is None or wanted[1] != text or any(calls and calls[0][0] < wanted[0] for calls in left.values()):
            return 8, f"bad entry {number}"
        said = statement(text)
        if not fits(reply, database.answer(session, said)):
            return 8, f"bad entry {number}"
        database.given(said, reply)
    missing = [(calls[0][0], session) for session, calls in left.items() if calls]
    if missing:
        return 9, "missing session %d phase %d" % min(missing)[::-1]
    return 0, f"legal {len(entries)}"


def changed(rng, data):
    """The data with a byte or a line changed."""
    if rng.random() < 0.5:
        at = rng.randrange(len(data) or 1)
        ends = at + 1
    else:
        starts = [0] + [m.end() for m in re.finditer(b"\n", data)]
        place = rng.randrange(len(starts))
        at, ends = starts[place], starts[place + 1] if place + 1 < len(starts) else len(data)
    part, front, behind = data[at:ends], data[:at], data[ends:]
    size = len(part)
    kind = rng.randrange(4)
    if kind == 0:
        return front + behind
    if kind == 1:
        return front + part + part + behind
    if kind == 2:
        other = behind[: behind.find(b"\n") + 1] if size != 1 and b"\n" in behind else behind[:size]
        return front + other + part + behind[len(other) :]
    other = rng.randrange(max(1, len(data) - size + 1))
    return front + (bytes([rng.choice(b"0123456789'= ,-\nANUL_\xff\xc3c")]) if size == 1 else data[other : other + size]) + behind


def compare(program, data, count, seed):
    """Whether a program says of an input, and of COUNT like it with the transcript changed, what `verdict` does."""
    parted = without_mark(data)
    if parted is None:
        raise SystemExit("the input has no mark")
    script, transcript = parted
    rng = random.Random(seed)
    seen, differ = collections.Counter(), 0
    for trial in range(count + 1):
        judged = script + b"====\n" + (changed(rng, transcript) if trial else transcript)
        ran = subprocess.run([program], input=judged, capture_output=True, timeout=120)
        wanted = verdict(judged)
        seen[wanted[0]] += 1
        if (ran.returncode, ran.stdout.decode().removesuffix("\n")) != wanted:
            differ += 1
            print(f"{trial}: {ran.returncode} {ran.stdout!r} for {wanted}")
    print(f"{count + 1} transcripts, {differ} differ; by status: {dict(sorted(seen.items()))}")
    return differ == 0


def main():
    parser = argparse.ArgumentParser(description=__doc__, formatter_class=argparse.RawDescriptionHelpFormatter)
    parser.add_argument("script", nargs="?", help="the script as a file of its own; without it standard input has both, with the mark")
    parser.add_argument("transcript", nargs="?", help="the transcript as a file of its own")
    parser.add_argument("--compare", metavar="PROGRAM", help="a program that is to say the same")
    parser.add_argument("--count", type=int, default=5000, help="how often the transcript is changed (default 5000)")
    parser.add_argument("--seed", type=int, default=1, help="what the changes are drawn from (default 1)")
    words = parser.parse_args()
    if (words.script is None) != (words.transcript is None):
        parser.error("a script and a transcript, or neither")
    if words.script is None:
        data = sys.stdin.buffer.read()
    else:
        script, transcript = (pathlib.Path(name).read_bytes() for name in (words.script, words.transcript))
        data = script + (b"" if script.endswith(b"\n") or not script else b"\n") + b"====\n" + transcript
    if words.compare:
        return 0 if compare(words.compare, data, words.count, words.seed) else 1
    status, line = verdict(data)
    print(line)
    return status


if __name__ == "__main__":
    end(main)
