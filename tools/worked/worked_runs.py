#!/usr/bin/env python3
"""Runs a built program on worked scripts, and tells where status, output or standard error are others than the rules in words say.

  transcripts  each file of tools/runs is a transcript: its script is its lines but the replies
  lines        which lines are calls, marks or nothing; ends of lines, a byte order mark, a last line without an end
  faults       the first fault of a script with its place, and the limits of lines, each from both sides
  texts        statements as they may be spelled, and texts that derive none (worked_texts.py)
  queries      restrictions, retrievals, races, unions, searches and joins by the thousand, under every list of verdicts
               (worked_queries.py)
  words        words that are not accepted, with which nothing is read or written
  workload     a generated workload writes its summary, and reads nothing; the summary is that of its script
  service      with --line each line is answered before the next one is written; the transcript is the same, a fault comes behind the
               answers to the lines before it, and words that ask threads or a workload are not accepted
  traces       what SHOW tells under each judge, by the words of the command line and by marks, with background steps and without;
               of a built program the same with threads and no workers, where each phase has one session
  workers      with threads and up to eight workers each row comes once, and then the end

The answers were found by hand."""
from __future__ import annotations

import argparse
import os
import re
import select
import subprocess
import sys
import tempfile
from pathlib import Path
from typing import Iterator

if not __package__:  # run as a file: the other folders are found from tools/
    sys.path[0] += "/.."

from ending import end
from model.program import generated, summary
from worked import worked_queries, worked_texts
from worked.doc_examples import first_difference

Came = tuple[int, bytes, bytes]  # status, output, standard error

TOOLS = Path(__file__).resolve().parents[1]
TRANSCRIPTS = TOOLS / "runs"
USAGE = b"usage: rvdyn [--line] [--threads] [--workers W] [--judge N] [--steps K] [--gen SEED] [--race]\n"
MARK = b"\xef\xbb\xbf"


def calls(*lines: str) -> bytes:
    """The transcript of calls that are all no statement."""
    return "".join(f"{line}\n= syntax\n" for line in lines).encode()


def transcripts() -> Iterator[tuple[str, bytes, Came]]:
    for path in sorted(TRANSCRIPTS.glob("*.transcript")):
        whole = path.read_bytes()
        script = b"".join(line + b"\n" for line in whole.split(b"\n") if line and not line.startswith(b"= "))
        yield path.stem, script, (0, whole, b"")


def lines() -> Iterator[tuple[str, bytes, Came]]:
    for script, output in [
        (b"", b""),
        (b"1 BEGIN", b"1 BEGIN\n= began 1\n"),
        (b"2 BEGIN\n", b"2 BEGIN\n= began 1\n"),
        (MARK + b"1 A\r\n\r\n# no call\n8  b ", calls("1 A", "8  b ")),
        (b"1 A\n--\n2 B\n-- 0\n-- 2\n3 C\n", calls("1 A", "2 B", "3 C")),
        (b"2 ", calls("2 ")),
        (b"1 A\r", calls("1 A\r")),
        (b"1 A\r\r\n", calls("1 A\r")),
        (b"#", b""),
        (b"1 " + MARK, calls("1 \ufeff")),
    ]:  # fmt: skip
        yield repr(script), script, (0, output, b"")


def faults() -> Iterator[tuple[str, bytes, Came]]:
    for line, scripts in [
        (1, [b"9 COMMIT\n", b"0 A", b"1A", b"1", b" ", b"-- 3", b"--  1", b"-- ", b"--1", b"\r", b"1\tA", b" # a"]),
        (2, [b"1 BEGIN\n9 COMMIT", b"1 BEGIN\n9 COMMIT\n", b"1 A\n---\n", b"# " + MARK + b"\n" + MARK + b"1 A"]),
        (3, [b"# a\n\n\t"]),
    ]:  # fmt: skip
        for script in scripts:
            yield repr(script), script, (2, b"", b"script: line %d has no session\n" % line)
    for byte, script in [(2, b"1 \xff"), (5, MARK + b"9\n\xe2\x98")]:
        yield repr(script), script, (2, b"", b"script: byte %d is not UTF-8\n" % byte)
    longest = MARK + b"1 " + b"x" * 4094 + b"\r\n"
    yield "a line of 4,096 bytes", longest, (0, b"1 " + b"x" * 4094 + b"\n= syntax\n", b"")
    yield "a line of 4,097 bytes", b"1 " + b"x" * 4095, (3, b"", b"limit: line 1 over 4096 bytes\n")
    yield "a comment of 4,097 bytes", longest + b"#" * 4097, (3, b"", b"limit: line 2 over 4096 bytes\n")
    yield "200,000 lines", b"\n" * 200_000, (0, b"", b"")
    yield "200,001 lines", b"\n" * 200_001, (3, b"", b"limit: script over 200000 lines\n")
    # The source is read in pieces of 4,096 bytes.
    for size in (4095, 4096, 4097, 10_000):
        yield f"{size:,} bytes", ((b"#" * 99 + b"\n") * 200)[:size], (0, b"", b"")
    whole = (b"#" * 4095 + b"\n") * 4096
    yield "16,777,216 bytes", whole, (0, b"", b"")
    yield "16,777,217 bytes", whole + b"\n", (3, b"", b"limit: script over 16777216 bytes\n")


def texts() -> Iterator[tuple[str, bytes, Came]]:
    for name, told in worked_texts.cases():
        script = "".join(line + "\n" for line in told.split("\n") if line and not line.startswith("= "))
        yield name, script.encode(), (0, told.encode(), b"")


# Line by line.


def services() -> Iterator[tuple[str, bytes, Came]]:
    """Scripts that end a service early, or for which it waits no longer."""
    began = b"1 BEGIN\n= began 1\n"
    for script, wants in [
        (b"1 BEGIN\n9 COMMIT\n1 COMMIT\n", (2, began, b"script: line 2 has no session\n")),
        (b"1 BEGIN\n" + MARK + b"1 A\n", (2, began, b"script: line 2 has no session\n")),
        (b"1 BEGIN\n--\n-- 3\n", (2, began, b"script: line 3 has no session\n")),
        (b"1 BEGIN\n1 \xff\n1 A\n", (2, began, b"script: byte 10 is not UTF-8\n")),
        (b"1 BEGIN\n1 \xe2\x98", (2, began, b"script: byte 10 is not UTF-8\n")),
        (MARK + b"9\n\xe2\x98", (2, b"", b"script: line 1 has no session\n")),
        (b"1 BEGIN\n1 " + b"x" * 4095 + b"\n", (3, began, b"limit: line 2 over 4096 bytes\n")),
        (b"1 BEGIN\n" + b"x" * 10_000, (3, began, b"limit: line 2 over 4096 bytes\n")),
        (b"1 BEGIN\n" + b"\xff" * 10_000, (3, began, b"limit: line 2 over 4096 bytes\n")),
    ]:
        yield f"{script!r:.40}", script, wants
    yield "200,000 lines", b"\n" * 200_000, (0, b"", b"")
    yield "200,001 lines", b"\n" * 199_999 + b"1 BEGIN\n1 A\n", (3, began, b"limit: script over 200000 lines\n")
    whole = (b"#" * 4095 + b"\n") * 4096
    yield "16,777,216 bytes", whole, (0, b"", b"")
    yield "16,777,217 bytes", whole + b"\n", (3, b"", b"limit: script over 16777216 bytes\n")


class Service:
    """A program that answers line by line."""

    def __init__(self, command: list[str]):
        pipe = subprocess.PIPE
        self.ran = subprocess.Popen(command, stdin=pipe, stdout=pipe, stderr=pipe, bufsize=0)
        self.output = b""

    def ask(self, line: bytes, calls: int, patience: float = 60) -> bool:
        """Writes a line, and reads the two lines of each of its calls; whether they came within so many seconds."""
        try:
            self.ran.stdin.write(line)
        except BrokenPipeError:
            return False
        wanted = self.output.count(b"\n") + 2 * calls
        while self.output.count(b"\n") < wanted:
            ready, _, _ = select.select([self.ran.stdout], [], [], patience)
            piece = os.read(self.ran.stdout.fileno(), 65536) if ready else b""
            if not piece:
                return False
            self.output += piece
        return True

    def end(self) -> Came:
        """Closes the input, and waits for the end."""
        output, said = self.ran.communicate(timeout=120)
        return self.ran.returncode, self.output + output, said


# Traces.


def loaded(rows: int) -> list[str]:
    inserts = [f"1 INSERT INTO T VALUES ({row}, 0)" for row in range(rows)]
    return ["1 CREATE TABLE T (A BIGINT, B BIGINT)", "1 CREATE INDEX IA ON T (A)", "1 BEGIN", *inserts, "1 COMMIT", "--"]


def reading(only: str, before: int, steps: int, after: int) -> list[str]:
    """FETCH, then STEP, then FETCH again, then SHOW."""
    opened = f"2 OPEN C SELECT * FROM T WHERE {only} OPTIMIZE FOR FAST FIRST"
    fetches = ["2 FETCH C"] * before + [f"2 STEP C {steps}"] + ["2 FETCH C"] * after
    return ["2 BEGIN READ ONLY", opened, *fetches, "2 SHOW C", "2 COMMIT"]


def in_two() -> list[str]:
    """Forty rows (i mod 4, i) with an index over each column, and a cursor that both restrict: two background steps, then all of
    its twenty-three rows."""
    inserts = [f"1 INSERT INTO S VALUES ({row % 4}, {row})" for row in range(40)]
    table = ["1 CREATE TABLE S (A BIGINT, B BIGINT)", "1 CREATE INDEX IA ON S (A)", "1 CREATE INDEX IB ON S (B)", "1 BEGIN", *inserts, "1 COMMIT", "--"]
    stepped = ["2 BEGIN READ ONLY", "2 OPEN C SELECT * FROM S WHERE A >= 1 AND B >= 10", "2 STEP C 2", "2 SHOW C"]
    return [*table, *stepped, *["2 FETCH C"] * 24, "2 SHOW C", "2 COMMIT"]


def several(only: str, rows: int) -> list[str]:
    """All rows of an OR of which each part bounds an index, and SHOW."""
    return ["2 BEGIN READ ONLY", f"2 OPEN C SELECT * FROM T WHERE {only}", *["2 FETCH C"] * (rows + 1), "2 SHOW C", "2 COMMIT"]


HALF = reading("A BETWEEN 10 AND 29", 4, 5, 17)
THIRD = reading("A BETWEEN 10 AND 40", 4, 5, 28)
ALL = reading("A >= 0", 1101, 0, 0)
FIVE = several("A IN (5, 20, 20, NULL, 99)", 2)
TWO_RANGES = several("A < 30 OR A > 5", 40)
NOBODY = several("A IN (100, 200)", 0)
SECOND_GROUP = several("(A IN (5, NULL) OR B <> 7) AND (A = 3 OR A = 4)", 2)
GATHERED = several("A IN (3, 4) ORDER BY B", 2)

LIST = "fast-first building scan IA list IA 20 final-list done pages 0 leaves 2 fetches 20"
DROP = "fast-first building scan IA drop IA final-table done pages 2 leaves 1 fetches 0"
STOP = "fast-first building scan IA stop background list IA 20 final-list done pages 0 leaves 2 fetches 20"
FULL = "fast-first building scan IA full background list IA 1100 final-list done pages 0 leaves {} fetches 1100"
DROP_OF_MORE = "fast-first building scan IA drop IA final-table done pages 3 leaves 1 fetches 0"
IN_TURN = "background-only background scan IA pages 0 leaves 2 fetches 0"
FIRST_ONE = "background-only background scan IA list IA 30 scan IB pages 0 leaves 2 fetches 0"
TWO_LISTS = "background-only background scan IA list IA 30 scan IB list IB 23 final-list done pages 0 leaves 4 fetches 23"
TWO_DROPS = "background-only background scan IA drop IA scan IB drop IB final-table pages 0 leaves 2 fetches 0"
NO_LIST = "background-only background scan IA drop IA scan IB drop IB final-table done pages 2 leaves 2 fetches 0"
UNION = "union background scan IA list IA {} final-list done pages 0 leaves {} fetches {}"
NO_UNION = "union background scan IA drop IA final-table done pages 2 leaves 1 fetches 0"
LIST_OF_MORE = "fast-first building scan IA list IA 31 final-list done pages 0 leaves 2 fetches 31"


def traces(plain: bool = False) -> Iterator[tuple[list[str], list[str], list[str]]]:
    """Words, a script and its traces: over the paged store, whose trees have leaves of 16 to 32 entries, or over the plain one,
    whose leaves have 32."""
    if not plain:
        for words, marks, trace in [
            (["--steps", "0"], [], DROP), (["--judge", "1", "--steps", "0"], [], LIST), (["--steps=1", "--judge=1"], [], LIST),
            (["--judge", "2", "--steps", "0"], [], STOP), (["--steps", "0"], ["-- 2"], STOP),
            (["--steps=00", "--judge", "0000000002"], [], STOP), (["--judge=0", "--steps=0"], [], DROP),
        ]:  # fmt: skip
            yield words, loaded(40) + marks + HALF, [trace]
        # Contrary is asked once in a reading of the half. Its second verdict, which lets the scan go on, comes when it is back, and
        # its third one drops the scan.
        marked = [line for mark in ("-- 2", "-- 0", "-- 2", "--") for line in [mark, *HALF]]
        yield ["--judge", "1", "--steps", "0"], loaded(40) + marked, [STOP, DROP, LIST, DROP]
        yield ["--judge", "1", "--steps", "0"], in_two(), [FIRST_ONE, TWO_LISTS]
        yield ["--race", "--judge", "1", "--steps", "0"], in_two(), [IN_TURN, TWO_LISTS]
        yield ["--steps", "0", "--race"], in_two(), [TWO_DROPS, NO_LIST]
        # Branches of one leaf ask nobody. Of the two ranges that are nearly all, threshold drops the first at its first leaf.
        few = [FIVE, NOBODY, SECOND_GROUP, GATHERED]
        told = [UNION.format(keys, leaves, keys) for keys, leaves in [(2, 4), (0, 2), (2, 2), (2, 2)]]
        yield ["--steps", "0"], loaded(40) + sum(few, []), told
        yield ["--race", "--judge", "1"], loaded(40) + sum(few, []) + TWO_RANGES, told + [UNION.format(40, 4, 40)]
        yield [], loaded(40) + TWO_RANGES, [NO_UNION]
    else:
        yield ["--steps", "0"], loaded(80) + THIRD, [DROP_OF_MORE]
        yield ["--judge", "1", "--steps", "0"], loaded(80) + THIRD, [LIST_OF_MORE]
    yield ["--judge", "1", "--steps", "0"], loaded(1100) + ALL, [FULL.format(35 if plain else 68)]


class Runs:
    def __init__(self, command: list[str]):
        self.command, self.cases, self.wrong = command, 0, 0

    def run(self, script: bytes, *words: str) -> Came:
        ran = subprocess.run([*self.command, *words], input=script, capture_output=True, timeout=120, check=False)
        return ran.returncode, ran.stdout, ran.stderr

    def unread(self, *words: str) -> tuple[Came, int]:
        """A run over a file, and how many bytes of it were read."""
        with tempfile.TemporaryFile() as source:
            source.write(b"1 BEGIN\n")
            source.flush()
            os.lseek(source.fileno(), 0, os.SEEK_SET)
            ran = subprocess.run([*self.command, *words], stdin=source, capture_output=True, timeout=120, check=False)
            return (ran.returncode, ran.stdout, ran.stderr), os.lseek(source.fileno(), 0, os.SEEK_CUR)

    def expect(self, name: str, came: object, wants: object) -> None:
        self.cases += 1
        if came != wants:
            self.wrong += 1
            print(f"{name}: {came!r:.300} for {wants!r:.300}")

    def try_scripts(self) -> None:
        for cases in (transcripts, lines, faults, texts):
            for name, script, wants in cases():
                self.expect(f"{cases.__name__}, {name}", self.run(script), wants)

    def try_queries(self) -> None:
        for name, words, script, told in worked_queries.cases():
            status, output, said = self.run(script.encode(), *words)
            came = worked_queries.as_told(name, output.decode())
            self.expect(f"queries, {name} {' '.join(words)}", (status, first_difference(came, told), said), (0, None, b""))

    def try_words(self) -> None:
        for words in ["x", "--judge", "--judge 3", "--threads --threads", "--threads=1", "--race --race", "--race=1", "--workers 9", "--help",
                      "--line --threads", "--line --gen 1", "--line --line", "--judge 1 --line", "--line=1", "--line --judge 3"]:  # fmt: skip
            self.expect(f"words {words}", self.unread(*words.split()), ((1, b"", USAGE), 0))

    def try_workload(self) -> None:
        # (neither judge nor steps change what the five lines count)
        for asked in ["--gen 1", "--gen=0000000001", "--judge 1 --steps=0 --gen 1", "--gen=1 --steps 7 --judge=2"]:
            (status, output, words), read = self.unread(*asked.split())
            good = output.startswith(b"calls 3763\nrows ") and output.endswith(b"\ncommits 251\nrefused 0\n")
            self.expect(f"workload {asked}", (status, good, words, read), (0, True, b"", 0))
        (status, output, words), read = self.unread("--gen", "4294967295")
        self.expect("workload 4294967295", (status, output[:6], words, read), (0, b"calls ", b"", 0))
        with open("/dev/full", "wb") as sink:
            ran = subprocess.run([*self.command, "--gen", "1"], stdin=subprocess.DEVNULL, stdout=sink, stderr=subprocess.PIPE, timeout=120, check=False)
        self.expect("workload into a full sink", (ran.returncode, ran.stderr), (6, b"write fault\n"))
        # (the calls of a workload, and their order, are told by what its script gives)
        for seed in (1, 4_294_967_295):
            _, transcript, _ = self.run(generated(seed).encode())
            (_, output, _), _ = self.unread("--gen", str(seed))
            replies = [line[2:] for line in transcript.decode().split("\n")[1::2]]
            self.expect(f"script of workload {seed}", output.decode(), summary(replies))

    def try_services(self) -> None:
        for cases in (transcripts, lines):
            for name, script, wants in cases():
                service = Service([*self.command, "--line"])
                answered = True
                for line in re.findall(rb"[^\n]*\n|[^\n]+", script):
                    # (a last line without its end is answered at the end of input)
                    call = re.fullmatch(rb"[1-8] .*\n", line.removeprefix(MARK), re.DOTALL)
                    answered = answered and service.ask(line, 1 if call else 0)
                self.expect(f"service, {name}", (answered, service.end()), (True, wants))
        for name, script, wants in services():
            self.expect(f"service, {name}", self.run(script, "--line"), wants)

    def try_traces(self, plain: bool, *more: str) -> None:
        for words, script, wants in traces(plain):
            status, output, said = self.run("".join(line + "\n" for line in script).encode(), *words, *more)
            found = [line[8:] for line in output.decode().splitlines() if line.startswith("= trace ")]
            self.expect(f"traces, {' '.join([*words, *more])}", (status, found, said), (0, wants, b""))


    def try_workers(self) -> None:
        script = "".join(line + "\n" for line in loaded(1100) + ALL[:-2]).encode()
        for words in ["--workers 0", "--workers 1 --judge 1 --steps 0", "--workers 8 --judge 1"]:
            status, output, said = self.run(script, "--threads", *words.split())
            replies = [line for line in output.decode().splitlines() if line.startswith(("= row ", "= end"))]
            came = (status, sorted(replies[:-1]), replies[-1:], said)
            self.expect(f"workers, {words}", came, (0, sorted(f"= row {row}, 0" for row in range(1100)), ["= end"], b""))


def main() -> int:
    parser = argparse.ArgumentParser(description=__doc__, formatter_class=argparse.RawDescriptionHelpFormatter)
    parser.add_argument("program", nargs="?", metavar="PROGRAM", help="without it the slow model")
    parser.add_argument("--plain", action="store_true", help="over the plain store: what its traces are (tools/plain_program.sh)")
    asked = parser.parse_args()
    model = [sys.executable, str(TOOLS / "model/slow_program.py"), *["--plain"] * asked.plain]
    runs = Runs([asked.program] if asked.program else model)
    runs.try_scripts()
    if not asked.plain:
        runs.try_queries()
    runs.try_services()
    if asked.program:
        # (the model has words of its own, and needs a minute for a workload)
        runs.try_words()
        runs.try_workload()
    runs.try_traces(asked.plain)
    if asked.program and not asked.plain:
        runs.try_traces(False, "--threads", "--workers=0")
        runs.try_workers()
    print(f"{runs.cases} worked runs, {runs.wrong} end otherwise")
    return 1 if runs.wrong else 0


if __name__ == "__main__":
    end(main)
