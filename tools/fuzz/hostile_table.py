#!/usr/bin/env python3
"""Tries a built program on the cases of hostile use that a command line reaches, and tells those that end otherwise.

  fronts    each front of the bytes of a script: status 0 and the transcript, or 2 where it ends behind the digit of a line
  sources   the same with a source that fails at its second call: 0 for the empty front, else 5, and nothing is written; a
            source that fails at its first call
  sinks     a sink that takes 0, 1, 2 .. bytes and fails: 6 and just these bytes; a full device, a closed pipe
  judges    another judge from any call on, from OPEN to the end of a cursor, by a mark before that call: the same rows
  texts     4,094 parentheses, an IN of 33 literals, five FROM items
  memory    each allocation of a run refused in turn, and 50 rooms in bytes: 0 and the transcript, or 4 and that of the first
            calls (needs a C compiler as `cc`; left out where there is none, and told so)
  rows      the scripts that the cases are made of

A sink's limit is that of the size of files; a source that fails is a connection that is reset behind its bytes. So each case
is met by the program as it stands, with its own standard streams."""
from __future__ import annotations

import argparse
import resource
import shutil
import signal
import socket
import subprocess
import sys
import tempfile
from typing import Callable

if not __package__:  # run as a file: the other folders are found from tools/
    sys.path[0] += "/.."

from ending import end
from fuzz.limited_memory import Shim, wrong_end

Came = tuple[int, bytes, bytes]  # status, output, standard error

FIRST = """\
1 CREATE TABLE T (A BIGINT, B VARCHAR(4))
= created
1 BEGIN
= began 1
1 INSERT INTO T VALUES (1, 'x')
= inserted 0
1 INSERT INTO T VALUES (1, 'x')
= inserted 1
1 INSERT INTO T VALUES (NULL, '')
= inserted 2
1 COMMIT
= committed 1
1 BEGIN READ ONLY
= began 2
1 OPEN C SELECT * FROM T
= opened
1 FETCH C
= row 1, 'x'
1 FETCH C
= row 1, 'x'
1 FETCH C
= row NULL, ''
1 FETCH C
= end
"""

BORROWED = ["1 CREATE TABLE T (A BIGINT, B BIGINT)", "1 CREATE INDEX IA ON T (A)", "1 BEGIN"]
BORROWED += [f"1 INSERT INTO T VALUES ({i}, 0)" for i in range(40)] + ["1 COMMIT", "2 BEGIN READ ONLY"]
BORROWED += ["2 OPEN C SELECT * FROM T WHERE A BETWEEN 10 AND 29 OPTIMIZE FOR FAST FIRST"]
BORROWED += ["2 FETCH C"] * 4 + ["2 STEP C 5"] + ["2 FETCH C"] * 17

SORTED = ["1 CREATE TABLE S (A BIGINT, B BIGINT)", "1 CREATE INDEX IA ON S (A)", "1 CREATE INDEX IB ON S (B)", "1 BEGIN"]
SORTED += [f"1 INSERT INTO S VALUES ({i % 4}, {i})" for i in range(40)] + ["1 COMMIT", "1 BEGIN"]
SORTED += ["1 OPEN C SELECT A, B FROM S WHERE B >= 10 AND B <= 29 ORDER BY A"]
SORTED += ["1 FETCH C"] * 3 + ["1 STEP C 9"] + ["1 FETCH C"] * 18


def script_of(transcript: str) -> bytes:
    return "".join(line + "\n" for line in transcript.splitlines() if not line.startswith("= ")).encode()


def told(transcript: str, calls: int) -> bytes:
    """The first calls of a transcript."""
    return "".join(line + "\n" for line in transcript.splitlines()[: 2 * calls]).encode()


def first_value(row: str) -> str:
    return row.split(",")[0]


class Table:
    def __init__(self, program: str):
        self.program, self.cases, self.wrong = program, 0, 0

    def run(self, script: bytes, *words: str) -> Came:
        ran = subprocess.run([self.program, *words], input=script, capture_output=True, timeout=60, check=False)
        return ran.returncode, ran.stdout, ran.stderr

    def expect(self, name: str, came: Came, wants: Came) -> None:
        self.cases += 1
        if came != wants:
            self.wrong += 1
            print(f"{name}: status {came[0]}, {came[1][-80:]!r}, {came[2]!r} for {wants[0]}, {wants[1][-80:]!r}, {wants[2]!r}")

    # Sources.

    def reset(self, data: bytes) -> Came:
        """A run whose source gives these bytes and then fails."""
        near, far = socket.socketpair()
        # What the near end has not read when it is closed resets the connection, behind what it sent.
        far.sendall(b"x")
        near.sendall(data)
        near.close()
        ran = subprocess.run([self.program], stdin=far, capture_output=True, timeout=60, check=False)
        far.close()
        return ran.returncode, ran.stdout, ran.stderr

    def fronts(self) -> None:
        script = script_of(FIRST)
        for size in range(len(script)):
            front = script[:size]
            lines = front.split(b"\n")
            if lines[-1] == b"1":
                wants: Came = (2, b"", b"script: line %d has no session\n" % len(lines))
            else:
                # The last call is one of its own where its line is not whole.
                calls = sum(bool(line) for line in lines)
                whole = told(FIRST, calls - bool(lines[-1]))
                wants = (0, whole, b"")
                if lines[-1]:
                    status, output, words = self.run(front)
                    last = output.removeprefix(whole)
                    good = last.startswith(lines[-1] + b"\n= ") and last.count(b"\n") == 2
                    self.expect(f"front {size}", (status, b"" if good else output, words), (0, b"", b""))
                    continue
            self.expect(f"front {size}", self.run(front), wants)

    def sources(self) -> None:
        script = script_of(FIRST)
        for size in range(1, len(script)):
            self.expect(f"source that fails behind {size} bytes", self.reset(script[:size]), (5, b"", b"read fault\n"))
        self.expect("the empty front", self.run(b""), (0, b"", b""))
        with tempfile.TemporaryDirectory() as folder:
            ran = subprocess.run([self.program], stdin=subprocess.DEVNULL, capture_output=True, check=False)
            self.expect("no bytes", (ran.returncode, ran.stdout, ran.stderr), (0, b"", b""))
            ran = subprocess.run(["sh", "-c", '"$0" < "$1"', self.program, folder], capture_output=True, check=False)
            self.expect("a source that fails at once", (ran.returncode, ran.stdout, ran.stderr), (5, b"", b"read fault\n"))

    # Sinks.

    def limited(self, script: bytes, size: int) -> Came:
        """A run whose sink takes so many bytes and then fails."""

        def limit() -> None:
            signal.signal(signal.SIGXFSZ, signal.SIG_IGN)
            resource.setrlimit(resource.RLIMIT_FSIZE, (size, size))

        with tempfile.TemporaryFile() as sink:
            ran = subprocess.run([self.program], input=script, stdout=sink, stderr=subprocess.PIPE, preexec_fn=limit, timeout=60, check=False)
            sink.seek(0)
            return ran.returncode, sink.read(), ran.stderr

    def sinks(self) -> None:
        script, whole = script_of(FIRST), FIRST.encode()
        for size in range(len(whole)):
            self.expect(f"sink of {size} bytes", self.limited(script, size), (6, whole[:size], b"write fault\n"))
        self.expect("sink of all bytes", self.limited(script, len(whole)), (0, whole, b""))
        with open("/dev/full", "wb") as full:
            ran = subprocess.run([self.program], input=script, stdout=full, stderr=subprocess.PIPE, check=False)
            self.expect("a full device", (ran.returncode, b"", ran.stderr), (6, b"", b"write fault\n"))
        process = subprocess.Popen([self.program], stdin=subprocess.PIPE, stdout=subprocess.PIPE, stderr=subprocess.PIPE)
        process.stdout.close()
        process.stdin.write(script)
        process.stdin.close()
        words = process.stderr.read()
        self.expect("a closed pipe", (process.wait(), b"", words), (6, b"", b"write fault\n"))

    # Judges.

    def judges(self) -> None:
        half = [f"row {i}, 0" for i in range(10, 30)] + ["end"]
        ordered = [f"row {i % 4}, {i}" for i in sorted(range(10, 30), key=lambda i: i % 4)] + ["end"]
        for lines, rows, name in [(BORROWED, half, "borrowed"), (SORTED, ordered, "sorted")]:
            opening = next(at for at, line in enumerate(lines) if " OPEN " in line)
            for at in range(opening, len(lines) + 1):
                for first in "012":
                    for then in "012":
                        script = "\n".join(lines[:at] + [f"-- {then}"] + lines[at:]) + "\n"
                        status, output, words = self.run(script.encode(), "--judge", first, "--steps", "0")
                        found = [line[2:] for line in output.decode().splitlines() if line.startswith("= row") or line == "= end"]
                        good = sorted(found) == sorted(rows) and (name != "sorted" or list(map(first_value, found)) == list(map(first_value, rows)))
                        self.expect(f"{name}, judge {then} from call {at} on behind {first}", (status, b"" if good else output, words), (0, b"", b""))

    # Memory.

    def memory(self) -> None:
        if shutil.which("cc") is None:
            print("there is no C compiler: no memory is refused")
            return
        script, whole, told_calls = script_of(FIRST), (0, FIRST.encode(), b""), 0
        with Shim() as shim:
            enough = shim.run([self.program], script)
            limits = [{"number": number} for number in range(1, enough.made + 2)]
            limits += [{"room": max(1, enough.most * at // 50)} for at in range(50)]
            for limit in limits:
                ran = shim.run([self.program], script, **limit)
                self.cases += 1
                what = wrong_end(ran, whole, script)
                if what is not None:
                    self.wrong += 1
                    print(f"{limit}: {what}")
                told_calls += ran.status == 4 and ran.output != b""
        self.expect("calls told before memory was wanting", (min(told_calls, 1), b"", b""), (1, b"", b""))

    # Texts, and rows.

    def texts(self) -> None:
        listed = ", ".join(["1"] * 33)
        calls = [
            ("1 " + "(" * 4094, "syntax"), ("1 CREATE TABLE T (A BIGINT)", "created"), ("1 BEGIN", "began 1"),
            (f"1 OPEN C SELECT * FROM T WHERE A IN ({listed})", "limit list 32"), ("1 OPEN C SELECT * FROM T, T, T, T, T", "limit joined 4"),
        ]  # fmt: skip
        script = "".join(call + "\n" for call, _ in calls).encode()
        self.expect("texts", self.run(script), (0, "".join(f"{call}\n= {reply}\n" for call, reply in calls).encode(), b""))

    def rows(self) -> None:
        self.expect("rows in, rows out", self.run(script_of(FIRST)), (0, FIRST.encode(), b""))
        self.expect("an empty script", self.run(b""), (0, b"", b""))


CASES: dict[str, Callable[[Table], None]] = {
    "rows": Table.rows, "fronts": Table.fronts, "sources": Table.sources, "sinks": Table.sinks, "judges": Table.judges, "texts": Table.texts,
    "memory": Table.memory,
}  # fmt: skip


def main() -> int:
    parser = argparse.ArgumentParser(description=__doc__, formatter_class=argparse.RawDescriptionHelpFormatter)
    parser.add_argument("program", metavar="PROGRAM")
    parser.add_argument("--only", nargs="+", choices=list(CASES), default=list(CASES), metavar="CASE", help="these cases alone: " + ", ".join(CASES))
    asked = parser.parse_args()
    table = Table(asked.program)
    for name in asked.only:
        CASES[name](table)
    print(f"{table.cases} cases of hostile use, {table.wrong} end otherwise")
    return 1 if table.wrong else 0


if __name__ == "__main__":
    end(main)
