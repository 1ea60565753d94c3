#!/usr/bin/env python3
"""Compares a transcript with the one that is expected, and tells the first difference, or nothing where they are the same.

  ./rvdyn bank | tools/shell/expect.py bank.transcript - --script bank

It tells the line of the expected transcript, the call, what was expected and what came, and with --script the call's line in the
script. Transcripts of runs with threads may have their calls in another order each time: tools/model/slow_audit.py, or
./rvdyn --audit, judges those."""
from __future__ import annotations

import argparse
import io
import sys
from codecs import BOM_UTF8
from itertools import zip_longest

if not __package__:  # run as a file: the other folders are found from tools/
    sys.path[0] += "/.."

from ending import end
from model.language import Call, calls_of, fault_of
from shell.timeline import read_script


def lines_of(data: bytes) -> list[bytes]:
    """The lines with their ends."""
    return io.BytesIO(data).readlines()


def first_difference(expected: bytes, came: bytes) -> tuple[int, bytes | None, bytes | None] | None:
    """The number of the first line that differs, with what is expected there and what came, where None stands for nothing."""
    if expected == came:
        return None
    pairs = enumerate(zip_longest(lines_of(expected), lines_of(came)), 1)
    return next((number, a, b) for number, (a, b) in pairs if a != b)


def quoted(line: bytes | None) -> str:
    return "nothing more" if line is None else f"`{line.strip().decode(errors='backslashreplace')}`"


def bare(line: bytes) -> bytes:
    """A line without what is not seen of it."""
    return line.removeprefix(BOM_UTF8).strip()


def told(name: str, expected: bytes, came: bytes, script: tuple[str, bytes] | None) -> list[str]:
    """What is said of the first difference; nothing where there is none."""
    found = first_difference(expected, came)
    if found is None:
        return []
    number, wanted, got = found
    lines = [f"{name}:{number}: expected is {quoted(wanted)}, and {quoted(got)} came"]
    if wanted is not None and got is not None and bare(wanted) == bare(got):
        marked = wanted.startswith(BOM_UTF8) != got.startswith(BOM_UTF8)
        lines.append("  one of them begins with a byte order mark" if marked else "  they differ in the blanks at an end, or in the ends of lines")
    elif number % 2 == 0:
        lines.append(f"  as the answer to {quoted(lines_of(came)[number - 2])}")
    place = place_of(script, (number - 1) // 2) if script else None
    return lines + ([f"  which is line {place}"] if place else [])


def place_of(script: tuple[str, bytes], at: int) -> str | None:
    """File and line of a call, counted from 0."""
    name, data = script
    if fault_of(data) is not None:
        return None
    lines = [call.line for call in calls_of(data.decode()) if isinstance(call, Call)]
    return f"{name}:{lines[at]}" if at < len(lines) else None


def main() -> int:
    parser = argparse.ArgumentParser(description=__doc__, formatter_class=argparse.RawDescriptionHelpFormatter)
    parser.add_argument("expected", metavar="EXPECTED", help="the transcript that is expected")
    parser.add_argument("transcript", nargs="?", default="-", metavar="TRANSCRIPT", help="the one that came; - or nothing for standard input")
    parser.add_argument("--script", metavar="SCRIPT", help="the script that both are of")
    parser.epilog = "Status 0: they are the same; 1: they differ; 2: a file cannot be read, or the words do not fit."
    words = parser.parse_args()
    expected, came = read_script(words.expected), read_script(words.transcript)
    script = (words.script, read_script(words.script)) if words.script else None
    lines = told(words.expected, expected, came, script)
    sys.stdout.buffer.write("".join(line + "\n" for line in lines).encode())
    return 1 if lines else 0


if __name__ == "__main__":
    end(main)
