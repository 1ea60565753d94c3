#!/usr/bin/env python3
"""Runs a built program on command lines, among them words that are not UTF-8, and compares statuses and words on standard error.

The expected statuses are from the form of the command line as docs/LANGUAGE.md gives it: options, each at most once and in any order,
all but `--threads` and `--race` with a value of 1 to 10 decimal digits in its range, in the next word or behind `=`; before them `--line`, and then neither `--threads` nor `--gen`. Prints the lines that differ, and ends with
status 1 where one did."""
import argparse
import subprocess
import sys

if not __package__:  # run as a file: the other folders are found from tools/
    sys.path[0] += "/.."

from ending import end

USAGE = b"usage: rvdyn [--line] [--threads] [--workers W] [--judge N] [--steps K] [--gen SEED] [--race]\n"

ACCEPTED = [
    [],
    [b"--threads"],
    [b"--threads", b"--workers", b"0"],
    [b"--workers=8", b"--threads", b"--judge=1"],
    [b"--workers", b"3"],
    [b"--judge", b"2"],
    [b"--judge=0", b"--steps=64"],
    [b"--steps", b"0", b"--judge", b"1"],
    [b"--judge", b"0000000002"],
    [b"--steps=007"],
    [b"--steps=0"],
    [b"--steps", b"64", b"--judge=1"],
    [b"--race"],
    [b"--race", b"--threads", b"--judge", b"1"],
    [b"--steps=0", b"--race"],
    [b"--line"],
    [b"--line", b"--judge=1", b"--race"],
]

FAULTY = [
    [b"--judge=\xff"],
    [b"--judge", b"\xff"],
    [b"\xc3"],
    [b"--steps", b"1", b"\xed\xa0\x80"],
    [b"\xff", b"--judge", b"1"],
    [b""],
    [b"--"],
    [b"7"],
    [b"-h"],
    [b"--help"],
    [b"--version"],
    [b"--threads", b"--threads"],
    [b"--threads=1"],
    [b"--threads", b"2"],
    [b"--workers", b"9"],
    [b"--workers"],
    [b"--judge"],
    [b"--judge="],
    [b"--judge", b"3"],
    [b"--judge", b"-1"],
    [b"--judge", b"--steps", b"1"],
    [b"--judge=1", b"--judge=1"],
    [b"--steps", b"65"],
    [b"--gen", b"4294967296"],
    [b"--gen", b"00000000001"],
    [b"--jud", b"1"],
    ["--judge=\u0661".encode()],
    [b"x"],
    [b"--", b"--judge", b"1"],
    [b"--judge", b"+1"],
    [b"--judge", b"00000000002"],
    [b"--judge", b"1", b"--judge", b"1"],
    [b"--judge=1", b"--judge", b"2"],
    [b"--judge", b"--threads"],
    [b"-judge", b"1"],
    [b"--JUDGE", b"1"],
    [b"--gen", b"1", b"2"],
    [b"--gen=1=1"],
    [b"--gen", b"1a"],
    [b"--threads="],
    [b"--thread"],
    [b"--workers", b"1", b"--workers=1"],
    [b"--race", b"--race"],
    [b"--race=1"],
    [b"--race", b"1"],
    [b"--races"],
    [b"--judge", b"--race"],
    [b"--line", b"--line"],
    [b"--line=1"],
    [b"--judge=1", b"--line"],
    [b"--line", b"--threads"],
    [b"--line", b"--gen", b"1"],
    [b"--line", b"--judge=3"],
]


def main():
    parser = argparse.ArgumentParser(description=__doc__, formatter_class=argparse.RawDescriptionHelpFormatter)
    parser.add_argument("program", metavar="PROGRAM")
    program = parser.parse_args().program
    wrong = 0
    for words, wanted in [(w, (0, b"", b"")) for w in ACCEPTED] + [(w, (1, b"", USAGE)) for w in FAULTY]:
        run = subprocess.run([program.encode(), *words], input=b"", capture_output=True)
        if (run.returncode, run.stdout, run.stderr) != wanted:
            print(f"{words}: {run.returncode} {run.stdout!r} {run.stderr!r}")
            wrong += 1
    print(f"{len(ACCEPTED) + len(FAULTY)} command lines, {wrong} differ")
    return 1 if wrong else 0


if __name__ == "__main__":
    end(main)
