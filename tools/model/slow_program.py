#!/usr/bin/env python3
"""A slow model of the whole program, by the rules in words: reads a script from standard input, writes the transcript.

A program over the paged store has to write the same bytes, traces and counts of background steps among them. The model is
the package model/, and shares no code with the program. With --gen it writes the summary of the generated workload of the
seed, and with --line it answers each line before it reads the next one. It ends with the program's statuses for what is no
script."""
from __future__ import annotations

import argparse
import itertools
import sys
from typing import BinaryIO

if not __package__:  # run as a file: the other folders are found from tools/
    sys.path[0] += "/.."

from ending import end
from model.language import calls_of, fault_of, fault_of_line
from model.program import Session, generated, summary, transcript

# The judges by their names, each in the place of its number: the supplied ones, and those of crates/skew_judges.
SUPPLIED = ["threshold", "patient", "contrary"]
OWN = ["bounded", "all-rows", "first-rows"]


def number_up_to(most: int):
    def number(word: str) -> int:
        if not (word.isascii() and word.isdigit() and len(word) <= 10 and int(word) <= most):
            raise argparse.ArgumentTypeError(f"not a number from 0 to {most}: {word}")
        return int(word)

    return number


def judge_of(word: str) -> int | str:
    """A judge by its number, or its name where it is none of the supplied ones."""
    return SUPPLIED.index(word) if word in SUPPLIED else word if word in OWN else number_up_to(2)(word)


def session(judge: int | str, steps: int, plain: bool = False, log: list | None = None, race: bool = False) -> Session:
    """A run that begins under a judge. Where it begins under one of crates/skew_judges, marks name these by number."""
    if judge not in OWN:
        return Session(judge, steps, plain, log, race)
    from judges.named_judges import Told  # (which few runs need, and takes longer to read than all else)

    run = Session()
    run.engine = Told(OWN.index(judge), steps, plain, log, race)
    return run


def add_run_options(parser: argparse.ArgumentParser) -> None:
    """The words of the program that say how a script is run."""
    parser.add_argument("--judge", type=judge_of, default=0, metavar="N",
                        help=f"the judge that rules first, 0 to 2 (default 0), or by its name: {', '.join(SUPPLIED + OWN)}")
    parser.add_argument("--steps", type=number_up_to(64), default=1, metavar="K", help="background steps beside each foreground step, 0 to 64 (default 1)")
    parser.add_argument("--race", action="store_true", help="two indexes race where they can")
    parser.add_argument("--plain", action="store_true", help="over the plain store, whose indexes are sorted lists")


def serve(session: Session, source: BinaryIO, sink: BinaryIO) -> tuple[int, str] | None:
    """Answers line by line, and tells why that ended before the input did."""
    before = 0
    for number in itertools.count(1):
        line = source.readline(4101)
        if not line:
            return None
        fault = fault_of_line(number, before, line)
        if fault is not None:
            return fault
        sink.write(transcript((call.session, call.text, reply) for call, reply in session.run(calls_of(line.decode()))).encode())
        sink.flush()
        before += len(line)


def main() -> int:
    parser = argparse.ArgumentParser(description=__doc__, formatter_class=argparse.RawDescriptionHelpFormatter)
    add_run_options(parser)
    parser.add_argument("--gen", type=number_up_to(2**32 - 1), metavar="SEED", help="read nothing, and run the workload of this seed")
    parser.add_argument("--line", action="store_true", help="answer each line before the next one is read")
    words = parser.parse_args()
    if words.line and words.gen is not None:
        parser.error("--line reads lines, and --gen reads nothing")
    made = session(words.judge, words.steps, words.plain, race=words.race)
    if words.line:
        fault = serve(made, sys.stdin.buffer, sys.stdout.buffer)
        if fault is not None:
            print(fault[1], file=sys.stderr)
        return fault[0] if fault else 0
    if words.gen is not None:
        sys.stdout.write(summary(reply for _, reply in made.run(calls_of(generated(words.gen)))))
        return 0
    data = sys.stdin.buffer.read()
    fault = fault_of(data)
    if fault is not None:
        print(fault[1], file=sys.stderr)
        return fault[0]
    sys.stdout.write(transcript((call.session, call.text, reply) for call, reply in made.run(calls_of(data.decode()))))
    return 0


if __name__ == "__main__":
    end(main)
