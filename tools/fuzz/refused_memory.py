#!/usr/bin/env python3
"""Refuses each allocation of a run in turn, one a run, and looks at how the run ends.

Needs a C compiler as `cc`. Each run has to end with status 0 and the transcript, or with status 4, `no memory` on
standard error and the transcript of the first calls; where a background step beside a FETCH found no memory, of another
transcript that is legal. The last run is the one that makes fewer allocations than the
number of the one refused. With --rooms N the run has a room in bytes instead, N times, evenly from nothing to all that
it takes. Prints how many runs there were and how they ended; status 1 where one ended otherwise."""
import argparse
import collections
import sys
from pathlib import Path

if not __package__:  # run as a file: the other folders are found from tools/
    sys.path[0] += "/.."

from ending import end
from fuzz.limited_memory import Shim, wrong_end


def main():
    parser = argparse.ArgumentParser(description=__doc__, formatter_class=argparse.RawDescriptionHelpFormatter)
    parser.add_argument("program", metavar="PROGRAM")
    parser.add_argument("script", type=Path, metavar="SCRIPT")
    parser.add_argument("transcript", type=Path, metavar="TRANSCRIPT", help="what the program writes of it")
    parser.add_argument("--words", type=str.split, default=[], metavar="WORDS", help="words of the program, as '--judge 1 --steps 0'")
    parser.add_argument("--every", type=int, default=1, metavar="K", help="refuse each Kth allocation alone (default 1: each)")
    parser.add_argument("--rooms", type=int, metavar="N", help="give N rooms in bytes, and refuse what passes them")
    asked = parser.parse_args()
    command, script = [asked.program, *asked.words], asked.script.read_bytes()
    ends, wrong, runs = collections.Counter(), 0, 0
    with Shim() as shim:
        whole = shim.run(command, script)
        if (whole.status, whole.output, whole.words) != (0, asked.transcript.read_bytes(), b""):
            print(f"with memory enough: status {whole.status}, {len(whole.output)} bytes, {whole.words!r}")
            return 1
        if not whole.made:
            print("the library counted no allocations, so none can be refused")
            return 1
        print(f"with memory enough: {whole.made} allocations, {whole.most} bytes at most")
        limits = [{"number": number} for number in range(1, whole.made + 2, asked.every)]
        if asked.rooms is not None:
            limits = [{"room": max(1, whole.most * at // asked.rooms)} for at in range(asked.rooms)]
        for limit in limits:
            runs += 1
            ran = shim.run(command, script, **limit)
            what = wrong_end(ran, (whole.status, whole.output, whole.words), script)
            if what is not None:
                wrong += 1
                print(f"{limit}: {what}")
            ends[(ran.status, ran.output.count(b"\n") // 2)] += 1
    for (status, calls), count in sorted(ends.items()):
        print(f"status {status} with {calls} calls told: {count} runs")
    print(f"{runs} runs, {wrong} ended otherwise")
    return 1 if wrong else 0


if __name__ == "__main__":
    end(main)
