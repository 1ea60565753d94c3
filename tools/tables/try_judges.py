#!/usr/bin/env python3
"""Writes what the program `try_judges` is to print, by the rules in words: the control that follows at each strategy, control and
happening, projections of costs, and what eight judges answer to questions, one after another.

The course is the table below, a row for each kind of change; where no row fits, the control stays. The rules of the supplied judges
are those of docs/TRACES.md, those of AllRows and FirstRows stand in tools/judges/judge_reads.py, that of the guard in tools/judges/guarded_judge.py."""
import argparse
import itertools
import sys

if not __package__:  # run as a file: the other folders are found from tools/
    sys.path[0] += "/.."

from ending import end
from judges.guarded_judge import bounded
from judges.judge_reads import JUDGES, Facts

MOST = 2**64 - 1

STRATEGIES = ["Table", "BackgroundOnly", "FastFirst", "Sorted", "IndexOnly", "Union"]
CONTROLS = ["Building", "ForegroundAlone", "BackgroundAlone", "FinalList", "FinalTable", "Done"]
VERDICTS = ["Continue", "AbandonScan", "AbandonForeground", "AbandonBackground"]


def course(strategy, now, kind, verdict=None, more=False, listed=False):
    """The control that follows. A verdict that drops the scan has it end, with more to come or none."""
    scans = now in ("Building", "BackgroundAlone")
    building, alone = now == "Building", now == "BackgroundAlone"
    over = kind == "ScanEnded" or verdict == "AbandonScan"
    background_ends = over and not more or verdict == "AbandonBackground"
    final = "FinalList" if listed else "FinalTable"
    rows = [
        (scans and over and more, now),
        (alone and background_ends, final),
        (building and strategy == "FastFirst" and background_ends, final),
        (building and strategy == "Sorted" and background_ends, "ForegroundAlone"),
        (building and strategy == "IndexOnly" and over and not more, "FinalList" if listed else "ForegroundAlone"),
        (building and strategy == "IndexOnly" and verdict == "AbandonBackground", "ForegroundAlone"),
        (building and strategy in ("FastFirst", "IndexOnly") and verdict == "AbandonForeground", "BackgroundAlone"),
        (building and strategy == "FastFirst" and kind == "Full", "BackgroundAlone"),
        (building and strategy == "IndexOnly" and kind == "Full", "ForegroundAlone"),
        (now in ("Building", "ForegroundAlone") and strategy in ("Sorted", "IndexOnly") and kind == "FrontEnded", "Done"),
        (now in ("FinalList", "FinalTable") and kind == "FinalEnded", "Done"),
    ]
    return next((follows for fits, follows in rows if fits), now)


def word(is_so):
    return "true" if is_so else "false"


def courses():
    for strategy, now in itertools.product(STRATEGIES, CONTROLS):
        for kind in ("Full", "FrontEnded", "FinalEnded"):
            yield f"{strategy} {now} {kind}: {course(strategy, now, kind)}"
        for more, listed in itertools.product([False, True], repeat=2):
            left = f"more: {word(more)}, listed: {word(listed)}"
            yield f"{strategy} {now} ScanEnded {{ {left} }}: {course(strategy, now, 'ScanEnded', None, more, listed)}"
            for verdict in VERDICTS:
                follows = course(strategy, now, "Ruled", verdict, more, listed)
                yield f"{strategy} {now} Ruled {{ verdict: {verdict}, {left} }}: {follows}"


SCANS = [(16, 6, 6), (16, 0, 0), (17, 0, 0), (20, 20, 3), (10, 3, 1), (MOST, 1, 1), (MOST, 1, MOST)]


def projections():
    """The leaves to come, at 16 entries each, and the keys of the list that is to be expected, at most the greatest number of 64 bits."""
    for total, scanned, kept in SCANS:
        keys = total if scanned == 0 else -(-kept * total // scanned)
        yield f"project {total} {scanned} {kept}: {min(-(-(total - scanned) // 16) + keys, MOST)}"


# Whether the foreground runs too, the scan's position, its entries scanned, its keys kept, its estimate, its leaves read, its
# projection, the guarantee, and the rows delivered.
QUESTIONS = [
    (True, 0, 6, 6, 16, 1, 17, 2, 0),
    (True, 0, 6, 6, 16, 1, 19, 20, 0),
    (True, 0, 6, 6, 16, 1, 18, 20, 0),
    (True, 0, 6, 6, 16, 1, MOST, MOST, 0),
    (True, 0, 6, 6, 16, 1, MOST // 2, MOST, 0),
    (False, 0, 20, 20, 80, 2, 0, 61, 0),
    (False, 0, 20, 20, 80, 2, 0, 60, 0),
    (False, 0, 20, 20, 80, 1, 0, 60, 0),
    (False, 1, 20, 2, 80, 2, 0, 16, 0),
    (False, 1, 20, 2, 80, 2, 0, 15, 0),
    (False, 0, 20, 20, 256, 2, 0, 125, 0),
    (False, 0, 20, 20, 256, 3, 0, 125, 0),
    (True, 0, 20, 20, 80, 1, 0, 61, 0),
    (True, 0, 20, 20, 80, 1, 0, 60, 0),
    (True, 0, 60, 49, 80, 3, 0, 61, 0),
    (True, 0, 20, 20, 80, 1, 0, 61, 1),
    (True, 1, 20, 2, 80, 1, 0, 61, 0),
    (True, 0, 20, 20, 256, 1, 0, 125, 0),
    (False, 0, MOST, MOST, MOST, MOST, 0, MOST, 0),
    # a scan has sunk its share, or nearly
    (False, 0, 1, 0, 17, 3, 1, 16, 0),
    (False, 0, 1, 0, 17, 3, 1, 17, 0),
    (False, 1, 1, 0, 17, 9, 1, 16, 0),
    (False, 1, 1, 0, 17, 9, 1, 17, 0),
    (False, 2, 1, 0, 17, 5, 1, 16, 0),
    (False, 2, 1, 0, 17, 5, 1, 17, 0),
    (False, 3, 1, 0, 17, 2, 1, 16, 0),
    (False, 3, 1, 0, 17, 2, 1, 17, 0),
    (False, 9, 1, 0, 17, 2, 1, 1024, 0),
    (False, 9, 1, 0, 17, 2, 1, 1025, 0),
    (False, 62, 1, 0, 17, 2, 1, 2**63, 0),
    (False, 62, 1, 0, 17, 2, 1, 2**63 + 1, 0),
    (False, 63, 1, 0, 17, 2, 1, MOST, 0),
    (False, 1000, 1, 0, 17, 1, 1, MOST, 0),
    (False, 1000, 1, 0, 17, MOST, 1, MOST, 0),
    (False, 0, 1, 0, 17, 1, 1, 0, 0),
    # as many keys are listed as are guaranteed, or nearly: by the scan, and by it and 13 of members before it
    (False, 0, 20, 15, 80, 1, 64, 15, 0),
    (False, 0, 20, 15, 80, 1, 64, 16, 0),
    (False, 3, 20, 2, 80, 1, 25, 15, 0),
    (False, 3, 20, 2, 80, 1, 25, 16, 0),
    (False, 1, 1, 0, 17, 1, MOST, MOST, 0),
    (False, 1, 1, 0, 17, 1, MOST - 1, MOST, 0),
    # a foreground may fetch too many keys, or nearly
    (True, 0, 20, 2, 80, 1, 12, 16, 0),
    (True, 0, 20, 2, 80, 1, 12, 17, 0),
    (True, 3, 20, 2, 80, 1, 12, 128, 0),
    (True, 3, 20, 2, 80, 1, 12, 129, 0),
    (False, 3, 20, 2, 80, 1, 12, 128, 0),
    (True, 1000, 1, 0, 17, 1, 1, 5, 0),
    (True, 1000, 20, 1, 80, 1, 8, MOST, 0),
    (True, 0, 1, MOST, 17, 1, MOST, MOST, 0),
]

ANSWERS = {"go on": "Continue", "drop": "AbandonScan", "stop": "AbandonForeground", "end": "AbandonBackground"}


def contrary():
    """A judge that stops the foreground, goes on, drops the scan and ends the background in turn."""
    turns = itertools.cycle(["stop", "go on", "drop", "end"])
    return lambda facts: next(turns)


def rulings():
    judges = [("threshold", JUDGES["threshold"]), ("patient", JUDGES["patient"]), ("contrary", contrary()),
              ("all rows", JUDGES["AllRows"]), ("first rows", JUDGES["FirstRows"]), ("bounded patient", bounded(JUDGES["patient"])),
              ("bounded contrary", bounded(contrary())), ("bounded all rows", bounded(JUDGES["AllRows"]))]  # fmt: skip
    for name, judge in judges:
        for question in map(Facts._make, QUESTIONS):
            control = "Building" if question.building else "BackgroundAlone"
            fields = ", ".join([f"control: {control}", *(f"{field}: {value}" for field, value in list(question._asdict().items())[1:])])
            yield f"{name}, Facts {{ {fields} }}: {ANSWERS[judge(question)]}"


def main():
    argparse.ArgumentParser(description=__doc__, formatter_class=argparse.RawDescriptionHelpFormatter).parse_args()
    for line in itertools.chain(courses(), projections(), rulings()):
        print(line)
    return 0


if __name__ == "__main__":
    end(main)
