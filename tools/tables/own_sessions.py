#!/usr/bin/env python3
"""Writes what the program `own_sessions` is to print: what the slow model answers to the calls of its two sessions, first those of
session 1 and then those of session 2. Session 1 reads in a transaction that began before the other, so that neither is answered
otherwise where the calls come in another order; `--between N` makes those of session 2 after N of session 1.

  tools/tables/own_sessions.py"""
import argparse
import sys

if not __package__:  # run as a file: the other folders are found from tools/
    sys.path[0] += "/.."

from model.language import calls_of
from model.program import Session, transcript

ROWS = 48
TABLES = ["CREATE TABLE T (A BIGINT, B BIGINT)", "CREATE INDEX IA ON T (A)", "CREATE INDEX IB ON T (B)", "BEGIN"]
BOOKING = ["BEGIN", "UPDATE T SET B = 99 WHERE A >= 12", "INSERT INTO T VALUES (48, 0)", "COMMIT"]


def filling():
    rows = [f"INSERT INTO T VALUES ({number}, {number * 29 % ROWS})" for number in range(ROWS)]
    return [f"1 {text}" for text in TABLES + rows + ["COMMIT", "BEGIN READ ONLY"]]


def reading():
    rows = sum(number * 29 % ROWS < 24 for number in range(ROWS))
    return ["1 OPEN C SELECT A, B FROM T WHERE B < 24 ORDER BY A"] + ["1 FETCH C"] * (rows + 1)


def main():
    parser = argparse.ArgumentParser(description=__doc__, formatter_class=argparse.RawDescriptionHelpFormatter)
    parser.add_argument("--between", type=int, default=0)
    between = parser.parse_args().between
    filled, read, booked = filling(), reading(), [f"2 {text}" for text in BOOKING]
    script = filled + read[:between] + booked + read[between:]
    ran = [(call.session, call.text, reply) for call, reply in Session().run(calls_of("\n".join(script) + "\n"))][len(filled):]
    sys.stdout.write(transcript(told for number in (1, 2) for told in ran if told[0] == number))


if __name__ == "__main__":
    main()
