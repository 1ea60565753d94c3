#!/usr/bin/env python3
"""Writes what the program `own_judge` is to print: the transcript of its script by the slow model, in which judge 0 drops a scan
whose projection is 60 hundredths of the guarantee or more, judge 1 is the threshold and judge 2 the patient one.

  tools/tables/own_judge.py < crates/own_judge/stdin"""
import argparse
import sys

if not __package__:  # run as a file: the other folders are found from tools/
    sys.path[0] += "/.."

from model.engine import Patient, Threshold
from model.language import calls_of
from model.program import Session, transcript


class Share:
    def __init__(self, percent):
        self.percent = percent

    def rule(self, projected, guaranteed):
        return "drop" if 100 * projected >= self.percent * guaranteed else "go on"


def main():
    session = Session()
    session.engine.judges = [Share(60), Threshold(), Patient()]
    ran = session.run(calls_of(sys.stdin.read()))
    sys.stdout.write(transcript((call.session, call.text, reply) for call, reply in ran))


if __name__ == "__main__":
    argparse.ArgumentParser(description=__doc__, formatter_class=argparse.RawDescriptionHelpFormatter).parse_args()
    main()
