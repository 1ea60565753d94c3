#!/usr/bin/env python3
"""Fills a table from Python, and asks for rows: `python3 examples/python/phone_book.py`, with --model by the slow model, which needs no kit."""
import sys
from pathlib import Path

sys.path.insert(0, str(Path(__file__).resolve().parents[2] / "tools/shell"))
import rvdyn  # noqa: E402

PEOPLE = [("Ada", "Paris", 17), ("Ben", "Rome", 4), ("Cleo", "Paris", None), ("Dora", "Oslo", 31)]


def text(value):
    """A value as it stands in a statement."""
    return "NULL" if value is None else str(value) if isinstance(value, int) else "'" + value.replace("'", "''") + "'"


def main():
    with rvdyn.open(model="--model" in sys.argv[1:]) as db:
        db.call("CREATE TABLE PERSON (NAME VARCHAR(20), TOWN VARCHAR(20), EXTENSION BIGINT)")
        db.call("CREATE INDEX BY_TOWN ON PERSON (TOWN)")
        db.call("BEGIN")
        for person in PEOPLE:
            db.call(f"INSERT INTO PERSON VALUES ({', '.join(map(text, person))})")
        print("commit:", db.call("COMMIT"))

        # A second session reads, and its cursor keeps what it saw while the first one writes on.
        db.call("BEGIN READ ONLY", session=2)
        rows = db.rows("SELECT NAME, EXTENSION FROM PERSON WHERE TOWN = 'Paris' ORDER BY NAME", session=2, cursor="PARIS")
        print("first:", next(rows))
        db.call("BEGIN")
        db.call("DELETE FROM PERSON WHERE TOWN = 'Paris'")
        db.call("COMMIT")
        print("then:", list(rows))

        try:
            db.call("INSERT INTO PERSON VALUES ('Eve', 'Bern', 1)")
        except rvdyn.Refused as refusal:
            print("refused:", refusal)


if __name__ == "__main__":
    main()
