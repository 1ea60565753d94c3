#!/usr/bin/env python3
"""Writes what the program `try_stores` is to print, or with --lines what it is to read: lists of rows, changes, versions, pages,
nodes of an index tree, key lists and the set of delivered rows, each on worked examples, and behind them trees (try_trees.py),
two stores (try_paged.py), scans (try_scans.py), pieces (try_pieces.py) and views, whose lines were found by hand.

The answers are found by the rules in words, with dictionaries and sorted lists, apart from the Rattle code:

  rows      a row has its number; a copy stays as it was
  changes   at most one of each row, in the order of table and row; the one put last is taken back
  versions  a read gives the last version that is not above its snapshot
  records   a page has the rows of 32 numbers; each snapshot from the horizon on keeps its rows, a page that was made stays,
            and the pages of a snapshot are counted up to the greatest number that was put till then
  children  those that may have a key of a range: from the last one whose low key is before it (else the first) to the last
            one whose low key is not after it; the first low key is not looked at
  list      small up to 20 keys, allocated up to 1,024, spilled above; pushed from above down to 0, ascending once finished
  probes    of the rows behind a list, how many it may have: none up to 1,024 keys, else those whose bit of 65,536 is set
  delivered up to 1,024 rows"""
import sys

if not __package__:  # run as a file: the other folders are found from tools/
    sys.path[0] += "/.."

from ending import end
from tables import try_paged, try_pieces, try_scans, try_trees
from tables.lines import write

GOLDEN = 0x9E37_79B9_7F4A_7C15


def rows(text):
    found, copy = set(), set()
    for act in text.split(", "):
        word, _, number = act.partition(" ")
        if word == "put":
            found.add(int(number))
        elif word == "remove":
            found.discard(int(number))
        else:
            copy = set(found)
    return f"rows{spaced(sorted(found))}, copy{spaced(sorted(copy))}"


def spaced(words):
    return "".join(f" {word}" for word in words)


def changes(text):
    first, last = text.split(" then ")
    pair = lambda word: tuple(map(int, word.split(".")))
    put = {pair(word) for word in first.split(" ")}
    told = lambda pairs: (
        spaced(f"{table}.{row}" for table, row in sorted(pairs))
        + f", {len(pairs)} in all, tables{spaced(sorted({table for table, _ in pairs}))}, {last} "
        + ("changed" if pair(last) in pairs else "not changed")
    )
    return f"put{told(put | {pair(last)})}; taken back{told(put)}"


def at_snapshot(versions, snap):
    """The last version that is not above the snapshot, or None."""
    return max(((commit, value) for commit, value in versions.items() if commit <= snap), default=(None, None), key=lambda it: it[0])[1]


def versions(text):
    places, read = {}, []
    for act in text.split(", "):
        word, *given = act.split(" ")
        if word == "write":
            places.setdefault(int(given[0]), {})[int(given[1])] = given[2]
        elif word == "read":
            read.append(at_snapshot(places.get(int(given[0]), {}), int(given[1])))
        elif word == "take":
            read.append(places.get(int(given[0]), {}).pop(int(given[1]), None))
        elif word == "abandon":
            for place in places.values():
                place.pop(int(given[0]), None)
        # (a purge takes nothing that is read from its horizon on)
    return f"{'' if places else 'empty, '}{max(places, default=-1) + 1} places, read{spaced(it or 'none' for it in read)}"


def records(text):
    snapshots, pages, places, told = [{}], [0], 0, ""
    for act in text.split(", "):
        word, *given = act.split(" ")
        numbers = list(map(int, given)) if word not in ("commit", "abandon") else []
        if word == "commit":
            now, page = dict(snapshots[-1]), pages[-1]
            for row, value in (it.split("=") for it in given):
                places = max(places, int(row) // 32 + 1)
                if value == "-":
                    now.pop(int(row), None)
                else:
                    now[int(row)] = int(value)
                    page = max(page, int(row) // 32 + 1)
            snapshots.append(now)
            pages.append(page)
        elif word == "abandon":
            snapshots[-1], pages[-1] = snapshots[-2], pages[-2]
        elif word == "show":
            rows = snapshots[numbers[0]]
            of_page = [{row: value for row, value in rows.items() if row // 32 == page} for page in range(6)]
            told += f"; {pages[numbers[0]]} pages, {len(rows)} rows,"
            told += "".join(told_rows(page) + " |" for page in of_page) + " fetched" + told_rows(rows)
        elif word == "fetch":
            told += "; fetched" + told_rows({row: it for row, it in snapshots[numbers[1]].items() if row == numbers[0]})
        elif word == "page":
            told += "; page" + told_rows({row: it for row, it in snapshots[numbers[1]].items() if row // 32 == numbers[0]})
    return f"{places} places{told}"


def told_rows(found):
    return spaced(f"{row}={value}" for row, value in sorted(found.items()))


def children(text):
    lows, bounds = text.split(" in ")
    lows = list(map(int, lows.split(" ")))
    low, high = bounds.split(" ")
    is_before = lambda key: low != "-" and (key < int(low[1:]) or low[0] == "(" and key == int(low[1:]))
    is_after = lambda key: high != "-" and (key > int(high[1:]) or high[0] == "(" and key == int(high[1:]))
    last = max((at for at, key in enumerate(lows) if at > 0 and not is_after(key)), default=0)
    first = max((at for at, key in enumerate(lows[: last + 1]) if at > 0 and is_before(key)), default=0)
    return f"{first} to {last}, {len(lows)} entries and {len(lows)} children"


def leaf(text):
    return "level 0, children 0, keys" + ("" if text == "none" else f" {text}")


def stage(count):
    return "small" if count <= 20 else "allocated" if count <= 1024 else "spilled"


def key_list(text):
    count = int(text.split(" ")[0])
    ends = f"{count - 1} to 0" if count else "none"
    return f"{'' if count else 'empty, '}{count} keys, {stage(count)}, {ends}; {count} keys, {stage(count)}, {count} in place"


def bit(key):
    """The bit of a key: the upper 16 bits of its product with the golden ratio's 64 bits."""
    return (key * GOLDEN) % 2**64 >> 48


def probes(text):
    count = int(text)
    bits = {bit(key) for key in range(count)}
    may = 0 if count <= 1024 else sum(bit(row) in bits for row in range(count, 100_000))
    return f"{may} may be there, 0 are"


def mix(rows):
    total = 0
    for row in sorted(rows):
        total = (total * 31 + row + 1) % 1000003
    return total


def delivered(text):
    places = {"mixed": 2000, "rising": 1024, "rising but one": 1023}[text]
    mixed = lambda i: 2 * (1023 - i) if i < 512 else 2 * (i % 512) + 3
    found = set()
    for i in range(places):
        if len(found) < 1024:
            found.add(mixed(i) if text == "mixed" else i)
    told = lambda rows: f"{'' if rows else 'empty, '}{len(rows)} rows, {'full' if len(rows) == 1024 else 'not full'}, mix {mix(rows)}"
    return f"{told(set())}; {places} of {places} well, {told(found)}"


LOAD = "commit 0=1 31=2 32=3 70=4, commit 0=- 31=5 130=6 131=-, commit 33=7 70=- 130=- 32=8"

LINES = [
    ("rows", rows, ["put 5, put 9, put 2, put 7, put 5, copy, remove 7, remove 8"]),
    ("changes", changes, ["1.0 1.4 0.9 1.0 then 0.3", "1.0 1.4 0.9 then 1.4", "3.0 then 0.0", "0.5 1.0 1.4 then 2.7", "0.5 1.4 then 1.0"]),
    ("versions", versions, [
        "write 0 1 71, write 0 4 72, read 0 0, read 0 3, read 0 4, purge 0 3, read 0 3, read 0 4, abandon 4, read 0 9",
        "write 3 7 74, read 2 9, write 3 7 75, read 3 6, read 3 7, purge 9 7, read 4 9",
        "write 0 4 72, take 0 4, take 0 4, read 0 9, write 0 4 73, read 0 4, take 1 4",
        "read 0 0",
    ]),
    ("records", records, [
        f"{LOAD}, show 0, show 1, show 2, show 3",
        "commit 5=1 40=2, commit 5=- 41=3 160=4, abandon, show 1, show 2",
        "commit 5=1 40=2, commit 5=3 41=4, commit 5=- 40=5, purge 0 2, purge 1 2, purge 9 2, show 2, show 3",
        f"commit 0=1, fetch 0 1, fetch 4294967296 1, fetch {2**64 - 1} 1, fetch 137438953472 1, page 0 1, page {2**32 - 1} 1",
    ]),
    ("children", children, ["9 16 32 48 in " + it for it in ["[16 [40", "(16 (32", "- -", "[100 -", "- [2"]] + ["5 in - -"]),
    ("leaf", leaf, ["none", "5", "5 6 7"]),
    ("list", key_list, [f"{n} {places}" for places in (0, 7, 1200) for n in (0, 20, 21, 1024, 1025, 3000)]),
    ("probes", probes, ["1024", "1025"]),
    ("delivered", delivered, ["mixed", "rising", "rising but one"]),
]  # fmt: skip


# Lists in blocks, and what a cursor reads with a view of its transaction's changes, change by change.
VIEWS = """\
put over 0, taken 0, taken none
items 1000, up to 33: 12, up to 5000: 1000, at 30: 0, at 33: 0
items 999, up to 33: 11, up to 5000: 999, at 30: 1, at 33: none
items 0, up to 33: 0, up to 5000: 0, at 30: none, at 33: none
rank 10, of tens 30, a piece, taken 1
from 9: 27: 36: 39
from 996: 2994: 2997
from 2000
entries 0 1; estimate 2, rows 2, pages 1, rows of page 0: 2, row 1 stands
entries 2 3 4 5 6 7 8 9 10 11 12 13 14 15 16 17 18 19 20 21 22 23 24 25 26 27 28 29 30 31 32 1 0; estimate 33, rows 33, pages 2, rows of page 0: 32, row 1 stands
entries 2 3 4 5 6 7 8 9 10 11 12 13 14 15 16 17 18 19 20 21 22 23 24 25 26 27 28 29 30 31 0; estimate 31, rows 31, pages 1, rows of page 0: 31, row 1 is gone
entries 40 0; estimate 2, rows 2, pages 2, rows of page 0: 1, row 1 is gone
"""


def lines():
    """Each line that the program reads, and what is found for it."""
    for word, find, texts in LINES:
        for text in texts:
            yield f"{word}: {text}", find(text)


def write_more():
    for part in (try_trees, try_paged, try_scans, try_pieces):
        part.write()
    print(VIEWS, end="")


def main():
    return write(__doc__, lines(), write_more)


if __name__ == "__main__":
    end(main)
