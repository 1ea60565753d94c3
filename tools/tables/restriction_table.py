#!/usr/bin/env python3
"""Writes what the program `try_values` is to print of values and restrictions: restrictions and rows, with the place of the
row's key in the restriction's range, the truth on the row, and whether the index part passes the key.

It is written from the rules in words, apart from the Rattle code: values are ordered NULL, integers, texts
by bytes; a comparison with NULL is Unknown; AND is the least and OR the greatest in the order False,
Unknown, True; only groups of a single atom bound a range.

A line behind `row`: the index's columns; the restriction; the row (a, b, c); place; truth; pass.
Groups are parted by ' & ', atoms of a group by ' / '. N is NULL, a text begins with a quote.

A line behind another word tells of values (two orders, and whether they are the same), of keys (by as many
values as both have, and by all), of entries (the rows in the order of key and row), of a range (or one of what begins with
the last text of its low bound) and a key, of acts on a list, of copied pairs, of the range of a restriction, of its parts for two
indexes, and of the range of `the column at place 0 is less than that at place 1` behind a row at place 0."""
import argparse

FALSE, UNKNOWN, TRUE = 0, 1, 2
TRUTHS = ["false", "unknown", "true"]


def rank(v):
    if v is None:
        return (0, 0, b"")
    if isinstance(v, int):
        return (1, v, b"")
    return (2, 0, v.encode())


def value(word):
    if word == "N":
        return None
    if word.startswith("'"):
        return word[1:]
    return int(word)


COLUMNS = {"a": 0, "b": 1, "c": 2}


def compare(x, op, y):
    if x is None or y is None:
        return UNKNOWN
    a, b = rank(x), rank(y)
    return TRUE if {"=": a == b, "<>": a != b, "<": a < b, "<=": a <= b, ">": a > b, ">=": a >= b}[op] else FALSE


def atom_truth(atom, row):
    words = atom.split()
    if words == ["true"]:
        return TRUE
    if words == ["false"]:
        return FALSE
    if words == ["unknown"]:
        return UNKNOWN
    x = row[COLUMNS[words[0]]]
    op, rest = words[1], words[2:]
    if op == "null":
        return TRUE if x is None else FALSE
    if op == "present":
        return FALSE if x is None else TRUE
    if op == "between":
        return min(compare(x, ">=", value(rest[0])), compare(x, "<=", value(rest[1])))
    if op == "in":
        return max([compare(x, "=", value(w)) for w in rest], default=FALSE)
    if op == "starts":
        if x is None:
            return UNKNOWN
        return TRUE if isinstance(x, str) and x.encode().startswith(value(rest[0]).encode()) else FALSE
    y = row[COLUMNS[rest[0]]] if rest[0] in COLUMNS else value(rest[0])
    return compare(x, op, y)


def groups(text):
    return [] if text == "" else [g.split(" / ") for g in text.split(" & ")]


def truth(gs, row):
    return min([max(atom_truth(a, row) for a in g) for g in gs], default=TRUE)


def names(atom):
    words = atom.split()
    found = [words[0]] if words[0] in COLUMNS else []
    if len(words) == 3 and words[2] in COLUMNS:
        found.append(words[2])
    return found


def bounding(gs, column):
    """The atoms that stand alone, compare this column with literals that are not NULL, or test it for NULL."""
    for g in gs:
        if len(g) != 1:
            continue
        words = g[0].split()
        if words[0] != column:
            continue
        if words[1] in ("null", "present", "starts"):
            yield words
        elif words[1] == "between" and "N" not in words[2:]:
            yield words
        elif words[1] in ("=", "<", "<=", ">", ">=") and words[2] not in COLUMNS and words[2] != "N":
            yield words


def range_of(gs, columns):
    """low and high as (values, closed) or None, and whether `starts` is set"""
    prefix = []
    for column in columns:
        atoms = list(bounding(gs, column))
        equal = [w for w in atoms if w[1] in ("=", "null")]
        if equal:
            prefix.append(None if equal[0][1] == "null" else value(equal[0][2]))
            continue
        starts = [w for w in atoms if w[1] == "starts"]
        if starts:
            return (prefix + [value(starts[0][2])], True), None, True
        if atoms:
            lows, highs = [], []
            for w in atoms:
                low = (None, False)
                if w[1] == "between":
                    low = (value(w[2]), True)
                    highs.append((value(w[3]), True))
                if w[1] in (">", ">="):
                    low = (value(w[2]), w[1] == ">=")
                if w[1] in ("<", "<="):
                    highs.append((value(w[2]), w[1] == "<="))
                lows.append(low)
            # among equal values one that is not closed wins
            low = max(lows, key=lambda e: (rank(e[0]), not e[1]))
            high = min(highs, key=lambda e: (rank(e[0]), e[1])) if highs else None
            if high is not None:
                end = (prefix + [high[0]], high[1])
            else:
                end = (prefix, True) if prefix else None
            return (prefix + [low[0]], low[1]), end, False
        break
    end = (prefix, True) if prefix else None
    return end, end, False


def first_difference(key, bound):
    for x, y in zip(key, bound):
        if rank(x) != rank(y):
            return -1 if rank(x) < rank(y) else 1
    return 0


def place(the_range, key):
    low, high, starts = the_range
    if low is not None:
        d = first_difference(key, low[0])
        if d < 0 or (d == 0 and not low[1]):
            return "before"
    if high is not None:
        d = first_difference(key, high[0])
        if d > 0 or (d == 0 and not high[1]):
            return "after"
    if starts:
        n = len(low[0]) - 1
        if [rank(v) for v in key[:n]] != [rank(v) for v in low[0][:n]]:
            return "after"
        if not (isinstance(key[n], str) and key[n].encode().startswith(low[0][n].encode())):
            return "after"
    return "in"


def passes(gs, columns, row):
    inside = [g for g in gs if all(c in columns for a in g for c in names(a))]
    return "yes" if truth(inside, row) == TRUE else "no"


CASES = [
    ("a b", "a = 3 & b > 1 & b <= 7", ["3 N 0", "3 1 0", "3 2 0", "3 7 0", "3 8 0", "4 0 0", "2 5 0", "N 5 0"]),
    ("a", "", ["N N N", "5 5 5", "'x 1 1"]),
    ("a", "a = 5", ["4 0 0", "5 0 0", "6 0 0", "N 0 0", "'5 0 0"]),
    ("a", "a <> 5", ["4 0 0", "5 0 0", "N 0 0"]),
    ("a", "a < 5", ["N 0 0", "4 0 0", "5 0 0", "6 0 0", "'a 0 0"]),
    ("a", "a <= 5", ["N 0 0", "4 0 0", "5 0 0", "6 0 0"]),
    ("a", "a > 5", ["N 0 0", "5 0 0", "6 0 0", "'a 0 0"]),
    ("a", "a >= 5", ["N 0 0", "4 0 0", "5 0 0", "6 0 0"]),
    ("a", "a = N", ["N 0 0", "5 0 0"]),
    ("a", "a <> N", ["N 0 0", "5 0 0"]),
    ("a", "a null", ["N 0 0", "0 0 0", "' 0 0"]),
    ("a", "a present", ["N 0 0", "-9223372036854775808 0 0", "' 0 0"]),
    ("a", "a between 3 7", ["2 0 0", "3 0 0", "5 0 0", "7 0 0", "8 0 0", "N 0 0"]),
    ("a", "a between 7 3", ["5 0 0", "3 0 0", "8 0 0"]),
    ("a", "a between N 7", ["5 0 0", "9 0 0", "N 0 0"]),
    ("a", "a between 3 N", ["5 0 0", "2 0 0"]),
    ("a", "a in 1 3 5", ["0 0 0", "3 0 0", "9 0 0", "N 0 0"]),
    ("a", "a in 1 N", ["1 0 0", "2 0 0", "N 0 0"]),
    ("c", "c starts 'ab", ["0 0 'a", "0 0 'ab", "0 0 'abc", "0 0 'ac", "0 0 N", "0 0 'aab", "0 0 'b"]),
    ("c", "c starts '", ["0 0 N", "0 0 '", "0 0 'z", "0 0 7"]),
    ("c", "c starts 'ab & c starts 'abc", ["0 0 'ab", "0 0 'abc", "0 0 'abd"]),
    ("c", "c starts 'ab & c > 'abc", ["0 0 'ab", "0 0 'abc", "0 0 'abd", "0 0 'ac"]),
    ("a c", "a = 2 & c starts 'x", ["2 0 'x", "2 0 'xy", "2 0 'y", "2 0 'a", "3 0 'x", "1 0 'x", "2 0 N"]),
    ("a c", "a null & c starts 'x", ["N 0 'xx", "N 0 'w", "1 0 'xx"]),
    ("a", "a > 5 & a >= 5", ["5 0 0", "6 0 0", "4 0 0"]),
    ("a", "a >= 5 & a > 5", ["5 0 0", "6 0 0"]),
    ("a", "a < 5 & a <= 5", ["5 0 0", "4 0 0", "N 0 0"]),
    ("a", "a <= 5 & a < 5", ["5 0 0", "4 0 0"]),
    ("a", "a > 1 & a > 3 & a < 9 & a < 7", ["1 0 0", "3 0 0", "4 0 0", "7 0 0", "6 0 0"]),
    ("a", "a between 1 5 & a between 3 9", ["2 0 0", "3 0 0", "5 0 0", "6 0 0"]),
    ("a", "a = 5 & a = 6", ["5 0 0", "6 0 0"]),
    ("a", "a > 9 & a = 5", ["5 0 0", "10 0 0"]),
    ("a", "a present & a < 4", ["N 0 0", "3 0 0", "4 0 0"]),
    ("a", "a null & a present", ["N 0 0", "1 0 0"]),
    ("a", "a = 1 / a = 2", ["1 0 0", "2 0 0", "3 0 0", "N 0 0"]),
    ("a", "a > 5 / true", ["1 0 0", "N 0 0"]),
    ("a", "a > 5 / false", ["6 0 0", "1 0 0", "N 0 0"]),
    ("a", "a > 5 / unknown & a < 9", ["1 0 0", "6 0 0", "9 0 0"]),
    ("a", "false", ["1 0 0"]),
    ("a", "unknown", ["1 0 0"]),
    ("a", "true", ["1 0 0"]),
    ("a", "b = 3", ["1 3 0", "1 4 0", "1 N 0"]),
    ("a", "a = 1 / b = 1", ["1 2 0", "2 2 0", "2 1 0"]),
    ("a b", "a = 1 / b = 1", ["1 2 0", "2 2 0", "2 1 0", "N 2 0"]),
    ("a b", "a = b", ["1 1 0", "1 2 0", "N N 0"]),
    ("a", "a = b & a > 2", ["3 3 0", "3 4 0", "2 2 0"]),
    ("a b", "b = 3", ["1 3 0", "1 4 0"]),
    ("b a", "b = 3 & a > 1", ["1 3 0", "2 3 0", "2 4 0", "N 3 0"]),
    ("a b", "a = 1 & b = 2", ["1 2 0", "1 3 0", "1 1 0", "0 2 0"]),
    ("a b c", "a = 1 & b = 2 & c >= 'm", ["1 2 'm", "1 2 'l", "1 2 N", "1 2 'mm", "1 3 'm"]),
    ("a b c", "a = 1 & c >= 'm", ["1 2 'm", "1 2 'l", "2 2 'z"]),
    ("a b c", "a = 1 & b null & c <= 'm", ["1 N 'm", "1 N 'n", "1 N N", "1 1 'm"]),
    ("a b", "a > 1 & b = 2", ["1 2 0", "2 2 0", "2 3 0", "N 2 0"]),
    ("a", "a < 'b", ["'a 0 0", "'b 0 0", "3 0 0", "N 0 0"]),
    ("a", "a > 'b", ["'b 0 0", "'ba 0 0", "9 0 0"]),
    ("a c", "a = 2 & c starts 'x & b > 3", ["2 4 'x", "2 3 'x"]),
    ("b c", "b between 2 4 & c = 'x", ["2 2 'x", "1 1 'x", "5 5 'x", "0 4 'y"]),
    ("a b", "a > 1 & a > 1", ["1 0 0", "2 0 0"]),
    ("a", "a < 3 & a <> 2", ["2 0 0", "1 0 0"]),
    ("c", "c in 'a 'b", ["0 0 'a", "0 0 'c", "0 0 N"]),
]

# Values in rising order.
RISING = ["N", str(-(2**63)), "-1", str(2**63 - 1), "'", "'A", "'AB", "'B"]

ORDER = {-1: "less", 0: "equal", 1: "greater"}


def ordered(a, b):
    return ORDER[(a > b) - (a < b)]


def keyed(text):
    return [rank(value(word)) for word in text.split(" ")]


def told_values(text):
    """The places of the values in the list are their order."""
    a, b = map(RISING.index, text.split(" "))
    return f"{ordered(a, b)} {ordered(a, b)} {yes(a == b)}"


def yes(is_so):
    return "yes" if is_so else "no"


def told_keys(text):
    first, second = map(keyed, text.split(";"))
    shorter = min(len(first), len(second))
    return f"{ordered(first[:shorter], second[:shorter])} {ordered(first, second)}"


def told_entries(text):
    entries = [(keyed(key), int(row)) for key, row in (it.split("@") for it in text.split(";"))]
    return "copied yes, rows" + "".join(f" {row}" for _, row in sorted(entries))


def bound(text):
    return None if text == "-" else ([value(word) for word in text[1:].split(" ")], text[0] == "[")


def told_side(text, starts):
    low, high, key = text.split(";")
    low, high = bound(low), bound(high)
    side = place((low, high, starts), [value(word) for word in key.split(" ")])
    ends = [[rank(v) for v in end[0]] for end in (low, high) if end]
    crossed = len(ends) == 2 and not starts and (ends[0] > ends[1] or ends[0] == ends[1] and not (low[1] and high[1]))
    return f"{side}, holds {yes(side == 'in')}, empty {yes(crossed)}, whole {yes(not ends)}, copied yes"


def told_items(text):
    items = []
    for act in text.split(";"):
        word, *numbers = act.split(" ")
        match word, list(map(int, numbers)):
            case "push", [item]:
                items.append(item)
            case "insert", [at, item]:
                items.insert(at, item)
            case "turn", [at]:
                items.append(items.pop(at))
            case "put" | "write", [at, item]:
                items[at] = item
            case "drop", [item]:
                items = [it for it in items if it != item]
    return f"{len(items)} items, empty {yes(not items)}," + "".join(f" {item}" for item in items)


def word_of(v):
    return "N" if v is None else str(v) if isinstance(v, int) else "'" + v


def told_bounds(the_range):
    low, high, starts = the_range
    told = ["-" if end is None else ("[" if end[1] else "(") + " ".join(map(word_of, end[0])) for end in (low, high)]
    return ";".join(told + ["beginning"] * starts)


def told_range(text):
    columns, restriction = text.split(";", 1)
    return told_bounds(range_of(groups(restriction), columns.split()))


def told_parts(text):
    first, second, _ = text.split(";")
    return f"same {yes(first == second)}, copied yes"


WORDS = [
    ("values", told_values, [f"{a} {b}" for a in RISING for b in RISING]),
    ("keys", told_keys, ["1;1 9", "1 9;1", "1 9;1 9", "2;1 9", "N;'a"]),
    ("entries", told_entries, ["2 0@1;1 9@7;1 9@3;1 2@8", "'b@2;'a@1;3@5;N@9"]),
    ("range", lambda text: told_side(text, False), [
        *[f"(3 1;[3 7;{key}" for key in ("3 N", "3 1", "3 2", "3 7", "3 8", "4 0")],
        *[f"{low};[3 5;3 5" for low in ("[3 5", "(3 5", "[3 6", "(3 4")],
        "-;-;3 5", "[3 1;-;3 5", "-;(3 9;3 9",
    ]),
    ("beginning", lambda text: told_side(text, True), [f"[3 'ab;-;{key}" for key in ("3 'aa", "3 'ab", "3 'abz", "3 'ac", "4 'ab")]),
    ("items", told_items, ["push 1;push 2;push 4;insert 2 3", "push 1;push 2;push 4;insert 2 3;turn 0", "push 1;push 2;push 4;insert 2 3;turn 0;put 0 7;write 1 8;drop 4", "push 5;drop 5"]),
    ("pairs", lambda text: f"{len(text.split(';'))} pairs, copied yes", ["1 2;3 N"]),
    ("range of", told_range, [
        "a b;a = 3 & b > 1 & b <= 7", "a;", "a;a = N", "a;a null", "a c;a = 2 & c starts 'x", "c;c starts 'ab & c > 'abc", "a b c;a = 1 & c >= 'm", "a;a < 5",
    ]),
    ("parts of", told_parts, ["a b;b a;a = b & c = 1", "a b;a b;a = b & c = 1"]),
    ("bound at", lambda text: f"({text};-", ["5", "-1"]),
]  # fmt: skip


def lines():
    """Each line that the program reads, and what is found for it."""
    for columns, restriction, rows in CASES:
        gs = groups(restriction)
        for text in rows:
            row = [value(w) for w in text.split()]
            key = [row[COLUMNS[c]] for c in columns.split()]
            found = [place(range_of(gs, columns.split()), key), TRUTHS[truth(gs, row)], passes(gs, columns.split(), row)]
            yield f"row: {columns};{restriction};{text}", ";".join(found)
    for word, find, texts in WORDS:
        for text in texts:
            yield f"{word}: {text}", find(text)


if __name__ == "__main__":
    parser = argparse.ArgumentParser(description=__doc__, formatter_class=argparse.RawDescriptionHelpFormatter)
    parser.add_argument("--questions", action="store_true", help="the lines that the program reads of them")
    asked = parser.parse_args()
    for line, found in lines():
        print(line if asked.questions else f"{line};{found}")
