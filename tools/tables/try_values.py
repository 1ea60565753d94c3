#!/usr/bin/env python3
"""Writes what the program `try_values` is to print, or with --lines what it is to read: values and restrictions (by
restriction_table.py), and

  cut     a text, in which \\n and \\r are a line feed and a carriage return: its tokens, or the byte at which none begins
  offers  an order value and a value returned of two offers, and how they are ordered

whose answers were found by hand."""
import sys

if not __package__:  # run as a file: the other folders are found from tools/
    sys.path[0] += "/.."

from ending import end
from tables.lines import write
from tables.restriction_table import lines as lines_of_values

# The tokens that a text is cut into: a word as it is, an integer behind #, a text behind ', a symbol by its name.
CUTS = [
    ("", ""),
    (" \t  ", ""),
    ("select", "SELECT"),
    ("a_1B Z9", "A_1B Z9"),
    ("0 007 -7 -0", "#0 #7 #-7 #0"),
    ("9223372036854775807", "#9223372036854775807"),
    ("-0009223372036854775808", "#-9223372036854775808"),
    ("1-2", "#1 #-2"),
    ("(1)", "left #1 right"),
    ("T.A", "T dot A"),
    ("'it''s'", "'it's"),
    ("'' '''' 'a' 'B'", "' '' 'a 'B"),
    ("'a''b'c", "'a'b C"),
    ("'ä☃'", "'ä☃"),
    (
        "( ) , . * ; = <> < <= > >=",
        "left right comma dot star semicolon equal unequal less at-most greater at-least",
    ),
    ("<>=<<=>>==<", "unequal equal less at-most greater at-least equal less"),
    ("\tA\t=\t1", "A equal #1"),
]

# The byte at which no token begins.
FAULTS = [
    ("-", 0),
    ("a - 1", 2),
    ("--", 0),
    ("'abc", 0),
    ("'a''", 3),
    ("'''", 2),
    ("a 'b", 2),
    ("9223372036854775808", 0),
    ("-9223372036854775809", 0),
    ("12x", 0),
    ("1_", 0),
    ("A -5a", 2),
    ("a\nb", 1),
    ("a \r", 2),
    ("ä", 0),
    ("1ä", 1),
    ("'a\tb'", 0),
    ("'\x7f'", 0),
    ("_a", 0),
    ("a != b", 2),
    ('a "b"', 2),
    ("a/b", 1),
]

OFFERS = [
    ("N 9,1 8", "less less less, another"),
    ("1 8,1 8", "equal equal equal, the same"),
    ("1 9,1 8", "greater greater greater, another"),
    ("2 0,1 9", "greater greater greater, another"),
    ("1 8,1 N", "greater greater greater, another"),
]

def lines():
    """Each line that the program reads, and what is found for it."""
    yield from lines_of_values()
    told = [(text, tokens) for text, tokens in CUTS] + [(text, f"no token at {offset}") for text, offset in FAULTS]
    for text, found in told:
        yield "cut: " + text.replace("\n", "\\n").replace("\r", "\\r"), found
    for text, found in OFFERS:
        yield f"offers: {text}", found


def main():
    return write(__doc__, lines())


if __name__ == "__main__":
    end(main)
