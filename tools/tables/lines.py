"""How a table of lines is written: each line that a program reads with what is found for it, or the lines alone."""
import argparse
from typing import Callable, Iterable


def write(doc: str, lines: Iterable[tuple[str, str]], more: Callable[[], None] = lambda: None) -> int:
    """Writes a table for the words of the command, and what stands behind it."""
    parser = argparse.ArgumentParser(description=doc, formatter_class=argparse.RawDescriptionHelpFormatter)
    parser.add_argument("--lines", action="store_true", help="the lines that the program reads")
    asked = parser.parse_args()
    for line, found in lines:
        print(line if asked.lines else f"{line};{found}")
    if not asked.lines:
        more()
    return 0
