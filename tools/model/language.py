"""Reads the language slowly: a text to the tuple of a statement (as database.py has them), a script to its calls."""
from __future__ import annotations

import re
from dataclasses import dataclass
from typing import Callable, Iterator, TypeVar

KEYWORDS = set(
    """AND BEGIN BETWEEN BIGINT BY CLOSE COMMIT CREATE DELETE FAST FETCH FIRST FOR FROM IN INDEX INSERT INTO IS NOT NULL ON
    ONLY OPEN OPTIMIZE OR ORDER READ ROLLBACK SELECT SET SHOW STARTING STEP TABLE TIME TOTAL UNIQUE UPDATE VALUES VARCHAR
    WHERE WITH""".split()
)
TOKEN = re.compile(
    r"""(?P<word>[A-Za-z][A-Za-z0-9_]*)|(?P<int>-?[0-9]+(?![A-Za-z0-9_]))|'(?P<text>(?:[^'\x00-\x1f\x7f]|'')*)'"""
    r"""|(?P<symbol><>|<=|>=|[(),.*;=<>])""",
    re.ASCII,
)
COMPARISONS = ("=", "<>", "<", "<=", ">", ">=")
NAME, INTEGER, TEXT, END = "a name", "an integer", "a text", "the end of the statement"

Part = TypeVar("Part")


class Syntax(Exception):
    """The text is no statement: the offset of the first token that fits none, and what could stand there (nothing where
    no token begins)."""

    def __init__(self, at: int, wanted: list[str]):
        super().__init__("syntax")
        self.at, self.wanted = at, wanted


class Name(str):
    """A name of a statement, in capitals, and its offset in the text."""

    at = 0


@dataclass(frozen=True)
class Token:
    kind: str  # "word", "value" or "symbol"
    value: object
    at: int
    end: int


def tokens(text: str) -> list[Token]:
    """The tokens of a text."""
    at, found = 0, []
    while at < len(text):
        if text[at] in " \t":
            at += 1
            continue
        match = TOKEN.match(text, at)
        if match is None:
            raise Syntax(at, [])
        kind, value = read(match)
        if isinstance(value, int) and not -(2**63) <= value < 2**63:
            raise Syntax(at, [])
        found.append(Token(kind, value, at, match.end()))
        at = match.end()
    return found


def read(match: re.Match) -> tuple[str, object]:
    if match["word"] is not None:
        return "word", match["word"].upper()
    if match["int"] is not None:
        return "value", int(match["int"])
    if match["symbol"] is not None:
        return "symbol", match["symbol"]
    return "value", match["text"].replace("''", "'")


class Reader:
    """Reads one statement. It never goes back, so where it stops is the first token that fits no statement; what was
    looked for at that place is what could stand there."""

    def __init__(self, text: str):
        self.tokens, self.at = tokens(text), 0
        self.size = len(text)
        self.place, self.wanted = 0, []  # what was looked for at the last place where a token was looked at

    def looked_for(self, ahead: int, what: str) -> None:
        place = self.at + ahead
        if place > self.place:
            self.place, self.wanted = place, []
        if place == self.place and what not in self.wanted:
            self.wanted.append(what)

    def fail(self) -> Syntax:
        at = self.tokens[self.place].at if self.place < len(self.tokens) else self.size
        return Syntax(at, self.wanted)

    def next_is(self, *words: str) -> bool:
        """Whether these words or symbols come next."""
        for ahead, word in enumerate(words):
            place = self.at + ahead
            token = self.tokens[place] if place < len(self.tokens) else None
            if token is None or token.kind == "value" or token.value != word:
                self.looked_for(ahead, word)
                return False
        return True

    def skip(self, *words: str) -> bool:
        if not self.next_is(*words):
            return False
        self.at += len(words)
        return True

    def want(self, *words: str) -> None:
        if not self.skip(*words):
            raise self.fail()

    def may_name(self) -> bool:
        self.looked_for(0, NAME)
        if self.at == len(self.tokens):
            return False
        token = self.tokens[self.at]
        return token.kind == "word" and token.value not in KEYWORDS

    def name(self) -> Name:
        if not self.may_name():
            raise self.fail()
        token = self.tokens[self.at]
        self.at += 1
        name = Name(token.value)
        name.at = token.at
        return name

    def value(self, *kinds: type) -> int | str:
        for kind in kinds:
            self.looked_for(0, INTEGER if kind is int else TEXT)
        token = self.tokens[self.at] if self.at < len(self.tokens) else None
        if token is None or token.kind != "value" or not isinstance(token.value, kinds):
            raise self.fail()
        self.at += 1
        return token.value

    def literal(self) -> int | str | None:
        return None if self.skip("NULL") else self.value(int, str)

    def some(self, part: Callable[[], Part]) -> list[Part]:
        parts = [part()]
        while self.skip(","):
            parts.append(part())
        return parts

    def listed(self, part: Callable[[], Part]) -> list[Part]:
        self.want("(")
        parts = self.some(part)
        self.want(")")
        return parts

    def reference(self) -> tuple[Name | None, Name]:
        name = self.name()
        return (name, self.name()) if self.skip(".") else (None, name)

    # Conditions.

    def atom(self) -> tuple:
        left = self.reference()
        for op in COMPARISONS:
            if self.skip(op):
                if self.may_name():
                    return ("columns", left, op, self.reference())
                return ("compare", left, op, self.literal())
        if self.skip("BETWEEN"):
            low = self.literal()
            self.want("AND")
            return ("between", left, low, self.literal())
        if self.skip("IN"):
            return ("in", left, self.listed(self.literal))
        if self.skip("IS"):
            negated = self.skip("NOT")
            self.want("NULL")
            return ("null", left, negated)
        self.want("STARTING", "WITH")
        return ("start", left, self.value(str))

    def atoms(self) -> list[tuple]:
        found = [self.atom()]
        while self.skip("OR"):
            found.append(self.atom())
        return found

    def group(self) -> list[tuple]:
        if self.skip("("):
            found = self.atoms()
            self.want(")")
            return found
        return [self.atom()]

    def where(self) -> list[list[tuple]]:
        if not self.skip("WHERE"):
            return []
        if not self.next_is("("):
            first = self.atoms()
            if len(first) > 1:
                return [first]
        else:
            first = self.group()
        groups = [first]
        while self.skip("AND"):
            groups.append(self.group())
        return groups

    # Statements.

    def column(self) -> tuple[Name, int | None]:
        name = self.name()
        if self.skip("BIGINT"):
            return (name, None)
        self.want("VARCHAR", "(")
        width = self.value(int)
        self.want(")")
        return (name, width)

    def assignment(self) -> tuple[Name, int | str | None]:
        name = self.name()
        self.want("=")
        return (name, self.literal())

    def item(self) -> tuple[Name, Name | None]:
        return (self.name(), self.name() if self.may_name() else None)

    def select(self, cursor: Name) -> tuple:
        self.want("SELECT")
        returned = None if self.skip("*") else self.some(self.reference)
        self.want("FROM")
        items = self.some(self.item)
        groups = self.where()
        order = self.some(self.reference) if self.skip("ORDER", "BY") else []
        soon = self.skip("OPTIMIZE", "FOR", "FAST", "FIRST")
        if not soon:
            self.skip("OPTIMIZE", "FOR", "TOTAL", "TIME")
        return ("open", cursor, returned, items, groups, order, soon)

    def body(self) -> tuple:
        if self.skip("CREATE", "TABLE"):
            return ("create", self.name(), self.listed(self.column))
        unique = self.skip("CREATE", "UNIQUE", "INDEX")
        if unique or self.skip("CREATE", "INDEX"):
            name = self.name()
            self.want("ON")
            return ("index", name, self.name(), self.listed(self.name), unique)
        if self.skip("BEGIN"):
            return ("begin", self.skip("READ", "ONLY"))
        if self.skip("INSERT", "INTO"):
            name = self.name()
            self.want("VALUES")
            return ("insert", name, self.listed(self.literal))
        if self.skip("UPDATE"):
            name = self.name()
            self.want("SET")
            sets = self.some(self.assignment)
            return ("change", name, sets, self.where())
        if self.skip("DELETE", "FROM"):
            return ("change", self.name(), None, self.where())
        for word in ("COMMIT", "ROLLBACK"):
            if self.skip(word):
                return (word.lower(),)
        for word in ("FETCH", "SHOW", "CLOSE"):
            if self.skip(word):
                return (word.lower(), self.name())
        if self.skip("STEP"):
            return ("step", self.name(), self.value(int))
        self.want("OPEN")
        return self.select(self.name())

    def whole(self) -> tuple:
        found = self.body()
        self.skip(";")
        self.looked_for(0, END)
        if self.at < len(self.tokens):
            raise self.fail()
        return found


def read_statement(text: str) -> tuple:
    """The statement of a text; raises Syntax where it is none."""
    return Reader(text).whole()


def statement(text: str) -> tuple:
    """The statement of a text, which is ("syntax",) where it is none."""
    try:
        return read_statement(text)
    except Syntax:
        return ("syntax",)


# Scripts.


@dataclass(frozen=True)
class Call:
    line: int
    session: int
    text: str


@dataclass(frozen=True)
class Mark:
    """The beginning of a phase, and the judge that rules from then on, if another one."""

    line: int
    judge: int | None


def lines_in(text: str) -> list[str]:
    *lines, last = text.split("\n")
    return [line.removesuffix("\r") for line in lines] + ([last] if last else [])


def lines_of(script: str) -> list[str]:
    return lines_in(script.removeprefix("\ufeff"))


def fault_at(number: int, line: str) -> tuple[int, str] | None:
    """The status of a line of this number that is none of a script, and what is said of it, or None."""
    if number > 200_000:
        return 3, "limit: script over 200000 lines"
    if len(line.encode()) > 4096:
        return 3, f"limit: line {number} over 4096 bytes"
    if line and not re.fullmatch(r"#.*|[1-8] .*|--( [012])?", line, re.S):
        return 2, f"script: line {number} has no session"
    return None


def fault_of(data: bytes) -> tuple[int, str] | None:
    """The status of bytes that are no script, and what is said of them, or None."""
    if len(data) > 16_777_216:
        return 3, "limit: script over 16777216 bytes"
    try:
        lines = lines_of(data.decode())
    except UnicodeDecodeError as fault:
        return 2, f"script: byte {fault.start} is not UTF-8"
    return next((fault for number, line in enumerate(lines, 1) if (fault := fault_at(number, line))), None)


def fault_of_line(number: int, before: int, line: bytes) -> tuple[int, str] | None:
    """The same of a line that is read alone, with its end, behind so many bytes; at most 4,101 bytes of it are read."""
    if len(line) > 4100 and not line.endswith(b"\n"):
        return 3, f"limit: line {number} over 4096 bytes"
    if before + len(line) > 16_777_216:
        return 3, "limit: script over 16777216 bytes"
    try:
        text = line.decode()
    except UnicodeDecodeError as fault:
        return 2, f"script: byte {before + fault.start} is not UTF-8"
    lines = lines_of(text) if number == 1 else lines_in(text)
    return next((fault for line in lines if (fault := fault_at(number, line))), None)


def calls_of(script: str) -> Iterator[Call | Mark]:
    """The calls and marks of a script without faults."""
    for number, line in enumerate(lines_of(script), 1):
        if line.startswith("--"):
            yield Mark(number, int(line[3:]) if line != "--" else None)
        elif line and not line.startswith("#"):
            yield Call(number, int(line[0]), line[2:])
