#!/usr/bin/env python3
"""Writes the script that makes a table of a CSV file: CREATE TABLE, the rows between BEGIN and COMMIT, then the indexes.

  tools/shell/load.py people.csv --table PEOPLE --unique ID --index CITY,NAME > people
  cat people queries | ./rvdyn

The first line has the columns' names. One that is no name of the language is made one (`First name` becomes FIRST_NAME), which
is told. A column whose fields are all integers of 64 bits, written without leading zeros, is a BIGINT; each other one is a
VARCHAR(255), also one that is empty throughout. --types says it otherwise. Empty lines are none.

The language has no fractions. A column of amounts as 12.50 or 12,5 is a VARCHAR, whose values come in the order of letters; with
--scale AMOUNT=2 it is a BIGINT of hundredths, where both are 1250.

An empty field is NULL, quoted or not. To have empty texts, say what NULL is in the file: with --null '\\N' an empty field is
the empty text, and \\N is NULL. Quotes are doubled. What the language cannot hold is refused with its line of the file, and
then nothing is written: a text over 255 bytes, a line feed or another control character in a text (--spaces makes it a space),
an integer over 64 bits in a BIGINT column, a row of more or fewer fields than there are columns, a row whose line is over 4,096
bytes, rows that are equal in a --unique index, and rows for which a script has no room (--first N takes the first N).

The indexes come last, so that no INSERT has to keep them up."""
from __future__ import annotations

import argparse
import codecs
import csv
import io
import re
import shutil
import sys
import tempfile
import unicodedata
from dataclasses import dataclass, field
from pathlib import Path
from typing import BinaryIO, Iterable, Iterator

if not __package__:  # run as a file: the other folders are found from tools/
    sys.path[0] += "/.."

from ending import end
from model.database import shown
from model.language import KEYWORDS
from shell.check_script import counted, findings
from shell.sql_habits import control_word

# The limits of scripts and of the language that data can meet: docs/LANGUAGE.md, "Scripts" and "Limits".
SCRIPT_BYTES, SCRIPT_LINES, LINE_BYTES = 16_777_216, 200_000, 4096
TEXT_BYTES, NAME_BYTES, COLUMNS, PENDING = 255, 31, 16, 100_000
TOLD = 10  # so many faults of a file are told one by one

NAME = re.compile(r"[A-Za-z][A-Za-z0-9_]*", re.ASCII)
PLAIN_INTEGER = re.compile(r"\s*(0|-?[1-9][0-9]*)\s*", re.ASCII)
ANY_INTEGER = re.compile(r"\s*([+-]?)0*([0-9]+)\s*", re.ASCII)
FRACTION = re.compile(r"\s*([+-]?)0*([0-9]+?)(?:[.,]([0-9]*?)0*)?\s*", re.ASCII)
CONTROL = re.compile(r"\r\n|[\x00-\x1f\x7f]")
KINDS = {"BIGINT": "BIGINT", "INT": "BIGINT", "INTEGER": "BIGINT", "VARCHAR": f"VARCHAR({TEXT_BYTES})", "TEXT": f"VARCHAR({TEXT_BYTES})"}


class Misfit(Exception):
    """What of the file does not fit, and the line of the file."""

    def __init__(self, line: int, words: str):
        super().__init__(words)
        self.line = line


class WrongWords(Exception):
    """Words of the command line that do not fit the file, or the language."""


# Records of the file.


def seekable(file: BinaryIO) -> BinaryIO:
    """A file that can be read twice: a pipe goes into a temporary one."""
    if file.seekable():
        return file
    copy = tempfile.TemporaryFile()
    shutil.copyfileobj(file, copy)
    return copy


def decoded(lines: Iterable[str], encoding: str) -> Iterator[str]:
    """The lines, of which none has a byte that could not be decoded."""
    for number, line in enumerate(lines, 1):
        try:
            line.encode()
        except UnicodeEncodeError:
            raise Misfit(number, f"this line is not {encoding}: --encoding says what it is, as latin-1, cp1252 or utf-16") from None
        yield line


def why_no_csv(fault: csv.Error) -> str:
    words = str(fault)
    if words == "unexpected end of data":
        return "a quote of the row that begins here has no end"
    if words.startswith("field larger"):
        return "a field of the row that begins here is very long: its quote may have no end"
    if "expected after" in words:
        return "behind the quote that ends a field stands more of it: a quote within quotes is written twice"
    return words


class Source:
    """A CSV file, whose records can be read any number of times."""

    def __init__(self, file: BinaryIO, delimiter: str, encoding: str, header: bool):
        self.file, self.delimiter, self.encoding, self.header = seekable(file), delimiter, encoding, header

    def every_record(self) -> Iterator[tuple[int, list[str]]]:
        """The fields of each record, with the line in which it begins."""
        self.file.seek(0)
        encoding = "utf-8-sig" if codecs.lookup(self.encoding).name == "utf-8" else self.encoding
        text = io.TextIOWrapper(self.file, encoding=encoding, errors="surrogateescape", newline="")
        reader, line = csv.reader(decoded(text, self.encoding), delimiter=self.delimiter, strict=True), 1
        try:
            for fields in reader:
                if fields:
                    yield line, fields
                line = reader.line_num + 1
        except csv.Error as fault:
            raise Misfit(line, why_no_csv(fault)) from None
        except UnicodeError:
            raise Misfit(line, f"this line is not {self.encoding}") from None
        finally:
            text.detach()

    def first(self) -> tuple[int, list[str]]:
        found = next(self.every_record(), None)
        if found is None:
            raise Misfit(1, "the file is empty")
        return found

    def rows(self, most: int | None) -> Iterator[tuple[int, list[str]]]:
        """The records behind the header, or the first so many of them."""
        for number, record in enumerate(self.every_record(), 0 if self.header else 1):
            if most is not None and number > most:
                return
            if number:
                yield record


# Names and kinds of columns.


def is_name(word: str) -> bool:
    return bool(NAME.fullmatch(word)) and word.upper() not in KEYWORDS and len(word) <= NAME_BYTES


def name_of(header: str, number: int) -> str:
    """A name of the language for a column, of what stands above it."""
    header = header.strip()
    if is_name(header):
        return header.upper()
    letters = "".join(letter for letter in unicodedata.normalize("NFKD", header.upper()) if not unicodedata.combining(letter))
    word = re.sub("[^A-Z0-9]+", "_", letters).strip("_") or f"C{number}"
    word = f"C_{word}" if word[0].isdigit() else word
    return f"{word}_" if word in KEYWORDS else word[:NAME_BYTES].rstrip("_")


@dataclass
class Column:
    """A column of the table: its field, name and kind, with how many digits of a fraction an integer has; and while the kind is
    guessed how many fields were integers, how many not and how many of these fractions, and the first that was none with its line."""

    at: int
    name: str
    kind: str | None = None
    scale: int = 0
    integers: int = 0
    others: int = 0
    fractions: int = 0
    other: tuple[int, str] = field(default=(0, ""))

    def see(self, line: int, value: str) -> None:
        found = PLAIN_INTEGER.fullmatch(value)
        if found and is_64_bits(int(found[1]) if len(found[1]) <= 20 else 2**64):
            self.integers += 1
        else:
            self.others += 1
            self.fractions += FRACTION.fullmatch(value) is not None and ("." in value or "," in value)
            self.other = self.other if self.others > 1 else (line, value)

    def guessed(self) -> str:
        return "BIGINT" if self.integers and not self.others else f"VARCHAR({TEXT_BYTES})"

    def literal(self, value: str, spaces: bool) -> str:
        """A field as a literal of the column's kind; raises ValueError where there is none."""
        if self.scale:
            return self.scaled(value)
        if self.kind == "BIGINT":
            found = ANY_INTEGER.fullmatch(value)
            if not found:
                raise ValueError(f"{shortened(value)} is no integer, and column {self.name} is BIGINT")
            number = int(found[1] + found[2]) if len(found[2]) <= 20 else 2**64
            if not is_64_bits(number):
                raise ValueError(f"{shortened(value)} is no integer of 64 bits, and column {self.name} is BIGINT")
            return str(number)
        text = CONTROL.sub(" ", value) if spaces else value
        control = CONTROL.search(text)
        if control:
            raise ValueError(f"column {self.name}: {control_word(control[0])} in a text: --spaces makes it a space")
        size, most = len(text.encode()), int(self.kind[len("VARCHAR(") : -1])
        if size > most:
            raise ValueError(f"column {self.name}: this text has {size} bytes, and the column is {self.kind}")
        return shown(text)


    def scaled(self, value: str) -> str:
        """A fraction as an integer of its parts."""
        found = FRACTION.fullmatch(value)
        if not found:
            raise ValueError(f"{shortened(value)} is no number, and column {self.name} has {counted(self.scale, 'digit')} of a fraction")
        behind = found[3] or ""
        if len(behind) > self.scale:
            raise ValueError(f"{shortened(value)} has {len(behind)} digits of a fraction, and column {self.name} {self.scale}")
        number = int(found[1] + found[2] + behind.ljust(self.scale, "0")) if len(found[2]) <= 20 else 2**64
        if not is_64_bits(number):
            raise ValueError(f"{shortened(value)} is no integer of 64 bits in parts of column {self.name}")
        return str(number)


def is_64_bits(number: int) -> bool:
    return -(2**63) <= number < 2**63


def shortened(value: str) -> str:
    if not value:
        return "an empty field"
    return f"`{value}`" if len(value) <= 40 else f"`{value[:36]}` .."


def split(words: str) -> list[str]:
    return [word.strip() for word in words.split(",")]


def columns_of(source: Source, words: argparse.Namespace, note) -> list[Column]:
    """The columns that the table gets, with the kinds that are given."""
    line, headers = source.first()
    if len(headers) == 1:
        meant = next((sign for sign in (";", "\t", "|", ",") if sign in headers[0]), None)
        if meant:
            note(line, f"there is one column: --delimiter {'tab' if meant == chr(9) else repr(meant)} may be meant")
    if words.names:
        given = split(words.names)
        if len(given) != len(headers):
            raise WrongWords(f"--names has {counted(len(given), 'name')} for {counted(len(headers), 'column')} of the file")
        wrong = [name for name in given if not is_name(name)]
        if wrong:
            raise WrongWords(f"--names: {wrong[0]} is no name: letters, digits and `_`, a letter first, at most {NAME_BYTES}, and no keyword")
        columns = [Column(at, name.upper()) for at, name in enumerate(given)]
    elif source.header:
        columns = [Column(at, name_of(header, at + 1)) for at, header in enumerate(headers)]
    else:
        columns = [Column(at, f"C{at + 1}") for at in range(len(headers))]
    if words.only:
        columns = [one_called(columns, name, line) for name in split(words.only)]
    if len(columns) > COLUMNS:
        raise Misfit(line, f"there are {len(columns)} columns, and a table has at most {COLUMNS}: --only A,B,.. takes some")
    for column in columns:
        if source.header and not words.names and column.name != headers[column.at].strip().upper():
            note(line, f"column {column.at + 1}, {shortened(headers[column.at])}, is called {column.name}")
    for at, column in enumerate(columns):
        before = next((other for other in columns[:at] if other.name == column.name), None)
        if before is not None:
            numbers = f"{before.at + 1} and {column.at + 1}"
            raise Misfit(line, f"columns {numbers} would both be called {column.name}: --names A,B,.. gives all columns names")
    give_kinds(columns, words.types)
    give_scales(columns, words.scale)
    return columns


def one_called(columns: list[Column], wanted: str, line: int) -> Column:
    name = name_of(wanted, 0)
    found = [column for column in columns if column.name == name]
    if not found:
        raise WrongWords(f"there is no column {wanted}; the file has {', '.join(column.name for column in columns)}")
    if len(found) > 1:
        raise Misfit(line, f"{len(found)} columns would be called {name}: --names A,B,.. gives all columns names")
    return found[0]


def give_kinds(columns: list[Column], types: str | None) -> None:
    """Takes kinds from --types: of each column in its order, or of those that are named."""
    if types is None:
        return
    given = split(types)
    if any("=" in word for word in given):
        pairs = [word.partition("=") for word in given]
        chosen = [(one_called(columns, name.strip(), 1), kind) for name, _, kind in pairs]
    elif len(given) == len(columns):
        chosen = list(zip(columns, given))
    else:
        raise WrongWords(f"--types has {counted(len(given), 'kind')} for {counted(len(columns), 'column')}: {', '.join(column.name for column in columns)}")
    for column, kind in chosen:
        kind = kind.strip().upper()
        if kind and kind not in KINDS and not re.fullmatch(r"VARCHAR\([0-9]{1,3}\)", kind):
            raise WrongWords(f"--types: `{kind}` is no kind: BIGINT, VARCHAR, VARCHAR(n), or nothing for a guess")
        column.kind = KINDS.get(kind, kind) or None


def give_scales(columns: list[Column], scales: str | None) -> None:
    """Takes from --scale which columns are fractions, and of how many digits."""
    for word in split(scales) if scales else []:
        name, _, digits = word.partition("=")
        column = one_called(columns, name.strip(), 1)
        if digits.strip() not in list("123456789"):
            raise WrongWords(f"--scale: `{word}` is not a column and its digits from 1 to 9, as AMOUNT=2")
        if column.kind not in (None, "BIGINT"):
            raise WrongWords(f"--scale makes {column.name} a BIGINT, and --types a {column.kind}")
        column.kind, column.scale = "BIGINT", int(digits)


def guess_kinds(columns: list[Column], rows: Iterable[tuple[int, list[str]]], null: str, note) -> None:
    """Gives a kind to each column that has none."""
    guessed = [column for column in columns if column.kind is None]
    if not guessed:
        return
    for line, fields in rows:
        for column in guessed:
            if column.at < len(fields) and fields[column.at] != null:
                column.see(line, fields[column.at])
    for column in guessed:
        column.kind = column.guessed()
        if column.others and column.fractions == column.others:
            line, value = column.other
            note(line, f"column {column.name} is {column.kind}: here stands {shortened(value)}, and texts come in the order of letters (--scale {column.name}=2 makes it an integer of hundredths)")
        elif column.others and column.integers > column.others:
            line, value = column.other
            of_all = f"{column.integers} of its {column.integers + column.others} fields are integers"
            note(line, f"column {column.name} is {column.kind}: here stands {shortened(value)}, and {of_all} (--types says it otherwise)")


# The script.


@dataclass
class Index:
    """An index to be made, and of a unique one the keys so far with their lines."""

    unique: bool
    name: str
    columns: list[str]
    seen: dict[tuple, int] = field(default_factory=dict)

    def statement(self, table: str) -> str:
        return f"CREATE {'UNIQUE ' * self.unique}INDEX {self.name} ON {table} ({', '.join(self.columns)})"


def index_of(table: str, unique: bool, words: str) -> Index:
    name, given, columns = words.rpartition("=")
    names = [name_of(column, 0) for column in split(columns)]
    return Index(unique, name.strip().upper() if given else "_".join([table, *names]), names)


def need_statements(statements: list[str]) -> None:
    """That these make a table and its indexes; they come from the command line, or from names that were made."""
    fault = next(findings("".join(f"1 {statement}\n" for statement in statements)), None)
    if fault is None:
        return
    advice = ": --index NAME=COLUMNS gives an index a name" if fault.line > 1 and fault.words.startswith("limit name") else ""
    raise WrongWords(f"{statements[fault.line - 1]}: {fault.words}{advice}")


class Script:
    """The lines of the script so far, and the faults of rows that have none."""

    def __init__(self, table: str, columns: list[Column], indexes: list[Index], words: argparse.Namespace):
        self.columns, self.indexes, self.words = columns, indexes, words
        self.create = f"CREATE TABLE {table} ({', '.join(f'{column.name} {column.kind}' for column in columns)})"
        self.last = [index.statement(table) for index in indexes]
        need_statements([self.create, *self.last])
        self.insert = f"INSERT INTO {table} VALUES"
        self.places = {column.name: at for at, column in enumerate(columns)}
        self.lines: list[str] = []
        self.size, self.pending, self.faults = 0, 0, 0

    def say(self, statement: str) -> None:
        self.line(f"{self.words.session} {statement}")

    def line(self, line: str) -> None:
        self.lines.append(line)
        self.size += len(line.encode()) + 1

    def row(self, line: int, fields: list[str], width: int) -> None:
        """The INSERT of a row; raises Misfit where it has none."""
        if len(fields) != width:
            raise Misfit(line, f"{counted(len(fields), 'field')} for {counted(width, 'column')}")
        literals = [self.literal(line, column, fields[column.at]) for column in self.columns]
        for index in self.indexes:
            self.need_new_key(line, index, literals)
        statement = f"{self.insert} ({', '.join(literals)})"
        size = line_size(statement) - 1
        if size > LINE_BYTES:
            raise Misfit(line, f"the INSERT of this row is a line of {size} bytes, and a script's has at most {LINE_BYTES}")
        begins = ["BEGIN"] if self.pending == 0 else []
        to_come = [*begins, statement, "COMMIT", *self.last]
        if len(self.lines) + len(to_come) > SCRIPT_LINES or self.size + sum(map(line_size, to_come)) > SCRIPT_BYTES:
            raise Full(line, f"a script has at most {SCRIPT_LINES} lines and {SCRIPT_BYTES} bytes, and no room for this row: --first N takes the first N")
        for call in [*begins, statement]:
            self.say(call)
        self.pending += 1
        if self.pending == self.words.commit:
            self.commit()

    def literal(self, line: int, column: Column, value: str) -> str:
        if value == self.words.null:
            return "NULL"
        try:
            return column.literal(value, self.words.spaces)
        except ValueError as fault:
            raise Misfit(line, str(fault)) from None

    def need_new_key(self, line: int, index: Index, literals: list[str]) -> None:
        if not index.unique:
            return
        key = tuple(literals[self.places[name]] for name in index.columns)
        before = line if "NULL" in key else index.seen.setdefault(key, line)
        if before != line:
            raise Misfit(line, f"the row of line {before} is equal in the unique index {index.name}: {', '.join(key)}")

    def commit(self) -> None:
        if self.pending:
            self.say("COMMIT")
        self.pending = 0


def line_size(statement: str) -> int:
    """The bytes of a call's line, with its session and its end."""
    return len("1 ") + len(statement.encode()) + len("\n")


class Full(Misfit):
    """A row for which the script has no room; nor has it for those behind."""


def script_of(source: Source, words: argparse.Namespace, note) -> Script | None:
    """The script of a file, or None where rows do not fit, which was told."""
    columns = columns_of(source, words, note)
    guess_kinds(columns, source.rows(words.first), words.null, note)
    width = len(source.first()[1])
    table = words.table.upper()
    script = Script(table, columns, [index_of(table, unique, named) for unique, named in words.indexes or []], words)
    if words.file != "-" and Path(words.file).name.isprintable():
        script.line(f"# made by tools/shell/load.py from {Path(words.file).name}")
    script.say(script.create)
    for line, fields in source.rows(words.first):
        try:
            script.row(line, fields, width)
        except Misfit as fault:
            script.faults += 1
            if script.faults <= TOLD or isinstance(fault, Full):
                note(fault.line, str(fault))
            if isinstance(fault, Full):
                return None
    if script.faults:
        if script.faults > TOLD:
            print(f"load: {script.faults - TOLD} more rows do not fit", file=sys.stderr)
        return None
    script.commit()
    for statement in script.last:
        script.say(statement)
    return script


# Words.


def number_from_1_to(most: int):
    def number(word: str) -> int:
        if not (word.isascii() and word.isdigit() and len(word) <= 10 and 1 <= int(word) <= most):
            raise argparse.ArgumentTypeError(f"not a number from 1 to {most}: {word}")
        return int(word)

    return number


def sign(word: str) -> str:
    found = {"tab": "\t", "\\t": "\t"}.get(word, word)
    if len(found) != 1 or found in '"\r\n':
        raise argparse.ArgumentTypeError(f"not one character, or `tab`: {word}")
    return found


def encoding(word: str) -> str:
    try:
        codecs.lookup(word)
    except LookupError:
        raise argparse.ArgumentTypeError(f"no encoding that Python knows: {word}") from None
    return word


def words_of(arguments: list[str] | None) -> argparse.Namespace:
    parser = argparse.ArgumentParser(description=__doc__, formatter_class=argparse.RawDescriptionHelpFormatter)
    parser.add_argument("file", metavar="FILE", help="a CSV file, or - for standard input")
    parser.add_argument("--table", required=True, metavar="T", help="the table's name")
    parser.add_argument("--types", metavar="KINDS", help="BIGINT, VARCHAR(n), VARCHAR or nothing (a guess) for each column, as BIGINT,,VARCHAR; or of some: ZIP=VARCHAR,AGE=BIGINT")
    parser.add_argument("--scale", metavar="COLUMN=DIGITS", help="these columns are fractions, and become integers: with AMOUNT=2 12.50 is 1250; several are parted by commas")
    parser.add_argument("--index", dest="indexes", action="append", type=lambda word: (False, word), metavar="[NAME=]COLUMNS", help="an index of these columns, as CITY,NAME; any number of times")
    parser.add_argument("--unique", dest="indexes", action="append", type=lambda word: (True, word), metavar="[NAME=]COLUMNS", help="a unique index")
    parser.add_argument("--no-header", action="store_true", help="the first line is a row; the columns are called C1, C2, ..")
    parser.add_argument("--names", metavar="NAMES", help="names of all columns of the file, in place of the header's, as ID,NAME,CITY")
    parser.add_argument("--only", metavar="COLUMNS", help="the table has only these columns of the file, in this order")
    parser.add_argument("--first", type=number_from_1_to(SCRIPT_LINES), metavar="N", help="only the first N rows")
    parser.add_argument("--null", default="", metavar="TEXT", help="the field that stands for NULL (default: the empty one)")
    parser.add_argument("--spaces", action="store_true", help="a line end, a tab or another control character in a text becomes a space")
    parser.add_argument("--delimiter", type=sign, default=",", metavar="D", help="what parts fields: one character, or tab (default ,)")
    parser.add_argument("--encoding", type=encoding, default="utf-8", metavar="E", help="of the file, as Python calls it (default utf-8, with or without a byte order mark)")
    parser.add_argument("--session", type=number_from_1_to(8), default=1, metavar="S", help="the session that makes the calls (default 1)")
    parser.add_argument("--commit", type=number_from_1_to(PENDING), default=PENDING, metavar="N", help=f"COMMIT behind each N rows (default {PENDING}, the most that a transaction may change)")
    parser.epilog = "Status 0: the script was written; 1: the file does not fit, and nothing was written; 2: it cannot be read, or the words do not fit."
    return parser.parse_args(arguments)


def main() -> int:
    words = words_of(None)

    def note(line: int, told: str) -> None:
        print(f"{words.file}:{line}: {told}", file=sys.stderr)

    try:
        with sys.stdin.buffer if words.file == "-" else open(words.file, "rb") as file:
            script = script_of(Source(file, words.delimiter, words.encoding, not words.no_header), words, note)
    except Misfit as fault:
        note(fault.line, str(fault))
        return 1
    except WrongWords as fault:
        print(f"load: {fault}", file=sys.stderr)
        return 2
    if script is None:
        return 1
    sys.stdout.reconfigure(encoding="utf-8", newline="\n")
    sys.stdout.writelines(line + "\n" for line in script.lines)
    return 0


if __name__ == "__main__":
    end(main)
