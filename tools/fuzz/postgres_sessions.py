"""Statements in PostgreSQL's words, and the sessions of a script as connections of a server."""
from __future__ import annotations

from typing import Sequence

from fuzz.postgres_server import DONE, Answer, Server, Session

Value = int | str | None
Columns = dict[str, list[tuple[str, int | None]]]  # of each table its columns with their widths

# What PostgreSQL answers, in the words of the language; `wait` where it would wait, `long` where it takes too long.
STATES = {
    DONE: None, "55P03": "wait", "40001": "changed", "23505": "duplicate", "25006": "read only", "34000": "no cursor", "42P03": "cursor open",
    "42P01": "unknown", "42703": "unknown", "42702": "unknown", "42P07": "exists", "42701": "exists", "42712": "exists", "42883": "kind",
    "42804": "kind", "22P02": "kind", "22001": "kind", "42601": "kind", "57014": "long", "53400": "long",
}  # fmt: skip


def theirs(answer: Answer) -> str | None:
    """Why PostgreSQL refuses a statement, in the words of the language; None where it does it."""
    if answer.state == "42601" and "multiple assignments" in answer.words:
        return "exists"
    return STATES.get(answer.state, answer.state)


# Statements in PostgreSQL's words. Names and kinds are said outright, so that nothing is cast on the way.

NUMBER = '"#"'  # of each table a column that no statement can name: the row's number


def quoted(name: str) -> str:
    return f'"{name}"'


def literal(value: Value) -> str:
    if value is None:
        return "NULL"
    return f"'{value}'::bigint" if isinstance(value, int) else "'" + value.replace("'", "''") + "'::text"


def reference(parts: tuple[str | None, str]) -> str:
    return ".".join(quoted(part) for part in parts if part is not None)


def atom(said: tuple) -> str:
    kind, left, *more = said
    left = reference(left)
    if kind == "compare":
        return f"{left} {more[0]} {literal(more[1])}"
    if kind == "columns":
        return f"{left} {more[0]} {reference(more[1])}"
    if kind == "between":
        return f"{left} BETWEEN {literal(more[0])} AND {literal(more[1])}"
    if kind == "in":
        return f"{left} IN ({', '.join(map(literal, more[0]))})"
    if kind == "null":
        return f"{left} IS {'NOT ' if more[0] else ''}NULL"
    return f"starts_with({left}, {literal(more[0])})"


def where(groups: Sequence[Sequence[tuple]]) -> str:
    return " WHERE " + " AND ".join("(" + " OR ".join(map(atom, group)) + ")" for group in groups) if groups else ""


def sql(said: tuple, columns: Columns, number: int | None = None) -> str:
    """A statement in PostgreSQL's words; of an INSERT the row gets the number."""
    kind, name, *more = said
    if kind == "create":
        kinds = [f"{quoted(column)} {'bigint' if width is None else f'varchar({width})'}" for column, width in more[0]]
        return f"CREATE TABLE {quoted(name)} ({', '.join([NUMBER + ' bigint'] + kinds)})"
    if kind == "index":
        table, keys, unique = more
        return f"CREATE {'UNIQUE ' if unique else ''}INDEX {quoted(name + '#')} ON {quoted(table)} ({', '.join(map(quoted, keys))})"
    if kind == "insert":
        names = [NUMBER] + [quoted(column) for column, _ in columns.get(name, [])]
        values = ["NULL" if number is None else str(number)] + [literal(value) for value in more[0]]
        return f"INSERT INTO {quoted(name)} ({', '.join(names)}) VALUES ({', '.join(values)}) RETURNING {NUMBER}"
    if kind == "change":
        sets, groups = more
        body = f"DELETE FROM {quoted(name)}"
        if sets is not None:
            body = f"UPDATE {quoted(name)} SET " + ", ".join(f"{quoted(column)} = {literal(value)}" for column, value in sets)
        return f"{body}{where(groups)} RETURNING {NUMBER}"
    returned, items, groups, order, _ = more
    if returned is None:
        returned = [(second or table, column) for table, second in items for column, _ in columns.get(table, [])]
    listed = ", ".join(map(reference, [*returned, *order])) or "*"
    froms = ", ".join(quoted(table) + (" " + quoted(second) if second else "") for table, second in items)
    by = " ORDER BY " + ", ".join(f"{reference(one)} NULLS FIRST" for one in order) if order else ""
    return f"DECLARE {quoted(name)} NO SCROLL CURSOR FOR SELECT {listed} FROM {froms}{where(groups)}{by}"


# The sessions.

PROBE = """CREATE FUNCTION public.take_each(tab text, tids tid[]) RETURNS SETOF text LANGUAGE plpgsql AS $$
DECLARE t tid; BEGIN
FOREACH t IN ARRAY tids LOOP
  BEGIN EXECUTE format('SELECT 1 FROM %I WHERE ctid = $1 FOR UPDATE NOWAIT', tab) USING t; RAISE EXCEPTION USING ERRCODE = 'RV000';
  EXCEPTION WHEN OTHERS THEN RETURN NEXT replace(SQLSTATE, 'RV000', '00000'); END;
END LOOP; END $$"""


class Sessions:
    """PostgreSQL as the language has it: eight sessions, and one (0) that makes tables and sees what is committed."""

    def __init__(self, server: Server):
        self.all: list[Session] = [server.session() for _ in range(9)]
        self.scripts = 0
        for at, session in enumerate(self.all):
            timeout = 2 if at else 200
            session.send(f"SET lock_timeout = '{timeout}ms'", "SET statement_timeout = '30s'", "SET search_path = s")
        self.all[0].send("SET client_min_messages = error", PROBE.replace("\n", " "))

    def begin_again(self) -> None:
        """An empty database, and no transaction."""
        self.scripts += 1
        for session in self.all:
            if session.within:
                session.send("ROLLBACK")
                session.within = False
        if self.scripts % 100 == 0:
            self.all[0].send("VACUUM")
        self.all[0].send("DROP SCHEMA IF EXISTS s CASCADE", "CREATE SCHEMA s")

    def begin(self, at: int, read_only: bool) -> Answer:
        self.all[at].within = True
        return self.all[at].send("BEGIN ISOLATION LEVEL REPEATABLE READ" + " READ ONLY" * read_only, "SELECT WHERE false", "SAVEPOINT v")

    def end(self, at: int, how: str) -> Answer:
        self.all[at].within = False
        return self.all[at].send(how)

    def make(self, at: int, text: str) -> Answer:
        """A statement of a transaction, behind its savepoint; what is refused changes nothing."""
        answer = self.all[at].send("RELEASE SAVEPOINT v", "SAVEPOINT v", text)
        if not answer.done:
            self.undo(at)
        return answer

    def undo(self, at: int) -> None:
        self.all[at].send("ROLLBACK TO SAVEPOINT v")

    def alone(self, at: int, text: str) -> Answer:
        """A statement outside a transaction, of which nothing stays."""
        self.all[at].send("BEGIN")
        answer = self.all[at].send(text)
        self.all[at].send("ROLLBACK")
        return answer

    def look(self, at: int, text: str) -> list[list[str | None]]:
        """The rows of a query beside the script: in a session's transaction, or of what is committed (0)."""
        if at == 0:
            return self.all[0].send(text).rows
        rows = self.all[at].send("SAVEPOINT w", text).rows
        self.all[at].send("ROLLBACK TO SAVEPOINT w", "RELEASE SAVEPOINT w")
        return rows

    def conflicts(self, at: int, table: str, places: list[str]) -> list[str | None]:
        """Of each row of a table why the session could not write it now."""
        if not places:
            return []
        rows = self.look(at, f"SELECT public.take_each('{table}', ARRAY[{', '.join(map(repr, places))}]::tid[])")
        return [STATES.get(state, state) for [state] in rows]
