"""Statements as they may be spelled, with what comes of each, and texts that derive no statement. The answers were found by hand,
from the rules in words (docs/LANGUAGE.md, "Tokens" and "Statements"): each spelling of a statement stands in its transcript where a
line has `*`, and a statement is told from its neighbours by what it does there."""
from __future__ import annotations

from typing import Iterator

TWO = "1 CREATE TABLE T (A BIGINT, B BIGINT)\n= created\n"
BEGUN = "1 BEGIN\n= began 1\n"


def rows(*rows_of: str) -> str:
    return "".join(f"1 INSERT INTO T VALUES ({row})\n= inserted {at}\n" for at, row in enumerate(rows_of))


def given(*rows_of: str) -> str:
    return "1 OPEN R SELECT * FROM T ORDER BY A\n= opened\n" + fetched("R", *rows_of, "end")


def fetched(cursor: str, *replies: str) -> str:
    return "".join(f"1 FETCH {cursor}\n= {reply if reply == 'end' else 'row ' + reply}\n" for reply in replies)


def opened(strategy: str) -> str:
    """The statement opens the cursor C, and SHOW tells its strategy."""
    return f"1 *\n= opened\n1 SHOW C\n= trace {strategy} pages 0 leaves 0 fetches 0\n"


def deletes(touched: int) -> str:
    """Of seven rows, whose first column is NULL or 0 to 3."""
    made = rows("0, 0", "1, NULL", "1, 5", "2, 12", "2, NULL", "3, 7", "NULL, NULL")
    return TWO + BEGUN + made + f"1 *\n= touched {touched}\n"


def deletes_texts(touched: int) -> str:
    made = rows("NULL, 1", "'', 2", "'x', 3", "'xy', 4", "'y', 5", "'X', 6")
    return "1 CREATE TABLE T (A VARCHAR(9), B BIGINT)\n= created\n" + BEGUN + made + f"1 *\n= touched {touched}\n"


OPENED = BEGUN + "1 OPEN C SELECT * FROM T\n= opened\n"
JOINED = (
    "1 CREATE TABLE T (A BIGINT)\n= created\n1 CREATE TABLE U (K BIGINT, B BIGINT)\n= created\n1 CREATE INDEX I ON T (A)\n= created\n"
    + BEGUN + rows("1", "2", "3", "4") + "".join(f"1 INSERT INTO U VALUES ({row})\n= inserted {at}\n" for at, row in enumerate(["1, 9", "2, 7", "4, 7", "5, 1"]))
)  # fmt: skip

# Spellings, and the transcript in which each stands for `*`.
STATEMENTS = [
    (["CREATE TABLE T (A BIGINT, B_2 VARCHAR (-4))", "create table t(a bigint,b_2 varchar(-4)) ;"], "1 *\n= limit text 255\n"),
    (["CREATE TABLE T (A BIGINT, B_2 VARCHAR (4))", "create table t(a bigint,b_2 varchar(04)) ;"],
     "1 *\n= created\n" + BEGUN + "1 INSERT INTO T VALUES (1, '12345')\n= kind B_2\n" + rows("1, '1234'") + given("1, '1234'")),
    (["CREATE INDEX I ON T (B, A)", "\tCreate Index i On t(b,a);"],
     TWO + "1 *\n= created\n" + BEGUN + rows("5, 5", "5, 5") + "1 OPEN C SELECT * FROM T ORDER BY B, A\n= opened\n"
     "1 SHOW C\n= trace sorted foreground pages 0 leaves 0 fetches 0\n"),
    (["CREATE UNIQUE INDEX I ON T (A)", "create  unique\tindex i on t(a) ;"],
     TWO + "1 *\n= created\n" + BEGUN + rows("5, 5") + "1 INSERT INTO T VALUES (5, 6)\n= duplicate 0\n"),
    (["BEGIN", "begin;"], TWO + "1 *\n= began 1\n" + rows("1, 1")),
    (["BEGIN READ ONLY", "begin read only ;"], TWO + "1 *\n= began 1\n1 INSERT INTO T VALUES (1, 1)\n= read only\n"),
    (["COMMIT", " commit; "], TWO + BEGUN + rows("1, 1") + "1 *\n= committed 1\n"),
    (["ROLLBACK", "rollBack;"], TWO + BEGUN + rows("1, 1") + "1 *\n= rolled back\n"),
    (["INSERT INTO T VALUES (-5, 'it''s', NULL)", "insert into t values(-05,'it''s',null);"],
     "1 CREATE TABLE T (A BIGINT, B VARCHAR(9), C BIGINT)\n= created\n" + BEGUN + "1 *\n= inserted 0\n" + given("-5, 'it''s', NULL")),
    (["UPDATE T SET A = 1, B = NULL WHERE A < 3", "update t set a=1,b=null where(a<3);"],
     TWO + BEGUN + rows("2, 2", "3, 3") + "1 *\n= touched 1\n" + given("1, NULL", "3, 3")),
    (["UPDATE T SET A = 'x'", "update t set a='x' ;"],
     "1 CREATE TABLE T (A VARCHAR(1))\n= created\n" + BEGUN + rows("'y'", "NULL") + "1 *\n= touched 2\n" + given("'x'", "'x'")),
    (["DELETE FROM T", "delete from t;"], deletes(7)),
    (["FETCH C", "fetch C ;"], TWO + OPENED + "1 *\n= end\n"),
    (["SHOW C", "show c;"], TWO + OPENED + "1 *\n= trace table final-table pages 0 leaves 0 fetches 0\n"),
    (["CLOSE C", "close\tc;"], TWO + OPENED + "1 *\n= closed\n1 FETCH C\n= no cursor C\n"),
    (["STEP C -3", "step c -03;"], TWO + OPENED + "1 *\n= limit steps 10000\n"),
    (["STEP C 3", "step c 0003;"], TWO + OPENED + "1 *\n= stepped 0\n"),
    (["OPEN C SELECT * FROM T", "open c select*from t optimize for total time;"],
     TWO + BEGUN + rows("1, 2") + opened("table final-table") + fetched("C", "1, 2", "end")),
    (["OPEN C SELECT * FROM T WHERE A > 0", "open c select*from t where a>0 optimize for total time;"],
     TWO + "1 CREATE INDEX I ON T (A)\n= created\n" + BEGUN + rows(*[f"{n}, 1" for n in range(1, 41)]) + "1 COMMIT\n= committed 1\n1 BEGIN\n= began 2\n"
     + opened("background-only background scan I")),
    (["OPEN C SELECT * FROM T WHERE A > 0 OPTIMIZE FOR FAST FIRST", "open c select*from t where(a>0)optimize for fast first"],
     TWO + "1 CREATE INDEX I ON T (A)\n= created\n" + BEGUN + rows(*[f"{n}, 1" for n in range(1, 41)]) + "1 COMMIT\n= committed 1\n1 BEGIN\n= began 2\n"
     + opened("fast-first building scan I")),
    (["OPEN C SELECT X.A, B FROM T X, U WHERE X.A = U.K ORDER BY B, X.A OPTIMIZE FOR FAST FIRST",
      "open c select x . a,b from t x,u where (x.a=u.k) order by b,x.a optimize for fast first;"],
     JOINED + "1 *\n= opened\n" + fetched("C", "2, 7", "4, 7", "1, 9", "end")),
    (["DELETE FROM T WHERE A = 1", "delete from t where(a=1)"], deletes(2)),
    (["DELETE FROM T WHERE A <> 1", "delete from t where a<>1;"], deletes(4)),
    (["DELETE FROM T WHERE A < 1", "delete from t where a<1;"], deletes(1)),
    (["DELETE FROM T WHERE A <= 1", "delete from t where a<=1;"], deletes(3)),
    (["DELETE FROM T WHERE A > 1", "delete from t where a>1;"], deletes(3)),
    (["DELETE FROM T WHERE A >= 1", "delete from t where a>=1;"], deletes(5)),
    (["DELETE FROM T WHERE A BETWEEN 2 AND 1", "delete from t where (a between 2 and 1);"], deletes(0)),
    (["DELETE FROM T WHERE A BETWEEN 1 AND 2", "delete from t where (a between 1 and 2);"], deletes(4)),
    (["DELETE FROM T WHERE A IN (NULL, '')", "delete from t where a in(null,'');"], deletes_texts(1)),
    (["DELETE FROM T WHERE T.A STARTING WITH 'x'", "delete from t where t.a starting with'x';"], deletes_texts(2)),
    (["DELETE FROM T WHERE A IS NULL", "delete from t where (a is null)"], deletes(1)),
    (["DELETE FROM T WHERE A IS NOT NULL", "delete from t where a is not null;"], deletes(6)),
    (["DELETE FROM T WHERE A > 0 OR B IS NULL", "delete from t where (a>0 or b is null);"], deletes(6)),
    (["DELETE FROM T WHERE A > 0 AND B IS NULL", "delete from t where (a>0) and (b is null);"], deletes(2)),
    (["DELETE FROM T WHERE A > 0 AND (B IS NULL OR B < 9)", "delete from t where (a>0)and(b is null or b<9)"], deletes(4)),
]  # fmt: skip

# These derive nothing.
NOTHING = [
    "", ";", "SELEC", "BEGIN;;", "BEGIN COMMIT", "BEGIN READ", "COMMIT 1", "CREATE T (A BIGINT)", "CREATE TABLE T ()",
    "CREATE TABLE T (A BIGINT,)", "CREATE TABLE SELECT (A BIGINT)", "CREATE TABLE T (A VARCHAR)", "CREATE TABLE T (A VARCHAR('4'))",
    "CREATE INDEX ON T (A)", "CREATE INDEX I ON T", "CREATE UNIQUE I ON T (A)", "CREATE INDEX UNIQUE ON T (A)",
    "UNIQUE INDEX I ON T (A)", "CREATE UNIQUE UNIQUE INDEX I ON T (A)", "INSERT INTO T VALUES ()", "INSERT INTO T VALUES (A)",
    "INSERT INTO T VALUES (9223372036854775808)", "INSERT T VALUES (1)", "UPDATE T SET A = B", "UPDATE T WHERE A = 1", "DELETE T",
    "DELETE FROM T WHERE", "DELETE FROM T WHERE 1 = A", "DELETE FROM T WHERE A = 1 AND B = 2 OR C = 3",
    "DELETE FROM T WHERE A = 1 OR B = 2 AND C = 3", "DELETE FROM T WHERE ((A = 1))", "DELETE FROM T WHERE (A = 1 AND B = 2)",
    "DELETE FROM T WHERE NOT A = 1", "DELETE FROM T WHERE A BETWEEN 1 AND B", "DELETE FROM T WHERE A IN ()", "DELETE FROM T WHERE A IS 1",
    "DELETE FROM T WHERE A STARTING WITH B", "DELETE FROM T WHERE A == 1", "OPEN C SELECT FROM T", "OPEN C SELECT *, A FROM T",
    "OPEN C SELECT A. FROM T", "OPEN C SELECT A.B.C FROM T", "OPEN C SELECT * FROM T X Y", "OPEN C SELECT * FROM T ORDER A",
    "OPEN C SELECT * FROM T ORDER BY A WHERE A = 1", "OPEN C SELECT * FROM T OPTIMIZE FOR FAST TIME", "OPEN SELECT * FROM T", "FETCH",
    "FETCH C, D", "FETCH 'C'", "STEP C", "STEP C 'x'", "SHOW TABLE", "CLOSE C.D", "-- comment", "BEGIN 'open", "(" * 4094,
    "DELETE FROM T WHERE " + "(" * 4070,
]  # fmt: skip

# What stands in the parentheses of `INSERT INTO T VALUES (..)`, and the row that it gives.
LITERALS = [
    ("0,007,-7,-0", "0, 7, -7, 0"),
    ("9223372036854775807", "9223372036854775807"),
    ("-0009223372036854775808", "-9223372036854775808"),
    (" \t1\t, NULL,\tnull ", "1, NULL, NULL"),
    ("'it''s'", "'it''s'"),
    ("'','''','a','B'", "'', '''', 'a', 'B'"),
    ("'ä☃'", "'ä☃'"),
    ("'a,b)'", "'a,b)'"),
]

# What stands there and is no row: at some byte no token begins, or the tokens are others.
NO_LITERALS = [
    "-", "1 - 1", "--", "1-2", "'abc", "'a''", "'''", "1 'b", "'a''b'c", "9223372036854775808", "-9223372036854775809", "12x", "1_", "1, -5a",
    "1 \r", "ä", "1ä", "'a\tb'", "'\x7f'", "_a", "1 != 2", '"b"', "1/2", "1.5", "+1", "1e5", "- 1", "1;", "select", "T.A", "<>", "(1)",
]  # fmt: skip

# Conditions whose symbols stand close, and what a DELETE of the rows of 1 to 4 answers.
CLOSE = [
    ("A<>2", "touched 3"), ("A<=2", "touched 2"), ("A>=2", "touched 3"), ("A<2", "touched 1"), ("A>2", "touched 2"), ("A=2", "touched 1"),
    ("A<-2", "touched 0"), ("A>-2", "touched 4"), ("T.A=1", "touched 1"), ("T . A=1", "touched 1"), ("(A=1)", "touched 1"), ("A>-2AND", "syntax"),
    ("A<>>2", "syntax"), ("A=<2", "syntax"), ("A=>2", "syntax"), ("A< >2", "syntax"),
]  # fmt: skip


def text_of(values: str) -> str:
    return "1 INSERT INTO T VALUES (" + values + ")\n"


def columns(row: str) -> str:
    """A table whose columns are of the kinds of a row's values."""
    kinds = ["VARCHAR(9)" if value.startswith("'") else "BIGINT" for value in row.replace("'a,b)'", "''").split(", ")]
    return "1 CREATE TABLE T (" + ", ".join(f"{'ABCD'[at]} {kind}" for at, kind in enumerate(kinds)) + ")\n= created\n"


def cases() -> Iterator[tuple[str, str]]:
    """A name and a transcript."""
    for spellings, told in STATEMENTS:
        for spelling in spellings:
            yield spelling, told.replace("1 *", "1 " + spelling)
    yield "no statements", "".join(f"1 {text}\n= syntax\n" for text in NOTHING)
    for values, row in LITERALS:
        yield values, columns(row) + BEGUN + text_of(values) + "= inserted 0\n1 OPEN C SELECT * FROM T\n= opened\n" + fetched("C", row)
    yield "no literals", TWO + BEGUN + "".join(text_of(values) + "= syntax\n" for values in NO_LITERALS)
    yield "conditions", TWO + BEGUN + rows("1, 0", "2, 0", "3, 0", "4, 0") + "1 COMMIT\n= committed 1\n" + "".join(
        f"1 BEGIN\n= began {at}\n1 DELETE FROM T WHERE {condition}\n= {reply}\n1 ROLLBACK\n= rolled back\n" for at, (condition, reply) in enumerate(CLOSE, 2)
    )
