"""What users of SQL write and the language lacks or spells otherwise, with what stands for it: the hints of check_script.py.

A habit is known by the shape of a statement: its tokens parted by spaces, words in capitals, 1 for each integer and ' for each
text, with @ before the first token that fits no statement (or at the end, where more should follow)."""
from __future__ import annotations

import re

from model.language import Token

UNIQUE_INDEX = "CREATE UNIQUE INDEX name ON table (column) lets no two rows be equal there"
NO_SUBQUERY = "there are no queries within others: a second cursor is opened with what the first one gave"
NO_TRUTH_VALUES = "there are no truth values: 1 and 0 may stand for them"
NO_FRACTIONS = "there are no fractions: a price may be an integer of cents"
NO_LISTING = "no statement lists tables or columns: they are those of the CREATE TABLE lines"
NO_ARITHMETIC = "there is no arithmetic"
NO_CHANGE = "a run begins with an empty database, and nothing is dropped or altered; DELETE FROM T deletes all rows"
NO_OUTER_JOIN = "there are no outer joins: a second cursor is opened with what the first one gave"
ONE_ROW = "FETCH C gives one row, the next one; tools/shell/expand.py makes FETCH C ALL as many FETCHes as there are rows"
FIRST_ROWS = "FETCH as many rows as are wanted, then CLOSE; OPTIMIZE FOR FAST FIRST finds them soon"
NO_PATTERN = "there is no LIKE: STARTING WITH 'front' finds the texts that begin so"
SNAPSHOT = "each transaction sees the snapshot of its BEGIN; BEGIN READ ONLY may not write"
NO_FURTHER_WORD = "BEGIN, COMMIT and ROLLBACK stand without a further word"
COMMAS = "tables are joined by commas: FROM X, Y WHERE X.A = Y.A"
QUERY_FOLLOWS = "the query follows the cursor's name: OPEN C SELECT .."
ALL_ROWS = "UPDATE and DELETE take all rows for which the condition is True"
TAKES_ROW = "an UPDATE to equal values takes a row until the transaction ends"


def at(*words: str) -> str:
    """One of these words is the one that does not fit."""
    return rf"@ ({'|'.join(words)})\b"


def near(*words: str) -> str:
    """So it is, or it stands before the one that does not fit: it was taken for a name."""
    either = "|".join(words)
    return rf"@ ({either})\b|\b({either}) @"


# The first that a shape has is told.
HABITS = [
    # Statements that are none.
    (r"^@ EXPLAIN\b", "SHOW C tells how the rows of cursor C were found so far, at any time while it is open"),
    (r"^@ (ANALYZE|VACUUM)\b", "there are no statistics to gather: each OPEN takes its estimates from the indexes"),
    (r"^@ SET (TRANSACTION|SESSION|LOCAL)\b", SNAPSHOT),
    (r"^@ SET AUTOCOMMIT\b", "BEGIN and COMMIT are always said, around a single statement too"),
    (r"^@ SET\b", "there is nothing to set; UPDATE T SET A = 1 changes rows"),
    (r"^@ (DESCRIBE|DESC|PRAGMA|\.)|^SHOW @ |^SHOW (INDEX|INDEXES|KEYS|COLUMNS|FIELDS|TABLES|CREATE) @ ", f"SHOW C tells how the rows of cursor C were found; {NO_LISTING}"),
    (r"^SHOW TRANSACTION @ ", SNAPSHOT),
    (r"^@ USE\b|^CREATE @ (DATABASE|SCHEMA)\b", "there is one database, which is empty when a run begins"),
    (r"^@ (DROP|ALTER|TRUNCATE|RENAME)\b", NO_CHANGE),
    (r"^@ (REPLACE|UPSERT|MERGE)\b|^INSERT @ (OR|IGNORE|OVERWRITE)\b", "INSERT adds a row and UPDATE changes rows; an INSERT whose key is in a unique index is answered `duplicate`"),
    (r"^@ (GRANT|REVOKE)\b", "there are no users and no rights"),
    (r"^@ LOCK\b", TAKES_ROW),
    (r"^@ (SAVEPOINT|RELEASE)\b|^ROLLBACK @ TO\b", "there are no savepoints: a refused statement changes nothing, and its transaction goes on"),
    (r"^@ (COPY|LOAD|IMPORT)\b", "tools/shell/load.py writes the statements that make a table of a CSV file"),
    (r"^@ (CALL|EXECUTE|EXEC|PREPARE|DO)\b", "there are no procedures and no prepared statements"),
    (r"^@ VALUES\b", "INSERT INTO T VALUES (..) adds a row"),
    (r"^@ (WITH|TABLE)\b", QUERY_FOLLOWS + ", and there are no queries within others"),
    (r"^@ (HELP|QUIT|EXIT)\b", "a script ends with its last line; docs/LANGUAGE.md has the statements"),
    (r"^@ SELECT\b", "a query begins with a cursor: OPEN C SELECT .., and FETCH C gives its rows"),
    (r"^@ DECLARE\b", "OPEN C SELECT .. opens a cursor"),
    (r"^@ START\b", "BEGIN begins a transaction"),
    (r"^@ ABORT\b", "ROLLBACK ends a transaction without its changes"),
    (r"^@ END\b", "COMMIT ends a transaction with its changes"),
    (r"^@ MOVE\b", "FETCH C passes over a row, the next one"),
    (r"^@ DEALLOCATE\b", "CLOSE C closes a cursor"),
    # INSERT.
    (r"^INSERT INTO \w+ @ \( SELECT\b|^INSERT INTO \w+ @ SELECT\b", "INSERT takes values: the rows are fetched, and each gets an INSERT of its own"),
    (r"^INSERT INTO \w+ @ \(", "there is no list of columns: VALUES has a value for each column, in the order of CREATE TABLE, and NULL where there is none"),
    (r"^INSERT INTO \w+ VALUES \([^()]*\) @ [,(]", "one row a statement: each row has an INSERT of its own"),
    (r"^INSERT INTO \w+ @ VALUE\b", "the word is VALUES"),
    (r"^INSERT @ \w", "INSERT INTO T VALUES (..) adds a row"),
    (near("DEFAULT"), "there are no defaults: a value of its own stands there, or NULL"),
    (at("RETURNING"), "INSERT answers the row's number, UPDATE and DELETE how many rows; a cursor tells more"),
    (r"\) @ ON (CONFLICT|DUPLICATE)\b", "a row whose key is in a unique index is refused, and answered `duplicate`"),
    (r"1 @ \. 1", NO_FRACTIONS),
    (r"@ [A-Z] '", "a text stands between two ', with no letter before them"),
    (r"^INSERT .*[(,] @ (TRUE|FALSE)\b|\b(IS|WHERE) @ (TRUE|FALSE)\b|\bWHERE (TRUE|FALSE) @", NO_TRUTH_VALUES),
    (r"^INSERT INTO \w+ VALUES \( @ \)", "there is a value for each column, in the order of CREATE TABLE"),
    (r"^INSERT .* @ [A-Z(]", "VALUES takes literals: integers, texts between two ', and NULL"),
    # CREATE.
    (r"^CREATE .*\bIF @ NOT\b", "there is no IF NOT EXISTS: the database is empty when a run begins"),
    (r"^CREATE @ (TEMP|TEMPORARY|UNLOGGED)\b", "all tables are in memory, and end with the run"),
    (r"^CREATE @ \w", "tables and indexes are all that is created"),
    (r"^CREATE TABLE \w+ @ \.|\bFROM \w+ @ \.", "there are no schemas: a table has one name"),
    (r"^CREATE TABLE \w+ @ AS\b", "a table is made of columns: CREATE TABLE T (A BIGINT, B VARCHAR(40))"),
    (r"^CREATE TABLE .* @ (NOT )?NULL\b", "each column may hold NULL, and nothing is said of it"),
    (r"^CREATE TABLE .* @ UNIQUE\b", f"columns have no UNIQUE: {UNIQUE_INDEX}"),
    (near("PRIMARY"), f"there are no keys: {UNIQUE_INDEX}"),
    (near("FOREIGN", "REFERENCES", "CHECK", "CONSTRAINT"), f"tables have no constraints; {UNIQUE_INDEX}"),
    (at("AUTO_INCREMENT", "AUTOINCREMENT", "IDENTITY", "GENERATED", "SERIAL", "BIGSERIAL"), "no column counts by itself: the script has the numbers"),
    (r"^CREATE TABLE .* \w+ @ (DATE|TIME|TIMESTAMP|DATETIME|YEAR)\b", "there are no dates: 20260131 as a BIGINT, or '2026-01-31' as a VARCHAR(10), come in order"),
    (r"^CREATE TABLE .* \w+ @ (BOOLEAN|BOOL|BIT)\b", NO_TRUTH_VALUES),
    (r"^CREATE TABLE .* \w+ @ (FLOAT|REAL|DOUBLE|DECIMAL|NUMERIC|MONEY|NUMBER)\b", NO_FRACTIONS),
    (r"\bBIGINT @ (\(|UNSIGNED|SIGNED)", "a BIGINT has 64 bits with a sign, and nothing is said of it"),
    (r"\bVARCHAR @ ", "VARCHAR has the most bytes that a text may have: VARCHAR(40), up to 255"),
    (r"^CREATE TABLE \w+ \((.* ,)? \w+ @ ", "the kinds are BIGINT and VARCHAR(n)"),
    (r"^CREATE TABLE .* , @ \)", "no comma stands behind the last column"),
    (r"^CREATE TABLE .* \) @ \w", "nothing stands behind the columns"),
    (r"^CREATE (UNIQUE )?INDEX @ ON\b|^CREATE (UNIQUE )?INDEX CONCURRENTLY @", "an index has a name: CREATE INDEX name ON table (column)"),
    (r"^CREATE (UNIQUE )?INDEX .*@ USING\b", "each index is a tree, and nothing is said of it"),
    (r"^CREATE (UNIQUE )?INDEX .*@ (ASC|DESC)\b", "an index has the least first"),
    (r"^CREATE (UNIQUE )?INDEX .* \( .*@ [(1']", "an index is of 1 to 4 columns"),
    (r"^CREATE (UNIQUE )?INDEX .*@ WHERE\b", "an index has all rows of its table"),
    (r"^CREATE (UNIQUE )?INDEX .*@ INCLUDE\b", "a further column may be a last one of the index: (A, B)"),
    # Transactions.
    (r"^BEGIN .*\bISOLATION\b", SNAPSHOT),
    (r"^BEGIN (READ )?@ (READONLY|WRITE|READ)\b", "BEGIN may write, BEGIN READ ONLY may not"),
    (r"^(BEGIN|COMMIT|ROLLBACK) (READ ONLY )?@ \w", NO_FURTHER_WORD),
    # Cursors.
    (r"^OPEN \w+ @( FOR| AS| CURSOR| \(| IS|$)", QUERY_FOLLOWS),
    (r"^OPEN @ SELECT\b", "a cursor has a name: OPEN C SELECT .."),
    (r"^FETCH( \w+)? @ (PRIOR|LAST|ABSOLUTE|RELATIVE|BACKWARD)\b|^FETCH (PRIOR|LAST|ABSOLUTE|RELATIVE|BACKWARD) @", "a cursor goes forward, row by row"),
    (r"^FETCH( \w+)? @ \w", ONE_ROW),
    (r"^CLOSE @ ALL\b", "CLOSE C closes one cursor"),
    (r"^STEP( \w+)? @", "STEP C 5 does up to five background steps for cursor C"),
    # UPDATE and DELETE.
    (r"^UPDATE \w+ @ WHERE\b", "SET stands before WHERE"),
    (r"^UPDATE \w+ @ \w|^DELETE FROM \w+ @ (?!USING|LIMIT|ORDER)\w", "UPDATE and DELETE name one table, which has no second name there"),
    (r"^UPDATE .*\bSET @ \(", "SET names columns one by one: SET A = 1, B = 2"),
    (r"^UPDATE .*\b(SET|,) \w+ @ \.", "SET names columns without their table"),
    (r"= @ \( SELECT\b|\( @ SELECT\b|\bFROM @ \(|\bEXISTS @|@ EXISTS\b", NO_SUBQUERY),
    (r"^UPDATE \w+ SET ((?!WHERE).)*= @ [A-Z(]", "SET takes literals: the value is fetched before, and stands there itself"),
    (r"^UPDATE \w+ SET ((?!WHERE).)*@ AND\b", "a comma stands between the columns of SET"),
    (r"^(UPDATE|DELETE) .*@ (FROM|USING)\b", "UPDATE and DELETE look at one table; a cursor may look at several before"),
    (r"^(UPDATE|DELETE) .*@ (LIMIT|ORDER)\b", ALL_ROWS),
    (r"^DELETE @", "DELETE FROM T WHERE .. deletes rows"),
    # What is returned.
    (r"\bIS @ DISTINCT\b", "A <> 1 OR A IS NULL says it"),
    (near("DISTINCT") + r"|\bSELECT ALL @", "there is no DISTINCT: each row comes once for each combination; ORDER BY brings equal values together"),
    (r"\bSELECT TOP @|" + near("LIMIT"), f"there is no LIMIT: {FIRST_ROWS}"),
    (r"\b(COUNT|SUM|MIN|MAX|AVG) @ \(", "there are no counts and no sums: the values are fetched, and counted where the script is made"),
    (r"\bSTARTS_WITH @|" + near("STARTS") + r"|\bSTARTING @", "STARTING WITH 'front' finds the texts that begin so"),
    (near("CASE", "CAST", "OVER"), "there are no expressions: columns are returned, and literals compared"),
    (r"\b(?!FROM|WHERE|IN|VALUES|AND|OR|SELECT)[A-Z]\w* @ \((?! SELECT)", "there are no functions"),
    (r"\bSELECT [^@]*\. @ \*", "`*` alone returns all columns of all tables; else they are named one by one"),
    (r"\bSELECT \* @ ,", "`*` stands alone"),
    (r"\bSELECT ([^@]* , )?@ [1']", "columns are returned, and no literals; names have no quotes"),
    (r"[\w.] @ \*", NO_ARITHMETIC),
    (r"\bSELECT [^@]*\w @ AS \w+ (,|FROM)|\bSELECT (?!.*\bFROM\b.*@)[^@]*\w @ \w+ (,|FROM)", "a returned column has no second name"),
    (near("AS"), "a second name follows without AS: FROM T X"),
    # FROM.
    (near("LEFT", "RIGHT", "FULL", "OUTER"), NO_OUTER_JOIN),
    (near("JOIN", "INNER", "CROSS", "NATURAL", "USING") + r"|\bFROM ((?!WHERE).)*@ ON\b", COMMAS),
    (near("UNION", "EXCEPT", "INTERSECT", "MINUS"), "there is no UNION: two cursors give the rows of two queries"),
    # Conditions.
    (r"@ NOT (IN|BETWEEN)\b", "A NOT IN (1, 2) is A <> 1 AND A <> 2; A NOT BETWEEN 1 AND 2 is A < 1 OR A > 2"),
    (r"@ NOT (LIKE|ILIKE)\b|@ NOT STARTING\b", "no condition finds the texts that do not begin so"),
    (r"\bIS (NOT )?@ [1'\w]", "IS takes NULL alone: a value is compared by = and <>"),
    (at("ISNULL", "NOTNULL"), "IS NULL and IS NOT NULL are two and three words"),
    (at("NOT"), "there is no NOT before a condition: IS NOT NULL and <> are there"),
    (at("NULL"), "NULL is tested by IS NULL and IS NOT NULL"),
    (at("LIKE", "SIMILAR", "REGEXP", "RLIKE", "GLOB", "MATCH", "CONTAINS"), NO_PATTERN),
    (at("ILIKE"), "texts are compared by their bytes, capitals apart from small letters; STARTING WITH 'front' finds the texts that begin so"),
    (r"[=<>] @ =", "`=`, `<>`, `<`, `<=`, `>` and `>=` compare, and `=` is written once"),
    (r"\bIN \( @ \)", "IN has at least one literal"),
    (r"\bIN \([^()]*@ [A-Z]|\bBETWEEN (. AND )?@ [A-Z]", "IN and BETWEEN take literals; two columns are compared by =, <>, <, <=, > and >="),
    (r"\bIN @ ", "the literals of IN stand in parentheses"),
    (r"\bWHERE .*\( @ \(|\bWHERE @ \( \(", "parentheses go one level deep"),
    (r"\bWHERE .*\( [^()]*@ ,", "columns are compared one by one"),
    (r"\bWHERE .*\( [^()]*@ AND\b", "in parentheses stands OR alone: (A = 1 AND B = 2) OR C = 3 is (A = 1 OR C = 3) AND (B = 2 OR C = 3)"),
    (r"\bWHERE .*@ (AND|OR)\b", "a group of OR stands in parentheses beside AND, and AND joins groups: (A = 1 OR B = 2) AND C = 3"),
    (r"\bWHERE ((?!ORDER).)*@ [1']", "a literal stands on the right: `1 = A` is written `A = 1`"),
    # Behind the condition.
    (near("GROUP", "HAVING"), "there are no groups and no counts; ORDER BY brings equal values together"),
    (r"\bORDER BY [^@]*@ WHERE\b", "WHERE stands before ORDER BY"),
    (r"\bORDER BY ([^@]* , )?@ [1'(]", "ORDER BY names columns"),
    (r"\bORDER @ \w", "the words are ORDER BY"),
    (at("DESC"), "there is no DESC: ORDER BY gives the least first"),
    (at("ASC"), "ORDER BY gives the least first, without a word"),
    (at("NULLS"), "ORDER BY gives NULL first of all"),
    (at("COLLATE"), "texts are compared by their bytes"),
    (near("OFFSET"), "FETCH C passes over a row, the next one"),
    (r"^OPEN .*@ FETCH\b", FIRST_ROWS),
    (r"^OPEN .*@ FOR\b", TAKES_ROW),
    (r"^OPEN .*@ WITH\b", "a table is named alone, without hints"),
    (r"; @ ;", "one `;` at the most ends a statement"),
    (r"; @ ", "a line has one statement"),
    (r"\bOPTIMIZE( FOR)?( FAST| TOTAL)? @", "OPTIMIZE FOR FAST FIRST and OPTIMIZE FOR TOTAL TIME are the two goals"),
]
KNOWN = [(re.compile(shape), hint) for shape, hint in HABITS]

# What begins no token, and why: the rest of the statement, with the last character before it and @ in front.
SIGNS = [
    (r"@!=", "`!=` is written `<>`"),
    (r"@'(?:[^'\x00-\x1f\x7f]|'')*[\x00-\x1f\x7f]", "this text has {1}, and a text holds no control characters"),
    (r"@'", "this text has no end: a quote within a text is written twice"),
    (r'@["`[]', "names stand without quotes, texts between two '"),
    (r"@[‘’“”´]", "texts stand between two straight ' (U+0027)"),
    (r"@(--|#|/\*)", "a statement has no comment behind it: a line that begins with # is one"),
    (r"@-?[0-9]", "no integer of 64 bits, which ends before a letter, a digit or `_`"),
    (r"@::", "`::` is no token: a value is never turned into one of another kind"),
    (r"@[?$:@]", "there are no parameters: the script has the value itself"),
    (r"@\\", NO_LISTING),
    (r"@&&", "`&&` is written AND"),
    (r"@\|\|", "`||` is no token: it is written OR between conditions, and texts are not joined"),
    (r"@[~^]", NO_PATTERN),
    (r"[(,=<>]@[+-]", "an integer has no + before it, and its - stands at its digits"),
    (r"@[+\-/%|]", "`{0}` is no token: there is no arithmetic; the script has the result itself"),
    (r"@\r", "a carriage return stands within the line: lines end with LF or CR LF"),
    (r"@[\x00-\x1f\x7f]", "{1} begins no token"),
    (r"@", "`{0}` begins no token"),
]


def shape_of(found: list[Token], place: int) -> str:
    """The shape of a statement with its mark at an offset."""
    parts = [(token.at, token.value if token.kind != "value" else "'" if isinstance(token.value, str) else "1") for token in found]
    before, behind = [part for at, part in parts if at < place], [part for at, part in parts if at >= place]
    return " ".join([*before, "@", *behind])


def hint_of(found: list[Token], place: int) -> str:
    """What stands for what a user of SQL may mean at an offset, or nothing."""
    shape = shape_of(found, place)
    return next((hint for habit, hint in KNOWN if habit.search(shape)), "")


def why_no_token(text: str, place: int) -> str:
    """Why no token begins at an offset of a text."""
    here = f"{text[:place].rstrip()[-1:]}@{text[place:]}"
    control = re.search(r"[\x00-\x1f\x7f]", text[place:])
    return next(words for sign, words in SIGNS if re.match(f".?{sign}", here, re.S)).format(text[place], control_word(control[0]) if control else "")


def control_word(control: str) -> str:
    """A control character in words."""
    names = {"\n": "a line feed", "\r\n": "a line end", "\r": "a carriage return", "\t": "a tab"}
    return names.get(control) or f"a character U+{ord(control):04X}"


def hint_of_cursor(kind: str, name: str, tables: object) -> str:
    """What may be meant by a cursor of a name, which is not open."""
    if kind == "show" and (name in tables or name in ("TABLES", "DATABASES", "SCHEMAS", "INDEXES", "COLUMNS", "ALL")):
        return f"SHOW C tells how the rows of cursor C were found; {NO_LISTING}"
    if kind == "fetch" and name in ("ALL", "NEXT", "FORWARD"):
        return ONE_ROW
    return "CLOSE C closes one cursor" if kind == "close" and name == "ALL" else ""
