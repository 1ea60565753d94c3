"""What users of SQL write is told with what stands for it; what the language has is told nothing."""
import unittest

from model.language import tokens
from shell.check_script import findings
from shell.sql_habits import shape_of

TABLE = "1 CREATE TABLE PARTS (NAME VARCHAR(4), WEIGHT BIGINT)\n"

# Statements, each with its place, and words of its hint.
HABITS = [
    # other statements
    ("EXPLAIN SELECT * FROM PARTS", 3, "SHOW C tells how"),
    ("EXPLAIN ANALYZE SELECT * FROM PARTS", 3, "SHOW C tells how"),
    ("ANALYZE PARTS", 3, "no statistics"),
    ("SET TRANSACTION ISOLATION LEVEL SERIALIZABLE", 3, "the snapshot of its BEGIN"),
    ("SET autocommit = 0", 3, "always said"),
    ("SHOW TABLES", 8, "no statement lists tables"),
    ("SHOW PARTS", 8, "no statement lists tables"),
    ("SHOW TABLE", 8, "no statement lists tables"),
    ("SHOW COLUMNS FROM PARTS", 16, "no statement lists tables"),
    ("SHOW CREATE TABLE PARTS", 8, "no statement lists tables"),
    ("DESC PARTS", 3, "no statement lists tables"),
    (".tables", 3, "no statement lists tables"),
    ("\\d PARTS", 3, "no statement lists tables"),
    ("USE X", 3, "one database"),
    ("DROP TABLE PARTS", 3, "nothing is dropped"),
    ("TRUNCATE PARTS", 3, "DELETE FROM T"),
    ("SAVEPOINT S", 3, "no savepoints"),
    ("ROLLBACK TO S", 12, "no savepoints"),
    ("COPY PARTS FROM 'x.csv'", 3, "tools/shell/load.py"),
    ("WITH X AS (SELECT * FROM PARTS) SELECT * FROM X", 3, "OPEN C SELECT"),
    ("SELECT * FROM PARTS", 3, "OPEN C SELECT"),
    ("LOCK TABLE PARTS", 3, "takes a row"),
    # rows
    ("INSERT INTO PARTS (NAME, WEIGHT) VALUES ('a', 1)", 21, "no list of columns"),
    ("INSERT INTO PARTS VALUES ('a', 1), ('b', 2)", 36, "one row a statement"),
    ("INSERT INTO PARTS SELECT * FROM PARTS", 21, "an INSERT of its own"),
    ("INSERT OR REPLACE INTO PARTS VALUES ('a', 1)", 10, "duplicate"),
    ("INSERT INTO PARTS VALUES ('a', DEFAULT)", 34, "no defaults"),
    ("INSERT INTO PARTS VALUES ('a', 1) ON CONFLICT DO NOTHING", 37, "duplicate"),
    ("INSERT INTO PARTS VALUES ('a', 1) RETURNING NAME", 37, "the row's number"),
    ("INSERT INTO PARTS VALUES ('a', 1.5)", 35, "no fractions"),
    ("INSERT INTO PARTS VALUES ('a', TRUE)", 34, "no truth values"),
    ("INSERT INTO PARTS VALUES (a, 1)", 29, "VALUES takes literals"),
    ("INSERT INTO PARTS VALUES (N'a', 1)", 29, "no letter before"),
    ("INSERT INTO PARTS VALUES ('a', NOW())", 34, "VALUES takes literals"),
    ("INSERT INTO PARTS VALUES (?, ?)", 29, "no parameters"),
    ("INSERT INTO PARTS VALUES (’a’, 1)", 29, "straight '"),
    ("INSERT INTO PARTS VALUES (\"a\", 1)", 29, "texts between two '"),
    ("INSERT INTO PARTS VALUES ('a', 1 + 1)", 36, "no arithmetic"),
    ("INSERT INTO PARTS VALUES ('a', +1)", 34, "no + before it"),
    ("UPDATE PARTS SET WEIGHT = WEIGHT + 1", 36, "no arithmetic"),
    ("UPDATE PARTS SET WEIGHT = WEIGHT", 29, "SET takes literals"),
    ("UPDATE PARTS SET WEIGHT = 1 AND NAME = 'a'", 31, "a comma"),
    ("UPDATE PARTS P SET WEIGHT = 1", 16, "no second name"),
    ("UPDATE PARTS SET WEIGHT = 1 LIMIT 1", 31, "all rows"),
    ("DELETE PARTS WHERE NAME = 'a'", 10, "DELETE FROM T"),
    # tables and indexes
    ("CREATE TABLE IF NOT EXISTS X (A BIGINT)", 19, "no IF NOT EXISTS"),
    ("CREATE TEMP TABLE X (A BIGINT)", 10, "in memory"),
    ("CREATE VIEW V AS SELECT * FROM PARTS", 10, "tables and indexes are all"),
    ("CREATE TABLE X (A INT)", 21, "BIGINT and VARCHAR(n)"),
    ("CREATE TABLE X (A DATE)", 21, "no dates"),
    ("CREATE TABLE X (A TIME)", 21, "no dates"),
    ("CREATE TABLE X (A DECIMAL(10, 2))", 21, "no fractions"),
    ("CREATE TABLE X (A BOOLEAN)", 21, "no truth values"),
    ("CREATE TABLE X (A VARCHAR, B BIGINT)", 28, "VARCHAR(40)"),
    ("CREATE TABLE X (A VARCHAR(300))", 3, "n of VARCHAR(n)"),
    ("CREATE TABLE X (A BIGINT NOT NULL)", 28, "may hold NULL"),
    ("CREATE TABLE X (A BIGINT PRIMARY KEY)", 28, "CREATE UNIQUE INDEX"),
    ("CREATE TABLE X (A BIGINT, PRIMARY KEY (A))", 37, "CREATE UNIQUE INDEX"),
    ("CREATE TABLE X (A BIGINT UNIQUE)", 28, "CREATE UNIQUE INDEX"),
    ("CREATE TABLE X (A BIGINT AUTO_INCREMENT)", 28, "no column counts"),
    ("CREATE TABLE X (A BIGINT,)", 28, "no comma"),
    ("CREATE TABLE X (TIME BIGINT)", 19, "TIME_ is one"),
    ("CREATE INDEX ON PARTS (NAME)", 16, "an index has a name"),
    ("CREATE INDEX I ON PARTS (NAME DESC)", 33, "the least first"),
    ("CREATE INDEX I ON PARTS USING BTREE (NAME)", 27, "a tree"),
    # cursors and transactions
    ("OPEN C FOR SELECT * FROM PARTS", 10, "OPEN C SELECT"),
    ("OPEN C", 9, "OPEN C SELECT"),
    ("FETCH C ALL", 11, "tools/shell/expand.py"),
    ("FETCH ALL", 9, "tools/shell/expand.py"),
    ("FETCH 10 FROM C", 9, "one row"),
    ("FETCH PRIOR FROM C", 15, "goes forward"),
    ("CLOSE ALL", 9, "closes one cursor"),
    ("BEGIN READ WRITE", 14, "BEGIN may write"),
    ("BEGIN ISOLATION LEVEL SERIALIZABLE", 9, "the snapshot of its BEGIN"),
    ("COMMIT; BEGIN", 11, "one statement"),
    # queries
    ("OPEN C SELECT DISTINCT NAME FROM PARTS", 26, "no DISTINCT"),
    ("OPEN C SELECT COUNT(*) FROM PARTS", 22, "no counts"),
    ("OPEN C SELECT NAME AS N FROM PARTS", 22, "no second name"),
    ("OPEN C SELECT P.* FROM PARTS P", 19, "all columns"),
    ("OPEN C SELECT WEIGHT * 2 FROM PARTS", 24, "no arithmetic"),
    ("OPEN C SELECT NAME FROM (SELECT * FROM PARTS) X", 27, "no queries within others"),
    ("OPEN C SELECT NAME FROM PARTS AS P", 36, "without AS"),
    ("OPEN C SELECT NAME FROM PARTS LEFT JOIN PARTS Q ON PARTS.NAME = Q.NAME", 38, "no outer joins"),
    ("OPEN C SELECT NAME FROM PARTS P JOIN PARTS Q USING (NAME)", 35, "joined by commas"),
    ("OPEN C SELECT NAME FROM PARTS UNION SELECT NAME FROM PARTS", 39, "no UNION"),
    ("OPEN C SELECT NAME FROM PARTS WHERE NAME NOT IN ('a')", 44, "A <> 1 AND A <> 2"),
    ("OPEN C SELECT NAME FROM PARTS WHERE NAME IN (SELECT NAME FROM PARTS)", 48, "no queries within others"),
    ("OPEN C SELECT NAME FROM PARTS WHERE NAME == 'a'", 45, "`=` is written once"),
    ("OPEN C SELECT NAME FROM PARTS WHERE UPPER(NAME) = 'A'", 44, "no functions"),
    ("OPEN C SELECT NAME FROM PARTS WHERE (NAME = 'a' AND WEIGHT = 1) OR WEIGHT = 2", 51, "in parentheses stands OR alone"),
    ("OPEN C SELECT NAME FROM PARTS GROUP BY NAME", 39, "no groups"),
    ("OPEN C SELECT NAME FROM PARTS ORDER BY 1", 42, "names columns"),
    ("OPEN C SELECT NAME FROM PARTS ORDER BY NAME NULLS LAST", 47, "NULL first"),
    ("OPEN C SELECT NAME FROM PARTS LIMIT 5 OFFSET 2", 39, "no LIMIT"),
    ("OPEN C SELECT NAME FROM PARTS FETCH FIRST 10 ROWS ONLY", 33, "FETCH as many rows"),
    ("OPEN C SELECT NAME FROM PARTS FOR UPDATE", 33, "takes a row"),
    ("OPEN C SELECT NAME FROM PARTS OPTIMIZE FOR 10 ROWS", 46, "two goals"),
]


class SqlHabits(unittest.TestCase):
    def test_each_is_told_at_its_place_with_what_stands_for_it(self):
        for statement, column, words in HABITS:
            (finding,) = findings(f"{TABLE}1 {statement}\n")
            self.assertEqual((finding.line, finding.column), (2, column), (statement, finding.words))
            self.assertIn(words, finding.words, statement)

    def test_a_word_that_is_a_mistyped_one_has_no_hint(self):
        for statement in ("COMIT", "CREATE INDEX I PARTS (NAME)", "INSERT INTO PARTS VALUES ('a' 1)", "OPEN C SELECT NAME PARTS"):
            (finding,) = findings(f"{TABLE}1 {statement}\n")
            self.assertIn("does not fit", finding.words)
            self.assertNotIn(" (", finding.words)

    def test_shape(self):
        text = "insert into PARTS (A) values ('x', -5)"
        self.assertEqual(shape_of(tokens(text), text.index("(")), "INSERT INTO PARTS @ ( A ) VALUES ( ' , 1 )")
        self.assertEqual(shape_of(tokens("COMMIT"), 6), "COMMIT @")

    def test_long_statements(self):
        for part in ("NAME = 'a' AND ", "(NAME = 'a' OR WEIGHT = 2) AND ", "WEIGHT IN (1, 2) AND ", "P.WEIGHT = Q.WEIGHT AND "):
            text = "1 OPEN C SELECT P.NAME FROM PARTS P, PARTS Q WHERE " + part * (3900 // len(part)) + "P.NAME "
            (finding,) = findings(f"{TABLE}{text}LIKE 'a%'\n")
            self.assertEqual(finding.column, len(text) + 1)
            self.assertIn("there is no LIKE", finding.words)

    def test_names_that_are_words_of_sql_are_names(self):
        script = "1 CREATE TABLE LIMIT_ (DESC BIGINT, COUNT BIGINT, TEXT VARCHAR(9))\n1 BEGIN\n1 OPEN ALL SELECT L.DESC, COUNT FROM LIMIT_ L\n1 FETCH ALL\n"
        self.assertEqual(list(findings(script)), [])


if __name__ == "__main__":
    unittest.main()
