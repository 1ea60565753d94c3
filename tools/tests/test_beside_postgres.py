"""The comparison with PostgreSQL, without a server: statements in its words, and a replay over answers that stand here."""
import random
import subprocess
import sys
import tempfile
import unittest
from pathlib import Path

from fuzz import beside_postgres
from fuzz.beside_postgres import Differs, Replay, Script, given_script, random_script, spoiled, transcript, values_of
from fuzz.postgres_server import Answer, NoServer, programs
from fuzz.postgres_sessions import sql, theirs
from model.language import calls_of, fault_of, statement

TOOLS = Path(__file__).resolve().parents[1]
WAIT, CHANGED, DUPLICATE = Answer("55P03", [], "lock timeout"), Answer("40001", []), Answer("23505", [])
DONE = Answer("00000", [])
COLUMNS = {"T": [("A", None), ("B", 4)]}


def rows(*given: list) -> Answer:
    return Answer("00000", [list(row) for row in given])


class Words(unittest.TestCase):
    def said(self, text: str, wanted: str, number: int | None = None):
        self.assertEqual(sql(statement(text), COLUMNS, number), wanted)

    def test_tables_and_indexes(self):
        self.said("CREATE TABLE U (A BIGINT, B VARCHAR(3))", 'CREATE TABLE "U" ("#" bigint, "A" bigint, "B" varchar(3))')
        self.said("CREATE UNIQUE INDEX T ON T (B, A)", 'CREATE UNIQUE INDEX "T#" ON "T" ("B", "A")')

    def test_writes(self):
        self.said(
            "INSERT INTO T VALUES (-5, 'it''s')",
            """INSERT INTO "T" ("#", "A", "B") VALUES (7, '-5'::bigint, 'it''s'::text) RETURNING "#\"""",
            7,
        )
        self.said(
            "UPDATE T SET A = NULL WHERE A = 1 OR B IS NOT NULL",
            """UPDATE "T" SET "A" = NULL WHERE ("A" = '1'::bigint OR "B" IS NOT NULL) RETURNING "#\"""",
        )
        self.said("DELETE FROM T", 'DELETE FROM "T" RETURNING "#"')

    def test_cursors(self):
        self.said(
            "OPEN C SELECT * FROM T, T X WHERE T.A = X.A AND X.B STARTING WITH 'a' AND X.A IN (1, NULL) ORDER BY X.B OPTIMIZE FOR FAST FIRST",
            'DECLARE "C" NO SCROLL CURSOR FOR SELECT "T"."A", "T"."B", "X"."A", "X"."B", "X"."B" FROM "T", "T" "X" WHERE ("T"."A" = "X"."A") AND '
            """(starts_with("X"."B", 'a'::text)) AND ("X"."A" IN ('1'::bigint, NULL)) ORDER BY "X"."B" NULLS FIRST""",
        )

    def test_answers(self):
        self.assertEqual([theirs(answer) for answer in (DONE, WAIT, CHANGED, DUPLICATE, Answer("XX000", []))], [None, "wait", "changed", "duplicate", "XX000"])
        self.assertEqual(theirs(Answer("42601", [], 'multiple assignments to same column "A"')), "exists")
        self.assertEqual(values_of("row NULL, -7, 'a'', b'"), (None, -7, "a', b"))
        with self.assertRaises(Differs):
            values_of("row 1 2 ?")


class StandIn:
    """Sessions whose answers stand here: of each call the next one; of a look by what it asks for."""

    def __init__(self, *answers: Answer, looks: dict[str, list] | None = None, conflicts: list | None = None):
        self.answers, self.looks, self.tried = list(answers), looks or {}, conflicts or []
        self.all = [self]
        self.undone = 0

    def begin_again(self):
        pass

    def send(self, *texts):
        return DONE

    def begin(self, at, read_only):
        return DONE

    def end(self, at, how):
        return DONE

    def make(self, at, text):
        return self.answers.pop(0)

    def alone(self, at, text):
        return self.answers.pop(0)

    def undo(self, at):
        self.undone += 1

    def look(self, at, text):
        return next((found for part, found in self.looks.items() if part in text), [])

    def conflicts(self, at, table, places):
        return self.tried


MADE = "8 CREATE TABLE T (A BIGINT, B VARCHAR(4))\n= created\n8 CREATE UNIQUE INDEX U ON T (A)\n= created\n1 BEGIN\n= began 1\n"


class Replays(unittest.TestCase):
    def replayed(self, text: str, *answers: Answer, **more) -> Replay:
        lines = (MADE + text).splitlines()
        replay = Replay(StandIn(*answers, **more))
        replay.run([(int(call[0]), call[2:], reply[2:]) for call, reply in zip(lines[::2], lines[1::2])])
        return replay

    def differs(self, words: str, text: str, *answers: Answer, **more):
        with self.assertRaisesRegex(Differs, words):
            self.replayed(text, *answers, **more)

    def test_rows(self):
        read = "1 OPEN C SELECT A FROM T ORDER BY B\n= opened\n1 FETCH C\n= row 5\n1 FETCH C\n= row 4\n1 FETCH C\n= end\n"
        first, second = rows(["5", "a"]), rows(["4", "b"])
        replay = self.replayed(read, DONE, first, second, DONE)
        self.assertEqual(replay.agreed["rows compared"], 2)
        self.replayed(read, DONE, rows(["4", "a"]), rows(["5", "a"]), DONE)
        self.differs("row 1 of cursor C is .5,.; PostgreSQL has there", read, DONE, second, first, DONE)
        self.differs("PostgreSQL is at its end", read, DONE, first, DONE)
        self.differs("has another row", read, DONE, first, second, rows(["3", "c"]))
        self.differs("a row behind the end", read + "1 FETCH C\n= row 4\n", DONE, first, second, DONE, DONE)
        self.differs("row 2 of cursor C", read, DONE, first, rows(["44", "b"]), DONE)

    def test_numbers_and_counts(self):
        self.differs("this is BEGIN 2", "2 BEGIN\n= began 3\n")
        self.differs("this is commit 0", "1 COMMIT\n= committed 1\n")
        self.differs("touches the rows .0, 1.", "1 DELETE FROM T\n= touched 1\n", rows(["0"], ["1"]))
        self.differs("the session has no such transaction", "1 BEGIN\n= active 2\n")
        self.differs("active are .1.", "8 CREATE TABLE V (A BIGINT)\n= busy 2\n")

    HELD = "1 UPDATE T SET B = 'x'\n= touched 1\n2 BEGIN\n= began 2\n2 DELETE FROM T\n= held 3 by 1\n"

    def test_held(self):
        looks = {"ctid": [["3", "(0,1)"]]}
        replay = self.replayed(self.HELD, rows(["3"]), WAIT, looks=looks, conflicts=["wait"])
        self.assertEqual(dict(replay.known), {beside_postgres.NOBODY_WAITS: 1})
        self.differs("row by row PostgreSQL has None", self.HELD, rows(["3"]), DONE, looks=looks, conflicts=[None])
        self.differs("row by row PostgreSQL has .'changed', 3", self.HELD, rows(["3"]), CHANGED, looks=looks, conflicts=["changed"])
        self.differs("transaction 1 has not written it", self.HELD, rows(["4"]), WAIT, looks=looks, conflicts=["wait"])
        self.differs("refuses it: 55P03", self.HELD.replace("held 3 by 1", "touched 1"), rows(["3"]), WAIT, looks=looks, conflicts=["wait"])

    FREED = (
        "1 INSERT INTO T VALUES (1, NULL)\n= inserted 0\n1 COMMIT\n= committed 1\n1 BEGIN\n= began 2\n2 BEGIN\n= began 3\n"
        "2 DELETE FROM T\n= touched 1\n2 COMMIT\n= committed 2\n1 INSERT INTO T VALUES (1, NULL)\n= duplicate 0\n"
    )

    def test_key_of_a_later_commit(self):
        looks = {'"#" = 0': [["0", "1", None]]}
        replay = self.replayed(self.FREED, rows(["0"]), rows(["0"]), DONE, looks=looks)
        self.assertEqual((dict(replay.known), replay.sessions.undone), ({beside_postgres.STILL_SEEN: 1}, 1))
        self.differs("there is no row 0", self.FREED, rows(["0"]), rows(["0"]), DONE)
        self.differs("equals the new one in no unique index", self.FREED, rows(["0"]), rows(["0"]), DONE, looks={'"#" = 0': [["0", "2", None]]})
        still_there = self.FREED.replace("2 DELETE FROM T\n= touched 1\n2 COMMIT\n= committed 2\n", "")
        self.differs("PostgreSQL does it", still_there, rows(["0"]), DONE, looks=looks)

    GIVEN = (
        "1 INSERT INTO T VALUES (7, NULL)\n= inserted 0\n1 UPDATE T SET A = 8\n= touched 1\n"
        "2 BEGIN\n= began 2\n2 INSERT INTO T VALUES (7, NULL)\n= inserted 1\n"
    )

    def test_key_that_was_given_up(self):
        replay = self.replayed(self.GIVEN, rows(["0"]), rows(["0"]), WAIT, looks={"SELECT *": [["0", "8", None]]})
        self.assertEqual(dict(replay.known), {beside_postgres.GIVEN_UP: 1})
        self.differs("refuses it: 55P03", self.GIVEN, rows(["0"]), rows(["0"]), WAIT, looks={"SELECT *": [["0", "7", None]]})

    def test_kinds_that_postgres_takes(self):
        for value, sentence in [("5", beside_postgres.NO_CAST), ("'abc   '", beside_postgres.BLANKS), ("'äöü'", beside_postgres.BYTES)]:
            replay = self.replayed(f"1 INSERT INTO T VALUES (1, {value})\n= kind B\n", DONE)
            self.assertEqual(dict(replay.known), {sentence: 1})
        self.differs("PostgreSQL does it", "1 INSERT INTO T VALUES (1, 'abcd')\n= kind B\n", DONE)
        self.differs("PostgreSQL refuses it otherwise", "1 INSERT INTO T VALUES (1, 'abcd')\n= unknown B\n", DUPLICATE)
        self.differs("PostgreSQL does it", "1 OPEN C SELECT A FROM T\n= unknown A\n", DONE)


class Scripts(unittest.TestCase):
    def test_number_and_seed_make_a_script(self):
        made = [random_script(3, number) for number in range(10)]
        self.assertEqual(made[0], random_script(3, 0))
        self.assertEqual([fault_of(script.text.encode()) for script in made if not script.broken], [None] * sum(not script.broken for script in made))
        self.assertGreater(max(len({call.session for call in calls_of(script.text) if hasattr(call, "session")}) for script in made), 5)

    def test_replies_of_a_transcript_are_left_out(self):
        with tempfile.NamedTemporaryFile("w", suffix=".transcript") as file:
            file.write("# a note\n1 BEGIN\n= began 1\n1 COMMIT\n= committed 0\n")
            file.flush()
            self.assertEqual([call.line for call in calls_of(given_script(file.name).text)], [2, 4])

    def test_one_reply_is_spoiled(self):
        told = transcript(str(TOOLS / "model/slow_program.py"), given_script(str(TOOLS.parent / "examples" / "conflicts")), 60)
        for seed in range(20):
            wrong, at, what = spoiled(random.Random(seed), told)
            self.assertEqual([number for number, (a, b) in enumerate(zip(told, wrong)) if a != b], [at])
            self.assertIn(f"call {at + 1}", what)

    def test_program_that_fails_is_told(self):
        with self.assertRaisesRegex(beside_postgres.NoRun, "status 2: script: line 1 has no session"):
            transcript(str(TOOLS / "model/slow_program.py"), Script("", "9 BEGIN\n"), 60)


class NoPostgres(unittest.TestCase):
    def ran(self, *words: object) -> subprocess.CompletedProcess:
        return subprocess.run([sys.executable, TOOLS / "fuzz/beside_postgres.py", *words], capture_output=True, text=True, check=False)

    def test_where_there_is_none_it_is_said(self):
        with self.assertRaisesRegex(NoServer, "no PostgreSQL of version 15 or later in /nowhere"):
            programs("/nowhere")
        told = self.ran(TOOLS / "model/slow_program.py", "--postgres", "/nowhere")
        self.assertEqual((told.returncode, told.stdout), (0, ""))
        self.assertEqual(told.stderr, "beside_postgres: there is no PostgreSQL of version 15 or later in /nowhere; nothing was compared\n")

    def test_program_that_is_not_there(self):
        told = self.ran("/nowhere/program")
        self.assertEqual((told.returncode, told.stderr), (2, "beside_postgres: /nowhere/program: No such file or directory\n"))


if __name__ == "__main__":
    unittest.main()
