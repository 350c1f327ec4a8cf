"""A script's statements in the server's words."""

import unittest

from beside import sql
from beside.script import left_out, read_script

HEADS = "segments 2\ntable t (a bigint, s text) distributed by (a)\ntable ctid (xmin bigint) distributed randomly\n"


def sent(statement: str) -> str:
    """What is sent for a statement."""
    return sql.statement_sql(read_script(f"{HEADS}s1: {statement}\n").lines[0])


class Scripts(unittest.TestCase):
    """Reading and writing."""

    def test_text_is_read_as_the_same_script(self) -> None:
        script = read_script(HEADS + "-- no line\r\n\ns1 : Select * From t;\ns2:INSERT INTO t VALUES (-1, 'o''k; --')\r\ns1: COMMIT\n")
        again = read_script(script.text)
        self.assertEqual([line.name for line in script.lines], ["s1.1", "s2.1", "s1.2"])
        self.assertEqual([line.place for line in script.lines], [6, 7, 8])
        self.assertEqual([line.statement for line in again.lines], [line.statement for line in script.lines])
        self.assertEqual(again.tables, script.tables)

    def test_numbers_are_bigint_and_a_sign_belongs_to_its_literal(self) -> None:
        self.assertEqual(sent("DELETE FROM t WHERE a - 1 = - - 2"), 'DELETE FROM "t" WHERE "a" - (1)::bigint = - (-2)::bigint')
        self.assertEqual(sent("DELETE FROM t WHERE (a) -1 = -(1)"), 'DELETE FROM "t" WHERE ( "a" ) - (1)::bigint = - ( (1)::bigint )')
        least = sent("INSERT INTO ctid VALUES (-9223372036854775808)")
        self.assertEqual(least, 'INSERT INTO "CTID" VALUES ( (-9223372036854775808)::bigint )')

    def test_limit_and_names(self) -> None:
        self.assertEqual(sent("SELECT xmin FROM ctid LIMIT 18446744073709551615"), 'SELECT "XMIN" FROM "CTID" LIMIT 9223372036854775807')
        self.assertEqual(sent("SELECT s FROM t WHERE s < 'a'"), """SELECT "s" FROM "t" WHERE "s" < 'a' COLLATE "C\"""")

    def test_tables(self) -> None:
        first, second = read_script(HEADS).tables
        self.assertEqual(sql.create_table(first, False), 'CREATE TABLE "t" ("a" bigint NOT NULL, "s" text COLLATE "C" NOT NULL)')
        self.assertTrue(sql.create_table(first, True).endswith(' DISTRIBUTED BY ("a")'))
        self.assertEqual(sql.create_table(second, True), 'CREATE TABLE "CTID" ("XMIN" bigint NOT NULL) DISTRIBUTED RANDOMLY')

    def test_what_is_left_out(self) -> None:
        plain = read_script("segments 1\n")
        self.assertIsNone(left_out(plain, ["--trace"]))
        self.assertEqual(left_out(plain, ["--seed=3"]), "run with --seed")
        self.assertEqual(left_out(read_script("segments 1\ndetector off\n"), []), "detector off")
        self.assertEqual(left_out(read_script("segments 1\nlose to 1 number 3\n"), []), "messages lost or repeated")


if __name__ == "__main__":
    unittest.main()
