"""What counts as the same, and what is looked at besides."""

import unittest

from beside.answers import DIVISION, OVERFLOW, Answer, row_of, row_text
from beside.constants import constant_fault
from beside.evaluation import as_evaluated
from beside.opened import OPEN, OTHER, SAME, Opened, cut_answer, opened_rows, opened_script, same_rows
from beside.oracle import read_verdicts
from beside.script import read_script
from beside.shrink import shrunk
from beside.tokens import tokens_of
from beside.waits import Wait, is_in_cycle

A, B, C = (1,), (2,), (3,)


class Rows(unittest.TestCase):
    """Rows of queries."""

    def test_without_order_rows_are_a_multiset(self) -> None:
        self.assertEqual(same_rows((A, B, B), (B, A, B), None), SAME)
        self.assertEqual(same_rows((A, B, B), (A, A, B), None), OTHER)

    def test_an_order_fixes_all_but_ties(self) -> None:
        opened = Opened(((A,), (B, C)))
        self.assertEqual(same_rows((A, B, C), (A, C, B), opened), SAME)
        self.assertEqual(same_rows((A, B, C), (B, A, C), opened), OTHER)

    def test_a_limit_leaves_open_what_it_cuts(self) -> None:
        opened = Opened(((A,), (B, C)))
        self.assertEqual(same_rows((A, B), (A, C), opened), OPEN)
        self.assertEqual(same_rows((A, B), (A, A), opened), OTHER)
        self.assertEqual(same_rows((A, B), (B, A), opened), OTHER)
        self.assertEqual(same_rows((), (), opened), SAME)

    def test_queries_are_opened_by_their_keys(self) -> None:
        heads = "segments 1\ntable t (a bigint, b bigint) distributed by (a)\n"
        script = read_script(heads + "s: SELECT * FROM t ORDER BY b DESC, a LIMIT 2\ns: SELECT a FROM t\n")
        self.assertEqual([line.text for line in opened_script(script).lines], ["select a , b , b , a from t order by b desc , a", "select a from t"])

    def test_an_opened_answer_is_cut_at_its_limit(self) -> None:
        heads = "segments 1\ntable t (a bigint, b bigint) distributed by (a)\n"
        line = read_script(heads + "s: SELECT a FROM t ORDER BY b LIMIT 2\n").lines[0]
        opened = opened_rows(line, Answer(done="SELECT", count=3, rows=((1, 7), (2, 7), (3, 8))))
        self.assertEqual(opened.ties, ((A, B), (C,)))
        self.assertEqual(cut_answer(line, opened), Answer(done="SELECT", count=2, rows=(A, B)))

    def test_a_row_is_read_as_it_is_written(self) -> None:
        row = (None, -3, "it's | one")
        self.assertEqual(row_of(row_text(row)), row)


class Verdicts(unittest.TestCase):
    """What gx prints."""

    def test_answers_tables_and_rounds(self) -> None:
        said = "s1.1 SELECT 1\n  1\ns1.2 ERROR 2 victim of round 1\ntable t 0\nrun 2\n1.0 start s1\n  begin 1 s1\n  recheck 1: victims 1\n"
        verdicts = read_verdicts(said)
        self.assertEqual(verdicts.answers["s1.1"], Answer(done="SELECT", count=1, rows=((1,),)))
        self.assertEqual(verdicts.answers["s1.2"].refusal, "deadlock victim")
        self.assertEqual(verdicts.tables, {"t": []})
        self.assertEqual(verdicts.rounds, [["s1"]])


class Besides(unittest.TestCase):
    """Evaluation, cycles and shrinking."""

    def test_statements_as_they_are_evaluated(self) -> None:
        script = read_script(
            "segments 1\ntable t (a bigint, b bigint, s text) distributed by (a)\n"
            "s: SELECT * FROM t WHERE 10 / b > 1 AND NOT (b % 2 = 1 OR 1 = 1) AND a = 2 ORDER BY a\n"
            "s: UPDATE t SET s = '', b = b + 1\n"
        )
        select, update = (as_evaluated(line, script).text for line in script.lines)
        self.assertEqual(select, "select * from t where a = 2 and 10 / b > 1 and not ( 1 = 1 or b % 2 = 1 ) order by a")
        self.assertEqual(update, "update t set b = b + 1 , s = '' where ( b + 1 ) = ( b + 1 )")

    def test_constants_that_fault(self) -> None:
        for text, fault in (
            ("b = 1 / 0", DIVISION),
            ("b / 0 = 1", None),
            ("1 = 2 AND 1 / 0 = 1", None),
            ("a = 2 AND 1 % (3 - 3) = 1", DIVISION),
            ("9223372036854775807 + 1 > b", OVERFLOW),
            ("-9223372036854775808 % -1 = 0 OR -9223372036854775808 / -1 = 0", None),
            ("-9223372036854775808 / -1 = b", OVERFLOW),
            ("'a' < 'b' AND -(-9223372036854775808) = 1", OVERFLOW),
        ):
            self.assertEqual(constant_fault(tokens_of(text)), fault, text)

    def test_cycles(self) -> None:
        def waits_for(*names: str) -> Wait:
            return Wait(False, frozenset(names))

        waits = {"one": waits_for("two", "four"), "two": waits_for("one"), "three": waits_for("one")}
        self.assertTrue(is_in_cycle("one", waits))
        self.assertFalse(is_in_cycle("three", waits))

    def test_no_line_that_is_left_can_go(self) -> None:
        self.assertEqual(shrunk(list("abcdefghijk"), lambda lines: {"c", "j"} <= set(lines)), ["c", "j"])


if __name__ == "__main__":
    unittest.main()
