"""Queries without their limit and with what orders their rows: so gx tells which rows a server may give, and in which order."""

from collections import Counter
from dataclasses import dataclass, replace
from itertools import groupby

from beside.answers import Answer, Row
from beside.script import Line, Script
from beside.tokens import Token

SAME, OPEN, OTHER = "same", "open", "other"
COMMA = Token("sign", ",")


@dataclass(frozen=True)
class Opened:
    """All rows of a query, in gx's order, in runs that its ORDER BY doesn't tell apart."""

    ties: tuple[tuple[Row, ...], ...]


def order_keys(line: Line) -> list[Token]:
    """The columns of a query's ORDER BY."""
    start, end = line.place_of("order"), line.place_of("limit")
    return [] if start is None else [token for token in line.statement[start:end] if token.kind == "name"]


def is_to_open(line: Line) -> bool:
    """Whether a query's rows have an order or a limit."""
    return line.kind == "select" and (line.place_of("order") is not None or line.place_of("limit") is not None)


def opened_line(line: Line, script: Script) -> Line:
    """The query without its limit, and with the columns of its ORDER BY behind its own."""
    if not is_to_open(line):
        return line
    statement = list(line.statement[: line.place_of("limit")])
    items = statement[1 : line.place_of("from")]
    behind = statement[1 + len(items) :]
    if items[0].text == "*":
        items = joined([Token("name", column.name) for column in script.table(line.table).columns])
    keys = [token for key in order_keys(line) for token in (COMMA, key)]
    return replace(line, statement=(statement[0], *items, *keys, *behind))


def joined(names: list[Token]) -> list[Token]:
    """Names with commas between them."""
    return [token for name in names for token in (COMMA, name)][1:]


def opened_script(script: Script) -> Script:
    """The script with its queries opened."""
    return replace(script, lines=tuple(opened_line(line, script) for line in script.lines))


def opened_rows(line: Line, answer: Answer) -> Opened:
    """The rows that gx gives for an opened query."""
    keys = len(order_keys(line))

    def key_of(row: Row) -> Row:
        return row[len(row) - keys :]

    runs = (tuple(row[: len(row) - keys] for row in run) for _, run in groupby(answer.rows, key_of))
    return Opened(tuple(runs))


def cut_answer(line: Line, opened: Opened) -> Answer:
    """The answer of gx to the query itself."""
    limit = line.place_of("limit")
    rows = tuple(row for run in opened.ties for row in run)
    rows = rows if limit is None else rows[: int(line.statement[limit + 1].text)]
    return Answer(done="SELECT", count=len(rows), rows=rows)


def same_rows(ours: tuple[Row, ...], theirs: tuple[Row, ...], opened: Opened | None) -> str:
    """How a server's rows stand to those of gx: the same, others that the query leaves open, or others that it doesn't.

    Without an order or a limit both are looked at as multisets.
    """
    if opened is None:
        return SAME if Counter(ours) == Counter(theirs) else OTHER
    if len(ours) != len(theirs):
        return OTHER
    at = 0
    for run in opened.ties:
        behind = at + len(run)
        mine, yours = Counter(ours[at:behind]), Counter(theirs[at:behind])
        if mine != yours:
            is_cut = behind > len(ours)
            return OPEN if is_cut and yours <= Counter(run) else OTHER
        at = behind
    return SAME
