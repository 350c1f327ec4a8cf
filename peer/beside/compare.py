"""Compares what a server gave for a script with what gx gives."""

from collections import Counter
from dataclasses import dataclass, replace

from beside.answers import Answer, Row, row_text
from beside.drive import ServerRun
from beside.opened import OPEN, OTHER, SAME, Opened, cut_answer, opened_rows, opened_script, same_rows
from beside.oracle import ask_about
from beside.script import Line, Script

LIMIT = "limit"


@dataclass(frozen=True)
class Difference:
    """A line or a table of which gx and the server say different things; `reason` is the class of a known difference."""

    place: int
    name: str
    statement: str
    ours: tuple[str, ...]
    theirs: tuple[str, ...]
    reason: str | None = None

    def known(self, reason: str) -> "Difference":
        """The same, explained."""
        return replace(self, reason=reason)


@dataclass(frozen=True)
class Expected:
    """What gx gives for a script, by the lines' names, with its queries opened."""

    answers: dict[str, Answer]
    tables: dict[str, list[Row]]
    opened: dict[str, Opened]


def expected(program: str, script: Script) -> Expected:
    """What gx gives for a script: it is asked once, with the queries opened, and what it says of these is cut at their limits."""
    wide = opened_script(script)
    verdicts = ask_about(program, wide)
    opened = {
        before.name: opened_rows(before, verdicts.answers[line.name])
        for before, line in zip(script.lines, wide.lines)
        if before is not line and line.name in verdicts.answers and not verdicts.answers[line.name].refusal
    }
    cut = {line.name: cut_answer(line, opened[line.name]) for line in script.lines if line.name in opened}
    return Expected(verdicts.answers | cut, verdicts.tables, opened)


def compare_answers(ours: Answer, theirs: Answer, opened: Opened | None) -> str:
    """How a server's answer stands to that of gx."""
    if (ours.refusal, ours.done, ours.count) != (theirs.refusal, theirs.done, theirs.count):
        return OTHER
    return same_rows(ours.rows, theirs.rows, opened)


def differences(script: Script, wanted: Expected, run: ServerRun) -> list[Difference]:
    """All lines and tables that differ, in the order of the file."""
    found = [
        difference
        for line in script.lines
        if (difference := line_difference(line, wanted, run.passages[line.name].answer)) is not None
    ]
    return found + table_differences(script, wanted.tables, run.tables)


def line_difference(line: Line, wanted: Expected, theirs: Answer | None) -> Difference | None:
    """How a line's answers differ, if they do."""
    ours = wanted.answers[line.name]
    assert theirs is not None
    how = compare_answers(ours, theirs, wanted.opened.get(line.name))
    if how == SAME:
        return None
    reason = LIMIT if how == OPEN else None
    return Difference(line.place, line.name, line.written, tuple(ours.lines()), tuple(theirs.lines()), reason)


def table_differences(script: Script, ours: dict[str, list[Row]], theirs: dict[str, list[Row]]) -> list[Difference]:
    """The final tables that differ, as multisets of rows."""
    return [
        Difference(0, f"table {table.name}", "", tuple(table_text(ours[table.name])), tuple(table_text(theirs[table.name])))
        for table in script.tables
        if Counter(ours[table.name]) != Counter(theirs[table.name])
    ]


def table_text(rows: list[Row]) -> list[str]:
    """A table's rows as text, sorted, below their number."""
    return [str(len(rows)), *sorted(row_text(row) for row in rows)]
