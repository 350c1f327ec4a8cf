"""Whether refusals that a server gave earlier than gx, or to another, were due where it gave them."""

import re
from collections.abc import Collection
from dataclasses import replace

from beside.answers import SERIALIZATION, VICTIM
from beside.changes import ASIDE, ROLLBACK, Order, placed, released, renumbered, started
from beside.drive import Passage, ServerRun
from beside.oracle import BEGIN, NoOracle, Refused, ask_about, ask_trace
from beside.script import Line, Script
from beside.waits import Wait, is_in_cycle

EDGE = re.compile(r"(\d+)>(\d+)")


def is_due(changed: Script, passage: Passage, refused: Collection[str], run: ServerRun, program: str) -> bool:
    """Whether a refusal was due: of a row that has changed since the snapshot, whoever else is rolled back; or by a deadlock."""
    assert passage.answer is not None
    try:
        if passage.answer.refusal == SERIALIZATION:
            return is_overtaken(changed, passage, run, program)
        return passage.answer.refusal == VICTIM and is_deadlocked(changed, passage, refused, run, program)
    except (Refused, NoOracle):
        return False


def is_overtaken(changed: Script, passage: Passage, run: ServerRun, program: str) -> bool:
    """Whether gx refuses the line for a row that has changed, once all others are rolled back."""
    at = next(i for i, line in enumerate(changed.lines) if line.place and line.name == passage.line.name)
    others = [session for session in changed.sessions if session not in (passage.line.session, ASIDE.name)]
    rolled = [Line(session, 0, 0, ROLLBACK, "") for session in others]
    asked, _ = renumbered(replace(changed, lines=(*changed.lines[:at], *rolled, passage.line)))
    return ask_about(program, asked).answers[asked.lines[-1].name].refusal == SERIALIZATION


def is_deadlocked(changed: Script, passage: Passage, refused: Collection[str], run: ServerRun, program: str) -> bool:
    """Whether a deadlock through the line stands in gx, once all that was started before its refusal has been.

    That is looked at twice: with the lines in the order in which they were started, and with those that waited where their waits
    ended, and the line itself last.
    """
    moment = released(passage)

    def ended(other: Passage) -> int:
        return min(released(other), moment + (other is passage))

    for moment_of in (started, ended):
        lines = [
            as_it_stood(line, refused, run, moment)
            for at, line in placed(changed, run, Order(moment_of), ())
            if at <= moment or (line.place and line.name == passage.line.name)
        ]
        asked, _ = renumbered(replace(changed, lines=tuple(lines)))
        trace = ask_trace(program, asked)
        if any(is_in_cycle(passage.line.session, waits) for waits in waits_of_rounds(trace)):
            return True
    return False


def as_it_stood(line: Line, refused: Collection[str], run: ServerRun, moment: int) -> Line:
    """A line as it stood before a moment: as it is written, where it was refused only then."""
    if line.place and line.name in refused and released(run.passages[line.name]) >= moment:
        return run.passages[line.name].line
    return line


def waits_of_rounds(trace: str) -> list[dict[str, Wait]]:
    """Who waits for whom, in each round of a trace."""
    session = dict(BEGIN.findall(trace))
    rounds: dict[str, dict[str, Wait]] = {}
    for number, edges in re.findall(r"^  report \d+ (\d+):(.*)$", trace, re.MULTILINE):
        waits = rounds.setdefault(number, {})
        for waiter, holder in EDGE.findall(edges):
            before = waits.get(session[waiter], Wait(False, frozenset()))
            waits[session[waiter]] = Wait(False, before.blockers | {session[holder]})
    return list(rounds.values())
