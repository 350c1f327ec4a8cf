"""Changes of a script that say in what a server's run differs from the one that gx makes of it."""

from collections.abc import Callable, Collection
from dataclasses import dataclass, replace

from beside.answers import DIVISION, FAULTS
from beside.drive import Passage, ServerRun
from beside.evaluation import as_evaluated, condition_of, faulting_query, may_fault, planned_fault
from beside.script import Column, Line, Script, Table
from beside.tokens import tokens_of

MOST_TABLES = MOST_SESSIONS = 64
ASIDE = Table("peer_aside", (Column("a", "bigint"),), "a")
ROLLBACK = tuple(tokens_of("ROLLBACK"))
NO_NUMBER = 0
FIRST = (0, 0)


def renumbered(script: Script) -> tuple[Script, dict[str, str]]:
    """The script with its lines numbered as they stand, and the name that each of the file's own lines had before."""
    counts: dict[str, int] = {}
    lines, names = [], {}
    for line in script.lines:
        counts[line.session] = counts.get(line.session, 0) + 1
        fresh = replace(line, number=counts[line.session])
        lines.append(fresh)
        if line.place:
            names[fresh.name] = line.name
    return replace(script, lines=tuple(lines)), names


def on_one_node(script: Script) -> Script:
    """All rows at one segment, as on a server that has no segments."""
    return replace(script, segments=1)


def has_room_aside(script: Script) -> bool:
    """Whether a table and a session more are within gx's limits."""
    return len(script.tables) < MOST_TABLES and len(script.sessions) < MOST_SESSIONS


def with_table_aside(script: Script) -> Script:
    """The script with one table more, which no line of its own names."""
    return script if ASIDE in script.tables else replace(script, tables=(*script.tables, ASIDE))


def with_faults(script: Script, faults: dict[str, str]) -> Script:
    """For each line of these names a query that faults in this class, so that its transaction aborts there."""
    if not faults or not has_room_aside(script):
        return script
    query = {fault: faulting_query(fault, ASIDE.name) for fault in FAULTS}
    lines = [
        replace(line, statement=query[faults[line.name]]) if line.place and line.name in faults else line
        for line in script.lines
    ]
    row = Line(ASIDE.name, 1, 0, tuple(tokens_of(f"INSERT INTO {ASIDE.name} VALUES (0)")), "")
    return replace(with_table_aside(script), lines=tuple(lines) if row in lines else (row, *lines))


def with_refusals(script: Script, names: Collection[str]) -> Script:
    """Lines that are refused, for whatever reason, where they stand."""
    return with_faults(script, dict.fromkeys(names, DIVISION))


def as_postgres_evaluates(script: Script) -> Script:
    """Statements as PostgreSQL evaluates them; where a constant faults, a query that does so stands for the statement."""
    faults = {line.name: fault for line in script.lines if line.place and (fault := planned_fault(line, script))}
    evaluated = replace(script, lines=tuple(as_evaluated(line, script) for line in script.lines))
    return with_faults(evaluated, faults)


def is_stopped_early(line: Line) -> bool:
    """Whether a query ends with its last row within its limit, so that a server may not come to a row that faults."""
    is_plain = all(line.place_of(word) is None for word in ("group", "order", "count", "sum", "min", "max"))
    return line.kind == "select" and line.place_of("limit") is not None and is_plain and may_fault(condition_of(line))


def without_rows(script: Script, names: Collection[str]) -> Script:
    """The queries of these names without their rows, so that they don't fault."""
    lines = [
        replace(line, statement=tuple(tokens_of(f"SELECT * FROM {line.table} LIMIT 0"))) if line.name in names else line
        for line in script.lines
    ]
    return replace(script, lines=tuple(lines))


@dataclass(frozen=True)
class Order:
    """An order of lines: the moment at which each stands, and how those stand that come to the same one.

    Those go as they were 'answered', in the 'opposite' order, or with the 'queries' first: which came first is seen of none.
    """

    moment_of: Callable[[Passage], int]
    ties: str = "answered"

    def rank(self, passage: Passage) -> tuple[int, int]:
        """What sorts the lines that come to one moment."""
        if self.ties == "opposite":
            return 1, -passage.place
        return 0 if self.ties == "queries" and passage.line.kind == "select" else 1, passage.place


def started(passage: Passage) -> int:
    """The moment at which a line was started."""
    return passage.started


def released_from_tables(passage: Passage) -> int:
    """The moment from which a line waited for its table no more."""
    return passage.waited_for_table[-1] + 1 if passage.waited_for_table else passage.started


def released(passage: Passage) -> int:
    """The moment from which a line waited no more."""
    return passage.waited[-1] + 1 if passage.waited else passage.started


def behind_overtakers(run: ServerRun) -> Callable[[Passage], int]:
    """For each line that waited, the last moment at which one was started that waited too and was answered before it."""

    def moment_of(passage: Passage) -> int:
        overtakers = (
            other.started
            for other in run.passages.values()
            if other.waited and other.place < passage.place and passage.started < other.started < released(passage)
        )
        return max(overtakers, default=passage.started) if passage.waited else passage.started

    return moment_of


def in_order_of(script: Script, run: ServerRun, order: Order, refused: Collection[str]) -> Script:
    """The lines as `placed` orders them."""
    return replace(script, lines=tuple(line for _, line in placed(script, run, order, refused)))


def placed(script: Script, run: ServerRun, order: Order, refused: Collection[str]) -> list[tuple[int, Line]]:
    """The lines in the order in which the server came to them, each with its moment; where sessions were ended, a ROLLBACK.

    Who was cancelled stays where it began to wait, unless it is one of those that are `refused` where they stand.
    """
    cancelled = {(choice.moment, victim) for choice in run.choices for victim in choice.victims}

    def place(line: Line) -> tuple[int, int, tuple[int, int]]:
        if line.session == ASIDE.name:
            return 0, 0, FIRST
        passage = run.passages[line.name]
        if not line.place:
            return passage.started, 0, FIRST
        is_refused = line.name in refused
        moment = released(passage) if is_refused else order.moment_of(passage)
        if moment == passage.started or ((moment, line.session) in cancelled and not is_refused):
            return passage.started, 1, FIRST
        return moment, 2, order.rank(passage)

    ends = [((moment, 1, FIRST), Line(session, NO_NUMBER, 0, ROLLBACK, "")) for moment, session in run.ends]
    ordered = ends + [(place(line), line) for line in script.lines if line.number != NO_NUMBER]
    ordered.sort(key=lambda found: found[0])
    return [(moment, line) for (moment, _, _), line in ordered]


def waited_for_tables(run: ServerRun) -> frozenset[str]:
    """The lines that waited on the server for their tables."""
    return frozenset(name for name, passage in run.passages.items() if passage.waited_for_table)


def with_early_snapshots(script: Script, names: Collection[str]) -> Script:
    """Before those of these lines that take a repeatable-read block's snapshot, a query of a table aside, which takes it."""
    query = tuple(tokens_of(f"SELECT COUNT(*) FROM {ASIDE.name}"))
    lines: list[Line] = []
    for line in script.lines:
        if line.place and line.name in names and takes_blocks_snapshot(line, script):
            lines.append(replace(line, place=0, statement=query))
        lines.append(line)
    if len(lines) == len(script.lines) or not has_room_aside(script):
        return script
    return replace(with_table_aside(script), lines=tuple(lines))


def takes_blocks_snapshot(line: Line, script: Script) -> bool:
    """Whether a line is the first of a repeatable-read block that takes a snapshot."""
    if not line.takes_snapshot:
        return False
    level = None
    for earlier in (earlier for earlier in script.lines if earlier.session == line.session and earlier.number < line.number):
        if earlier.kind == "begin":
            level = level or ("repeatable" if earlier.is_repeatable_read else "committed")
        elif earlier.kind in ("commit", "rollback"):
            level = None
        elif earlier.takes_snapshot and level == "repeatable":
            level = "taken"
    return level == "repeatable"
