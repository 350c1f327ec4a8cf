"""Changed scripts of which gx gives what a server gave for the script itself: each change says in what the server differs.

A difference that such changes make go is explained by gx itself: the server's answers and tables are, all of them, those of a
run that is proved to be a legal history, only not of the run that gx makes of the script as it stands.
"""

from collections.abc import Iterator
from dataclasses import dataclass
from itertools import product

from beside.answers import SERIALIZATION, VICTIM, Answer
from beside.changes import (
    Order,
    as_postgres_evaluates,
    behind_overtakers,
    in_order_of,
    is_stopped_early,
    on_one_node,
    released,
    released_from_tables,
    renumbered,
    waited_for_tables,
    with_early_snapshots,
    with_refusals,
    without_rows,
)
from beside.compare import LIMIT, Expected, differences, expected
from beside.drive import ServerRun
from beside.due import is_due
from beside.oracle import NoOracle, Refused
from beside.script import Line, Script

ONE_NODE, SNAPSHOT, EVALUATION, QUEUE, ORDER = "one-node", "snapshot", "evaluation", "queue", "order"
REFUSAL, CHOICE, CYCLE = "refusal", "victim", "cycle"


@dataclass(frozen=True)
class Variant:
    """A changed script and the classes that its changes stand for.

    The lines `aside` aren't compared: they are `refused` where they stand, or have no rows. Of the refused ones those of `owed`
    have to be due.
    """

    script: Script
    reasons: tuple[str, ...]
    refused: frozenset[str]
    owed: frozenset[str]
    aside: frozenset[str]

    def explains(self, script: Script, run: ServerRun, program: str) -> bool:
        """Whether gx gives for it all that the server gave for the script, and would refuse there what the server refused."""
        numbered, names = renumbered(self.script)
        try:
            found = expected(program, numbered)
        except (Refused, NoOracle):
            return False
        answers = {names[name]: answer for name, answer in found.answers.items() if name in names}
        if len(answers) < len(script.lines):
            return False
        opened = {names[name]: rows for name, rows in found.opened.items() if name in names}
        wanted = Expected(answers, found.tables, opened)
        open_ones = [difference for difference in differences(script, wanted, run) if difference.reason is None]
        if any(difference.name not in self.aside for difference in open_ones):
            return False
        return all(is_due(self.script, run.passages[name], self.refused, run, program) for name in self.owed)


@dataclass(frozen=True)
class Changes:
    """Which changes are made, each by the name of its class; an empty name says that it isn't."""

    queue: tuple[str, Order | None]
    refusal: str
    choice: str
    evaluation: str
    snapshot: str
    node: str

    @property
    def reasons(self) -> tuple[str, ...]:
        """The classes."""
        names = (self.queue[0], self.refusal, self.choice, self.evaluation, self.snapshot, self.node)
        return tuple(name for name in names if name)

    @property
    def weight(self) -> int:
        """How many there are, where a cycle in which gx has no part counts for three."""
        return len(self.reasons) + 2 * (self.choice == CYCLE)


def all_changes(run: ServerRun) -> list[Changes]:
    """All of them together, those with fewer changes first."""
    queues: list[tuple[str, Order | None]] = [
        ("", None),
        *((QUEUE, Order(released_from_tables, ties)) for ties in ("answered", "opposite", "queries")),
        (ORDER, Order(behind_overtakers(run))),
        *((ORDER, Order(released, ties)) for ties in ("answered", "opposite", "queries")),
    ]
    chosen = product(queues, ("", REFUSAL), ("", CHOICE, CYCLE), ("", EVALUATION), ("", SNAPSHOT), ("", ONE_NODE))
    return sorted((Changes(*changes) for changes in chosen), key=lambda changes: changes.weight)


def variants(script: Script, run: ServerRun, ours: dict[str, Answer]) -> Iterator[Variant]:
    """The changed scripts that may explain a run, each once."""
    seen: set[tuple[Script, frozenset[str]]] = set()
    for changes in all_changes(run):
        variant = changed_by(changes, script, run, ours)
        if (variant.script, variant.owed) not in seen and variant.script != script:
            seen.add((variant.script, variant.owed))
            yield variant


def changed_by(changes: Changes, script: Script, run: ServerRun, ours: dict[str, Answer]) -> Variant:
    """The script with these changes."""
    nobody: frozenset[str] = frozenset()
    overtaken = refused_with(SERIALIZATION, run) if changes.refusal else nobody
    victims = refused_with(VICTIM, run) if changes.choice else nobody
    late = waited_for_tables(run) if changes.snapshot else nobody
    stopped = stopped_early(script, run, ours) if changes.evaluation else nobody
    changed = without_rows(with_early_snapshots(script, late | overtaken), stopped)
    if changes.node:
        changed = on_one_node(changed)
    if changes.evaluation:
        changed = as_postgres_evaluates(changed)
    refused = overtaken | victims
    changed = with_refusals(changed, refused)
    if changes.queue[1] is not None:
        changed = in_order_of(changed, run, changes.queue[1], refused)
    owed = refused - cancelled(run) if changes.choice == CYCLE else refused
    return Variant(changed, changes.reasons + (LIMIT,) * bool(stopped), refused, owed, refused | stopped)


def cancelled(run: ServerRun) -> frozenset[str]:
    """The lines that the peer cancelled."""
    return frozenset(name for name, passage in run.passages.items() if passage.is_cancelled)


def refused_with(refusal: str, run: ServerRun) -> frozenset[str]:
    """The lines that the server refused in this class."""
    return frozenset(name for name, passage in run.passages.items() if passage.answer and passage.answer.refusal == refusal)


def stopped_early(script: Script, run: ServerRun, ours: dict[str, Answer]) -> frozenset[str]:
    """The queries that fault on gx, and on the server ended with their limit."""
    return frozenset(
        line.name
        for line in script.lines
        if is_stopped_early(line) and ours[line.name].is_fault and is_answered(run, line)
    )


def is_answered(run: ServerRun, line: Line) -> bool:
    """Whether the server didn't refuse a line."""
    answer = run.passages[line.name].answer
    return answer is not None and not answer.refusal
