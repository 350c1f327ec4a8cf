"""Drives a script's lines over the sessions of a server in the order of gx."""

import time
from dataclasses import dataclass, field

from beside import sql
from beside.answers import Answer, Row
from beside.connection import Connection, NoAnswer, wait_for
from beside.script import Line, Script
from beside.waits import Timeout, Wait, Watch, is_in_cycle

LOOK_SECONDS = 0.002


@dataclass
class Settings:
    """How lines are driven.

    The seconds that one may take without waiting, who cancels in a deadlock ('gx' or 'server'), and whether a table is locked
    before the snapshot of a repeatable-read block.
    """

    seconds: float = 30.0
    deadlocks: str = "gx"
    lock_first: bool = False


@dataclass
class Passage:
    """How a line went: the moments at which it was started and was seen to wait, for a table or at all, and its answer.

    Moments are the actions of the driver, from 1. `place` is the line's among all answers. `is_plain` says that a BEGIN in a
    block was sent without its level, `is_cancelled` that the peer cancelled the line.
    """

    line: Line
    started: int
    age: int
    is_plain: bool = False
    is_cancelled: bool = False
    waited_for_table: list[int] = field(default_factory=list)
    waited: list[int] = field(default_factory=list)
    answer: Answer | None = None
    place: int = 0


@dataclass(frozen=True)
class Choice:
    """Sessions that were cancelled at a moment since nobody could go on: those that gx names, or one that the peer chose."""

    moment: int
    victims: tuple[str, ...]
    is_by_gx: bool


@dataclass
class ServerRun:
    """What a server made of a script: each line's passage by name, the final tables, and who was cancelled.

    `ends` are the moments at which sessions without lines were rolled back.
    """

    passages: dict[str, Passage] = field(default_factory=dict)
    tables: dict[str, list[Row]] = field(default_factory=dict)
    choices: list[Choice] = field(default_factory=list)
    ends: list[tuple[int, str]] = field(default_factory=list)


class Seat:
    """Where a session stands."""

    def __init__(self, connection: Connection, lines: list[Line]) -> None:
        """At its start, with all of its lines before it."""
        self.connection = connection
        self.lines = lines
        self.passage: Passage | None = None
        self.ahead: list[str] = []
        self.in_block = False
        self.has_failed = False
        self.is_repeatable_read = False
        self.has_snapshot = False
        self.age = 0

    @property
    def is_idle(self) -> bool:
        """Whether all that it was sent is answered."""
        return not self.connection.is_busy

    def next_line(self) -> Line | None:
        """The line that it may start now."""
        return self.lines[0] if self.is_idle and self.lines else None

    def sql_of(self, line: Line, lock_first: bool) -> list[str]:
        """What is sent for a line, one behind the other."""
        if line.kind == "begin" and self.in_block:
            return [sql.plain_begin(line)]
        wants_lock = lock_first and line.takes_snapshot and self.in_block and not self.has_failed
        if wants_lock and self.is_repeatable_read and not self.has_snapshot:
            return [sql.lock_first(line), sql.statement_sql(line)]
        return [sql.statement_sql(line)]

    def note(self, line: Line, answer: Answer) -> None:
        """Takes note of a line's answer."""
        if line.kind in ("commit", "rollback"):
            self.in_block = self.has_failed = False
        elif line.kind == "begin" and not self.in_block:
            self.in_block, self.has_snapshot, self.is_repeatable_read = True, False, line.is_repeatable_read
        elif self.in_block:
            self.has_failed = self.has_failed or answer.refusal is not None
            self.has_snapshot = self.has_snapshot or line.takes_snapshot


class Driver:
    """One run of a script on a server."""

    def __init__(
        self, script: Script, rounds: list[list[str]], connections: dict[str, Connection], watch: Watch, settings: Settings
    ) -> None:
        """The script, whom gx cancels in each round, a connection a session, and who tells of waits."""
        self._settings = settings
        self._watch = watch
        self._rounds = list(rounds)
        self._places = {line.name: place for place, line in enumerate(script.lines)}
        self._seats = {
            session: Seat(connections[session], [line for line in script.lines if line.session == session])
            for session in script.sessions
        }
        self._moment = 0
        self._run = ServerRun()
        self._waits: dict[str, Wait] = {}

    def run(self) -> ServerRun:
        """Drives all lines; its answers are what the server gave. The final tables are left to the caller."""
        while self._act():
            self._settle()
        return self._run

    def _act(self) -> bool:
        """Does what comes next in gx's order, where something does: a line, the end of a session, or a round."""
        self._moment += 1
        lines = [line for seat in self._seats.values() if (line := seat.next_line())]
        if lines:
            self._start(min(lines, key=lambda line: self._places[line.name]))
            return True
        ending = [session for session, seat in self._seats.items() if seat.is_idle and seat.in_block]
        if ending:
            self._run.ends.append((self._moment, ending[0]))
            self._send(self._seats[ending[0]], ["ROLLBACK"])
            return True
        if self._busy():
            self._round()
            return True
        return False

    def _start(self, line: Line) -> None:
        """Starts a session's next line."""
        seat = self._seats[line.session]
        seat.lines.pop(0)
        if not seat.in_block:
            seat.age = self._moment
        is_plain = line.kind == "begin" and seat.in_block and line.is_repeatable_read != seat.is_repeatable_read
        seat.passage = Passage(line, self._moment, seat.age, is_plain)
        self._run.passages[line.name] = seat.passage
        self._send(seat, seat.sql_of(line, self._settings.lock_first))

    def _send(self, seat: Seat, statements: list[str]) -> None:
        """Sends the first of these statements, and keeps the others for when it is answered."""
        seat.ahead = statements[1:]
        seat.connection.send(statements[0])
        self._watch.stirred()

    def _busy(self) -> dict[str, Connection]:
        """The connections of sessions that have something unanswered."""
        return {session: seat.connection for session, seat in self._seats.items() if not seat.is_idle}

    def _gather(self) -> None:
        """Takes note of all answers that have come."""
        for seat in self._seats.values():
            if seat.is_idle or (answer := seat.connection.answer()) is None:
                continue
            self._watch.stirred()
            if seat.ahead and answer.refusal is None:
                self._send(seat, seat.ahead)
            elif seat.passage is None:
                seat.in_block = seat.has_failed = False
            else:
                seat.passage.answer = answer
                seat.passage.place = len([passage for passage in self._run.passages.values() if passage.answer])
                seat.note(seat.passage.line, answer)
                seat.passage = None

    def _settle(self) -> None:
        """Waits until each session has its answer or waits for another."""
        deadline = time.monotonic() + self._settings.seconds
        while True:
            wait_for(self._busy().values(), LOOK_SECONDS)
            self._gather()
            busy = self._busy()
            self._waits = self._watch.waits(busy) if busy else {}
            if len(self._waits) == len(busy):
                break
            if time.monotonic() > deadline:
                self._give_up(set(busy) - set(self._waits))
        for session, wait in self._waits.items():
            passage = self._seats[session].passage
            if passage is not None:
                passage.waited.append(self._moment)
                if wait.is_for_table:
                    passage.waited_for_table.append(self._moment)

    def _give_up(self, sessions: set[str]) -> None:
        """Tells of the first of these sessions that it has no answer."""
        session = min(sessions, key=list(self._seats).index)
        passage = self._seats[session].passage
        what = f"line {passage.line.place}, {passage.line.name} {passage.line.written}" if passage else f"{session}: ROLLBACK"
        raise NoAnswer(f"no answer within {self._settings.seconds:g} s, and no wait for another session: {what}")

    def _round(self) -> None:
        """Cancels whom gx names in its next round, or leaves it to the server."""
        if self._settings.deadlocks == "server":
            self._await_server()
            return
        named = self._rounds.pop(0) if self._rounds else []
        if named and all(self._is_stuck(session) for session in named):
            self._cancel(tuple(named), True)
            return
        stuck = [session for session in self._waits if is_in_cycle(session, self._waits)]
        if not stuck:
            waiting = ", ".join(sorted(self._waits))
            raise NoAnswer(f"nobody goes on, and gx cancels nobody here: {waiting} have no answer")
        self._cancel((max(stuck, key=lambda session: self._seats[session].age),), False)

    def _is_stuck(self, session: str) -> bool:
        """Whether a session waits in a cycle of waits; where nobody can tell whom it waits for, whether it waits."""
        if isinstance(self._watch, Timeout):
            return session in self._waits
        return is_in_cycle(session, self._waits)

    def _cancel(self, victims: tuple[str, ...], is_by_gx: bool) -> None:
        """Cancels what these sessions wait in, and waits for their answers."""
        self._run.choices.append(Choice(self._moment, victims, is_by_gx))
        for session in victims:
            if passage := self._seats[session].passage:
                passage.is_cancelled = True
            self._seats[session].connection.cancel()
        self._watch.stirred()
        deadline = time.monotonic() + self._settings.seconds
        while awaited := {session for session in victims if not self._seats[session].is_idle}:
            wait_for([self._seats[session].connection for session in awaited], LOOK_SECONDS)
            self._gather()
            if time.monotonic() > deadline:
                self._give_up(awaited)

    def _await_server(self) -> None:
        """Waits until the server itself has cancelled somebody."""
        stuck = set(self._busy())
        deadline = time.monotonic() + self._settings.seconds
        while set(self._busy()) == stuck:
            wait_for(self._busy().values(), 0.1)
            self._gather()
            if time.monotonic() > deadline:
                self._give_up(stuck)
