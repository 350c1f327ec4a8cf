"""Who waits on the server, and for whom."""

import time
from dataclasses import dataclass
from typing import Protocol

from beside.connection import Connection

LOOK = """SELECT pid, locktype, pg_blocking_pids(pid) FROM pg_locks WHERE NOT granted AND pid = ANY ('{%s}'::int[])"""


@dataclass(frozen=True)
class Wait:
    """A session's wait: whether it is for a table (and not for a row), and the sessions that it waits for, where known."""

    is_for_table: bool
    blockers: frozenset[str]


class Watch(Protocol):
    """A way to find out who waits."""

    def waits(self, busy: dict[str, Connection]) -> dict[str, Wait]:
        """The waits of those of these sessions, none of which has its answer, that wait now."""

    def stirred(self) -> None:
        """Something was sent, cancelled or answered, so that whoever waited may go on."""


class Blockers:
    """Asks the server's own views, on a connection beside the sessions."""

    def __init__(self, watcher: Connection, processes: dict[int, str], seconds: float) -> None:
        """The watcher's connection, the session of each process, and the time that an answer may take."""
        self._watcher = watcher
        self._processes = processes
        self._seconds = seconds

    def waits(self, busy: dict[str, Connection]) -> dict[str, Wait]:
        """As `Watch` says. Who waits for a process that isn't one of the sessions isn't among them: it will go on by itself."""
        processes = ",".join(str(connection.process) for connection in busy.values())
        found: dict[str, Wait] = {}
        for process, kind, blockers in self._watcher.must(LOOK % processes, self._seconds):
            if blockers and all(blocker in self._processes for blocker in blockers):
                names = frozenset(self._processes[blocker] for blocker in blockers)
                found[self._processes[process]] = Wait(kind == "relation", names)
        return found

    def stirred(self) -> None:
        """As `Watch` says; the views are always of now."""


class Timeout:
    """Takes whoever has had no answer for a while to wait: for servers whose views don't tell."""

    def __init__(self, seconds: float) -> None:
        """The while."""
        self._seconds = seconds
        self._since = time.monotonic()

    def waits(self, busy: dict[str, Connection]) -> dict[str, Wait]:
        """As `Watch` says, with nobody named whom they wait for."""
        if time.monotonic() - self._since < self._seconds:
            return {}
        return {session: Wait(False, frozenset()) for session in busy}

    def stirred(self) -> None:
        """As `Watch` says: the while begins again."""
        self._since = time.monotonic()


def is_in_cycle(session: str, waits: dict[str, Wait]) -> bool:
    """Whether the session waits for somebody who, over others who wait, waits for it."""
    return session in reached_from(session, waits)


def reached_from(session: str, waits: dict[str, Wait]) -> set[str]:
    """Whom a session waits for, and whom these wait for, and so on."""
    reached: set[str] = set()
    ahead = [session]
    while ahead:
        wait = waits.get(ahead.pop())
        fresh = wait.blockers - reached if wait else frozenset()
        reached |= fresh
        ahead += fresh
    return reached
