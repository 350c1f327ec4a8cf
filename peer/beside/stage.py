"""A script's tables on a server, in a schema of its own, with a connection for each session."""

import os
import secrets
import sys
import time
from dataclasses import dataclass
from types import TracebackType

from beside import sql
from beside.connection import Connection, NoAnswer, ServerGone, wait_for
from beside.drive import Driver, ServerRun, Settings
from beside.script import Script
from beside.waits import Blockers, Timeout, Watch

OUT_OF_REACH = "2147483647ms"
SERVERS_OWN = "1s"
CLEANING_SECONDS = 5.0


@dataclass
class Server:
    """How the server is reached, and who tells of waits: 'blockers', or 'timeout' after this while."""

    dsn: str
    waits: str = "blockers"
    wait_seconds: float = 0.5


class Stage:
    """Tables and sessions for one run of a script. To be used by `with`: at the end all of it is gone."""

    def __init__(self, server: Server, script: Script, settings: Settings) -> None:
        """Nothing is done yet."""
        self._server = server
        self._script = script
        self._settings = settings
        self._schema = f"gx_peer_{os.getpid()}_{secrets.token_hex(4)}"
        self._keeper: Connection | None = None
        self._sessions: dict[str, Connection] = {}

    def __enter__(self) -> "Stage":
        """Makes the schema, the tables and the connections."""
        try:
            self._set()
        except BaseException:
            self._clear()
            raise
        return self

    def __exit__(self, kind: type[BaseException] | None, error: BaseException | None, trace: TracebackType | None) -> None:
        """Closes all connections and drops the schema."""
        self._clear()

    def run(self, rounds: list[list[str]]) -> ServerRun:
        """Drives the script, with the sessions that gx cancels in its rounds, and reads the final tables."""
        assert self._keeper is not None
        run = Driver(self._script, rounds, self._sessions, self._watch(), self._settings).run()
        for table in self._script.tables:
            run.tables[table.name] = list(self._keeper.must(sql.all_rows(table), self._settings.seconds))
        return run

    def _watch(self) -> Watch:
        """Who tells of waits."""
        if self._server.waits == "timeout":
            return Timeout(self._server.wait_seconds)
        assert self._keeper is not None
        processes = {connection.process: session for session, connection in self._sessions.items()}
        return Blockers(self._keeper, processes, self._settings.seconds)

    def _set(self) -> None:
        """Makes all that the run needs."""
        self._keeper = self._connected("keeper")
        version = str(self._keeper.must("SELECT version()", self._settings.seconds)[0][0])
        has_segments = "Greenplum" in version or "Cloudberry" in version
        self._keeper.must(f"CREATE SCHEMA {self._schema}", self._settings.seconds)
        self._prepare(self._keeper)
        for definition in sql.definitions(self._script, has_segments):
            self._keeper.must(definition, self._settings.seconds)
        for session in self._script.sessions:
            self._sessions[session] = self._connected(session)
            self._prepare(self._sessions[session])

    def _connected(self, label: str) -> Connection:
        """A new connection."""
        return Connection(self._server.dsn, label)

    def _prepare(self, connection: Connection) -> None:
        """Sets what a session's lines rest on: their schema, their level, and that the server cancels nobody by itself."""
        timeout = SERVERS_OWN if self._settings.deadlocks == "server" else OUT_OF_REACH
        connection.must(
            f"SET search_path = {self._schema}; SET default_transaction_isolation = 'read committed';"
            f" SET standard_conforming_strings = on; SET statement_timeout = 0; SET deadlock_timeout = '{timeout}'",
            self._settings.seconds,
        )

    def _clear(self) -> None:
        """Ends what still runs, closes the connections and drops the schema; says so where it can't be dropped."""
        try:
            self._end_sessions()
            self._drop()
        except (ServerGone, NoAnswer) as error:
            print(f"the schema {self._schema} may be left: DROP SCHEMA {self._schema} CASCADE ({error})", file=sys.stderr)
        finally:
            if self._keeper is not None:
                self._keeper.close()

    def _end_sessions(self) -> None:
        """Cancels what the sessions wait in, and closes them."""
        try:
            busy = [connection for connection in self._sessions.values() if connection.is_busy]
            for connection in busy:
                connection.cancel()
            deadline = time.monotonic() + CLEANING_SECONDS
            while busy and time.monotonic() < deadline:
                wait_for(busy, 0.1)
                busy = [connection for connection in busy if connection.answer() is None]
        except ServerGone:
            pass
        finally:
            for connection in self._sessions.values():
                connection.close()

    def _drop(self) -> None:
        """Drops the schema, over a new connection where the first one has something unanswered or is gone."""
        if self._keeper is None:
            return
        drop = f"DROP SCHEMA IF EXISTS {self._schema} CASCADE"
        try:
            if not self._keeper.is_busy:
                self._keeper.must(drop, CLEANING_SECONDS)
                return
        except ServerGone:
            pass
        self._keeper.close()
        self._keeper = self._connected("keeper")
        self._keeper.must(drop, CLEANING_SECONDS)
