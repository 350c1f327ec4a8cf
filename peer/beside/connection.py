"""One connection to the server, which is asked one thing at a time and looked at without waiting."""

import select
import time
from collections.abc import Iterable
from decimal import Decimal

import psycopg2
import psycopg2.extensions

from beside.answers import DIVISION, FAILED_BLOCK, NOT_IN_BLOCK, OVERFLOW, SERIALIZATION, VICTIM, Answer, Cell, Row

REFUSALS_OF_SERVER = {
    "40001": SERIALIZATION,
    "40P01": VICTIM,
    "57014": VICTIM,
    "22003": OVERFLOW,
    "22012": DIVISION,
    "25P02": FAILED_BLOCK,
    "25P01": NOT_IN_BLOCK,
}
CONNECTING_SECONDS = 10.0


class ServerGone(Exception):
    """The server can't be reached, or has closed a connection; the text says what was heard of it."""


class NoAnswer(Exception):
    """A statement wasn't answered within its time; the text says which."""


def first_line(error: Exception) -> str:
    """What an error says, in one line."""
    return (str(error).strip().splitlines() or [type(error).__name__])[0]


def cell_of(value: object) -> Cell:
    """A value of a result as one of gx."""
    return int(value) if isinstance(value, Decimal) else value  # type: ignore[return-value]


class Connection:
    """A session of the server."""

    def __init__(self, dsn: str, label: str) -> None:
        """Connects; the label is what the server's own views call the session."""
        self.label = label
        self._cursor: psycopg2.extensions.cursor | None = None
        self.is_writing = True
        try:
            self._raw = psycopg2.connect(dsn, async_=True, application_name=f"gx peer {label}", client_encoding="UTF8")
        except psycopg2.Error as error:
            raise ServerGone(first_line(error)) from error
        deadline = time.monotonic() + CONNECTING_SECONDS
        while not self._is_ready():
            if time.monotonic() > deadline:
                self.close()
                raise ServerGone(f"no connection within {CONNECTING_SECONDS:g} s")
            wait_for([self], 0.2)

    @property
    def process(self) -> int:
        """The server's process for this session."""
        return self._raw.info.backend_pid

    @property
    def is_busy(self) -> bool:
        """Whether something was sent that isn't answered yet."""
        return self._cursor is not None

    def send(self, sql: str) -> None:
        """Sends a statement; its answer comes by `answer`."""
        try:
            self._cursor = self._raw.cursor()
            self._cursor.execute(sql)
        except psycopg2.Error as error:
            raise ServerGone(f"{self.label}: {first_line(error)}") from error

    def answer(self) -> Answer | None:
        """The answer to what was sent, if it has come."""
        try:
            if not self._is_ready():
                return None
            assert self._cursor is not None
            done, self._cursor = self._cursor, None
            return answer_of_result(done)
        except ServerGone:
            raise
        except psycopg2.Error as error:
            self._cursor = None
            if self._raw.closed or error.pgcode is None:
                raise ServerGone(f"{self.label}: {first_line(error)}") from error
            return Answer(refusal=REFUSALS_OF_SERVER.get(error.pgcode, f"{error.pgcode} {first_line(error)}"))

    def ask(self, sql: str, seconds: float) -> Answer:
        """Sends a statement and waits for its answer."""
        self.send(sql)
        deadline = time.monotonic() + seconds
        while (answer := self.answer()) is None:
            if time.monotonic() > deadline:
                raise NoAnswer(f"no answer within {seconds:g} s: {sql}")
            wait_for([self], min(0.2, seconds))
        return answer

    def must(self, sql: str, seconds: float) -> tuple[Row, ...]:
        """The rows of a statement that isn't to be refused."""
        answer = self.ask(sql, seconds)
        if answer.refusal is not None:
            raise ServerGone(f"the server refuses {sql}: {answer.refusal}")
        return answer.rows

    def cancel(self) -> None:
        """Asks the server to cancel what it does for this session."""
        try:
            self._raw.cancel()
        except psycopg2.Error as error:
            raise ServerGone(f"{self.label}: {first_line(error)}") from error

    def close(self) -> None:
        """Closes the connection, whatever it does."""
        if not self._raw.closed:
            self._raw.close()

    def fileno(self) -> int:
        """The connection's socket, or -1 where it is closed."""
        return -1 if self._raw.closed else self._raw.fileno()

    def _is_ready(self) -> bool:
        try:
            state = self._raw.poll()
        except psycopg2.OperationalError as error:
            if error.pgcode is None:
                raise ServerGone(f"{self.label}: {first_line(error)}") from error
            raise
        self.is_writing = state == psycopg2.extensions.POLL_WRITE
        return state == psycopg2.extensions.POLL_OK


def answer_of_result(cursor: psycopg2.extensions.cursor) -> Answer:
    """The answer in a finished cursor: its command's tag, count and rows."""
    words = cursor.statusmessage.split()
    if cursor.description is not None:
        rows = tuple(tuple(cell_of(value) for value in row) for row in cursor.fetchall())
        return Answer(done=words[0], count=len(rows), rows=rows)
    if words[-1].isdigit():
        return Answer(done=words[0], count=int(words[-1]))
    return Answer(done=" ".join(words))


def wait_for(connections: Iterable[Connection], seconds: float) -> None:
    """Waits until something came on one of these connections, or can go out on one that has more to send, or the time is over."""
    opened = [connection for connection in connections if connection.fileno() >= 0]
    writing = [connection for connection in opened if connection.is_writing]
    select.select(opened, writing, [], seconds)
