"""A script that gx accepts, as the lines and heads that it is made of."""

from dataclasses import dataclass
from functools import cached_property
from pathlib import Path

from beside.tokens import Token, text_of, tokens_of


@dataclass(frozen=True)
class Column:
    """A column of a table; its kind is 'bigint' or 'text'."""

    name: str
    kind: str


@dataclass(frozen=True)
class Table:
    """A table; its key is the distribution column, or None where its rows are placed randomly."""

    name: str
    columns: tuple[Column, ...]
    key: str | None


@dataclass(frozen=True)
class Line:
    """A statement of a session: its number within the session, and the line of the file at which it stands, both from 1.

    `written` is the statement as the file has it. A line at place 0 is one that a changed script has beside those of its file.
    """

    session: str
    number: int
    place: int
    statement: tuple[Token, ...]
    written: str

    @property
    def kind(self) -> str:
        """The first word: begin, commit, rollback, select, insert, update, delete or lock."""
        return self.statement[0].text

    @property
    def name(self) -> str:
        """What gx calls the line in its answers."""
        return f"{self.session}.{self.number}"

    @property
    def text(self) -> str:
        """The statement as text."""
        return text_of(list(self.statement))

    @property
    def takes_snapshot(self) -> bool:
        """Whether it reads or changes rows."""
        return self.kind in ("select", "insert", "update", "delete")

    @property
    def is_repeatable_read(self) -> bool:
        """Of a BEGIN: whether its block is at repeatable read."""
        return self.kind == "begin" and any(token.is_word("repeatable") for token in self.statement)

    @cached_property
    def table(self) -> str:
        """The table that the statement names."""
        before = {"select": "from", "delete": "from", "insert": "into", "update": "update", "lock": "table"}[self.kind]
        at = next(i for i, token in enumerate(self.statement) if token.is_word(before))
        return self.statement[at + 1].text

    def place_of(self, word: str) -> int | None:
        """Where a keyword stands among the statement's tokens for the first time."""
        return next((i for i, token in enumerate(self.statement) if token.is_word(word)), None)


@dataclass(frozen=True)
class Script:
    """Heads and lines. `faults` says that links lose or repeat messages."""

    segments: int
    detector: bool
    faults: bool
    tables: tuple[Table, ...]
    lines: tuple[Line, ...]

    @cached_property
    def sessions(self) -> tuple[str, ...]:
        """The sessions in the order in which they come up."""
        return tuple(dict.fromkeys(line.session for line in self.lines))

    def table(self, name: str) -> Table:
        """The table of this name."""
        return next(table for table in self.tables if table.name == name)

    @property
    def text(self) -> str:
        """The script as gx reads it. Heads that lose or repeat messages are left out."""
        heads = [f"segments {self.segments}"] + ([] if self.detector else ["detector off"])
        heads += [head_of(table) for table in self.tables]
        return "\n".join(heads + [f"{line.session}: {line.text}" for line in self.lines]) + "\n"


def head_of(table: Table) -> str:
    """The head that makes a table."""
    columns = ", ".join(f"{column.name} {column.kind}" for column in table.columns)
    placed = "randomly" if table.key is None else f"by ({table.key})"
    return f"table {table.name} ({columns}) distributed {placed}"


def table_of(tokens: list[Token]) -> Table:
    """The table of a head."""
    words = [token.text for token in tokens if token.text not in "(),"]
    placed = words.index("distributed")
    columns = tuple(Column(words[i], words[i + 1]) for i in range(2, placed, 2))
    return Table(words[1], columns, words[placed + 2] if words[placed + 1] == "by" else None)


def read_script(text: str) -> Script:
    """The script of a text that gx accepts."""
    segments, detector, faults, tables, lines = 1, True, False, [], []
    numbers: dict[str, int] = {}
    for place, line in enumerate(text.split("\n"), 1):
        tokens = tokens_of(line.removesuffix("\r"))
        if not tokens or line.lstrip(" \t").startswith("--"):
            continue
        first = tokens[0]
        if first.kind == "name":
            numbers[first.text] = numbers.get(first.text, 0) + 1
            statement = tokens[2:-1] if tokens[-1].is_word(";") else tokens[2:]
            written = line.partition(":")[2].strip(" \t\r;")
            lines.append(Line(first.text, numbers[first.text], place, tuple(statement), written))
        elif first.text == "segments":
            segments = int(tokens[1].text)
        elif first.text == "detector":
            detector = tokens[1].text == "on"
        elif first.text == "table":
            tables.append(table_of(tokens))
        else:
            faults = True
    return Script(segments, detector, faults, tuple(tables), tuple(lines))


def words_beside(path: Path) -> list[str]:
    """The words with which a script is to be run, where NAME.words stands beside NAME.gx as in tests/; else none."""
    words = path.with_suffix(".words")
    return words.read_text().split() if words.is_file() else []


def left_out(script: Script, words: list[str]) -> str | None:
    """Why a script isn't run on a server, where it isn't: what it asks for, no server has."""
    for word in words:
        for option in ("--seed", "--turns", "--gen", "--threads"):
            if word == option or word.startswith(option + "="):
                return "run with " + option
    if not script.detector:
        return "detector off"
    if script.faults:
        return "messages lost or repeated"
    return None
