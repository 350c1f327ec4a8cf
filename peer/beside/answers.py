"""What a line is answered: by gx and by a server in the same form."""

import re
from dataclasses import dataclass

Cell = int | str | None
Row = tuple[Cell, ...]

SERIALIZATION = "serialization"
VICTIM = "deadlock victim"
OVERFLOW = "overflow"
DIVISION = "division by zero"
FAILED_BLOCK = "failed block"
NOT_IN_BLOCK = "not in a block"

REFUSALS_OF_GX = {1: SERIALIZATION, 2: VICTIM, 3: OVERFLOW, 4: DIVISION, 5: FAILED_BLOCK, 7: NOT_IN_BLOCK}
FAULTS = frozenset((OVERFLOW, DIVISION))


@dataclass(frozen=True)
class Answer:
    """What was done and of how many rows, with the rows of a query; or, of a refusal, its class."""

    done: str = ""
    count: int | None = None
    rows: tuple[Row, ...] = ()
    refusal: str | None = None

    @property
    def is_fault(self) -> bool:
        """Whether it is refused since an evaluation overflowed or divided by zero."""
        return self.refusal in FAULTS

    def lines(self) -> list[str]:
        """The answer as text, in gx's form."""
        if self.refusal is not None:
            return [f"ERROR {self.refusal}"]
        head = self.done if self.count is None else f"{self.done} {self.count}"
        return [head, *(row_text(row) for row in self.rows)]


def cell_text(cell: Cell) -> str:
    """A value in gx's form."""
    if cell is None:
        return "null"
    return str(cell) if isinstance(cell, int) else "'" + cell.replace("'", "''") + "'"


def row_text(row: Row) -> str:
    """A row in gx's form."""
    return "  " + "|".join(cell_text(cell) for cell in row)


CELL = re.compile(r"null|-?[0-9]+|'(?:[^']|'')*'")


def row_of(line: str) -> Row:
    """The row of a line of gx's text."""
    cells: list[Cell] = []
    for text in CELL.findall(line):
        if text == "null":
            cells.append(None)
        elif text.startswith("'"):
            cells.append(text[1:-1].replace("''", "'"))
        else:
            cells.append(int(text))
    return tuple(cells)


def answer_of(head: str, rows: tuple[Row, ...]) -> Answer:
    """The answer of gx whose first line is this, without the line's name."""
    words = head.split()
    if words[0] == "ERROR":
        return Answer(refusal=REFUSALS_OF_GX.get(int(words[1]), head))
    if words[-1].isdigit():
        return Answer(done=" ".join(words[:-1]), count=int(words[-1]), rows=rows)
    return Answer(done=head)
