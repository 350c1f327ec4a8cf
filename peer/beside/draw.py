"""Scripts drawn from a number: a few sessions that meet on a few rows."""

import random

MODES = (
    "ACCESS SHARE",
    "ROW SHARE",
    "ROW EXCLUSIVE",
    "SHARE UPDATE EXCLUSIVE",
    "SHARE",
    "SHARE ROW EXCLUSIVE",
    "EXCLUSIVE",
    "ACCESS EXCLUSIVE",
)
TEXTS = ("''", "'ann'", "'bob'", "'o''k'", "'Zoë'")


class Drawer:
    """Draws one script."""

    def __init__(self, seed: int) -> None:
        """The same number gives the same script."""
        self._draw = random.Random(seed)
        self._tables = ["t", "u"][: self._draw.choice((1, 1, 2))]

    def script(self) -> str:
        """The script's text."""
        draw = self._draw
        heads = [f"segments {draw.choice((1, 2, 2, 3, 4))}"]
        for table in self._tables:
            placed = draw.choice(("by (a)", "by (a)", "by (s)", "randomly"))
            heads.append(f"table {table} (a bigint, b bigint, s text) distributed {placed}")
        sessions = [f"s{i}" for i in range(1, draw.choice((2, 3, 3, 4, 5)) + 1)]
        lines = [f"{sessions[0]}: {self._insert(table, 4)}" for table in self._tables]
        blocks = dict.fromkeys(sessions, 0)
        for _ in range(draw.randrange(6, 30)):
            session = draw.choice(sessions)
            lines.append(f"{session}: {self._line(session, blocks)}")
        lines += [f"{session}: COMMIT" for session in sessions if blocks[session] and draw.random() < 0.8]
        return "\n".join(heads + lines) + "\n"

    def _line(self, session: str, blocks: dict[str, int]) -> str:
        """A line of a session, of which it is noted how long its block is."""
        if blocks[session] == 0 and self._draw.random() < 0.6:
            blocks[session] = 1
            repeatable = " ISOLATION LEVEL REPEATABLE READ"
            levels = ("", " ISOLATION LEVEL READ COMMITTED", repeatable, repeatable)
            return "BEGIN" + self._draw.choice(levels)
        if blocks[session] > 0 and self._draw.random() < 0.1 * blocks[session]:
            blocks[session] = 0
            return self._draw.choice(("COMMIT", "COMMIT", "COMMIT", "ROLLBACK"))
        blocks[session] += blocks[session] > 0
        kinds = (self._select, self._select, self._update, self._update, self._update, self._delete, self._insert, self._lock)
        return self._draw.choice(kinds)(self._draw.choice(self._tables))

    def _number(self) -> str:
        """A literal, a small one most times."""
        draw = self._draw
        if draw.random() < 0.03:
            return draw.choice(("9223372036854775807", "-9223372036854775808", "(7 - 3)"))
        return str(draw.randrange(-1, 6))

    def _insert(self, table: str, most: int = 2) -> str:
        """An INSERT of up to `most` rows."""
        draw = self._draw
        tuples = [f"({self._number()}, {self._number()}, {draw.choice(TEXTS)})" for _ in range(draw.randrange(most) + 1)]
        return f"INSERT INTO {table} VALUES {', '.join(tuples)}"

    def _update(self, table: str) -> str:
        """An UPDATE."""
        value = self._draw.choice(("b + 1", "b - 1", "-b", "b * 2", "10 / b", "b % 3", "a", self._number()))
        return f"UPDATE {table} SET b = {value}{self._where()}"

    def _delete(self, table: str) -> str:
        """A DELETE."""
        return f"DELETE FROM {table}{self._where()}"

    def _lock(self, table: str) -> str:
        """A LOCK TABLE."""
        return f"LOCK TABLE {table} IN {self._draw.choice(MODES)} MODE"

    def _select(self, table: str) -> str:
        """A query."""
        draw = self._draw
        if draw.random() < 0.3:
            grouped = draw.choice(("", " GROUP BY s", " GROUP BY s ORDER BY s DESC"))
            return f"SELECT {'s, ' if grouped else ''}COUNT(*), SUM(b), MIN(s) FROM {table}{self._where(grouped)}"
        order = draw.choice(("", "", " ORDER BY a", " ORDER BY s DESC, b", " ORDER BY b, a, s"))
        limit = draw.choice(("", "", "", " LIMIT 1", " LIMIT 2"))
        return f"SELECT {draw.choice(('*', 'a, b', 's, b', 'b'))} FROM {table}{self._where()}{order}{limit}"

    def _where(self, behind: str = "") -> str:
        """A condition, or none, before what stands behind it."""
        draw = self._draw
        if draw.random() < 0.25:
            return behind
        condition = self._comparison()
        if draw.random() < 0.25:
            condition += draw.choice((" AND ", " OR ", " AND NOT ")) + self._comparison()
        return f" WHERE {condition}{behind}"

    def _comparison(self) -> str:
        """A comparison."""
        draw = self._draw
        if draw.random() < 0.55:
            return f"a = {draw.randrange(5)}"
        if draw.random() < 0.2:
            return f"s {draw.choice(('=', '<', '>='))} {draw.choice(TEXTS)}"
        left = draw.choice(("b", "b", "b", "a", "b + a", "10 / b", "b % 2"))
        return f"{left} {draw.choice(('=', '<>', '<', '<=', '>', '>='))} {self._number()}"


def drawn(seed: int) -> str:
    """The script of a number."""
    return Drawer(seed).script()
