"""What a server is sent: a script's tables and statements in its words."""

from beside.script import Column, Line, Script, Table
from beside.tokens import Token

SYSTEM_COLUMNS = frozenset("ctid cmin cmax xmin xmax tableoid gp_segment_id".split())
GREATEST_LIMIT = 2**63 - 1
LOCK_MODES = {"select": "ACCESS SHARE", "insert": "ROW EXCLUSIVE", "update": "ROW EXCLUSIVE", "delete": "ROW EXCLUSIVE"}


def quoted(name: str) -> str:
    """A name of a script as an SQL name. A system column's name is taken, so it is written in capitals, as no name of gx is."""
    return f'"{name.upper() if name in SYSTEM_COLUMNS else name}"'


def column_definition(column: Column) -> str:
    """A column of CREATE TABLE. Texts are ordered by their bytes, as those of gx."""
    kind = 'text COLLATE "C"' if column.kind == "text" else "bigint"
    return f"{quoted(column.name)} {kind} NOT NULL"


def create_table(table: Table, has_segments: bool) -> str:
    """CREATE TABLE, with Greenplum's words for where rows stand on a server that has them."""
    columns = ", ".join(column_definition(column) for column in table.columns)
    placed = ""
    if has_segments:
        placed = " DISTRIBUTED RANDOMLY" if table.key is None else f" DISTRIBUTED BY ({quoted(table.key)})"
    return f"CREATE TABLE {quoted(table.name)} ({columns}){placed}"


def is_prefix(before: Token | None) -> bool:
    """Whether a minus sign behind this token begins an operand."""
    if before is None or before.kind == "keyword":
        return True
    return before.kind == "sign" and before.text != ")"


def statement_sql(line: Line) -> str:
    """A statement in the server's words: names quoted, numbers as bigint, texts compared by their bytes."""
    written: list[str] = []
    tokens = line.statement
    for i, token in enumerate(tokens):
        before = tokens[i - 1] if i > 0 else None
        if token.kind == "name":
            written.append(quoted(token.text))
        elif token.kind == "text":
            written.append(token.text + ' COLLATE "C"')
        elif token.kind == "number" and before is not None and before.is_word("limit"):
            written.append(str(min(int(token.text), GREATEST_LIMIT)))
        elif token.kind == "number":
            is_negative = before is not None and before.is_word("-") and is_prefix(tokens[i - 2] if i > 1 else None)
            if is_negative:
                written.pop()
            written.append(f"({'-' if is_negative else ''}{token.text})::bigint")
        else:
            written.append(token.text.upper())
    return " ".join(written)


def plain_begin(line: Line) -> str:
    """A BEGIN without its level."""
    return line.statement[0].text.upper()


def lock_first(line: Line) -> str:
    """The lock that a command takes, taken by itself."""
    return f"LOCK TABLE {quoted(line.table)} IN {LOCK_MODES[line.kind]} MODE"


def all_rows(table: Table) -> str:
    """The query for a table's rows."""
    return f"SELECT {', '.join(quoted(column.name) for column in table.columns)} FROM {quoted(table.name)}"


def definitions(script: Script, has_segments: bool) -> list[str]:
    """The commands that make a script's tables."""
    return [create_table(table, has_segments) for table in script.tables]
