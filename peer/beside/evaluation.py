"""A statement as PostgreSQL evaluates it, where gx goes by what is written.

The manual (4.2.14) leaves open what of an expression is evaluated, and when. PostgreSQL evaluates constants when it plans, the
cheaper operands of an AND before others, the SETs of an UPDATE in the order of the table's columns, and these on the row that the
snapshot shows, before it waits for that row's writer.
"""

from dataclasses import replace

from beside.answers import DIVISION
from beside.constants import COMPARISONS, constant_fault
from beside.script import Line, Script
from beside.tokens import Token, tokens_of

ARITHMETIC = ("+", "-", "*", "/", "%")
AND, COMMA, EQUAL = Token("keyword", "and"), Token("sign", ","), Token("sign", "=")
OPEN, CLOSE = Token("sign", "("), Token("sign", ")")


def faulting_query(refusal: str, table: str) -> tuple[Token, ...]:
    """A query that faults on any row of a table."""
    constant = "1 / 0" if refusal == DIVISION else "9223372036854775807 + 1"
    return tuple(tokens_of(f"SELECT * FROM {table} WHERE {constant} = 0"))


def planned_fault(line: Line, script: Script) -> str | None:
    """The class of the fault that a constant of a query's, UPDATE's or DELETE's expressions makes before any row is looked at."""
    expressions = [value for _, value in assignments(line, script)] + [condition_of(line)]
    return next((fault for expression in expressions if expression and (fault := constant_fault(expression))), None)


def bounds_of_condition(line: Line) -> tuple[int, int]:
    """Where the condition begins, or would behind its WHERE, and where it ends."""
    places = [place for word in ("group", "order", "limit") if (place := line.place_of(word)) is not None]
    end = min(places, default=len(line.statement))
    start = line.place_of("where")
    return (end if start is None else start + 1), end


def condition_of(line: Line) -> list[Token]:
    """The tokens of the condition; none where there is none."""
    if line.kind not in ("select", "update", "delete"):
        return []
    start, end = bounds_of_condition(line)
    return list(line.statement[start:end])


def assignments(line: Line, script: Script) -> list[tuple[Token, list[Token]]]:
    """The columns that an UPDATE sets, with their values, in the order of the table's columns."""
    if line.kind != "update":
        return []
    start, end = line.place_of("set"), line.place_of("where")
    assert start is not None
    columns = [column.name for column in script.table(line.table).columns]
    found = [(part[0], part[2:]) for part in split(list(line.statement[start + 1 : end]), ",")]
    return sorted(found, key=lambda assigned: columns.index(assigned[0].text))


def as_evaluated(line: Line, script: Script) -> Line:
    """The statement with its operands in PostgreSQL's order, and an UPDATE with its SETs evaluated with its condition."""
    condition = condition_of(line)
    if line.kind not in ("select", "update", "delete"):
        return line
    if condition:
        condition = sorted_chain(condition)
    start, end = bounds_of_condition(line)
    before, behind = list(line.statement[:start]), list(line.statement[end:])
    sets = assignments(line, script)
    if sets:
        at = line.place_of("set")
        assert at is not None
        before = [*line.statement[: at + 1], *joined([[column, EQUAL, *value] for column, value in sets], COMMA)]
        asked = [[OPEN, *value, CLOSE, EQUAL, OPEN, *value, CLOSE] for _, value in sets if may_fault(value)]
        operands = [[OPEN, *condition, CLOSE]] * bool(condition) + asked
        condition = joined(operands, AND)
        before += [Token("keyword", "where")] * bool(condition)
    return replace(line, statement=(*before, *condition, *behind))


def joined(parts: list[list[Token]], between: Token) -> list[Token]:
    """Parts with a token between them."""
    return [token for part in parts for token in (between, *part)][1:]


def may_fault(expression: list[Token]) -> bool:
    """Whether an expression has arithmetic of a column or constant in it."""
    return any(token.is_word(*ARITHMETIC) for token in expression)


def sorted_chain(condition: list[Token]) -> list[Token]:
    """A condition with the operands of its ANDs and ORs sorted, stably, within parentheses too."""
    for word in ("or", "and"):
        operands = split(condition, word)
        if len(operands) > 1:
            inner = [sorted_chain(operand) for operand in operands]
            inner.sort(key=cost if word == "and" else is_of_columns)
            return joined(inner, Token("keyword", word))
    if condition[0].is_word("not"):
        return [condition[0], *sorted_chain(condition[1:])]
    if condition[0].is_word("(") and closing(condition) == len(condition) - 1:
        return [condition[0], *sorted_chain(condition[1:-1]), condition[-1]]
    return condition


def split(tokens: list[Token], word: str) -> list[list[Token]]:
    """What stands between the tokens of this text, outside of parentheses."""
    parts: list[list[Token]] = [[]]
    depth = 0
    for token in tokens:
        depth += token.is_word("(") - token.is_word(")")
        if depth == 0 and token.is_word(word):
            parts.append([])
        else:
            parts[-1].append(token)
    return parts


def closing(tokens: list[Token]) -> int:
    """Where the parenthesis with which the tokens begin is closed."""
    depth = 0
    for i, token in enumerate(tokens):
        depth += token.is_word("(") - token.is_word(")")
        if depth == 0:
            return i
    return len(tokens)


def is_of_columns(condition: list[Token]) -> bool:
    """Whether a condition names a column."""
    return any(token.kind == "name" for token in condition)


def cost(condition: list[Token]) -> tuple[bool, int]:
    """What sorts the operands of an AND: constants first, and then by the number of operators."""
    return is_of_columns(condition), sum(token.is_word(*ARITHMETIC, *COMPARISONS) for token in condition)
