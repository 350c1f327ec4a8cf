"""What of an expression is constant, and faults as soon as it is planned."""

from beside.answers import DIVISION, OVERFLOW
from beside.tokens import Token

LEAST, GREATEST = -(2**63), 2**63 - 1
UNKNOWN = object()
COMPARISONS = {
    "=": lambda left, right: left == right,
    "<>": lambda left, right: left != right,
    "<": lambda left, right: left < right,
    "<=": lambda left, right: left <= right,
    ">": lambda left, right: left > right,
    ">=": lambda left, right: left >= right,
}


class ConstantFault(Exception):
    """A constant part of an expression faults; the text is the refusal's class."""


def constant_fault(expression: list[Token]) -> str | None:
    """The class of the first fault among an expression's constants, but for those that an AND or OR of constants leaves out."""
    try:
        Folder(expression).disjunction(True)
    except ConstantFault as fault:
        return str(fault)
    return None


def ranged(value: int) -> int:
    """A value of 64 bits, or the fault."""
    if not LEAST <= value <= GREATEST:
        raise ConstantFault(OVERFLOW)
    return value


def arithmetic(sign: str, left: int, right: int) -> int:
    """The result of an operator, or the fault."""
    if sign in "/%" and right == 0:
        raise ConstantFault(DIVISION)
    if sign in "/%":
        quotient = abs(left) // abs(right) * (1 if (left < 0) == (right < 0) else -1)
        return ranged(quotient) if sign == "/" else left - quotient * right
    return ranged({"+": left + right, "-": left - right, "*": left * right}[sign])


class Folder:
    """Goes through an expression once; columns are unknown, and so is what is made of them. `live` says what is evaluated."""

    def __init__(self, tokens: list[Token]) -> None:
        """Before the first of the tokens."""
        self._tokens = tokens
        self._at = 0

    def _take(self, *words: str) -> str | None:
        """The next token's text, which is passed, if it is one of these."""
        if self._at < len(self._tokens) and self._tokens[self._at].is_word(*words):
            self._at += 1
            return self._tokens[self._at - 1].text
        return None

    def disjunction(self, live: bool) -> object:
        """The value of a chain of ORs."""
        left = self._conjunction(live)
        while self._take("or"):
            right = self._conjunction(live and left is not True)
            left = True if left is True or right is True else UNKNOWN if UNKNOWN in (left, right) else False
        return left

    def _conjunction(self, live: bool) -> object:
        left = self._negation(live)
        while self._take("and"):
            right = self._negation(live and left is not False)
            left = False if left is False or right is False else UNKNOWN if UNKNOWN in (left, right) else True
        return left

    def _negation(self, live: bool) -> object:
        if self._take("not"):
            value = self._negation(live)
            return UNKNOWN if value is UNKNOWN else not value
        left = self._sum(live)
        if sign := self._take(*COMPARISONS):
            right = self._sum(live)
            return UNKNOWN if UNKNOWN in (left, right) else COMPARISONS[sign](left, right)
        return left

    def _sum(self, live: bool) -> object:
        left = self._product(live)
        while sign := self._take("+", "-"):
            left = self._made(sign, left, self._product(live), live)
        return left

    def _product(self, live: bool) -> object:
        left = self._sign(live)
        while sign := self._take("*", "/", "%"):
            left = self._made(sign, left, self._sign(live), live)
        return left

    def _made(self, sign: str, left: object, right: object, live: bool) -> object:
        if not live or UNKNOWN in (left, right):
            return UNKNOWN
        assert isinstance(left, int) and isinstance(right, int)
        return arithmetic(sign, left, right)

    def _sign(self, live: bool) -> object:
        if self._take("-"):
            if self._at < len(self._tokens) and self._tokens[self._at].kind == "number":
                self._at += 1
                return -int(self._tokens[self._at - 1].text)
            return self._made("-", 0, self._sign(live), live)
        return self._atom(live)

    def _atom(self, live: bool) -> object:
        token = self._tokens[self._at]
        self._at += 1
        if token.is_word("("):
            value = self.disjunction(live)
            self._take(")")
            return value
        if token.kind == "number":
            return int(token.text)
        return token.text if token.kind == "text" else UNKNOWN
