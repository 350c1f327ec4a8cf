"""The tokens of a line of a script that gx accepts."""

import re
from dataclasses import dataclass

KEYWORDS = frozenset(
    """access and asc begin bigint by commit committed count delete desc detector distributed exclusive from group in insert
    into isolation level limit lock lose max min mode not number off on or order randomly read repeat repeatable rollback row
    segments select set share sum table text to update values where""".split()
)

PATTERN = re.compile(
    r"(?P<blank>[ \t]+)|(?P<number>[0-9]+)|(?P<text>'(?:[^']|'')*')|(?P<word>[A-Za-z][A-Za-z0-9_]*)|(?P<sign><>|<=|>=|.)"
)


@dataclass(frozen=True)
class Token:
    """A token: its kind ('number', 'text', 'keyword', 'name' or 'sign') and its text; a keyword's text is in lower case."""

    kind: str
    text: str

    def is_word(self, *words: str) -> bool:
        """Whether it is one of these keywords or signs."""
        return self.kind in ("keyword", "sign") and self.text in words


def tokens_of(line: str) -> list[Token]:
    """The tokens of a line, without blanks."""
    found = []
    for match in PATTERN.finditer(line):
        kind, text = match.lastgroup, match.group()
        if kind == "word":
            is_keyword = text.lower() in KEYWORDS
            kind, text = ("keyword", text.lower()) if is_keyword else ("name", text)
        if kind != "blank":
            found.append(Token(kind, text))
    return found


def text_of(tokens: list[Token]) -> str:
    """The tokens as a line of a script."""
    return " ".join(token.text for token in tokens)
