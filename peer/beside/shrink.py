"""Fewest lines of a script that still show what the whole shows."""

from collections.abc import Callable


def shrunk(lines: list[str], still: Callable[[list[str]], bool]) -> list[str]:
    """A part of the lines, in their order, of which `still` holds and of whose parts with one line less it doesn't.

    `still` holds of the lines themselves. This is delta debugging: ever smaller pieces are left out while that holds.
    """
    piece = max(1, len(lines) // 2)
    while True:
        start, is_less = 0, False
        while start < len(lines):
            fewer = lines[:start] + lines[start + piece :]
            if still(fewer):
                lines, is_less = fewer, True
            else:
                start += piece
        if piece == 1 and not is_less:
            return lines
        piece = max(1, piece // 2)
