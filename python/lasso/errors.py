"""The exceptions of the module lasso."""

from __future__ import annotations

__all__ = [
    "CodesExhausted", "InternerClosed", "InternerFrozen", "LassoError", "LimitReached", "NotUtf8", "OutOfMemory", "WrongLayout", "error_of",
]


class LassoError(Exception):
    """A call was refused. ``position`` is the number of the refused text in a batch, from 0, or None."""

    def __init__(self, message: str, position: int | None = None) -> None:
        super().__init__(message if position is None else f"{message}, at text {position}")
        self.position = position


class WrongLayout(LassoError, ValueError):
    """An array is not as Arrow's format has it: offsets fall or are past the bytes, a buffer is missing or too short, an index is past its
    dictionary, or the array was released."""


class NotUtf8(LassoError):
    """A text is not UTF-8. A str is not if it has a lone surrogate."""


class OutOfMemory(LassoError, MemoryError):
    """There was no memory."""


class LimitReached(LassoError):
    """The interner's limit leaves no room for a text."""


class CodesExhausted(LassoError):
    """The interner has a text for each code."""


class InternerClosed(LassoError):
    """The interner was closed."""


class InternerFrozen(LassoError):
    """The shared interner was frozen: no text is interned any more, neither an absent one nor a present one."""


# By the statuses of lasso.h.
_NO_INTERNER = 12
_ERRORS: dict[int, type[LassoError]] = {
    1: WrongLayout, 2: WrongLayout, 3: NotUtf8, 9: OutOfMemory, 10: LimitReached, 11: CodesExhausted, _NO_INTERNER: InternerClosed, 14: WrongLayout,
    17: InternerFrozen,
}


def error_of(status: int, message: str, position: int | None = None) -> LassoError:
    """The exception of a status of lasso.h that is not LASSO_DONE."""
    return _ERRORS.get(status, LassoError)("the interner is closed" if status == _NO_INTERNER else message, position)
