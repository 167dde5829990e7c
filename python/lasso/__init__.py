"""Interners for Python, over lasso's library for C: each distinct text once, and a small number for each text.

    from lasso import Interner

    with Interner() as interner:
        interner.encode(["red", "blue", "red"])   # Codes('I', [0, 1, 0])
        interner[1]                               # 'blue'

The extension module ``lasso._core`` has the library in it. Free-threaded Pythons and subinterpreters can't import it.
"""

from __future__ import annotations

from lasso.codes import NULL, Codes
from lasso.errors import (
    CodesExhausted, InternerClosed, InternerFrozen, LassoError, LimitReached, NotUtf8, OutOfMemory, WrongLayout,
)
from lasso.interner import Interner
from lasso.shared import SharedInterner
from lasso.sources import ArrowArray, ArrowStream, ArrowStrings

__all__ = [
    "NULL", "ArrowArray", "ArrowStream", "ArrowStrings", "Codes", "CodesExhausted", "Interner", "InternerClosed", "InternerFrozen",
    "LassoError", "LimitReached", "NotUtf8", "OutOfMemory", "SharedInterner", "WrongLayout",
]

__version__ = "0.1.0"
"""The version of this module, and of the library in it."""
