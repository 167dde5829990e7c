"""The codes that ``Interner.encode`` returns."""

from __future__ import annotations

from array import array
from collections.abc import Iterable
from typing import TYPE_CHECKING, Any

if TYPE_CHECKING:
    from lasso.interner import Interner
    from lasso.shared import SharedInterner

NULL = 2**32 - 1
"""The code of a null. No text has it."""


class Codes(array):  # type: ignore[type-arg]
    """Codes of texts, as an ``array`` of type ``I``: numpy takes it as it is, and it can be changed and grow.

    ``interner`` is the interner that has the texts. A slice, a sum, a copy or a pickle of codes is a plain array.
    """

    interner: Interner | SharedInterner

    def __new__(cls, interner: Interner | SharedInterner, codes: Iterable[int] | bytes = b"") -> Codes:
        make: Any = super().__new__
        made: Codes = make(cls, "I", codes)
        made.interner = interner
        return made

    def __arrow_c_array__(self, requested_schema: object = None) -> tuple[object, object]:
        """A dictionary array of Arrow, by the Arrow PyCapsule interface: the codes, and all texts of the interner. NULL is a null.

        The array is a copy, which stays as it is. Whatever schema is asked for, it is a dictionary with ``int32`` indices and ``utf8`` texts;
        the indices are ``uint32`` if there are over 2^31 - 1 texts, and the texts ``large_utf8`` if they have more bytes than that. Raises
        ValueError for a code that has no text, and InternerClosed.
        """
        return self.interner._dictionary_array(self)

    def __reduce_ex__(self, protocol: Any) -> Any:
        return array("I", self).__reduce_ex__(protocol)
