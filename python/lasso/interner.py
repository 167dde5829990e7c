"""The class Interner."""

from __future__ import annotations

import importlib
import operator
import os
from array import array
from collections.abc import Iterable, Iterator
from types import TracebackType
from typing import Any, TypeVar

from lasso._core import Core
from lasso.codes import NULL, Codes
from lasso.sources import ArrowArray, ArrowStream, ArrowStrings, encode_into

_Kind = TypeVar("_Kind", bound="Interner")


class Interner(Core):
    """Texts, each once, in the order in which they came. A text's code is its position, from 0.

    ``limit`` is how many bytes the texts' buckets may take; None is no limit. The first bucket has 4,096 bytes whatever the limit. ``seed`` is a
    number below 2^128, by which texts are hashed; None is a new one of the system's random numbers. Codes are the same whatever it is. Threads may
    share an interner: each call waits for one that lets others run meanwhile, and a child that ``os.fork`` makes during such a call has it
    closed. ``encode`` and ``get_many`` let other threads between blocks of rows. Its memory is given back at the end of a ``with`` block, by
    ``close``, or when the interner is garbage.
    """

    def __init__(self, limit: int | None = None, *, seed: int | None = None) -> None:
        self._open(limit, *halves(seed))

    def __enter__(self: _Kind) -> _Kind:
        return self

    def __exit__(
        self, kind: type[BaseException] | None, fault: BaseException | None, traceback: TracebackType | None
    ) -> None:
        self.close()

    def __repr__(self) -> str:
        state = "closed" if self.closed else f"{len(self)} texts, {self.memory} bytes"
        return f"<{type(self).__name__}: {state}>"

    def encode(
        self, texts: Iterable[object] | ArrowArray | ArrowStream | ArrowStrings, column: str | None = None
    ) -> Codes:
        """The codes of many texts, which are appended if they are absent: an array of type ``I``, which numpy takes as it is. A null has the
        code NULL, and no text is appended for it.

        ``texts`` is an iterable of str and nulls, as a list, a numpy array or a column of pandas; or what has ``__arrow_c_array__`` or
        ``__arrow_c_stream__``: strings, large strings, string views, or a dictionary of these; or the ``column`` of this name of a struct, as a table
        or record batches are; or an array with ``buffers()``. Nulls are None, NaN, pandas.NA, pandas.NaT, and those of Arrow.

        Raises TypeError for an item of another type or an Arrow array of another type: of a list, a numpy array or a pandas column nothing is
        interned then. Raises KeyError for an absent column, and OSError for what a stream says. Otherwise the texts before a refused one stay,
        and the error, one of those of ``intern`` or WrongLayout, has its ``position``.
        """
        codes = Codes(self)
        encode_into(self, texts, column, codes, True)
        return codes

    def get_many(
        self, texts: Iterable[object] | ArrowArray | ArrowStream | ArrowStrings, column: str | None = None
    ) -> list[int | None]:
        """The code of each text, or None for an absent one and for a null. None is appended. It takes and raises what ``encode`` does."""
        codes = array("I")
        encode_into(self, texts, column, codes, False)
        return [None if code == NULL else code for code in codes]

    def __iter__(self) -> Iterator[str]:
        return iter(self.texts())

    def to_categorical(self, codes: Any) -> Any:
        """A pandas Categorical of codes: those that ``encode`` returned, or any array of integers. Its categories are the interner's texts in the
        order of their codes; NULL, -1 and what is masked are nulls. It needs pandas, and raises ValueError for a code that has no text, and
        TypeError for what are no integers."""
        numpy, pandas = importlib.import_module("numpy"), importlib.import_module("pandas")
        if isinstance(codes, numpy.ma.MaskedArray) and codes.dtype.kind in "iu":
            codes = [NULL if code is None else code for code in codes.tolist()]
        numbers = numpy.asarray(codes)
        if isinstance(codes, (bytes, bytearray)) or numbers.ndim != 1 or (numbers.size > 0 and numbers.dtype.kind not in "iu"):
            raise TypeError(f"codes are integers in one dimension, and these are a {type(codes).__name__} of {numbers.dtype}")
        if numbers.dtype == numpy.uint32:
            signed = numbers.view(numpy.int32).copy()
        else:
            if numbers.size > 0 and int(numbers.max()) > NULL:
                raise ValueError(f"no text has the code {numbers.max()}")
            signed = numbers.astype(numpy.int64)
            signed[signed == NULL] = -1
        return pandas.Categorical.from_codes(signed, categories=_distinct(pandas.Index(self.texts(), dtype=object)))

    def copy(self: _Kind) -> _Kind:
        """Another interner of the same class with the same texts, codes, limit and attributes. The limit is greater if the texts' bytes are."""
        made = Core.__new__(type(self))
        self._clone(made)
        made.__dict__.update(self.__dict__)
        return made

    __copy__ = copy

    def __reduce__(self) -> tuple[Any, ...]:
        """What pickle keeps: the class, the texts, the limit and attributes. It raises InternerClosed once the interner is closed."""
        # Before the texts: these raise InternerClosed if another thread has closed the interner, and the limit is 0 then.
        limit = self.limit
        return _loaded, (type(self), self.texts(), limit), self.__dict__ or None


def _distinct(texts: Any) -> Any:
    """A pandas Index of an interner's texts, once pandas knows that they are distinct and no nulls. Else pandas hashes each for a Categorical, which
    takes half of the Categorical's time. An Index keeps such answers in its cache; one without this cache finds them itself."""
    known = getattr(texts, "_cache", None)
    if isinstance(known, dict):
        known.update(is_unique=True, hasnans=False)
    return texts


def halves(seed: int | None) -> tuple[int, int]:
    """A seed, or a new one, as two numbers of 64 bits."""
    whole = int.from_bytes(os.urandom(16), "little") if seed is None else operator.index(seed)
    if not 0 <= whole < 2**128:
        raise ValueError(f"a seed of {seed}, which is not from 0 up to 2^128 - 1")
    return whole % 2**64, whole >> 64


def _loaded(kind: type[_Kind], texts: list[str], limit: int | None) -> _Kind:
    """An interner of a class, with these texts under the codes of their order, and with that limit."""
    made = Core.__new__(kind)
    made._open(None, *halves(None))
    encode_into(made, texts, None, array("I"), True)
    if len(made) != len(texts):
        raise ValueError("a text comes twice, so that later ones would have other codes")
    made.limit = limit
    return made
