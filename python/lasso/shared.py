"""The class SharedInterner."""

from __future__ import annotations

import threading
from array import array
from collections.abc import Callable, Iterable, Iterator
from types import TracebackType
from typing import Any, TypeVar

from lasso._core import Seat
from lasso.codes import NULL, Codes
from lasso.errors import InternerClosed
from lasso.interner import Interner, halves
from lasso.sources import ArrowArray, ArrowStream, ArrowStrings, encode_into

_Kind = TypeVar("_Kind", bound="SharedInterner")
_Number = TypeVar("_Number")


class _Seats(threading.local):
    """A handle of the interner for each thread that uses it. It is freed when its thread ends."""

    def __init__(self, first: Seat) -> None:
        self.seat = first.join()


class SharedInterner:
    """Texts, each once, that threads intern at the same time. A text's code is its position in one list, which only grows and is the same for all
    threads, from 0.

    Each thread has a handle of its own, which is made when the thread uses the interner first, and freed when the thread ends. ``encode`` and
    ``get_many`` let other threads run meanwhile, also those that encode into the same interner. ``limit`` is how many bytes the texts' buckets may
    take, for all threads together; None is no limit. The first bucket has 4,096 bytes whatever the limit. ``seed`` is a number below 2^128 by which
    texts are hashed, or None for a random one; no code depends on it. The memory is given back at the end of a ``with`` block, by ``close``, or when
    the interner is garbage. A child that ``os.fork`` makes while another thread is in ``encode``, ``get_many`` or ``freeze`` has it closed.
    """

    __slots__ = ("__dict__", "__weakref__", "_first", "_seats")

    def __init__(self, limit: int | None = None, *, seed: int | None = None) -> None:
        self._first = Seat()
        self._first.open(limit, *halves(seed))
        self._seats = _Seats(self._first)

    def __enter__(self: _Kind) -> _Kind:
        return self

    def __exit__(
        self, kind: type[BaseException] | None, fault: BaseException | None, traceback: TracebackType | None
    ) -> None:
        self.close()

    def __repr__(self) -> str:
        state = "closed" if self.closed else f"{len(self)} texts{', frozen' if self.frozen else ''}"
        return f"<{type(self).__name__}: {state}>"

    @property
    def closed(self) -> bool:
        """Whether the interner was closed."""
        return self._first.closed

    def close(self) -> None:
        """Gives the memory back, whichever thread calls it. A call of another thread ends as without it, or raises InternerClosed: each later one
        does, but this one, and ``len``, ``memory`` and ``limit``, which are 0."""
        self._first.close()

    @property
    def frozen(self) -> bool:
        """Whether the interner was frozen."""
        return self._first.frozen

    def freeze(self) -> None:
        """Ends interning for all threads: from then on ``intern`` raises InternerFrozen, and so does ``encode`` at its first text, also at a present
        one. No text is copied or moved, and what reads goes on. An ``encode`` that another thread is in goes on to the end of its block of rows, for
        which this call waits; then it raises InternerFrozen, and the texts before its ``position`` stay. A second call does nothing. Raises
        InternerClosed; or OutOfMemory, if a thread's new handle gets no memory: the interner is frozen then, and for that thread closed until a
        ``freeze`` succeeds."""
        self._first.freeze()

    @property
    def memory(self) -> int:
        """How many bytes the texts' buckets take."""
        return self._of_seat(lambda seat: seat.memory)

    @property
    def limit(self) -> int | None:
        """How many bytes they may take, or None. It can be set. Below what they take only the room that is left in them is used."""
        return self._of_seat(lambda seat: seat.limit)

    @limit.setter
    def limit(self, limit: int | None) -> None:
        self._seats.seat.limit = limit

    def intern(self, text: str) -> int:
        """The code of a text, which is appended if it is absent. Raises NotUtf8 or InternerFrozen; for an absent text LimitReached, CodesExhausted
        or OutOfMemory, and nothing is appended then."""
        return self._seats.seat.intern(text)

    def get(self, text: str) -> int | None:
        """The code of a text, or None if it is absent. Raises NotUtf8."""
        return self._seats.seat.get(text)

    def __contains__(self, text: str) -> bool:
        return text in self._seats.seat

    def __getitem__(self, code: int) -> str:
        return self._seats.seat[code]

    def __len__(self) -> int:
        return self._of_seat(len)

    def texts(self, start: int = 0) -> list[str]:
        """The texts from a code on, up to those of now, in the order of their codes. Raises ValueError for a code below 0."""
        return self._seats.seat.texts(start)

    def __iter__(self) -> Iterator[str]:
        return iter(self.texts())

    def encode(
        self, texts: Iterable[object] | ArrowArray | ArrowStream | ArrowStrings, column: str | None = None
    ) -> Codes:
        """The codes of many texts, which are appended if they are absent, as ``Interner.encode`` returns them. It takes and raises the same, and
        InternerFrozen. New texts of threads that encode at the same time mix."""
        codes = Codes(self)
        encode_into(self._seats.seat, texts, column, codes, True)
        return codes

    def get_many(
        self, texts: Iterable[object] | ArrowArray | ArrowStream | ArrowStrings, column: str | None = None
    ) -> list[int | None]:
        """The code of each text, or None for an absent one and for a null. It takes and raises what ``encode`` does."""
        codes = array("I")
        encode_into(self._seats.seat, texts, column, codes, False)
        return [None if code == NULL else code for code in codes]

    def snapshot(self) -> Interner:
        """An Interner, for one thread at a time, with copies of the texts of now under the same codes, and without a limit."""
        made = Interner.__new__(Interner)
        self._seats.seat._clone(made)
        return made

    def _of_seat(self, number: Callable[[Seat], _Number]) -> _Number | int:
        """A number of the thread's handle, or 0 once the interner is closed. Another thread may close it at any time."""
        try:
            return number(self._seats.seat)
        except InternerClosed:
            return 0

    def _dictionary_array(self, codes: array[int]) -> tuple[object, object]:
        with self.snapshot() as interner:
            return interner._dictionary_array(codes)

    def copy(self: _Kind) -> _Kind:
        """Another shared interner of the same class, with the texts of now, their codes, the limit and the attributes. It is not frozen."""
        made = _loaded(*self._to_load())
        made.__dict__.update(self.__dict__)
        return made

    __copy__ = copy

    def __reduce__(self) -> tuple[Any, ...]:
        """What pickle keeps: the class, the texts of now, the limit and attributes. It raises InternerClosed once the interner is closed."""
        return _loaded, self._to_load(), self.__dict__ or None

    def _to_load(self: _Kind) -> tuple[type[_Kind], list[str], int | None]:
        """What `_loaded` makes another one of."""
        # Before the texts: these raise InternerClosed if another thread has closed the interner, and the limit is 0 then.
        limit = self.limit
        return type(self), self.texts(), limit


def _loaded(kind: type[_Kind], texts: list[str], limit: int | None) -> _Kind:
    """A shared interner of a class, with these texts under the codes of their order, and with that limit."""
    made = kind.__new__(kind)
    SharedInterner.__init__(made)
    encode_into(made._seats.seat, texts, None, array("I"), True)
    if len(made) != len(texts):
        raise ValueError("a text comes twice, so that later ones would have other codes")
    made.limit = limit
    return made
