"""Where texts come from: lists, arrays of numpy, columns of pandas, and arrays and streams of Arrow."""

from __future__ import annotations

import sys
from array import array
from collections.abc import Sequence
from typing import Any, Protocol

from lasso._core import Core, Seat

# How many rows are encoded before Python may run a signal's handler or another thread.
_ROWS = 65536


class ArrowArray(Protocol):
    """What gives an array by the Arrow PyCapsule interface, as an array of pyarrow does."""

    def __arrow_c_array__(self, requested_schema: object = None) -> tuple[object, object]: ...


class ArrowStream(Protocol):
    """What gives a stream of arrays by the Arrow PyCapsule interface, as a column of polars or a table of pyarrow does."""

    def __arrow_c_stream__(self, requested_schema: object = None) -> object: ...


class ArrowStrings(Protocol):
    """An Arrow array of strings or of large strings. ``buffers()`` are the validity, the offsets and the bytes. ``type`` is read if there is one:
    without it the array is one of strings, whose offsets have 32 bits."""

    offset: int

    def buffers(self) -> list[Any]: ...

    def __len__(self) -> int: ...


def encode_into(core: Core | Seat, texts: Any, column: str | None, codes: array[int], appends: bool) -> None:
    """Appends the codes of texts to ``codes``, which is empty. Absent texts are interned, or else have the code NULL, as nulls have."""
    if column is None and _has_rows(texts):
        _encode_rows(core, texts, codes, appends)
    elif hasattr(texts, "__arrow_c_array__"):
        schema, capsule = texts.__arrow_c_array__()
        core._arrow_array(schema, capsule, column, codes, appends)
    elif hasattr(texts, "__arrow_c_stream__"):
        core._arrow_stream(texts.__arrow_c_stream__(), column, codes, appends)
    elif column is not None:
        raise TypeError(f"a {type(texts).__name__} is no Arrow struct, so it has no column {column!r}: give the texts alone")
    elif hasattr(texts, "buffers"):
        _encode_buffers(core, texts, codes, appends)
    else:
        _encode_rows(core, texts, codes, appends)


def _has_rows(texts: Any) -> bool:
    """Whether the texts are objects of Python already, or a column that needs pyarrow to be one of Arrow."""
    if type(texts).__module__.partition(".")[0] == "pandas" and "pyarrow" not in sys.modules:
        return True
    return isinstance(texts, list) or (getattr(texts, "dtype", None) == object) is True


def _encode_rows(core: Core | Seat, texts: Any, codes: array[int], appends: bool) -> None:
    rows, nulls = _rows_of(texts), _nulls()
    as_they_are = isinstance(rows, list) or rows.dtype == object
    if as_they_are:
        core._check_rows(rows, nulls)
    codes.frombytes(bytes(4 * len(rows)))
    # Meanwhile another thread may have changed the list: there is a code for each row that there was.
    for start in range(0, max(len(codes), 1), _ROWS):
        stop = min(start + _ROWS, len(codes))
        if as_they_are:
            core._rows(rows, start, stop, 0, nulls, codes, appends)
        else:
            core._rows(rows[start:stop].tolist(), 0, stop - start, start, nulls, codes, appends)


def _rows_of(texts: Any) -> Any:
    """The rows as a list, or as an array of numpy with one dimension whose items are objects or texts of a fixed width."""
    if isinstance(texts, (str, bytes)):
        raise TypeError("one text, where many are wanted: give a list of texts")
    if hasattr(texts, "to_numpy"):
        texts = texts.to_numpy()
    if type(texts) is list:
        return texts
    if hasattr(texts, "mask"):
        return texts.tolist()
    is_row = getattr(texts, "ndim", 0) == 1 and getattr(texts.dtype, "kind", "") in ("O", "U")
    return texts if is_row else list(texts)


def _nulls() -> tuple[object, ...]:
    """The objects, besides None and NaN, that pandas has for a row without a text."""
    pandas = sys.modules.get("pandas")
    return tuple(getattr(pandas, name) for name in ("NA", "NaT") if hasattr(pandas, name))


def _encode_buffers(core: Core | Seat, texts: Any, codes: array[int], appends: bool) -> None:
    name = str(getattr(texts, "type", "string"))
    if name not in ("string", "utf8", "large_string", "large_utf8"):
        raise TypeError(f"an Arrow array of {name}, where string or large_string is wanted")
    buffers: Sequence[Any] = texts.buffers()
    if len(buffers) != 3:
        raise TypeError(f"an Arrow array of {name} with {len(buffers)} buffers, where 3 belong")
    validity, offsets, data = buffers
    core._buffers(validity, offsets, data, texts.offset, len(texts), name.startswith("large"), codes, appends)
