"""The Arrow C data interface by ctypes: producers of arrays and streams, right ones and faulty ones, and a consumer. Each buffer is a block of
its own, so that valgrind sees a read past its end."""

from __future__ import annotations

import ctypes
import struct
from collections.abc import Callable, Sequence
from ctypes import CFUNCTYPE, POINTER, Structure, c_char_p, c_int, c_int64, c_void_p
from itertools import accumulate
from typing import Any


class Schema(Structure):
    pass


class Array(Structure):
    pass


class Stream(Structure):
    pass


RELEASE_SCHEMA, RELEASE_ARRAY, RELEASE_STREAM = (CFUNCTYPE(None, POINTER(kind)) for kind in (Schema, Array, Stream))
GET_SCHEMA, GET_NEXT = CFUNCTYPE(c_int, POINTER(Stream), POINTER(Schema)), CFUNCTYPE(c_int, POINTER(Stream), POINTER(Array))
GET_LAST_ERROR = CFUNCTYPE(c_void_p, POINTER(Stream))
Schema._fields_ = [
    ("format", c_char_p), ("name", c_char_p), ("metadata", c_char_p), ("flags", c_int64), ("n_children", c_int64),
    ("children", POINTER(POINTER(Schema))), ("dictionary", POINTER(Schema)), ("release", RELEASE_SCHEMA), ("private_data", c_void_p),
]
Array._fields_ = [
    ("length", c_int64), ("null_count", c_int64), ("offset", c_int64), ("n_buffers", c_int64), ("n_children", c_int64),
    ("buffers", POINTER(c_void_p)), ("children", POINTER(POINTER(Array))), ("dictionary", POINTER(Array)), ("release", RELEASE_ARRAY),
    ("private_data", c_void_p),
]
Stream._fields_ = [
    ("get_schema", GET_SCHEMA), ("get_next", GET_NEXT), ("get_last_error", GET_LAST_ERROR), ("release", RELEASE_STREAM), ("private_data", c_void_p),
]

malloc, free = ctypes.CDLL(None).malloc, ctypes.CDLL(None).free
malloc.restype, malloc.argtypes, free.restype, free.argtypes = c_void_p, [ctypes.c_size_t], None, [c_void_p]
new_capsule, pointer_of = ctypes.pythonapi.PyCapsule_New, ctypes.pythonapi.PyCapsule_GetPointer
new_capsule.restype, new_capsule.argtypes = ctypes.py_object, [c_void_p, c_char_p, c_void_p]
pointer_of.restype, pointer_of.argtypes = c_void_p, [ctypes.py_object, c_char_p]


class Column:
    """A column as ``pyarrow.array`` has it: a schema, an array, and how often each was released. What is below it is given as ``children`` or
    ``dictionary``, columns too."""

    def __init__(
        self, kind: str, buffers: Sequence[bytes | None], length: int, offset: int = 0, *, null_count: int = -1, name: str | None = None,
        n_buffers: int | None = None, children: Sequence[Column] = (), dictionary: Column | None = None,
    ) -> None:
        self.released = {"schema": 0, "array": 0}
        self.kind, self.name, self.below, self.dictionary = kind.encode(), None if name is None else name.encode(), children, dictionary
        self.blocks = [None if buffer is None else malloc(max(len(buffer), 1)) for buffer in buffers]
        for block, buffer in zip(self.blocks, buffers):
            if block is not None and buffer is not None:
                ctypes.memmove(block, buffer, len(buffer))
        self.buffers = (c_void_p * max(len(buffers), 1))(*self.blocks)
        self.schema, self.array = Schema(), Array()
        self._fill_schema()
        self._fill_array(length, offset, null_count, len(buffers) if n_buffers is None else n_buffers)

    def _fill_schema(self) -> None:
        self.schemas = (POINTER(Schema) * max(len(self.below), 1))(*(ctypes.pointer(child.schema) for child in self.below))
        self.schema.format, self.schema.name, self.schema.flags, self.schema.n_children = self.kind, self.name, 2, len(self.below)
        if self.below:
            self.schema.children = self.schemas
        if self.dictionary is not None:
            self.schema.dictionary = ctypes.pointer(self.dictionary.schema)
        self.end_schema = RELEASE_SCHEMA(self._release_schema)
        self.schema.release = self.end_schema

    def _fill_array(self, length: int, offset: int, null_count: int, n_buffers: int) -> None:
        self.arrays = (POINTER(Array) * max(len(self.below), 1))(*(ctypes.pointer(child.array) for child in self.below))
        self.array.length, self.array.offset, self.array.null_count = length, offset, null_count
        self.array.n_buffers, self.array.n_children = n_buffers, len(self.below)
        self.array.buffers = self.buffers
        if self.below:
            self.array.children = self.arrays
        if self.dictionary is not None:
            self.array.dictionary = ctypes.pointer(self.dictionary.array)
        self.end_array = RELEASE_ARRAY(self._release_array)
        self.array.release = self.end_array

    def _release_schema(self, taken: Any) -> None:
        self.released["schema"] += 1
        for below in (*self.below, *([] if self.dictionary is None else [self.dictionary])):
            below.schema.release(ctypes.pointer(below.schema))
        taken.contents.release = RELEASE_SCHEMA()

    def _release_array(self, taken: Any) -> None:
        self.released["array"] += 1
        for below in (*self.below, *([] if self.dictionary is None else [self.dictionary])):
            below.array.release(ctypes.pointer(below.array))
        for block in self.blocks:
            free(block)
        taken.contents.release = RELEASE_ARRAY()

    def __arrow_c_array__(self, requested_schema: object = None) -> tuple[object, object]:
        return (new_capsule(ctypes.addressof(self.schema), b"arrow_schema", None), new_capsule(ctypes.addressof(self.array), b"arrow_array", None))


def bitmap(present: Sequence[bool]) -> bytes:
    bits = sum(1 << row for row, is_present in enumerate(present) if is_present)
    return bits.to_bytes((len(present) + 7) // 8, "little")


def strings(texts: Sequence[str | None], offset: int = 0, *, large: bool = False, **words: Any) -> Column:
    """Texts from one on, by 32-bit or 64-bit offsets. The bytes of a null are no UTF-8."""
    encoded = [b"\xff" if text is None else text.encode() for text in texts]
    starts = list(accumulate(map(len, encoded), initial=0))
    validity = bitmap([text is not None for text in texts]) if None in texts else None
    offsets = struct.pack(f"<{len(starts)}{'q' if large else 'i'}", *starts)
    return Column("U" if large else "u", [validity, offsets, b"".join(encoded)], len(texts) - offset, offset, **words)


def views(texts: Sequence[str | None], offset: int = 0) -> Column:
    """The same as string views: long texts in two buffers by turns."""
    parts, encoded = [b"", b""], []
    for row, text in enumerate(texts):
        data = b"\xff" if text is None else text.encode()
        if len(data) <= 12:
            encoded.append(struct.pack("<i12s", len(data), data))
        else:
            encoded.append(struct.pack("<i4sii", len(data), data[:4], row % 2, len(parts[row % 2])))
            parts[row % 2] += data
    validity = bitmap([text is not None for text in texts]) if None in texts else None
    return Column("vu", [validity, b"".join(encoded), *parts, struct.pack("<qq", *map(len, parts))], len(texts) - offset, offset)


def dictionary(indices: Sequence[int | None], texts: Column, offset: int = 0, kind: str = "i") -> Column:
    """Rows as indices into texts."""
    width = {"c": "b", "C": "B", "s": "h", "S": "H", "i": "i", "I": "I", "l": "q", "L": "Q"}[kind]
    validity = bitmap([index is not None for index in indices]) if None in indices else None
    data = struct.pack(f"<{len(indices)}{width}", *(0 if index is None else index for index in indices))
    return Column(kind, [validity, data], len(indices) - offset, offset, dictionary=texts)


def table(length: int, offset: int = 0, validity: bytes | None = None, **columns: Column) -> Column:
    """A struct of columns."""
    for name, column in columns.items():
        column.name = name.encode()
        column._fill_schema()
    return Column("+s", [validity], length, offset, children=list(columns.values()))


class Chunks:
    """A stream of columns of one type. ``fails`` is the number of the chunk at which it fails, and ``says`` what it says of that."""

    def __init__(self, columns: Sequence[Column], *, fails: int | None = None, says: bytes | None = b"it broke", schema_fails: bool = False) -> None:
        self.columns, self.fails, self.given, self.released, self.schema_fails = list(columns), fails, 0, 0, schema_fails
        self.message = None if says is None else ctypes.create_string_buffer(says)
        self.calls: list[Callable[..., Any]] = [
            GET_SCHEMA(self._get_schema), GET_NEXT(self._get_next),
            GET_LAST_ERROR(lambda stream: None if self.message is None else ctypes.addressof(self.message)), RELEASE_STREAM(self._release),
        ]
        self.stream = Stream(*self.calls)

    def _get_schema(self, stream: Any, out: Any) -> int:
        if self.schema_fails:
            return 5
        ctypes.memmove(out, ctypes.byref(self.columns[0].schema), ctypes.sizeof(Schema))
        return 0

    def _get_next(self, stream: Any, out: Any) -> int:
        if self.given == self.fails:
            return 5
        if self.given == len(self.columns):
            out.contents.release = RELEASE_ARRAY()
        else:
            ctypes.memmove(out, ctypes.byref(self.columns[self.given].array), ctypes.sizeof(Array))
        self.given += 1
        return 0

    def _release(self, taken: Any) -> None:
        self.released += 1
        taken.contents.release = RELEASE_STREAM()

    def __arrow_c_stream__(self, requested_schema: object = None) -> object:
        return new_capsule(ctypes.addressof(self.stream), b"arrow_array_stream", None)


def read_dictionary(source: Any) -> tuple[str, list[int | None], list[str]]:
    """What a consumer reads of a dictionary array: its formats, the indices, and the texts. It releases both structs, as a consumer has to."""
    schema_capsule, array_capsule = source.__arrow_c_array__()
    schema = Schema.from_address(pointer_of(schema_capsule, b"arrow_schema"))
    array = Array.from_address(pointer_of(array_capsule, b"arrow_array"))
    indices, texts = _indices(array), _texts(schema.dictionary.contents.format == b"U", array.dictionary.contents)
    formats = (schema.format + b" of " + schema.dictionary.contents.format).decode()
    array.release(ctypes.pointer(array))
    schema.release(ctypes.pointer(schema))
    assert not array.release and not schema.release
    return formats, indices, texts


def _indices(array: Array) -> list[int | None]:
    assert (array.n_buffers, array.n_children, array.offset) == (2, 0, 0)
    validity = bytes() if array.buffers[0] is None else ctypes.string_at(array.buffers[0], (array.length + 7) // 8)
    numbers = struct.unpack(f"<{array.length}i", ctypes.string_at(array.buffers[1], 4 * array.length))
    nulls = [bool(validity) and not validity[row // 8] >> row % 8 & 1 for row in range(array.length)]
    assert array.null_count == sum(nulls)
    return [None if is_null else number for number, is_null in zip(numbers, nulls)]


def _texts(large: bool, array: Array) -> list[str]:
    assert (array.n_buffers, array.null_count, array.offset, array.buffers[0]) == (3, 0, 0, None)
    width = 8 if large else 4
    starts = struct.unpack(f"<{array.length + 1}{'q' if large else 'i'}", ctypes.string_at(array.buffers[1], width * (array.length + 1)))
    data = ctypes.string_at(array.buffers[2], starts[-1])
    return [data[start:end].decode() for start, end in zip(starts, starts[1:])]
