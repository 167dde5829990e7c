"""Tests of the Arrow C data interface, both ways, with faulty producers. `examples/run` also runs them under valgrind."""

from __future__ import annotations

import ctypes
import errno
import struct
from collections.abc import Callable, Iterator
from concurrent.futures import ThreadPoolExecutor
from typing import Any

import pytest

from lasso import NULL, Codes, Interner, InternerClosed, NotUtf8, OutOfMemory, WrongLayout

from producers import Chunks, Column, bitmap, dictionary, new_capsule, read_dictionary, strings, table, views

LONG = "a text of more than twelve bytes"


@pytest.fixture
def interner() -> Iterator[Interner]:
    with Interner() as made:
        yield made


def small(data: bytes, *offsets: int, validity: bytes | None = None, **words: Any) -> Column:
    return Column("u", [validity, struct.pack(f"<{len(offsets)}i", *offsets), data], len(offsets) - 1, **words)


def given_back(*columns: Column) -> bool:
    return all(column.released == {"schema": 1, "array": 1} for column in columns)


@pytest.mark.parametrize("offset", [0, 1, 3, 8, 9])
@pytest.mark.parametrize("made", [strings, lambda texts, offset: strings(texts, offset, large=True), views])
def test_takes_texts_of_each_layout(interner: Interner, made: Callable[..., Column], offset: int) -> None:
    texts = ["red", None, LONG, "red", "", LONG + " 2", None, "grün", LONG, "a", None, "red"]
    expected: dict[str, int] = {}
    codes = [NULL if text is None else expected.setdefault(text, len(expected)) for text in texts[offset:]]
    column = made(texts, offset)
    assert (list(interner.encode(column)), interner.texts(), given_back(column)) == (codes, list(expected), True)
    column = made(texts, offset)
    assert interner.get_many(column) == [None if code == NULL else code for code in codes]
    assert given_back(column)


def test_takes_texts_without_nulls(interner: Interner) -> None:
    for column in (strings(["b", "a", "b"], 1), strings(["a", "b"], large=True), views(["b"])):
        assert list(interner.encode(column)) == [interner.get(text) for text in {"u": "ab", "U": "ab", "vu": "b"}[column.kind.decode()]]
    assert interner.get_many(strings(["c", "b"])) == [None, 1]
    assert interner.get_many(strings(["c", "b"], large=True)) == [None, 1]
    assert (list(interner.encode(Column("n", [], 2))), interner.get_many(Column("n", [None], 1)), len(interner)) == ([NULL, NULL], [None], 2)


@pytest.mark.parametrize("kind", list("cCsSiIlL"))
@pytest.mark.parametrize("made", [strings, views])
def test_takes_dictionaries(interner: Interner, made: Callable[..., Column], kind: str) -> None:
    texts = made(["unused", "red", None, "blue", LONG], 1)
    column = dictionary([0, 2, None, 2, 0, 1, 3], texts, 1, kind)
    assert (list(interner.encode(column)), interner.texts()) == ([0, NULL, 0, 1, NULL, 2], ["blue", "red", LONG])
    assert given_back(column, texts)
    texts = made(["pink", "red"])
    assert interner.get_many(dictionary([1, None, 0], texts, kind=kind)) == [1, None, None]
    assert given_back(texts)


@pytest.mark.parametrize("kind, index", [("c", -1), ("s", 2), ("i", -(2**31)), ("I", 2**32 - 1), ("l", 2**40), ("L", 2**63)])
def test_refuses_an_index_past_the_dictionary(interner: Interner, kind: str, index: int) -> None:
    column = dictionary([1, None, index], strings(["unused", "red"]), kind=kind)
    with pytest.raises(WrongLayout, match="an index is past .* dictionary of 2 texts, at text 2") as caught:
        interner.encode(column)
    assert (caught.value.position, interner.texts(), given_back(column)) == (2, ["red"], True)


def test_takes_the_column_of_a_struct(interner: Interner) -> None:
    def made() -> Column:
        return table(3, 1, bitmap([True, True, False, True]), a=Column("l", [None, bytes(40)], 5), b=strings(["u", "red", "v", None, "w"]))

    column = made()
    assert (list(interner.encode(column, column="b")), interner.texts(), given_back(column, *column.below)) == ([0, NULL, NULL], ["red"], True)
    assert interner.get_many(made(), column="b") == [0, None, None]
    assert list(interner.encode(table(2, b=strings(["blue", "red"])), "b")) == [1, 0]
    assert list(interner.encode(table(1, 1, b=dictionary([1, 0], strings(["red", "u"]))), "b")) == [0]
    for words, error, said in [
        ({}, TypeError, "columns 'a', 'b': name one"), ({"column": "c"}, KeyError, "no one column 'c'"),
        ({"column": "a"}, TypeError, "an Arrow array of int64 .format 'l'., and no column of strings"),
    ]:
        column = made()
        with pytest.raises(error, match=said):
            interner.encode(column, **words)
        assert given_back(column)
    with pytest.raises(TypeError, match="has no column 'a'"):
        interner.encode(strings(["red"]), column="a")
    with pytest.raises(TypeError, match="no Arrow struct"):
        interner.encode(["red"], column="a")


@pytest.mark.parametrize("kind, name", [("l", "int64"), ("z", "binary"), ("vz", "binary_view"), ("+l", "list"), ("tsn:", "another type")])
def test_names_the_type_of_what_are_no_texts(interner: Interner, kind: str, name: str) -> None:
    column = Column(kind, [None, bytes(64), b""], 1)
    with pytest.raises(TypeError, match=f"{name} .format '{kind[0] if kind[0] != '+' else '.'}"):
        interner.encode(column)
    assert (given_back(column), len(interner)) == (True, 0)


FAULTS: list[tuple[str, Callable[[], Column], str]] = [
    ("no offsets", lambda: Column("u", [None, None, b"red"], 1), "without its offsets"),
    ("no bytes", lambda: Column("u", [None, struct.pack("<ii", 0, 3), None], 1), "without its bytes"),
    ("no views", lambda: Column("vu", [None, None, bytes(8)], 1), "without its views"),
    ("no sizes", lambda: Column("vu", [None, bytes(16), b"red", None], 1), "without the sizes"),
    ("no indices", lambda: Column("i", [None, None], 1, dictionary=strings(["red"])), "without its indices"),
    ("two buffers", lambda: small(b"red", 0, 3, n_buffers=2), "2 buffers, where 3 belong"),
    ("four buffers", lambda: small(b"red", 0, 3, n_buffers=4), "4 buffers, where 3 belong"),
    ("fewer than no buffers", lambda: small(b"red", 0, 3, n_buffers=-1), "-1 buffers"),
    ("few buffers of views", lambda: Column("vu", [None, bytes(16)], 1), "at least 3"),
    ("three buffers of indices", lambda: Column("i", [None, bytes(4), None], 1, dictionary=strings(["a"])), "3 buffers, where 2 belong"),
    ("below no rows", lambda: Column("u", [None, bytes(8), b""], -1), "-1 rows"),
    ("from before the first row", lambda: Column("u", [None, bytes(8), b""], 1, -1), "from row -1"),
    ("more rows than there can be", lambda: Column("u", [None, bytes(8), b""], 2**62), "rows"),
    ("an offset past all", lambda: Column("u", [None, bytes(8), b""], 1, 2**63 - 1), "from row"),
    ("nulls without a bitmap", lambda: small(b"red", 0, 3, null_count=1), "1 nulls and no validity"),
    ("a short column of a struct", lambda: table(2, 1, b=strings(["red", "blue"])), "with 2 rows, where the struct has rows up to 3"),
    ("falling offsets", lambda: small(b"redblue", 0, 3, 1, 7), "at text 1"),
    ("offsets below 0", lambda: small(b"red", -3, 0), "at text 0"),
    ("an end below 0", lambda: small(b"red", 0, -3), "at text 0"),
    ("an offset past the last one", lambda: small(b"red", 0, 9, 3), "at text 0"),
    ("a view past its buffer", lambda: Column("vu", [None, struct.pack("<i4sii", 13, b"a te", 0, 2), b"a text of more", struct.pack("<q", 14)], 1), "at text 0"),
    ("a view of no buffer", lambda: Column("vu", [None, struct.pack("<i4sii", 13, b"a te", 1, 0), b"a text of more", struct.pack("<q", 14)], 1), "at text 0"),
    ("a view from below 0", lambda: Column("vu", [None, struct.pack("<i4sii", 13, b"a te", 0, -1), b"a text of more", struct.pack("<q", 14)], 1), "at text 0"),
    ("a view below no bytes", lambda: Column("vu", [None, struct.pack("<i12s", -1, b""), bytes(0)], 1), "at text 0"),
    ("a view of a buffer of no bytes", lambda: Column("vu", [None, struct.pack("<i4sii", 13, b"a te", 0, 0), None, struct.pack("<q", 14)], 1), "at text 0"),
]


@pytest.mark.parametrize("made, said", [fault[1:] for fault in FAULTS], ids=[fault[0] for fault in FAULTS])
@pytest.mark.parametrize("call", [Interner.encode, Interner.get_many])
def test_refuses_faulty_arrays(interner: Interner, call: Any, made: Callable[[], Column], said: str) -> None:
    column = made()
    with pytest.raises(WrongLayout, match=said):
        call(interner, column, *(["b"] if column.below else []))
    assert given_back(column)


def test_believes_no_length_for_which_there_is_no_memory(interner: Interner) -> None:
    def huge(length: int, offset: int = 0) -> Column:
        return Column("u", [None, bytes(8), b""], length, offset)

    for column in (huge(2**50), huge(1, 2**50), dictionary([0], huge(2**50)), table(1, b=huge(2**50))):
        with pytest.raises(OutOfMemory):
            interner.encode(column, *(["b"] if column.below else []))
        assert given_back(column)


def test_counts_nulls_by_the_bitmap_whatever_their_count(interner: Interner) -> None:
    for count in (-1, 0, 1, 3, 2**40, -5):
        assert list(interner.encode(small(b"redblue", 0, 3, 7, validity=b"\1", null_count=count))) == [0, NULL]
    assert list(interner.encode(small(b"redblue", 0, 3, 7, null_count=0))) == [0, 1]
    assert list(interner.encode(Column("u", [None, None, None], 0, null_count=7))) == []
    assert list(interner.encode(Column("u", [None, bytes(8), None], 1))) == [2]


def test_refuses_offsets_that_are_not_aligned(interner: Interner) -> None:
    column = small(b"red", 0, 0, 3)
    column.buffers[1] = (column.buffers[1] or 0) + 2
    with pytest.raises(WrongLayout, match="not aligned"):
        interner.encode(column)


def test_releases_once_what_was_released_before(interner: Interner) -> None:
    column = strings(["red"])
    capsules = column.__arrow_c_array__()

    class Again:
        def __arrow_c_array__(self, requested_schema: object = None) -> tuple[object, object]:
            return capsules

    assert list(interner.encode(Again())) == [0]
    for _ in range(2):
        with pytest.raises(WrongLayout, match="schema that was released already"):
            interner.encode(Again())
    assert given_back(column)
    column = strings(["red"])
    column.array.release(ctypes.pointer(column.array))
    with pytest.raises(WrongLayout, match="array that was released already"):
        interner.encode(column)
    assert given_back(column)
def test_refuses_parts_that_were_released_before(interner: Interner) -> None:
    for part in ("schema", "array"):
        below = strings(["red"])
        column = table(1, b=below)
        getattr(below, part).release(ctypes.pointer(getattr(below, part)))
        column.below = []  # Its release would call that of the part which is gone.
        with pytest.raises(WrongLayout, match="released already"):
            interner.encode(column, column="b")
        assert given_back(column)


def test_refuses_what_misses_its_parts(interner: Interner) -> None:
    column = table(1, b=strings(["red"]))
    column.array.n_children = 2
    with pytest.raises(WrongLayout, match="2 columns, where its schema has 1"):
        interner.encode(column, column="b")
    column = dictionary([0], strings(["red"]))
    column.array.dictionary = None
    with pytest.raises(WrongLayout, match="released already"):
        interner.encode(column)
    column = strings(["red"])
    column.schema.format = None
    with pytest.raises(WrongLayout, match="without a format"):
        interner.encode(column)
    column = strings(["red"])
    column.array.buffers = None
    with pytest.raises(WrongLayout, match="without its buffers"):
        interner.encode(column)


def test_takes_no_capsule_of_another_name(interner: Interner) -> None:
    column = strings(["red"])

    class Swapped:
        def __arrow_c_array__(self, requested_schema: object = None) -> Any:
            return column.__arrow_c_array__()[::-1]

    class Wrong:
        def __arrow_c_array__(self, requested_schema: object = None) -> Any:
            return "ab"

        def __arrow_c_stream__(self, requested_schema: object = None) -> Any:
            return column.__arrow_c_array__()[0]

    class Streamed:
        __arrow_c_stream__ = Wrong.__arrow_c_stream__

    for wrong in (Swapped(), Wrong(), Streamed()):
        with pytest.raises(TypeError, match="no capsule 'arrow_"):
            interner.encode(wrong)
    assert column.released == {"schema": 0, "array": 0}


def test_keeps_the_texts_before_a_refused_one(interner: Interner) -> None:
    for column in (small(b"redred\xffpink", 0, 3, 6, 7, 11), small(b"redred\xffpink", 0, 3, 6, 7, 11, validity=b"\x0f")):
        with pytest.raises(NotUtf8) as caught:
            interner.encode(column)
        assert (caught.value.position, interner.texts(), given_back(column)) == (2, ["red"], True)
    with pytest.raises(NotUtf8) as caught:
        interner.get_many(small(b"pinkred\xff", 0, 4, 7, 8))
    assert caught.value.position == 2


# Rows that are copied one by one, of which the last is no UTF-8.
GATHERED: dict[str, Callable[[], Column]] = {
    "a slice within a byte of its bitmap": lambda: Column("u", [b"\x0f", struct.pack("<5i", 0, 1, 4, 7, 8), b"xredred\xff"], 3, 1),
    "views": lambda: Column("vu", [None, struct.pack("<i12si12si12s", 3, b"red", 3, b"red", 1, b"\xff"), b"", struct.pack("<q", 0)], 3),
    "a column of a struct with nulls": lambda: table(3, validity=b"\x07", words=small(b"redred\xff", 0, 3, 6, 7)),
}


@pytest.mark.parametrize("kind", GATHERED)
def test_says_which_of_the_rows_that_are_copied_is_refused(interner: Interner, kind: str) -> None:
    name = ["words"] if "struct" in kind else []
    for call in (interner.encode, interner.get_many):
        with pytest.raises(NotUtf8) as caught:
            call(GATHERED[kind](), *name)
        assert (caught.value.position, interner.texts()) == (2, ["red"])


def test_reads_a_stream_chunk_by_chunk(interner: Interner) -> None:
    columns = [strings(["red", None]), strings([]), strings(["u", "blue", "red"], 1)]
    stream = Chunks(columns)
    assert (list(interner.encode(stream)), interner.texts(), stream.released) == ([0, NULL, 1, 0], ["red", "blue"], 1)
    assert [column.released["array"] for column in columns] == [1, 1, 1]
    assert columns[0].released["schema"] == 1
    assert interner.get_many(Chunks([table(2, b=strings(["pink", "red"]))]), "b") == [None, 0]
    with pytest.raises(WrongLayout, match="stream that was released already"):
        interner.encode(stream)
    with pytest.raises(NotUtf8) as caught:
        interner.encode(Chunks([strings(["red", "red"]), small(b"red\xff", 0, 3, 4)]))
    assert caught.value.position == 3


def test_passes_on_the_errors_of_a_stream(interner: Interner) -> None:
    for words, said in [({}, "it broke"), ({"says": None}, "doesn't say why"), ({"says": b"\xff"}, "\ufffd")]:
        stream = Chunks([strings(["red"]), strings(["blue"])], fails=1, **words)
        with pytest.raises(OSError, match=said) as caught:
            interner.encode(stream)
        assert (caught.value.errno, stream.released, stream.columns[0].released["array"]) == (errno.EIO, 1, 1)
    stream = Chunks([strings(["red"])], schema_fails=True)
    with pytest.raises(OSError, match="it broke"):
        interner.encode(stream)
    assert (stream.released, interner.texts()) == (1, ["red"])
    stream = Chunks([strings(["red"])])
    stream.columns[0].schema.format = b"z"
    with pytest.raises(TypeError, match="binary"):
        interner.encode(stream)
    assert (stream.released, stream.columns[0].released) == (1, {"schema": 1, "array": 0})


def test_goes_on_in_other_threads_during_long_chunks(interner: Interner) -> None:
    texts = [f"text {row % 5000}" for row in range(20000)]
    columns = [strings(texts) for _ in range(8)]
    with ThreadPoolExecutor(8) as threads:
        running = [threads.submit(interner.encode, column) for column in columns]
        while not all(each.done() for each in running):
            interner.intern("text 0")
            assert interner.get("text") is None
    for each in running:
        assert [interner[code] for code in each.result()] == texts
    assert (len(interner), all(map(given_back, columns))) == (5000, True)


def test_refuses_a_closed_interner_whatever_the_column() -> None:
    interner = Interner()
    interner.close()
    for column in (strings([]), strings(["red"]), dictionary([], strings([])), Column("n", [], 0)):
        with pytest.raises(InternerClosed):
            interner.encode(column)
        assert given_back(column)


def test_gives_codes_as_a_dictionary_array(interner: Interner) -> None:
    codes = interner.encode(["red", None, "grün", "red"])
    assert read_dictionary(codes) == ("i of u", [0, None, 1, 0], ["red", "grün"])
    interner.intern("")
    assert read_dictionary(codes) == ("i of u", [0, None, 1, 0], ["red", "grün", ""])
    assert read_dictionary(Codes(interner)) == ("i of u", [], ["red", "grün", ""])
    assert read_dictionary(Interner().encode([])) == ("i of u", [], [])
    assert read_dictionary(Interner().encode([None] * 9)) == ("i of u", [None] * 9, [])
    codes.append(1)
    codes += interner.encode([""])
    assert read_dictionary(codes) == ("i of u", [0, None, 1, 0, 1, 2], ["red", "grün", ""])


def test_gives_arrays_that_stay(interner: Interner) -> None:
    codes = interner.encode(["red", "blue"])
    schema, array = codes.__arrow_c_array__()
    codes[0] = 7
    interner.close()
    del codes

    class Kept:
        def __arrow_c_array__(self, requested_schema: object = None) -> tuple[object, object]:
            return schema, array

    with Interner() as other:
        assert (list(other.encode(Kept())), other.texts()) == ([0, 1], ["red", "blue"])


def test_gives_no_array_of_codes_without_texts(interner: Interner) -> None:
    codes = interner.encode(["red", "blue"])
    interner.clear()
    interner.intern("red")
    with pytest.raises(ValueError, match="code of row 1 has no text: there are 1 texts"):
        codes.__arrow_c_array__()
    interner.close()
    with pytest.raises(InternerClosed):
        codes.__arrow_c_array__()


def test_encodes_the_codes_of_another_interner(interner: Interner) -> None:
    with Interner() as other:
        codes = other.encode(["blue", None, "red"])
    with Interner() as other:
        codes = other.encode(["unused", "blue", None, "red"])[1:]
        assert (list(interner.encode(Codes(other, codes))), interner.texts()) == ([0, NULL, 1], ["blue", "red"])


def test_leaves_a_capsule_alone_that_was_not_read() -> None:
    column = strings(["red"])
    capsule = new_capsule(ctypes.addressof(column.array), b"arrow_array", None)
    del capsule
    assert column.released == {"schema": 0, "array": 0}
