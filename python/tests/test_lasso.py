"""Tests of the module lasso, with expected codes that were worked by hand."""

from __future__ import annotations

import copy
import ctypes
import pickle
import struct
import sys
from collections.abc import Iterator, Sequence
from pathlib import Path
from typing import Any

import pytest

import lasso
from lasso import NULL, Interner, InternerClosed, LassoError, LimitReached, NotUtf8, WrongLayout


class Column:
    """An array of strings as pyarrow has it: three buffers, an offset and a length."""

    def __init__(self, data: Any, offsets: Sequence[int], start: int = 0, validity: bytes | None = None, kind: str = "string") -> None:
        width = "q" if kind.startswith("large") else "i"
        self.data, self.starts, self.validity = data, struct.pack(f"<{len(offsets)}{width}", *offsets), validity
        self.offset, self.length, self.type = start, len(offsets) - 1 - start, kind

    def buffers(self) -> list[Any]:
        return [self.validity, self.starts, self.data]

    def __len__(self) -> int:
        return self.length


class Addressed(bytearray):
    """Bytes that tell their address, as a buffer of pyarrow does."""

    @property
    def address(self) -> int:
        return ctypes.addressof(ctypes.c_char.from_buffer(self))


@pytest.fixture
def interner() -> Iterator[Interner]:
    with Interner() as made:
        yield made


def test_numbers_texts_from_call_to_call(interner: Interner) -> None:
    assert [interner.intern(text) for text in ["a", "b", "a", "", "grün"]] == [0, 1, 0, 2, 3]
    assert list(interner.encode(["grün", "c", "c"])) == [3, 4, 4]
    assert list(interner.encode([])) == []
    assert (len(interner), interner.texts(3), list(interner)) == (5, ["grün", "c"], ["a", "b", "", "grün", "c"])
    assert (interner.get("c"), interner.get("d"), "d" in interner, len(interner)) == (4, None, False, 5)
    assert (interner[3], interner.texts(5), interner.texts(9)) == ("grün", [], [])
    assert interner.get_many(iter(["d", "c", "", "c"])) == [None, 4, 2, 4]
    assert (interner.get_many([]), len(interner)) == ([], 5)


def test_gives_long_texts_whole(interner: Interner) -> None:
    assert (interner.intern("x" * 1000), interner[0]) == (0, "x" * 1000)


def test_has_no_text_for_a_code_past_the_end(interner: Interner) -> None:
    interner.intern("a")
    for code in (1, -1, 2**40):
        with pytest.raises(IndexError):
            interner[code]


def test_takes_the_buffers_of_arrow(interner: Interner) -> None:
    assert list(interner.encode(Column(b"redbluered", [0, 3, 7, 10]))) == [0, 1, 0]
    assert list(interner.encode(Column(b"redbluered", [0, 3, 7, 10], start=1))) == [1, 0]
    assert list(interner.encode(Column(None, [0, 0]))) == [2]
    for wrong in ("binary", "large_binary", "string_view", "int32", "small_string"):
        with pytest.raises(TypeError):
            interner.encode(Column(b"red", [0, 3], kind=wrong))
    assert interner.texts() == ["red", "blue", ""]


def test_takes_the_buffers_of_large_strings(interner: Interner) -> None:
    assert list(interner.encode(Column(b"redbluered", [0, 3, 7, 10], kind="large_string"))) == [0, 1, 0]
    assert list(interner.encode(Column(b"redbluered", [0, 3, 7, 10], start=2, kind="large_utf8"))) == [0]
    column = Column(b"redbluered", [0, 3, 7, 10], validity=b"\5", kind="large_string")
    assert list(interner.encode(column)) == [0, NULL, 0]
    with pytest.raises(WrongLayout):
        interner.encode(Column(b"red", [0, 2**32 + 3], kind="large_string"))


def test_gives_nulls_a_code_of_their_own(interner: Interner) -> None:
    assert list(interner.encode(["a", None, "a", None, "", "b"])) == [0, NULL, 0, NULL, 1, 2]
    assert list(interner.encode([None] * 9 + ["c"])) == [NULL] * 9 + [3]
    # Of nine rows the second and the last are nulls, whose bytes are no text.
    offsets, data = [0, 1, 2, 3, 4, 5, 6, 7, 8, 9], b"d\xc3ddddde\xc3"
    assert list(interner.encode(Column(data, offsets, validity=b"\xfd\0"))) == [4, NULL, 4, 4, 4, 4, 4, 5, NULL]
    assert list(interner.encode(Column(data, offsets, start=1, validity=b"\xfd\0"))) == [NULL, 4, 4, 4, 4, 4, 5, NULL]
    assert list(interner.encode(Column(data, offsets, start=8, validity=b"\xfd\0"))) == [NULL]
    assert interner.texts() == ["a", "", "b", "c", "d", "e"]
    assert interner.get_many(["a", None, "absent"]) == [0, None, None]


@pytest.mark.parametrize("kind", [bytes, bytearray, Addressed])
def test_takes_buffers_of_each_kind(interner: Interner, kind: Any) -> None:
    column = Column(kind(b"redbluered"), [0, 3, 7, 10])
    column.starts = kind(column.starts)
    assert (list(interner.encode(column)), interner.texts()) == ([0, 1, 0], ["red", "blue"])
    column.offset, column.length = 1, 2
    assert list(interner.encode(column)) == [1, 0]
    column.length = 3
    with pytest.raises(ValueError):
        interner.encode(column)


@pytest.mark.parametrize("offset, length, validity", [(0, 1, b""), (0, 9, b"\xff"), (8, 1, b"\xff"), (3, 14, b"\xff\xff")])
def test_refuses_buffers_that_are_too_short(interner: Interner, offset: int, length: int, validity: bytes) -> None:
    rows = offset + length
    column = Column(b"a" * rows, range(rows + 1), validity=validity)
    column.offset, column.length = offset, length
    with pytest.raises(WrongLayout, match=f"a buffer of validity with {len(validity)} bytes, where {len(validity) + 1} are needed"):
        interner.encode(column)
    column.validity = None
    assert list(interner.encode(column)) == [0] * length
    column.starts = column.starts[:-1]
    with pytest.raises(WrongLayout, match=f"a buffer of offsets with {4 * rows + 3} bytes, where {4 * rows + 4} are needed"):
        interner.encode(column)
    column.starts = None  # type: ignore[assignment]
    with pytest.raises(WrongLayout, match="without its offsets"):
        interner.encode(column)


def test_takes_any_iterable_of_texts(interner: Interner) -> None:
    assert list(interner.encode(text for text in ["b", "a", "b"])) == [0, 1, 0]
    assert list(interner.encode({"a": 1, "grün": 2})) == [1, 2]
    assert interner.encode(["a"]).typecode == "I"
    assert interner.texts() == ["b", "a", "grün"]


def test_takes_arrays_of_numpy(interner: Interner) -> None:
    numpy = pytest.importorskip("numpy")
    with pytest.raises(TypeError):
        interner.encode(numpy.array([["b"], ["a"]]))
    assert list(interner.encode(numpy.array(["b", "a", "b"]))) == [0, 1, 0]
    assert list(interner.encode(numpy.array(["grün", "a"], dtype=object))) == [2, 1]
    codes = numpy.frombuffer(interner.encode(["a", "c"]), dtype=numpy.uint32)
    assert (codes.tolist(), interner[codes[1]]) == ([1, 3], "c")
    assert interner.texts() == ["b", "a", "grün", "c"]


def test_takes_more_rows_than_cross_together(interner: Interner) -> None:
    texts: list[Any] = [None if number % 1000 == 7 else f"grün {number % 3000}" for number in range(100000)]
    expected = list(interner.encode(texts))
    assert (expected[6:9], expected[5999:6002], interner[expected[2999]]) == ([6, NULL, 7], [2996, 0, 1], "grün 2999")
    assert list(interner.encode(iter(texts))) == expected
    present = [text for text in texts if text is not None]
    assert interner.get_many(present) == [code for code in expected if code != NULL]
    with pytest.raises(NotUtf8) as caught:
        interner.encode(["new"] * 5000 + ["\ud800"])
    assert (caught.value.position, len(interner)) == (5000, 2998)
    with pytest.raises(NotUtf8) as caught:
        interner.get_many(["new"] * 5000 + ["\ud800"])
    assert caught.value.position == 5000
    with pytest.raises(TypeError):
        interner.encode(["newer"] * 5000 + [1])  # type: ignore[list-item]
    assert len(interner) == 2998


def test_takes_columns_of_pandas(interner: Interner) -> None:
    pandas = pytest.importorskip("pandas")
    column = pandas.Series(["red", None, "blue"] * 2000, dtype=object, index=range(6000, 0, -1))
    assert list(interner.encode(column)) == [0, NULL, 1] * 2000
    assert list(interner.encode(pandas.Series(["blue", "red"], index=[0.5, 0.25]))) == [1, 0]


def test_takes_nothing_but_texts(interner: Interner) -> None:
    wrongs: list[Any] = ["red", b"red", ["red", 1], [None, 1], [b"red"]]
    for wrong in wrongs:
        with pytest.raises(TypeError):
            interner.encode(wrong)
    assert len(interner) == 0


def test_takes_texts_that_no_block_of_rows_has_room_for(interner: Interner) -> None:
    texts = ["red", "x" * 32768, None, "x" * 32769, "grün" * 10000, "red", "y" * 32767, "zz", "x" * 32769]
    assert list(interner.encode(texts)) == [0, 1, NULL, 2, 3, 0, 4, 5, 2]
    assert interner.get_many([*texts, "z" * 40000]) == [0, 1, None, 2, 3, 0, 4, 5, 2, None]
    assert interner.texts() == ["red", "x" * 32768, "x" * 32769, "grün" * 10000, "y" * 32767, "zz"]
    interner.limit = 0
    with pytest.raises(LimitReached) as caught:
        interner.encode(["red", "red", "y" * 100000])
    assert caught.value.position == 2


def test_resolves_texts_while_others_come(interner: Interner) -> None:
    expected = [f"{number} " + "x" * (number % 40) for number in range(5000)]
    for number, text in enumerate(expected):
        assert interner.intern(text) == number
        assert (interner[number], interner[number // 2], interner[0]) == (text, expected[number // 2], expected[0])
    assert (interner.texts(), interner.texts(4998)) == (expected, expected[4998:])


def test_copies(interner: Interner) -> None:
    interner.encode(["red", "", "grün", "x" * 100])
    interner.limit = 5000
    with interner.copy() as copied:
        assert (copied.texts(), copied.limit) == (interner.texts(), 5000)
        assert (copied.intern("blue"), copied.intern("red"), len(copied), len(interner)) == (4, 0, 5, 4)
        interner.clear()
        assert (len(interner), copied[3]) == (0, "x" * 100)
    interner.close()
    with pytest.raises(InternerClosed):
        interner.copy()


@pytest.mark.parametrize("protocol", range(pickle.HIGHEST_PROTOCOL + 1))
def test_is_pickled_by_its_texts(interner: Interner, protocol: int) -> None:
    interner.encode(["red", "", "grün", "x" * 5000])
    for limit in (None, 10000, 1):
        interner.limit = limit
        with pickle.loads(pickle.dumps(interner, protocol)) as loaded:
            assert (loaded.texts(), loaded.limit, loaded.get("grün")) == (interner.texts(), limit, 2)
    with copy.deepcopy(interner) as copied:
        assert (copied.texts(), copied.intern("red")) == (interner.texts(), 0)
    interner.close()
    with pytest.raises(InternerClosed):
        pickle.dumps(interner)


def test_makes_a_categorical(interner: Interner) -> None:
    pytest.importorskip("pandas")
    made = interner.to_categorical(interner.encode(["red", None, "grün", "red"]))
    assert (made.codes.tolist(), made.categories.tolist()) == ([0, -1, 1, 0], ["red", "grün"])
    assert made.tolist()[2:] == ["grün", "red"]
    codes = interner.encode(["blue"])
    interner.clear()
    with pytest.raises(ValueError):
        interner.to_categorical(codes)


def test_refuses_what_is_not_utf8_once_encoded(interner: Interner) -> None:
    with pytest.raises(NotUtf8) as caught:
        interner.encode(["red", "\ud800", "blue"])
    assert (caught.value.position, interner.texts()) == (1, ["red"])
    for call in (interner.intern, interner.get):
        with pytest.raises(NotUtf8) as caught:
            call("\ud800")
        assert caught.value.position is None
    assert len(interner) == 1


def test_keeps_the_texts_before_a_refused_one(interner: Interner) -> None:
    with pytest.raises(NotUtf8) as caught:
        interner.encode(Column(b"red\xc3", [0, 3, 4]))
    assert (caught.value.position, interner.texts()) == (1, ["red"])
    with pytest.raises(WrongLayout):
        interner.encode(Column(b"red", [0, 4]))


def test_holds_a_limit() -> None:
    with Interner(limit=4096) as interner:
        interner.intern("x" * 4096)
        with pytest.raises(LimitReached):
            interner.intern("a text of more bytes than an entry")
        assert (interner.limit, interner.memory, len(interner)) == (4096, 4096, 1)
        interner.limit = None
        assert (interner.limit, interner.intern("a text of more bytes than an entry")) == (None, 1)
        interner.clear()
        assert (len(interner), interner.intern("b")) == (0, 0)


def test_has_no_limit_and_no_code_below_0(interner: Interner) -> None:
    with pytest.raises(ValueError):
        Interner(limit=-1)
    for wrong in (-1, 2**64):
        with pytest.raises(ValueError):
            interner.limit = wrong
    with pytest.raises(ValueError):
        interner.texts(-1)
    assert interner.limit is None


def test_tells_that_it_is_closed() -> None:
    interner = Interner()
    interner.close()
    interner.close()
    with pytest.raises(InternerClosed):
        interner.intern("a")
    with pytest.raises(LassoError):
        interner.texts()
    calls: list[Any] = [
        interner.clear, interner.texts, lambda: interner.get("a"), lambda: interner.encode(["a"]), lambda: interner.get_many([]),
    ]
    for call in calls:
        with pytest.raises(InternerClosed):
            call()
    with pytest.raises(InternerClosed, match="the interner is closed"):
        interner[0]
    assert (len(interner), interner.memory, interner.limit) == (0, 0, 0)


def test_a_second_interpreter_cant_import_it() -> None:
    interpreters = pytest.importorskip("_xxsubinterpreters")
    made = interpreters.create()
    try:
        with pytest.raises(interpreters.RunFailedError, match="ImportError.*: lasso can't be used in a subinterpreter"):
            interpreters.run_string(made, f"import sys\nsys.path[:0] = {sys.path!r}\nimport lasso")
    finally:
        interpreters.destroy(made)
    assert list(Interner().encode(["red"])) == [0]


def test_is_built_with_a_library_of_lasso_alone(tmp_path: Path, monkeypatch: pytest.MonkeyPatch) -> None:
    backend = pytest.importorskip("backend")
    (tmp_path / "liblasso.so").write_bytes(b"")
    monkeypatch.setenv("PKG_CONFIG_LIBDIR", str(tmp_path))
    monkeypatch.setenv("PKG_CONFIG_PATH", "")
    named = {"": "no library of lasso", "missing.a": "there is no such file: /", "liblasso.so": "name the archive liblasso.a"}
    for name, said in named.items():
        monkeypatch.setenv("LASSO_LIBRARY", str(tmp_path / name) if name else "")
        with pytest.raises(SystemExit, match=said):
            backend.build_core(tmp_path / "core.so")
    assert not (tmp_path / "core.so").exists()


def test_no_library_is_an_option_of_the_compiler(tmp_path: Path, monkeypatch: pytest.MonkeyPatch) -> None:
    backend = pytest.importorskip("backend")
    folder = tmp_path / "lib"
    folder.mkdir()
    library = folder / "-save-temps.a"
    library.write_bytes(b"")
    # A copy of the module has its header beside the library's folder.
    (tmp_path / "include").mkdir()
    (tmp_path / "include" / "lasso.h").write_bytes(b"")
    compiler = tmp_path / "cc"
    compiler.write_text("#!/bin/sh\nprintf '%s\\n' \"$@\" > words\nexit 1\n", encoding="ascii")
    compiler.chmod(0o755)
    monkeypatch.chdir(folder)
    monkeypatch.setenv("CC", str(compiler))
    monkeypatch.setenv("LASSO_LIBRARY", library.name)
    with pytest.raises(SystemExit, match="can't be built"):
        backend.build_core(tmp_path / "core.so")
    assert str(library) in (folder / "words").read_text(encoding="utf-8").splitlines()


def test_has_the_version_of_its_metadata() -> None:
    metadata = pytest.importorskip("importlib.metadata")
    try:
        installed = metadata.version("lasso")
    except metadata.PackageNotFoundError:
        pytest.skip("lasso is not installed")
    assert lasso.__version__ == installed
