"""Tests of what is done with codes and interners: they grow, are shared by threads, copied, pickled, subclassed, and given back."""

from __future__ import annotations

import copy
import gc
import importlib.util
import pickle
import sys
import threading
import time
import weakref
from array import array
from pathlib import Path
from typing import Any

import producers
import pytest

from lasso import NULL, Codes, Interner, InternerClosed, LassoError, NotUtf8
from lasso.sources import encode_into


class Named(Interner):
    """A subclass whose constructor wants a word."""

    def __new__(cls, name: str) -> Named:
        return super().__new__(cls)

    def __init__(self, name: str) -> None:
        super().__init__(limit=5000)
        self.name = name


def resident() -> int:
    """The bytes of memory that the process has."""
    return int(Path("/proc/self/statm").read_text(encoding="ascii").split()[1]) * 4096


def test_codes_grow_while_the_collector_is_off() -> None:
    gc.disable()
    try:
        interner = Interner()
        for texts in (["red", "blue"], [], ["red"] * 3):
            codes = interner.encode(texts)
            codes += interner.encode(["blue"])
            codes.append(5)
            codes.extend([NULL])
            codes.pop()
            del codes[:1]
            assert (type(codes), codes.itemsize, codes[-1]) == (Codes, 4, 5)
        joined = array("I")
        joined += interner.encode(["blue"])
        gone = [weakref.ref(codes), weakref.ref(interner)]
        del codes, interner
        assert [reference() for reference in gone] == [None, None]
    finally:
        gc.enable()


def test_results_and_interners_give_their_memory_back() -> None:
    texts = [f"text {row % 1000}" for row in range(20000)]
    with Interner() as interner:
        calls: list[Any] = [interner.encode, interner.get_many, lambda rows: Interner().encode(rows)]
        calls += [lambda rows: interner.encode(rows).__arrow_c_array__(), lambda rows: interner.encode(interner.encode(rows)), lambda rows: interner.texts()]
        if importlib.util.find_spec("pandas") is not None:
            calls += [lambda rows: interner.to_categorical(interner.encode(rows))]
        for call in calls:
            call(texts)
            before = resident()
            for _ in range(200):
                call(texts)
            assert resident() - before < 6_000_000  # 200 results have 16,000,000 bytes at least.


def test_a_call_that_the_collector_lets_in_is_waited_for() -> None:
    interner, codes, begun, count = Interner(), array("I", bytes(4 * 1001)), threading.Event(), 1_000_000
    offsets, data = array("i", range(0, 7 * count + 7, 7)), b"".join(b"%07d" % row for row in range(count))
    many, given = producers.Column("u", [None, offsets.tobytes(), data], count), threading.Event()

    def encode() -> None:
        begun.wait()
        given.set()
        interner.encode(many)

    thread = threading.Thread(target=encode)

    def collected(phase: str, told: dict[str, int]) -> None:
        try:
            codes.append(codes.pop())
        except BufferError:  # The call has the codes. It makes the exception of its last text if the others are not interned yet.
            if not begun.is_set() and len(interner) == 0:
                begun.set()
                given.wait()
                time.sleep(0.05)

    before, rows, kept = gc.get_threshold(), [*map(str, range(1000)), "\ud800"], [set[int]()]
    thread.start()
    gc.callbacks.append(collected)
    gc.set_threshold(50)
    try:
        # Of some number of objects before the call it is the call's own that the collector comes at.
        for held in range(60):
            interner.clear()
            with pytest.raises(NotUtf8, match="at text 1000"):
                gc.disable()
                kept.clear()
                gc.collect(0)
                kept += [set() for _ in range(held)]
                gc.enable()
                interner._rows(rows, 0, 1001, 0, (), codes, True)
            if begun.is_set():
                break
        # Python 3.12 has it wait for the end of a call.
        assert begun.is_set() or sys.version_info >= (3, 12)
    finally:
        gc.set_threshold(*before)
        gc.callbacks.remove(collected)
        begun.set()
        thread.join()
    texts = interner.texts()
    assert len(set(texts)) == len(texts) == count + 1000
    # The call's texts come before those of the other one, or after them, and not among them.
    assert list(codes[:1000]) in (list(range(1000)), list(range(count, count + 1000)))


def test_codes_are_pickled_and_copied_as_numbers() -> None:
    with Interner() as interner:
        codes = interner.encode(["red", "blue"])
    for made in (pickle.loads(pickle.dumps(codes)), copy.copy(codes), copy.deepcopy(codes), codes[:], codes + codes[:0]):
        assert (type(made), list(made)) == (array, [0, 1])


def test_makes_categoricals_of_integers_by_value() -> None:
    numpy = pytest.importorskip("numpy")
    pytest.importorskip("pandas")
    interner = Interner()
    codes = interner.encode(["red", None, "blue"])
    rights: list[Any] = [
        codes, array("q", [0, -1, 1]), array("q", [0, NULL, 1]), array("b", [0, -1, 1]), [0, -1, 1], numpy.array([0, -1, 1]),
        numpy.array([0, NULL, 1], dtype=numpy.uint64), numpy.array([0, -1, 1], dtype=numpy.int16), memoryview(codes),
    ]
    for right in rights:
        made = interner.to_categorical(right)
        assert (made.codes.tolist(), made.categories.tolist()) == ([0, -1, 1], ["red", "blue"])
    assert len(interner.to_categorical([])) == 0
    assert interner.to_categorical(numpy.array([1, 0], dtype=numpy.uint8)).tolist() == ["blue", "red"]
    for kind in (numpy.uint32, numpy.int64):
        made = interner.to_categorical(numpy.ma.array([1, 0, 2**32 - 1 if kind is numpy.uint32 else 2**40], mask=[False, True, True], dtype=kind))
        assert made.isna().tolist() == [False, True, True] and made[0] == "blue"
    for wrong in (codes.tobytes(), bytearray(codes.tobytes()), [0.5], ["red"], [[0]], [True], 5):
        with pytest.raises(TypeError):
            interner.to_categorical(wrong)
    for past in ([2], [-2], [2**32], numpy.array([2**64 - 1], dtype=numpy.uint64), array("I", [NULL - 1])):
        with pytest.raises(ValueError):
            interner.to_categorical(past)


def test_a_categorical_is_as_pandas_makes_it() -> None:
    numpy, pandas = pytest.importorskip("numpy"), pytest.importorskip("pandas")
    interner = Interner()
    codes = interner.encode(["nan", None, "", "a\0", "a", "None", "gr\u00fcn", "gru\u0308n", "a"])
    made, texts = interner.to_categorical(codes), interner.texts()
    right = pandas.Categorical.from_codes(numpy.array([0, -1, 1, 2, 3, 4, 5, 6, 3]), categories=texts)
    pandas.testing.assert_extension_array_equal(made, right)
    pandas.testing.assert_index_equal(made.categories, pandas.Index(texts), exact=True)
    assert made.equals(pickle.loads(pickle.dumps(made))) and hash(made.dtype) == hash(right.dtype)
    assert [made.categories.get_loc(text) for text in texts] == list(range(len(texts)))
    assert made.categories.get_indexer(["a", "pink"]).tolist() == [3, -1] and "nan" in made.categories
    assert (made == "a").tolist() == (right == "a").tolist()
    assert made.value_counts().to_dict() == right.value_counts().to_dict()
    assert made.add_categories("pink").codes.tolist() == right.codes.tolist()
    assert made.set_categories(["a", "pink"]).codes.tolist() == right.set_categories(["a", "pink"]).codes.tolist()
    with pytest.raises(ValueError):
        made.add_categories("a")
    with pytest.raises(ValueError):
        made.rename_categories(["a"] * len(texts))
    assert pandas.concat([pandas.Series(made), pandas.Series(right)]).cat.categories.tolist() == texts


@pytest.mark.parametrize("texts", [2, 200, 40000])
def test_a_categorical_has_codes_of_its_own(texts: int) -> None:
    pytest.importorskip("pandas")
    interner = Interner()
    codes = interner.encode(map(str, range(texts)))
    made = interner.to_categorical(codes)
    codes[0] = 1
    codes.append(0)
    made[1] = "0"
    assert (made.tolist()[:2], codes[0], codes[1], len(codes), len(made)) == (["0", "0"], 1, 1, texts + 1, texts)


def test_takes_a_list_for_what_it_gives() -> None:
    class Short(list[str]):
        def __len__(self) -> int:
            return 1

    assert list(Interner().encode(Short(["red", "blue"]))) == [0, 1]


def test_has_the_nulls_of_pandas() -> None:
    numpy, pandas = pytest.importorskip("numpy"), pytest.importorskip("pandas")
    rows = ["red", None, float("nan"), numpy.nan, numpy.float64("nan"), pandas.NA, pandas.NaT, "blue", numpy.str_("red")]
    expected = [0, *[NULL] * 6, 1, 0]
    interner = Interner()
    for column in (rows, numpy.array(rows, dtype=object), pandas.Series(rows, dtype=object), pandas.Index(rows, dtype=object), iter(rows)):
        assert (list(interner.encode(column)), len(interner)) == (expected, 2)
    strided = numpy.array([row for row in rows for _ in range(2)], dtype=object)[::2]
    assert list(interner.encode(strided)) == expected
    assert list(interner.encode(strided[::-1])) == expected[::-1]
    assert list(interner.encode(pandas.Series(["red", None, "blue"], dtype="string"))) == [0, NULL, 1]
    assert list(interner.encode(pandas.Series(["red", None, "blue"], dtype="category"))) == [0, NULL, 1]
    assert list(interner.encode(pandas.Series([numpy.nan, numpy.nan]))) == [NULL] * 2
    assert interner.get_many(rows) == [None if code == NULL else code for code in expected]
    masked = numpy.ma.array(numpy.array(["red", "pink"], dtype=object), mask=[False, True])
    assert list(interner.encode(masked)) == [0, NULL]
    assert list(interner.encode(numpy.empty(2, dtype=object))) == [NULL] * 2
    with pytest.raises(TypeError, match="text 0 is a ndarray"):
        interner.encode(pandas.DataFrame({"a": ["red"]}))


@pytest.mark.parametrize("wrong, name", [(1.5, "float"), (3, "int"), (b"x", "bytes"), (True, "bool"), (float("inf"), "float"), (["a"], "list")])
def test_names_the_item_that_is_no_text(wrong: Any, name: str) -> None:
    interner = Interner()
    for rows in (["a"] * 4999 + [wrong], iter([None] * 4999 + [wrong]), ["new"] * 70000 + [wrong]):
        position = 70000 if isinstance(rows, list) and len(rows) > 5000 else 4999
        with pytest.raises(TypeError, match=f"text {position} is a {name}, not a str"):
            interner.encode(rows)
    for call in (interner.intern, interner.get, interner.__contains__):
        with pytest.raises(TypeError, match=f"a text is a str, and this is a {name}"):
            call(wrong)
    assert len(interner) == 0


def test_says_which_codes_there_are() -> None:
    with Interner() as interner:
        interner.encode(["red", "blue"])
        assert repr(interner) == "<Interner: 2 texts, 4096 bytes>"
        for code in (2, 99, -1):
            with pytest.raises(IndexError, match=f"no text has the code {code}: there are 2 texts"):
                interner[code]
        for wrong in ("0", 0.0, None):
            with pytest.raises(TypeError):
                interner[wrong]  # type: ignore[index]
    assert repr(interner) == "<Interner: closed>"


def test_takes_whole_limits_alone() -> None:
    interner = Interner()
    for wrong in (1.5, "5", b"5", [5]):
        with pytest.raises(TypeError, match="a limit is a whole number of bytes or None"):
            Interner(limit=wrong)  # type: ignore[arg-type]
        with pytest.raises(TypeError):
            interner.limit = wrong  # type: ignore[assignment]
    for wrong in (-1, 2**64, 2**100):
        with pytest.raises(ValueError, match=f"a limit of {wrong} bytes"):
            Interner(limit=wrong)
    with pytest.raises(TypeError):
        del interner.limit
    assert (interner.limit, Interner(limit=True).limit) == (None, 1)


def test_codes_are_the_same_whatever_the_seed() -> None:
    texts = [f"text {row % 700}" for row in range(2000)]
    for seed in (None, 0, 1, 2**64, 2**128 - 1, True):
        interner = Interner(seed=seed)
        assert list(interner.encode(texts)) == [row % 700 for row in range(2000)]
        assert interner.copy().encode(texts[:3]) == array("I", [0, 1, 2])
    for wrong in (-1, 2**128):
        with pytest.raises(ValueError, match="a seed of"):
            Interner(seed=wrong)
    for wrong in (1.5, "5", b"0123456789abcdef"):
        with pytest.raises(TypeError):
            Interner(seed=wrong)  # type: ignore[arg-type]
    with pytest.raises(TypeError):
        Interner(None, 5)  # type: ignore[misc]


def test_subclasses_stay_what_they_are() -> None:
    named = Named("colours")
    named.encode(["red", "blue"])
    loaded = [pickle.loads(pickle.dumps(named, protocol)) for protocol in range(pickle.HIGHEST_PROTOCOL + 1)]
    for made in (named.copy(), copy.copy(named), copy.deepcopy(named), *loaded):
        assert (type(made), made.name, made.texts(), made.limit) == (Named, "colours", ["red", "blue"], 5000)
        assert (made.intern("pink"), len(named)) == (2, 2)
    with named as entered:
        assert entered is named


def test_an_interner_that_was_never_made_is_closed() -> None:
    made = Interner.__new__(Interner)
    assert (made.closed, len(made), repr(made)) == (True, 0, "<Interner: closed>")
    for call in (lambda: made.intern("a"), lambda: made.encode(["a"]), made.texts, made.copy, made.clear):
        with pytest.raises(InternerClosed):
            call()
    Interner.__init__(made)
    assert made.intern("a") == 0


def test_a_cleared_interner_begins_again() -> None:
    interner = Interner()
    codes = interner.encode(["a", "b"])
    interner.clear()
    assert (list(codes), interner.encode(["b"])[0]) == ([0, 1], 0)


def together(*calls: Any) -> list[BaseException]:
    """Runs calls in threads until all end, and returns what they raise."""
    faults: list[BaseException] = []

    def run(call: Any) -> None:
        try:
            call()
        except BaseException as fault:
            faults.append(fault)

    interval = sys.getswitchinterval()
    sys.setswitchinterval(1e-5)
    try:
        threads = [threading.Thread(target=run, args=(call,)) for call in calls]
        for thread in threads:
            thread.start()
        for thread in threads:
            thread.join()
    finally:
        sys.setswitchinterval(interval)
    return faults


def test_threads_share_an_interner() -> None:
    interner = Interner()
    rows = [[f"text {(row * step) % 3001}" for row in range(6000)] for step in (1, 7, 11, 13)]
    results: list[Any] = [None] * 4

    def encode(number: int) -> None:
        for _ in range(3):
            results[number] = interner.encode(rows[number])
            assert interner.get_many(rows[number][:100]) == list(results[number][:100])
            assert [interner.intern(text) for text in rows[number][:100]] == list(results[number][:100])

    assert together(*(lambda number=number: encode(number) for number in range(4))) == []
    texts = interner.texts()
    assert (len(texts), len(set(texts))) == (3001, 3001)
    for codes, texts_of_rows in zip(results, rows):
        assert [texts[code] for code in codes] == texts_of_rows


def test_threads_close_and_clear_what_others_use() -> None:
    rows = [f"text {row}" for row in range(5000)]
    for change in (Interner.close, Interner.clear, Interner.copy, lambda interner: interner.__init__()):
        interner = Interner()

        def use() -> None:
            for _ in range(5):
                interner.encode(rows)
                interner.texts()
                if importlib.util.find_spec("pandas") is not None:
                    interner.to_categorical(array("q"))

        faults = together(use, use, lambda: [change(interner) for _ in range(20)])
        assert all(isinstance(fault, LassoError) for fault in faults), faults


def test_threads_change_the_list_that_is_encoded() -> None:
    interner = Interner()
    rows: list[Any] = [f"text {row}" for row in range(100000)]

    def shrink() -> None:
        while rows:
            del rows[-1000:]

    def encode() -> None:
        while rows:
            try:
                interner.encode(rows)
            except RuntimeError as fault:
                assert "the texts changed" in str(fault)

    assert together(encode, encode, shrink) == []


def test_a_thread_cuts_the_list_once_its_rows_are_counted() -> None:
    rows = ["red"] * 100000

    class Counted(array):  # type: ignore[type-arg]
        """Codes that get their room just before another thread cuts the list."""

        def frombytes(self, data: Any) -> None:
            super().frombytes(data)
            del rows[65536:]

    with pytest.raises(RuntimeError, match="the texts changed"):
        encode_into(Interner(), rows, None, Counted("I"), True)
