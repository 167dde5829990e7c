"""Tests of SharedInterner: each call with worked codes, and eight threads whose replies one list has to explain."""

from __future__ import annotations

import copy
import ctypes
import os
import pickle
import queue
import random
import signal
import struct
import subprocess
import sys
import threading
import time
from array import array
from collections.abc import Callable, Iterator
from functools import partial
from typing import Any

import pytest
from producers import Chunks, strings

from lasso import NULL, Interner, InternerClosed, InternerFrozen, LassoError, LimitReached, NotUtf8, SharedInterner, WrongLayout

THREADS = 8


class Columns:
    """A large array of strings by its buffers."""

    offset = 0
    type = "string"

    def __init__(self, texts: list[str]) -> None:
        self.data = "".join(texts).encode()
        ends = [0]
        for text in texts:
            ends.append(ends[-1] + len(text.encode()))
        self.offsets = struct.pack(f"<{len(ends)}i", *ends)
        self.length = len(texts)

    def buffers(self) -> list[Any]:
        return [None, self.offsets, self.data]

    def __len__(self) -> int:
        return self.length


def test_codes_are_the_same_whatever_the_seed() -> None:
    for seed in (None, 0, 1, 2**64, 2**128 - 1):
        with SharedInterner(seed=seed) as made:
            assert list(made.encode([f"text {row % 700}" for row in range(2000)])) == [row % 700 for row in range(2000)]
    for wrong in (-1, 2**128):
        with pytest.raises(ValueError, match="a seed of"):
            SharedInterner(seed=wrong)


@pytest.fixture
def shared() -> Iterator[SharedInterner]:
    with SharedInterner() as made:
        yield made


def together(*calls: Callable[[], Any]) -> None:
    """Runs the calls in threads at once. What one raises is raised here."""
    faults: list[BaseException] = []
    gate = threading.Barrier(len(calls))

    def run(call: Callable[[], Any]) -> None:
        gate.wait()
        try:
            call()
        except BaseException as fault:
            faults.append(fault)

    threads = [threading.Thread(target=run, args=(call,)) for call in calls]
    for thread in threads:
        thread.start()
    for thread in threads:
        thread.join()
    if faults:
        raise faults[0]


class Replies:
    """What a thread asked and got: texts with the codes that they were given, and texts that were absent when it looked them up, each with the
    number of texts that the thread knew to be there."""

    def __init__(self) -> None:
        self.codes: list[tuple[str, int]] = []
        self.absent: list[tuple[str, int]] = []
        self.known = 0

    def add(self, text: str, code: int) -> None:
        self.codes.append((text, code))
        self.known = max(self.known, code + 1)

    def check(self, texts: list[str]) -> None:
        """One list explains the replies."""
        code_of = {text: code for code, text in enumerate(texts)}
        for text, code in self.codes:
            assert texts[code] == text
        for text, known in self.absent:
            assert code_of.get(text, known) >= known


def ask(shared: SharedInterner, replies: Replies, seed: int) -> None:
    """Makes random calls of each kind."""
    numbers = random.Random(seed)
    for _ in range(300):
        words = [f"text {int(3000 * numbers.random() ** 3)}{'é' * (numbers.randrange(9) // 8 * 20)}" for _ in range(40)]
        for word in words[:10]:
            replies.add(word, shared.intern(word))
            code = numbers.randrange(replies.known)
            replies.add(shared[code], code)
        for word in words[10:15]:
            found = shared.get(word)
            if found is None:
                replies.absent.append((word, replies.known))
            else:
                replies.add(word, found)
        texts: Any = words if numbers.random() < 0.5 else strings(words)
        for word, code in zip(words, shared.encode(texts)):
            replies.add(word, code)
        assert len(shared) >= replies.known
        assert shared.get_many(words[:5]) == [dict(replies.codes[-40:])[word] for word in words[:5]]


def test_one_list_explains_the_replies_of_eight_threads(shared: SharedInterner) -> None:
    replies = [Replies() for _ in range(THREADS)]
    together(*(lambda number=number: ask(shared, replies[number], number) for number in range(THREADS)))
    texts = shared.texts()
    assert len(set(texts)) == len(texts) == len(shared)
    assert set(texts) == {text for each in replies for text, _ in each.codes}
    for each in replies:
        each.check(texts)


def test_long_columns_are_encoded_at_once(shared: SharedInterner) -> None:
    rows = [[f"text {row * step % 5003}" for row in range(20000)] for step in range(1, THREADS + 1)]
    results: list[Any] = [None] * THREADS

    def encode(number: int) -> None:
        column: Any = Columns(rows[number]) if number % 2 else rows[number]
        results[number] = shared.encode(column)

    together(*(lambda number=number: encode(number) for number in range(THREADS)))
    texts = shared.texts()
    assert (len(texts), len(set(texts))) == (5003, 5003)
    for codes, texts_of_rows in zip(results, rows):
        assert [texts[code] for code in codes] == texts_of_rows


def ran_meanwhile(column: Any) -> bool:
    """Whether this thread ran while another one encoded the column, which let it once at least."""
    began, ended = threading.Event(), threading.Event()

    def encode() -> None:
        with SharedInterner() as shared:
            began.set()
            shared.encode(column)
            ended.set()

    interval = sys.getswitchinterval()
    thread = threading.Thread(target=encode)
    try:
        # From now on a thread goes on until it lets the others run.
        sys.setswitchinterval(1000)
        thread.start()
        began.wait()
        return not ended.is_set()
    finally:
        sys.setswitchinterval(interval)
        thread.join()


@pytest.mark.parametrize("kind", [list, Columns])
def test_others_run_while_a_column_is_encoded(kind: Any) -> None:
    column = kind([f"text {row}" for row in range(50000)])
    # On a busy machine a thread that may run does not always come to it in time.
    assert any(ran_meanwhile(column) for _ in range(100))


def test_numbers_texts_from_call_to_call(shared: SharedInterner) -> None:
    assert [shared.intern(text) for text in ["a", "b", "a", "", "grün"]] == [0, 1, 0, 2, 3]
    assert list(shared.encode(["grün", None, "c", "c"])) == [3, NULL, 4, 4]
    assert (len(shared), shared.texts(3), list(shared)) == (5, ["grün", "c"], ["a", "b", "", "grün", "c"])
    assert (shared.get("c"), shared.get("d"), "c" in shared, "d" in shared, len(shared)) == (4, None, True, False, 5)
    assert (shared[3], shared.texts(5), shared.texts(9)) == ("grün", [], [])
    assert shared.get_many(["d", "c", None, ""]) == [None, 4, None, 2]
    for code in (5, -1, 2**40):
        with pytest.raises(IndexError):
            shared[code]
    with pytest.raises(ValueError):
        shared.texts(-1)
    assert repr(shared) == "<SharedInterner: 5 texts>"


def test_a_limit_counts_buckets_as_lasso_h_says() -> None:
    with SharedInterner(14000) as shared:
        assert (shared.limit, shared.memory) == (14000, 4096)
        # 96 bytes are left of the first bucket, and none of the second, which has twice as many.
        for text, memory in (("a" * 4000, 4096), ("b" * 100, 12288), ("c" * 8092, 12288)):
            shared.intern(text)
            assert shared.memory == memory
        with pytest.raises(LimitReached):
            shared.intern("d" * 1713)
        shared.limit = 0
        with pytest.raises(LimitReached) as caught:
            shared.encode(["a" * 4000, "d" * 96, "e", "b" * 100])
        assert (caught.value.position, shared.limit, shared.memory, len(shared)) == (2, 0, 12288, 4)
        together(lambda: setattr(shared, "limit", 14000))
        assert (shared.intern("e" * 1712), shared.limit, shared.memory) == (4, 14000, 14000)
        shared.limit = None
        assert (shared.intern("f" * 40000), shared.limit, shared.memory) == (5, None, 54000)
    for wrong, error in ((-1, ValueError), (2**64, ValueError), ("1", TypeError)):
        limit: Any = wrong
        with pytest.raises(error):
            SharedInterner(limit)
    with SharedInterner(0) as shared:
        assert (shared.limit, shared.memory, shared.intern("x" * 4096)) == (0, 4096, 0)
        with pytest.raises(LimitReached):
            shared.intern("y")


def test_eight_threads_share_what_a_limit_leaves() -> None:
    refused: list[list[str]] = [[] for _ in range(THREADS)]

    def fill(shared: SharedInterner, number: int) -> None:
        # A thread's texts have more than the limit's bytes.
        words = random.Random(number)
        for _ in range(450):
            text = f"text {words.randrange(3000)} " + "x" * words.randrange(300)
            try:
                codes = shared.encode([text, text]) if words.random() < 0.5 else [shared.intern(text)]
                assert all(shared[code] == text for code in codes)
            except LimitReached:
                refused[number].append(text)
            assert shared.memory <= 50000

    with SharedInterner(50000) as shared:
        together(*(partial(fill, shared, number) for number in range(THREADS)))
        taken, texts = shared.memory, shared.texts()
        assert len("".join(texts)) <= taken <= 50000 and len(set(texts)) == len(texts)
        assert all(refused)
        assert all(taken + len(text) > 50000 for each in refused for text in each)
        shared.limit = 0
        together(*(partial(fill, shared, number) for number in range(THREADS)))
        assert shared.memory == taken
        assert shared.texts(0)[: len(texts)] == texts


@pytest.mark.parametrize("large", [False, True])
def test_takes_columns_of_arrow(shared: SharedInterner, large: bool) -> None:
    texts = ["red", None, "", "blue", None, "red", "grün", "blue", "red", None, "x" * 40000]
    assert list(shared.encode(strings(texts, large=large))) == [0, NULL, 1, 2, NULL, 0, 3, 2, 0, NULL, 4]
    assert list(shared.encode(strings(texts, 3, large=large))) == [2, NULL, 0, 3, 2, 0, NULL, 4]
    assert list(shared.encode(Chunks([strings(["new", "red"], large=large), strings(["new"], large=large)]))) == [5, 0, 5]
    assert shared.get_many(strings(["absent", "new", None], large=large)) == [None, 5, None]
    assert shared.texts() == ["red", "", "blue", "grün", "x" * 40000, "new"]


def test_takes_texts_that_no_block_of_rows_has_room_for(shared: SharedInterner) -> None:
    texts = ["red", "x" * 32768, None, "x" * 32769, "grün" * 10000, "red", "y" * 32767, "zz", "x" * 32769]
    assert list(shared.encode(texts)) == [0, 1, NULL, 2, 3, 0, 4, 5, 2]
    assert shared.get_many([*texts, "z" * 40000]) == [0, 1, None, 2, 3, 0, 4, 5, 2, None]


def test_keeps_the_texts_before_a_refused_one(shared: SharedInterner) -> None:
    for call in (shared.intern, shared.get):
        with pytest.raises(NotUtf8):
            call("\ud800")
    with pytest.raises(NotUtf8) as caught:
        shared.encode(["new"] * 5000 + ["\ud800"])
    assert (caught.value.position, shared.texts()) == (5000, ["new"])
    columns = {"at a fall": ([0, 3, 1], WrongLayout), "past the bytes": ([0, 3, 9], WrongLayout), "negative": ([0, 3, -1], WrongLayout)}
    for offsets, error in columns.values():
        column = Columns(["red", "blue"])
        column.offsets = struct.pack("<3i", *offsets)
        with pytest.raises(error) as refused:
            shared.encode(column)
        assert (refused.value.position, shared.texts()) == (1, ["new", "red"])
    column = Columns(["red", "blue"])
    column.data = b"red\xc3\xc3\xc3\xc3"
    with pytest.raises(NotUtf8) as caught:
        shared.encode(column)
    assert (caught.value.position, len(shared)) == (1, 2)
    with pytest.raises(TypeError):
        shared.encode(["newer"] * 5000 + [1])
    assert len(shared) == 2


def test_gives_codes_as_a_dictionary_array(shared: SharedInterner) -> None:
    codes = shared.encode(["red", None, "blue", "red"])
    assert codes.interner is shared
    with Interner() as interner:
        assert list(interner.encode(codes)) == [0, NULL, 1, 0]
        assert interner.texts() == ["red", "blue"]


def test_refuses_a_pickle_in_which_a_text_comes_twice() -> None:
    for made in (Interner(), SharedInterner()):
        load, (kind, _, *rest), *_ = made.__reduce__()
        with pytest.raises(ValueError, match="a text comes twice"):
            load(kind, ["a", "a", "b"], *rest)


class ClosedOwn(Interner):
    """It is closed as if by another thread as soon as it has given its texts."""

    def texts(self, start: int = 0, /) -> list[str]:
        found = super().texts(start)
        self.close()
        return found


class ClosedShared(SharedInterner):
    """The same of one that threads share."""

    def texts(self, start: int = 0) -> list[str]:
        found = super().texts(start)
        self.close()
        return found


def test_is_copied_and_pickled_with_its_limit_while_another_thread_closes_it() -> None:
    assert ClosedShared(5000).copy().limit == 5000
    for made in (ClosedOwn(5000), ClosedShared(5000)):
        load, words, *_ = made.__reduce__()
        assert load(*words).limit == 5000


def test_is_copied_and_pickled_by_its_texts(shared: SharedInterner) -> None:
    class Named(SharedInterner):
        name = ""

    shared.encode(["red", "", "grün", "x" * 5000])
    made = [shared.copy(), copy.copy(shared), copy.deepcopy(shared)]
    made += [pickle.loads(pickle.dumps(shared, protocol)) for protocol in range(pickle.HIGHEST_PROTOCOL + 1)]
    for each in made:
        with each:
            assert (type(each), each.texts(), each.intern("new"), each.get("grün")) == (SharedInterner, shared.texts(), 4, 2)
    shared.limit = 20000
    for each in [shared.copy(), pickle.loads(pickle.dumps(shared))]:
        with each:
            assert (each.limit, each.texts()) == (20000, shared.texts())
    with shared.snapshot() as one:
        assert (type(one), one.texts(), one.limit, one.intern("new")) == (Interner, shared.texts(), None, 4)
    assert len(shared) == 4
    with Named() as named:
        named.name = "colours"
        with named.copy() as copied:
            assert (type(copied), copied.name) == (Named, "colours")
    shared.close()
    for call in (shared.copy, shared.snapshot, lambda: pickle.dumps(shared)):
        with pytest.raises(InternerClosed):
            call()


def test_tells_that_it_is_closed() -> None:
    shared = SharedInterner()
    shared.intern("a")
    shared.close()
    shared.close()
    calls: list[Callable[[], Any]] = [
        lambda: shared.intern("a"), lambda: shared.get("a"), lambda: "a" in shared, shared.texts, lambda: shared.encode(["a"]),
        lambda: shared.encode([]), lambda: shared.encode(strings(["a"])), lambda: shared.get_many(["a"]),
    ]
    for call in calls:
        with pytest.raises(InternerClosed):
            call()
    # Also in a thread that has not used it before.
    for call in calls:
        with pytest.raises(InternerClosed):
            together(call)
    with pytest.raises(InternerClosed):
        shared[0]
    assert (shared.closed, len(shared), repr(shared)) == (True, 0, "<SharedInterner: closed>")
    assert (shared.memory, shared.limit) == (0, 0)
    with pytest.raises(InternerClosed):
        shared.limit = 1


def test_is_closed_while_another_thread_makes_its_first_call() -> None:
    class Late(SharedInterner):
        """It seems open for a moment longer, as to a thread that has looked just before."""

        closed = False

    shared = Late()
    shared.intern("a")
    shared.close()
    for call in (lambda: len(shared), lambda: shared.memory, lambda: shared.limit):
        together(lambda: [0].index(call() or 0))
    with pytest.raises(InternerClosed):
        together(lambda: shared[0])


def test_is_closed_while_others_go_on() -> None:
    rows = [f"text {row}" for row in range(20000)]
    for kind in (list, Columns):
        shared, ready = SharedInterner(), threading.Barrier(THREADS)

        def use() -> None:
            ready.wait()
            with pytest.raises(InternerClosed):
                for _ in range(1000):
                    assert len(shared.encode(kind(rows))) == 20000
                    shared.intern("text 1")

        def close() -> None:
            ready.wait()
            # Threads that all failed leave it as short as it is.
            last = time.monotonic() + 60
            while len(shared) < 10000 and time.monotonic() < last:
                pass
            shared.close()

        together(*[use] * (THREADS - 1), close)
        assert shared.closed


def here(call: Callable[[], Any]) -> Any:
    """What the call returns, or the LassoError that it raises."""
    try:
        return call()
    except LassoError as fault:
        return fault


class Worker:
    """A thread that makes the calls that it is given, by a handle of its own, one after another."""

    def __init__(self) -> None:
        self.calls: queue.Queue[Callable[[], Any] | None] = queue.Queue()
        self.results: queue.Queue[Any] = queue.Queue()
        self.thread = threading.Thread(target=self._run, daemon=True)
        self.thread.start()

    def _run(self) -> None:
        for call in iter(self.calls.get, None):
            self.results.put(here(call))

    def __call__(self, call: Callable[[], Any]) -> Any:
        """What the call returns, or the LassoError that it raises."""
        self.calls.put(call)
        return self.results.get()

    def end(self) -> None:
        self.calls.put(None)
        self.thread.join()


def check_frozen(shared: SharedInterner, run: Callable[[Callable[[], Any]], Any], texts: list[str]) -> None:
    """Texts of a frozen interner are read in a thread, and none is interned, neither a present nor an absent one."""
    columns: list[Any] = [["red"], ["new"], Columns(["red"] * 5000), strings(["red"]), strings(["new"] * 5000), (text for text in ["new"])]
    encoded = [run(partial(shared.encode, column)) for column in columns]
    for fault in [run(partial(shared.intern, "red")), run(partial(shared.intern, "new")), *encoded]:
        assert isinstance(fault, InternerFrozen)
    assert [fault.position for fault in encoded] == [0] * len(columns)
    assert run(partial(shared.encode, [None, "red"])).position == 1
    assert (run(partial(shared.encode, [])).tolist(), run(partial(shared.encode, [None])).tolist()) == ([], [NULL])
    assert run(lambda: (shared.texts(), list(shared), len(shared), shared[1], shared.get("red"), shared.get("new"))) == (
        texts, texts, len(texts), "blue", 0, None)
    assert run(lambda: ("blue" in shared, "new" in shared, shared.get_many(["blue", None, "new"]))) == (True, False, [1, None, None])
    assert run(lambda: (shared.memory, shared.limit, shared.frozen, shared.closed)) == (4096, None, True, False)


def test_is_frozen_for_each_thread() -> None:
    workers = earlier, idle, _ = Worker(), Worker(), Worker()
    threads: list[Any] = [*workers, here]
    with SharedInterner() as shared:
        assert (shared.frozen, shared.encode(["red"]).tolist(), earlier(partial(shared.intern, "blue"))) == (False, [0], 1)
        assert idle(lambda: len(shared)) == 2
        together(lambda: shared.intern("grün"))
        texts = ["red", "blue", "grün"]
        for freezer in (threads[0], threads[2], here):
            assert freezer(shared.freeze) is None
            for run in threads:
                check_frozen(shared, run, texts)
        assert repr(shared) == "<SharedInterner: 3 texts, frozen>"
        for made in [shared.copy(), shared.snapshot(), pickle.loads(pickle.dumps(shared))]:
            with made:
                assert (made.texts(), made.intern("new")) == (texts, 3)
        assert idle(shared.close) is None
        assert all(isinstance(run(call), InternerClosed) for run in threads for call in (shared.freeze, shared.texts))
    for worker in workers:
        worker.end()


@pytest.mark.parametrize("kind", [list, Columns])
def test_is_frozen_while_others_go_on(kind: Any) -> None:
    """Each thread that interns gets to a text that is refused; what it interned before stays, and those that read go on."""
    rows = [f"text {row}" for row in range(5000)]
    column, ready = kind(rows), threading.Barrier(THREADS)
    replies, over = [Replies() for _ in range(THREADS)], threading.Event()

    def intern(number: int) -> None:
        ready.wait()
        with pytest.raises(InternerFrozen) as caught:
            for step in range(10**9):
                text = f"text {number} {step}"
                replies[number].add(text, shared.intern(text))
                shared.encode(column)
        assert None not in shared.get_many(rows[: caught.value.position or 0])

    def read(number: int) -> None:
        ready.wait()
        while not over.is_set():
            codes = shared.get_many(column)
            for text, code in zip(rows, codes):
                if code is not None:
                    replies[number].add(text, code)
            assert len(shared.texts()) >= replies[number].known

    def freeze() -> None:
        ready.wait()
        last = time.monotonic() + 60
        while len(shared) < 5000 and time.monotonic() < last:
            time.sleep(0.001)
        shared.freeze()
        frozen.extend(shared.texts())
        time.sleep(0.1)
        over.set()

    frozen: list[str] = []
    with SharedInterner() as shared:
        together(*[partial(intern, number) for number in range(4)], *[partial(read, number) for number in range(4, THREADS - 1)], freeze)
        assert shared.texts() == frozen and len(set(frozen)) == len(frozen) >= 5000
        for each in replies:
            each.check(frozen)


@pytest.mark.parametrize("closes", [False, True])
def test_is_frozen_while_a_call_is_long(closes: bool) -> None:
    """A thread that comes meanwhile, and one that closes the interner, find it frozen or closed, and no handle is left open."""
    column, idle = Columns([f"text {row}" for row in range(60000)]), Worker()
    for _ in range(5):
        shared, begun = SharedInterner(), threading.Event()
        idle(lambda: len(shared))

        def encode() -> None:
            with pytest.raises((InternerFrozen, InternerClosed)):
                while True:
                    shared.encode(column)

        def come_late() -> None:
            begun.wait()
            encode()

        def freeze() -> None:
            while len(shared) == 0:
                time.sleep(0.001)
            begun.set()
            assert here(shared.freeze) is None or closes

        def close() -> None:
            begun.wait()
            time.sleep(0.001)
            if closes:
                shared.close()

        together(encode, encode, come_late, come_late, freeze, close)
        threads: list[Any] = [idle, here]
        for run in threads:
            ended = [run(call) for call in (lambda: shared[0], shared.freeze, partial(shared.intern, "a"))]
            assert isinstance(ended[2], InternerClosed if closes else InternerFrozen)
            assert all(isinstance(each, InternerClosed) for each in ended[:2]) if closes else ended[1] is None and ended[0].startswith("text")
        shared.close()
    idle.end()


def test_a_list_changes_while_it_is_encoded(shared: SharedInterner) -> None:
    rows: list[Any] = [f"text {row}" for row in range(100000)]

    def shrink() -> None:
        while rows:
            del rows[-100:]
            time.sleep(0)

    def encode() -> None:
        while rows:
            try:
                shared.encode(rows)
            except RuntimeError as fault:
                assert "the texts changed" in str(fault)

    together(encode, encode, shrink)


def test_a_handle_is_freed_when_its_thread_ends(shared: SharedInterner) -> None:
    try:
        mallinfo = ctypes.CDLL(None).mallinfo2
    except AttributeError:
        pytest.skip("the C library doesn't tell how much memory is in use")

    class Info(ctypes.Structure):
        _fields_ = [(name, ctypes.c_size_t) for name in ("arena", "ordblks", "smblks", "hblks", "hblkhd", "usmblks", "fsmblks", "uordblks")]
        _fields_ += [("fordblks", ctypes.c_size_t), ("keepcost", ctypes.c_size_t)]

    mallinfo.restype = Info

    def used() -> int:
        info = mallinfo()
        return int(info.uordblks + info.hblkhd)

    column = Columns([f"text {row % 1000}" for row in range(10000)])
    together(lambda: shared.encode(column))
    before = used()
    for _ in range(100):
        together(lambda: shared.encode(column))
    # A handle that makes as many calls has 128 KiB of hints.
    assert used() - before < 20 * 131072


def test_each_interner_has_its_own_codes() -> None:
    with SharedInterner() as one, SharedInterner() as other:
        one.encode(["red", "blue"])
        assert (other.intern("blue"), one.intern("blue"), list(array("I", other.encode(["red"])))) == (0, 1, [1])


@pytest.mark.parametrize("kind", [Interner, SharedInterner])
def test_a_forked_child_waits_for_no_call_of_its_parent(kind: type[Interner] | type[SharedInterner]) -> None:
    column, closed = Columns([f"text {row}" for row in range(200000)]), 0
    for _ in range(100):
        with kind() as interner:
            over = threading.Event()

            def encode() -> None:
                # However fast or busy the machine is, this thread is in a call nearly always.
                while not over.is_set():
                    interner.encode(column)

            thread = threading.Thread(target=encode)
            thread.start()
            time.sleep(0.005)
            child = os.fork()
            if child == 0:
                signal.alarm(120)
                try:
                    interner.intern("more")
                    interner.encode(column)
                    os._exit(0)
                except InternerClosed:
                    os._exit(1 if interner.closed and len(interner) == 0 else 2)
                finally:
                    os._exit(3)
            over.set()
            thread.join()
            assert len(interner) == 200000
            ended = os.waitstatus_to_exitcode(os.waitpid(child, 0)[1])
        assert ended in (0, 1)
        closed += ended
        if closed:
            return
    raise AssertionError("no fork was in the middle of a call")


@pytest.mark.parametrize("kind", ["Interner", "SharedInterner"])
def test_a_thread_may_have_little_stack(kind: str) -> None:
    code = "import sys, threading; from lasso import *; threading.stack_size(32768); threading.Thread(target=lambda: print(%s)).start()"
    run = partial(subprocess.run, stdout=subprocess.PIPE, text=True, check=False)
    if run([sys.executable, "-c", code % "sorted('ba')"]).returncode:
        pytest.skip("Python has no threads of 32 KiB here")
    ran = run([sys.executable, "-c", code % f"set({kind}().encode(['red', 'blue'] * 2000))"])
    assert (ran.returncode, ran.stdout) == (0, "{0, 1}\n")
