"""Encodes a pandas column to a Categorical batch by batch, and prints its time beside those of pandas.factorize and a dict.

usage: categorical.py [ROWS [TEXTS [BATCH [BYTES]]]], 2,000,000 rows of 200,000 texts of 8 to 14 bytes in batches of 65,536 unless given; with
BYTES each text is that long

A hundredth of the rows have no text. The result is compared with pandas's own, and the program ends with status 1 where they differ.
"""

from __future__ import annotations

import os
import random
import sys
import time
from array import array
from collections import defaultdict
from collections.abc import Callable, Iterable, Iterator
from itertools import count
from statistics import median
from typing import Any

import numpy
import pandas

from lasso import NULL, Interner

ROUNDS = 5
SEED = 20261126
LETTERS = "etaoinshrdlucmfwypvbgkqjxz"


def column_of(rows: int, texts: int, size: int) -> pandas.Series:
    """A column of the pandas type object with this many rows, of a fixed seed. None is a row without a text. The texts are of a size in bytes,
    or of several sizes if it is 0."""
    rng = random.Random(SEED)
    if size == 0:
        words = [f"{''.join(rng.choices(LETTERS, k=rng.randint(2, 8)))}{number}" for number in range(texts)]
    else:
        words = [f"{number}".rjust(size, rng.choice(LETTERS)) for number in range(texts)]
    drawn = rng.choices(words, k=rows)
    for row in range(0, rows, 100):
        drawn[row] = None
    return pandas.Series(drawn, dtype=object)


def batches_of(column: pandas.Series, batch: int) -> Iterator[pandas.Series]:
    """The column in batches of this many rows: they could as well be read from a file, one at a time."""
    for start in range(0, len(column), batch):
        yield column.iloc[start:start + batch]


def to_categorical(batches: Iterable[pandas.Series]) -> pandas.Categorical:
    """The column that the batches make, whose categories are its texts in the order in which they come first."""
    with Interner() as interner:
        codes = array("I")
        for batch in batches:
            codes += interner.encode(batch)
        return interner.to_categorical(codes)


class Arrow:
    """A column in Arrow's layout, without nulls, as pyarrow or a file of Arrow or Parquet has it."""

    offset = 0

    def __init__(self, texts: list[str]) -> None:
        encoded = [text.encode() for text in texts]
        self.data = b"".join(encoded)
        self.starts = numpy.zeros(len(texts) + 1, dtype=numpy.int32)
        numpy.cumsum([len(text) for text in encoded], out=self.starts[1:])

    def buffers(self) -> list[Any]:
        return [None, self.starts, self.data]

    def __len__(self) -> int:
        return len(self.starts) - 1


def encode(column: pandas.Series | list[str | None] | Arrow) -> array[int]:
    """The codes of a column."""
    with Interner() as interner:
        return interner.encode(column)


def loop(texts: list[str | None]) -> array[int]:
    """The codes of a list by a dict, NULL for None, as fast as Python has them: no line of Python runs for a row."""
    codes: defaultdict[str | None, int] = defaultdict(count().__next__, {None: NULL})
    return array("I", map(codes.__getitem__, texts))


def timed(call: Callable[..., Any], *words: Any) -> tuple[float, Any]:
    start = time.perf_counter()
    result = call(*words)
    return time.perf_counter() - start, result


def is_same(ours: pandas.Categorical, codes: numpy.ndarray, texts: numpy.ndarray) -> bool:
    """Whether a Categorical has these codes and categories."""
    return bool((ours.codes == codes).all()) and list(ours.categories) == list(texts)


def main() -> None:
    rows, texts, batch, size = (*map(int, sys.argv[1:]), *(2_000_000, 200_000, 65_536, 0)[len(sys.argv) - 1:])
    column = column_of(rows, texts, size)
    items = list(column)
    present = column[column.notna()]
    arrow = Arrow(list(present))
    times: dict[str, list[float]] = {}
    for _ in range(ROUNDS):
        rounds = {
            "lasso, batch by batch to a Categorical": timed(to_categorical, batches_of(column, batch)),
            "pandas.factorize, in one call": timed(pandas.factorize, column),
            "lasso, in one call to a Categorical": timed(to_categorical, [column]),
            "lasso, codes in one call": timed(encode, column),
            "lasso, codes of a list": timed(encode, items),
            "a dict, codes of a list": timed(loop, items),
            "lasso, Arrow's buffers in one call": timed(encode, arrow),
        }
        (_, ours), (_, (codes, uniques)), (_, whole), *others, (_, by_arrow) = rounds.values()
        same = all((numpy.frombuffer(other, dtype=numpy.int32) == codes).all() for _, other in others)
        same = same and bool((numpy.frombuffer(by_arrow, dtype=numpy.int32) == codes[column.notna()]).all())
        if not (same and is_same(ours, codes, uniques) and is_same(whole, codes, uniques)):
            sys.exit("categorical.py: the codes or the texts are not those of pandas")
        for name, (took, _) in rounds.items():
            times.setdefault(name, []).append(took)
    print(f"{rows} rows of {len(uniques)} texts, batches of {batch}: the codes and texts of pandas; least and middle of {ROUNDS} rounds, load {os.getloadavg()[0]:.0f}")
    pandas_times = times["pandas.factorize, in one call"]
    for name, took in times.items():
        ratios = min(took) / min(pandas_times), median(took) / median(pandas_times)
        print(f"{name:<40}{min(took):>8.3f} seconds{min(took) * 1e9 / rows:>8.1f} ns a row{ratios[0]:>6.2f}{ratios[1]:>6.2f} of factorize")


main()
