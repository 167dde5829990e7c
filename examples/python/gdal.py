"""Encodes a column of a CSV file that GDAL reads, by GDAL's Arrow stream, and compares codes and texts with Python's csv and a dict.

usage: gdal.py [ROWS [TEXTS]], 1,000,000 rows of 50,000 texts unless given
"""

from __future__ import annotations

import csv
import ctypes
import random
import sys
import tempfile
import time
from typing import Any

from osgeo import _ogr, gdal, ogr

from lasso import NULL, Interner

SEED = 20261130


class Layer:
    """A layer of GDAL with the Arrow PyCapsule interface, which GDAL has itself from 3.9 on."""

    def __init__(self, layer: ogr.Layer) -> None:
        self.layer = layer

    def __arrow_c_stream__(self, requested_schema: object = None) -> object:
        # The module is linked with GDAL, and has its calls too.
        library = ctypes.CDLL(_ogr.__file__)
        library.OGR_L_GetArrowStream.argtypes = [ctypes.c_void_p, ctypes.c_void_p, ctypes.c_void_p]
        library.OGR_L_GetArrowStream.restype = ctypes.c_bool
        capsule = ctypes.pythonapi.PyCapsule_New
        capsule.restype, capsule.argtypes = ctypes.py_object, [ctypes.c_void_p, ctypes.c_char_p, ctypes.c_void_p]
        self.stream = (ctypes.c_void_p * 5)()
        if not library.OGR_L_GetArrowStream(int(self.layer.this), ctypes.addressof(self.stream), None):
            raise OSError("GDAL gives no stream of the layer")
        return capsule(ctypes.addressof(self.stream), b"arrow_array_stream", None)


def write(path: str, rows: int, texts: int) -> None:
    """A file of this many rows: a number, and a text that is missing in a hundredth of them."""
    rng = random.Random(SEED)
    words = [f"gr\u00fcn {number}" if number % 3 else f"a longer name, quoted: {number}" for number in range(texts)]
    with open(path, "w", encoding="utf-8", newline="") as file:
        written = csv.writer(file)
        written.writerow(["id", "name"])
        written.writerows((row, "" if row % 100 == 7 else rng.choice(words)) for row in range(rows))


def expected(path: str) -> tuple[list[int], list[str]]:
    """The codes of the file's texts, and the texts: an empty field of a CSV file has no text."""
    codes: dict[str, int] = {}
    with open(path, encoding="utf-8", newline="") as file:
        rows = [NULL if name == "" else codes.setdefault(name, len(codes)) for _, name in list(csv.reader(file))[1:]]
    return rows, list(codes)


def main() -> None:
    rows, texts = (*map(int, sys.argv[1:]), *(1_000_000, 50_000)[len(sys.argv) - 1:])
    gdal.UseExceptions()
    with tempfile.TemporaryDirectory() as folder, Interner() as interner:
        path = f"{folder}/rows.csv"
        write(path, rows, texts)
        source: Any = gdal.OpenEx(path, gdal.OF_VECTOR, open_options=["EMPTY_STRING_AS_NULL=YES"])
        start = time.perf_counter()
        codes = interner.encode(Layer(source.GetLayer(0)), column="name")
        took = time.perf_counter() - start
        right_codes, right_texts = expected(path)
        if list(codes) != right_codes or interner.texts() != right_texts:
            sys.exit("gdal.py: the codes or the texts are not those of the file")
        print(f"{rows} rows of {len(right_texts)} texts by GDAL's Arrow stream, read and encoded: {took:.3f} seconds")


main()
