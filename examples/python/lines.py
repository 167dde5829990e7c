"""Writes each line of a file behind the code of its text, and checks that decoding gives the lines again.

usage: lines.py LIBRARY FILE, where LIBRARY is lasso linked as a shared library
"""

import ctypes
import sys
from ctypes import POINTER, byref, c_int32, c_size_t, c_uint8, c_uint32
from itertools import accumulate


class Report(ctypes.Structure):
    """What a call tells beside its status; lasso.h says when it is which."""

    _fields_ = [("texts", c_size_t), ("bytes", c_size_t), ("at", c_size_t)]


# The last of the statuses that tell at which text or code a call was refused; lasso.h has them all.
TOO_MANY_BYTES = 5

BYTES, OFFSETS, CODES = ((POINTER(kind), c_size_t) for kind in (c_uint8, c_int32, c_uint32))


class Lasso:
    """The calls of the library, over lists of texts."""

    def __init__(self, path):
        library = ctypes.CDLL(path)
        self.encode_call, self.decode_call, self.text_call = (
            library.lasso_encode, library.lasso_decode, library.lasso_status_text)
        self.encode_call.argtypes = [*BYTES, *OFFSETS, *CODES, *BYTES, *OFFSETS, POINTER(Report)]
        self.decode_call.argtypes = [*BYTES, *OFFSETS, *CODES, *BYTES, *OFFSETS, POINTER(Report)]
        self.encode_call.restype = self.decode_call.restype = c_uint32
        self.text_call.argtypes, self.text_call.restype = [c_uint32, *BYTES], c_size_t

    def encode(self, texts):
        """The codes of the texts, and the list of distinct texts, in which a code is a position."""
        data, offsets = layout(texts)
        # The dictionary never needs more room than the texts.
        codes, dictionary, starts = room(c_uint32, len(texts)), room(c_uint8, len(data)), room(c_int32, len(offsets))
        report = Report()
        self.expect_done(self.encode_call(
            *sized(data), *sized(offsets), *sized(codes), *sized(dictionary), *sized(starts), byref(report)), report)
        return list(codes), texts_of(dictionary, starts[:report.texts + 1])

    def decode(self, texts, codes):
        """The texts that the codes name in the list."""
        data, offsets = layout(texts)
        numbers, starts = (c_uint32 * len(codes))(*codes), room(c_int32, len(codes) + 1)
        report = Report()
        # With no room for bytes the call tells how many are needed.
        self.decode_call(*sized(data), *sized(offsets), *sized(numbers), *sized(room(c_uint8, 0)), *sized(starts), byref(report))
        named = room(c_uint8, report.bytes)
        self.expect_done(self.decode_call(
            *sized(data), *sized(offsets), *sized(numbers), *sized(named), *sized(starts), byref(report)), report)
        return texts_of(named, starts[:])

    def expect_done(self, status, report):
        """Raises an error that says what the status means, and the line where there is one, unless the call was done."""
        if status != 0:
            text = room(c_uint8, 80)
            length = self.text_call(status, *sized(text))
            line = f", at line {report.at + 1}" if status <= TOO_MANY_BYTES else ""
            raise ValueError(bytes(text)[:length].decode() + line)


def room(kind, length):
    return (kind * length)()


def sized(array):
    """An array as it crosses: a pointer to its first element, and how many it has."""
    return ctypes.cast(array, POINTER(array._type_)), len(array)


def layout(texts):
    """One buffer of the texts' bytes, and one of the offsets."""
    data, offsets = b"".join(texts), [0, *accumulate(map(len, texts))]
    return (c_uint8 * len(data)).from_buffer_copy(data), (c_int32 * len(offsets))(*offsets)


def texts_of(data, offsets):
    data = bytes(data)
    return [data[start:end] for start, end in zip(offsets, offsets[1:])]


def main():
    if len(sys.argv) != 3:
        sys.exit("usage: lines.py LIBRARY FILE")
    lasso = Lasso(sys.argv[1])
    with open(sys.argv[2], "rb") as file:
        lines = file.read().split(b"\n")
    if not lines[-1]:
        lines.pop()
    codes, dictionary = lasso.encode(lines)
    for code, line in zip(codes, lines):
        sys.stdout.buffer.write(b"%d %b\n" % (code, line))
    if lasso.decode(dictionary, codes) != lines:
        raise ValueError("decoding gave other lines")


main()
