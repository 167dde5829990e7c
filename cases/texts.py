"""Texts that cases are made of. Each is worked out from how its lines are made, never by a program of the repository."""
import collections
import re

PAST = "Lasso encountered an error: The configured memory limit was reached"
MEMORY = "Lasso encountered an error: Failed to allocate memory"
LETTERS = "abcdefghijklmnopqrstuvwxyz"


def numbered(count):
    """The lines of 10 bytes with these numbers: from 0, and below this one. They are in the order of their bytes."""
    return b"".join(b"line-%05d\n" % number for number in range(count))


def each(values, form):
    """The form of each of the values, one after another, as bytes."""
    return b"".join(form(value) for value in values)


def number(value):
    """A number's digits."""
    return b"%d" % value


# What lasso_codes says of the errors by which cases/shim.c has calls fail: the kinds of Rust's std, in words.
CAUSES = {
    "EIO": "Input/output error",
    "EAGAIN": "Operation would block",
    "ECONNRESET": "Connection reset",
    "EPIPE": "Broken pipe",
    "ENOSPC": "No storage space",
    "EDQUOT": "Quota exceeded",
    "EFBIG": "File too large",
    "NOTHING": "Write zero",
}


def failed(call, way="EIO"):
    """What lasso_codes says of a read or a write that failed so."""
    return f"{call} failed: {CAUSES[way]}"


def code(value):
    """A code, or a null as 2**32 - 1, as four bytes."""
    return value.to_bytes(4, "little")


def column(distinct, lines, kind="text"):
    """The header of a column."""
    return b"lasso-codes 1 %s %d %d\n" % (kind.encode(), distinct, lines)


def letters(count, first=0):
    """A text of this many letters: the alphabet, again and again, from a letter on."""
    turned = LETTERS[first % 26 :] + LETTERS[: first % 26]
    return (turned * (count // 26 + 1))[:count].encode()


class Lines:
    """Empty lines, this many, and then distinct lines, each of which comes `times` times, all of them in turn; and what lasso_codes writes for them."""

    def __init__(self, texts, times=1, empty=0):
        first = range(bool(empty), len(texts) + bool(empty))
        count = len(texts) * times + empty
        self.texts = b"\n" * bool(empty) + each(texts, lambda text: text + b"\n")
        self.lines = b"\n" * empty + each(texts, lambda text: text + b"\n") * times
        self.counts = b"%d \n" % empty * bool(empty) + b"".join(b"%d %s\n" % (times, text) for text in sorted(texts))
        self.column = column(first.stop, count) + self.texts + b"0\n" * empty + each(first, lambda text: b"%d\n" % text) * times
        self.binary = column(first.stop, count, "binary") + self.texts + code(0) * empty + each(first, code) * times


class Shape(Lines):
    """Texts with this number of letters, of which text k begins with letter k."""

    def __init__(self, texts, times, length):
        super().__init__([letters(length, text) for text in range(texts)], times)


class Numbered:
    """Empty lines, this many, and then lines of 100 bytes that are the texts with these numbers, of which each first comes after all that are
    smaller; and what lasso_codes writes for them. The empty lines are more than those of any other text."""

    SIZE = 100

    def __init__(self, numbers, empty):
        self.empty = empty
        self.numbers = [number + 1 for number in numbers]
        self.texts = [b"\n"] + [(b"%d %s" % (text, letters(self.SIZE)))[: self.SIZE - 1] + b"\n" for text in range(max(numbers) + 1)]
        times = collections.Counter(self.numbers)
        ranked = sorted(times, key=lambda text: (-times[text], self.texts[text]))
        count = empty + len(numbers)
        self.lines = b"\n" * empty + each(self.numbers, self.texts.__getitem__)
        self.counts = b"%d \n" % empty + each(ranked, lambda text: b"%d %s" % (times[text], self.texts[text]))
        self.column = column(len(self.texts), count) + b"".join(self.texts) + b"0\n" * empty + each(self.numbers, lambda text: b"%d\n" % text)
        self.binary = column(len(self.texts), count, "binary") + b"".join(self.texts) + code(0) * empty + each(self.numbers, code)
        others = column(len(self.texts) - 1, count) + b"".join(self.texts[1:])
        self.first_as_null = others + b"-\n" * empty + each(self.numbers, lambda text: b"%d\n" % (text - 1))

    def before(self, line):
        """How many bytes come before this line. Lines are numbered from 1."""
        return self.empty + (line - 1 - self.empty) * self.SIZE

    def with_line(self, line, other):
        """The lines with another one in place of this one, which is not empty."""
        return self.lines[: self.before(line)] + other + b"\n" + self.lines[self.before(line + 1) :]
