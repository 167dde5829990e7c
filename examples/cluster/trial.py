#!/usr/bin/env python3
"""What the trial of many machines needs beside them.

usage: trial.py lines COUNT        writes this number of lines of a mixture that has much of everything
       trial.py decode             writes the lines of a column of four bytes a code, which comes on standard input
       trial.py refused FOLDER     looks that a run which has to fail does, says why, and leaves no file in the folder, which is empty

Of a hundred lines some 85 are words of a Zipf law over 100,000, and 15 are like no other line; one in ten thousand is odd: empty, with
blanks, of other letters or bytes that a program may trip over, or not UTF-8. The last line has no line feed. The seed is fixed, so that
every run on every machine has the same bytes. `decode` ends each line with a line feed, and no line of it is the program's.
"""
import random
import sys
from array import array
from itertools import accumulate
from pathlib import Path

SEED = 20261124
LETTERS = "etaoinshrdlucmfwypvbgkqjxz"
WORDS = 100_000
BLOCK = 100_000
ODD = [
    "", " ", "  ", "a", "a ", " a", "a b", "a  b", "0", "0 a", "1 texts, 2 bytes", "\t", "\r", "a\r", "a\rb", "\0", "a\0", "a\0b", "\x7f",
    "\u0085", "\u00e9", "e\u0301", "\u65e5\u672c\u8a9e", "\u2028", "\uffff", "\U0001f600", "\U0010ffff", "\U0010ffffe9",
    # bytes that are not UTF-8, by surrogates
    "\udce9", "caf\udce9", "\udcff\udcfe", "\udcc3", "\udcf4\udc8f",
]

# Inputs, and the runs over them that have to fail, with words of what they say.
FILES = {
    "bytes": b"a\n\xc3\n",
    "two": b"lasso-codes 1 text 2 0\na\nb\n",
    "twice": b"lasso-codes 1 text 2 0\na\na\n",
    "column": b"lasso-codes 1 binary 2 2\nb\nc\n\0\0\0\0\1\0\0\0",
    "cut": b"lasso-codes 1 binary 2 2\na\nb\n\0\0\0\0\1\0\0",
    "past": b"lasso-codes 1 binary 0 1\n\2\0\0\0",
    "empty": b"",
}
REFUSED = [
    ("encode", ["bytes"], "folder", "Is a directory"),
    ("recode", ["two", "column"], "target", "column 2: text 2 is not in the dictionary"),
    ("recode", ["twice", "column"], "target", "column 1: text 2 comes twice"),
    ("recode", ["bytes", "column"], "target", "column 1: no header"),
    ("recode", ["column", "column"], "target", "column 1: a dictionary has no entries"),
    ("recode", ["two", "cut"], "target", "column 2: entry 2 is missing"),
    ("join", ["two", "past"], "target", "column 2: entry 1 is past the texts"),
    ("dictionary", ["cut"], "target", "column 1: entry 2 is missing"),
    ("merge", ["two", "bytes"], "target", "column 2: no header"),
    ("merge", ["two", "empty"], "target", "a file is empty"),
    ("merge", ["two", "absent"], "target", "No such file"),
    ("encode", ["bytes", "absent"], "target", "No such file"),
]


def word(rng, shortest, longest):
    return "".join(rng.choices(LETTERS, k=rng.randint(shortest, longest)))


def distinct_words(rng):
    seen = {}
    while len(seen) < WORDS:
        seen[word(rng, 3, 12)] = None
    return list(seen)


def blocks(rng, count):
    """The lines, at most BLOCK of them at a time."""
    words = distinct_words(rng)
    sums = list(accumulate(1 / rank for rank in range(1, WORDS + 1)))
    for start in range(0, count, BLOCK):
        lines = rng.choices(words, cum_weights=sums, k=min(BLOCK, count - start))
        for at in range(len(lines)):
            draw = rng.random()
            if draw < 0.15:
                lines[at] = f"{word(rng, 2, 6)}{start + at}"
            elif draw < 0.1501:
                lines[at] = rng.choice(ODD)
        yield lines


def write_lines(count):
    """Writes the lines."""
    between = ""
    for lines in blocks(random.Random(SEED), int(count)):
        sys.stdout.buffer.write((between + "\n".join(lines)).encode(errors="surrogateescape"))
        between = "\n"


def decode():
    """Writes the lines of a column."""
    source = sys.stdin.buffer
    *_, distinct, lines = source.readline().split()
    texts = [source.readline() for _ in range(int(distinct))]
    codes = array("I", source.read())
    if sys.byteorder == "big":
        codes.byteswap()
    if len(codes) != int(lines):
        sys.exit(f"{len(codes)} codes, and the header says {int(lines)}")
    sys.stdout.buffer.writelines(texts[code] for code in codes)


def refusal(verb, sources, target, folder):
    """What the run says. Nothing, if it does not fail."""
    from encode import PROGRAM, run

    try:
        run(PROGRAM, [verb], [folder / source for source in sources], folder / target)
    except (OSError, RuntimeError) as fault:
        return str(fault)
    return ""


def refuse(folder):
    """Tries the runs that have to fail."""
    folder = Path(folder)
    for name, text in FILES.items():
        (folder / name).write_bytes(text)
    (folder / "folder").mkdir()
    before = sorted(folder.rglob("*"))
    for verb, sources, target, words in REFUSED:
        said = refusal(verb, sources, target, folder)
        if words not in said:
            sys.exit(f"{verb} of {', '.join(sources)}: {said or 'not refused'}, and not {words}")
        if sorted(folder.rglob("*")) != before:
            sys.exit(f"{verb} of {', '.join(sources)} leaves a file")
    print(f"{len(REFUSED)} inputs that a run has to refuse are refused, and no file of them is left")


if __name__ == "__main__":
    VERBS = {"lines": (write_lines, 1), "decode": (decode, 0), "refused": (refuse, 1)}
    verb, *given = sys.argv[1:] or [""]
    if verb not in VERBS or len(given) != VERBS[verb][1]:
        sys.exit(__doc__.split("\n\n")[1])
    VERBS[verb][0](*given)
