#!/usr/bin/env python3
"""Writes the inputs of the benchmark into the folder that is given, each whole and as a tenth of its lines: those that are named, or else the
six that come first.

The seed is fixed, so that every run on every machine has the same bytes.
"""
import random
import sys
from bisect import bisect
from itertools import accumulate
from pathlib import Path

SEED = 20261122
LETTERS = "etaoinshrdlucmfwypvbgkqjxz"


def word(rng, shortest, longest):
    return "".join(rng.choice(LETTERS) for _ in range(rng.randint(shortest, longest)))


def distinct_words(rng, count, shortest, longest):
    seen = {}
    while len(seen) < count:
        seen[word(rng, shortest, longest)] = None
    return list(seen)


def zipf(rng, count):
    """So many lines over a tenth as many words, the n-th of which comes about 1/n as often as the first: new ones up to the end."""
    words = distinct_words(rng, count // 10, 3, 12)
    sums = list(accumulate(1 / rank for rank in range(1, len(words) + 1)))
    return [words[bisect(sums, rng.random() * sums[-1])] for _ in range(count)]


def shuffled(rng, words, count):
    """So many lines over the words in random order, each of which comes."""
    lines = words + rng.choices(words, k=count - len(words))
    rng.shuffle(lines)
    return lines


# The lines of each input.
INPUTS = {
    "zipf": lambda rng: zipf(rng, 1_000_000),
    "distinct": lambda rng: [f"{word(rng, 2, 6)}{number}" for number in range(1_000_000)],
    "long": lambda rng: ["".join(rng.choices(LETTERS, k=200)) for _ in range(200_000)],
    "few": lambda rng: rng.choices(distinct_words(rng, 10_000, 4, 10), k=2_000_000),
    "mid": lambda rng: shuffled(rng, distinct_words(rng, 100_000, 35, 35), 1_000_000),
    "wide": lambda rng: shuffled(rng, distinct_words(rng, 1_000_000, 35, 35), 2_000_000),
    "large": lambda rng: zipf(rng, 10_000_000),
    "rows": lambda rng: shuffled(rng, distinct_words(rng, 200_000, 4, 12), 2_000_000),
    "uniform": lambda rng: shuffled(rng, distinct_words(rng, 100_000, 3, 12), 1_000_000),
}


def main(folder, *names):
    Path(folder).mkdir(parents=True, exist_ok=True)
    for name in names or list(INPUTS)[:6]:
        lines = INPUTS[name](random.Random(f"{SEED} {name}"))
        # The tenth comes last: what is cut short has none, and is made again.
        for suffix, part in (("", lines), (".tenth", lines[: len(lines) // 10])):
            written = Path(folder, f"{name}{suffix}.part")
            written.write_text("\n".join(part) + "\n", encoding="ascii")
            written.rename(Path(folder, f"{name}{suffix}"))


main(*sys.argv[1:])
