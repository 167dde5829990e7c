"""Prints what a model says of many machines that encode one input: the bytes of dictionaries that travel, the seconds of each step, and the
number of machines past which more make it slower. Nothing here is measured: each number follows from the assumptions below. The words
NAME=NUMBER set other ones, as `model.py MACHINES=20 INTERN=1e-7`."""

import sys
from math import ceil, e, log, sqrt
from types import SimpleNamespace

ASSUMED = {
    "MACHINES": (100, "machines"),
    "PROCESSES": (4, "processes of each machine, each with a part of the input"),
    "INPUT": (10e12, "bytes of the input, of which each machine has its share at hand"),
    "LINE": (20, "bytes of a line, and of a distinct line, with the line feed"),
    "READ": (1e9, "bytes a second that a machine reads of its share"),
    "NETWORK": (1.25e9, "bytes a second into a machine, and out of it (10 Gbit a second)"),
    "ENCODE": (100e-9, "seconds of a process to encode a line"),
    "INTERN": (200e-9, "seconds of a process to intern a line of a dictionary that it merges"),
    "CODE": (10e-9, "seconds of a process to rewrite a code"),
    "ENTRY": (36, "bytes of memory that an interner takes at most for a text, beside the text"),
    "FAN": (3, "dictionaries that one merge of a tree takes"),
}
DISTINCT = (10**5, 10**6, 10**7, 10**8, 10**9)


def sizes(it, distinct):
    """What travels to the merges and what a merge holds; and the number of machines for which work / machines + its merge is least, if one machine
    merges all, and by a tree of the best fan, e. In a tree too each dictionary but one travels once for each merge."""
    dictionary = distinct * it.LINE
    # A merge has the interner of what is merged, that of a dictionary that comes in, and a table from old codes to new ones.
    memory = distinct * (2 * (it.LINE + it.ENTRY) + 4)
    work = max(it.INPUT / it.READ, it.INPUT / it.LINE / it.PROCESSES * it.ENCODE)
    one = distinct * it.INTERN
    return [*map(in_words, (dictionary, (it.MACHINES - 1) * dictionary, memory)), *(f"{most:,.0f}" for most in (sqrt(work / one), work / (one * e)))]


def steps(it, distinct):
    """The seconds of each step in the worst case, in which each part has each of the distinct lines."""
    interning = lambda dictionaries: dictionaries * distinct * it.INTERN
    moving = lambda dictionaries: dictionaries * distinct * it.LINE / it.NETWORK

    def encoding(machines):
        """Reading and encoding, whichever takes longer, and merging what the processes of one machine have."""
        return max(it.INPUT / machines / it.READ, it.INPUT / it.LINE / machines / it.PROCESSES * it.ENCODE) + interning(it.PROCESSES)

    # One machine merges all, during which the dictionaries come in, and sends the result to each; or level by level, FAN dictionaries a merge.
    star = max(interning(it.MACHINES), moving(it.MACHINES - 1)), moving(it.MACHINES - 1)
    levels = ceil(log(it.MACHINES, it.FAN) - 1e-9)
    tree = levels * max(interning(it.FAN), moving(it.FAN - 1)), levels * moving(it.FAN - 1)
    # Each process reads the dictionary and its own column's, and rewrites its codes.
    recoding = interning(2) + it.INPUT / it.LINE / it.MACHINES / it.PROCESSES * it.CODE
    whole = lambda way: encoding(it.MACHINES) + sum(way) + recoding
    found = (encoding(it.MACHINES), *star, recoding, whole(star), *tree, whole(tree), encoding(1))
    return [f"{number:.0f}" if number >= 10 else f"{number:.1f}" for number in found]


def in_words(number):
    """Bytes in words, three digits."""
    for unit, scale in (("TB", 1e12), ("GB", 1e9), ("MB", 1e6)):
        if number >= scale:
            return f"{number / scale:.3g} {unit}"
    return f"{number:.0f} bytes"


def print_table(head, rows):
    """A table as Markdown has it."""
    for cells in (head, ["---"] * len(head), *rows):
        print("|", " | ".join(cells), "|")
    print()


def main(words):
    given = [word.partition("=")[::2] for word in words]
    if not {name for name, _ in given} <= set(ASSUMED):
        sys.exit("usage: model.py [NAME=NUMBER..], with the names that it prints")
    assumed = SimpleNamespace(**{**{name: number for name, (number, _) in ASSUMED.items()}, **{name: float(number) for name, number in given}})
    print_table(["Assumed", "", ""], [[f"`{name}`", f"{getattr(assumed, name):g}", meaning] for name, (_, meaning) in ASSUMED.items()])
    for head, work in (
        (["One dictionary", "Travels to merges", "Memory of a merge", "Most machines, one merge", "Most machines, tree"], sizes),
        (["encode", "one merge", "send", "recode", "all", "tree: merges", "send", "all", "one machine alone"], steps),
    ):
        print_table(["Distinct lines", *head], [[f"{distinct:,}", *work(assumed, distinct)] for distinct in DISTINCT])


main(sys.argv[1:])
