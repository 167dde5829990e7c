"""Makes scripts and JSON values for tool_replay, the same ones each time.

Short runs of texts of all lengths meet each case of the account. Others use up the keys of a type. Random runs have
all commands, and values of each kind stand in each place. Some values are large.
"""
import itertools
import json
import os
import random
import re

import model

SEED = 205
KEYS = ("spur", "mini", "micro", "large", "below2", "hole2")
LENGTHS = (0, 1, 3, 4, 6, 7, 12, 13)
LIMITS = (0, 2, 3, 9, 10, 20, "max")
FORMS = ("rodeo", "reader", "resolver", "threaded")
SCALARS = ["null", "true", "false", '""', '"a"', '"1"', r'"\u0000"', r'"a\u0000b"', r'"\"\\n"', '"\u00df\u4e2d\U0001f980"']
SCALARS += ["0", "1", "2", "3", "-0", "-0.0", "-1", "0.5", "1.0", "1e0", "1e300", "-255"]
SCALARS += [str(2**bits + more) for bits in (8, 16, 32, 64) for more in (-2, -1, 0, 1)] + [str(-(2**63)), str(-(2**63) - 1)]
GROUPS = ["[]", "[1]", '["1"]', "[[1]]", "{}", '{"1":1}', '{"a":{"b":[1]}}']
MOVES = ("next", "back", "nth0", "nth1", "nthback0", "nthback1", "nthback2", "left", "copy")
STATIC = [b"", b"x", b"gdfg", b"0123456789", b"Hello, world!", b"a static text"]


def commands_and_replies(text):
    """The lines of scripts, and the replies, which are indented below them."""
    lines = text.splitlines()
    return [line for line in lines if not line.startswith("  ")], [line[2:] for line in lines if line.startswith("  ")]


def text_by_hand():
    """The scripts that are written by hand."""
    with open(os.path.join(os.path.dirname(__file__), "scripts.txt"), encoding="ascii") as source:
        return source.read()


def worked(text, name=r"\w+"):
    """Of scripts in a text, or of those of this name, the lines of those whose replies were worked by hand, and these."""
    parts = re.split(r"^(?=script )", text, flags=re.MULTILINE)
    return commands_and_replies("".join(part for part in parts if "\n  " in part and re.match(rf"script {name} ", part)))


def words_of(texts):
    """The texts as words."""
    return [model.digits_of(text) for text in texts]


def runs_of_lengths():
    """For each kind of interner and limit all runs of three lengths, of which each is one case of the account."""
    for kind, limit, sizes in itertools.product(("rodeo", "threaded"), LIMITS, itertools.product(LENGTHS, repeat=3)):
        yield f"script lengths_{'_'.join(map(str, sizes))}_to_{limit} {kind} spur 0 3 {limit}"
        for letter, size in zip(b"abc", sizes):
            yield f"intern {model.digits_of(bytes([letter]) * size)}"
            yield "usage"
    for kept, again in itertools.product(itertools.product(LENGTHS[1:], repeat=2), repeat=2):
        yield f"script cleared_{'_'.join(map(str, kept + again))} rodeo spur 0 3 {3 * sum(kept)}"
        for command, letter, size in zip(("intern", "intern", "clear", "intern", "intern"), b"ab cd", (*kept, 0, *again)):
            yield command if command == "clear" else f"intern {model.digits_of(bytes([letter]) * size)}"
            yield "usage"


def copies():
    """For each limit all runs of three lengths that an interner is copied from, what goes in afterwards, and its copy."""
    for limit, sizes in itertools.product(LIMITS, itertools.product(LENGTHS[::2], repeat=3)):
        yield f"script copies_{'_'.join(map(str, sizes))}_to_{limit} rodeo spur 0 3 {limit}"
        yield " ".join(["clonefrom", *words_of(bytes([letter]) * size for letter, size in zip(b"abc", sizes))])
        yield from ("usage", "len", f"intern {'64' * 3}", "usage", f"intern {'65' * 6}", "usage", "clone", "usage", "max")


def used_up_keys():
    """Interners whose keys are used up, and many texts of one hash, which are then asked for and frozen."""
    numbers = [str(number).encode() for number in range(600)]
    for kind in ("rodeo", "onehash", "threaded"):
        yield f"script used_up_keys_of_{kind} {kind} micro 50 655 655"
        for text in numbers[:260]:
            yield f"intern {model.digits_of(text)}"
        yield from ("usage", "len", "intern -", "intern 30", f"get {model.digits_of(b'254')}", f"get {model.digits_of(b'255')}")
        yield from (f"{command} {number}" for number in (0, 253, 254, 255, 256, 2**32) for command in ("has", "resolve"))
    for kind in ("rodeo", "onehash"):
        yield f"script many_texts_of_{kind} {kind} spur 0 1 max"
        yield from (f"intern {word}" for word in words_of(numbers))
        for _ in range(3):
            yield from (f"{command} {word}" for word in words_of(numbers[::3] + [b"none"]) for command in ("get", "contains"))
            yield "freeze"


class Script:
    """A random script."""

    def __init__(self, rng, number):
        self.rng = rng
        self.kind = rng.choice(("rodeo", "rodeo", "onehash", "threaded"))
        self.keys = rng.choice(KEYS)
        self.first = rng.choice((1, 2, 3, 4, 7, 10, 16, 64, 4096))
        self.limit = rng.choice((0, 1, self.first, self.first + 3, 3 * self.first, 7 * self.first, 28672, "max"))
        self.texts = [self.text() for _ in range(rng.randint(4, 24))]
        self.head = f"script random_{number} {self.kind} {self.keys} {rng.choice((0, 1, 10, 50))} {self.first} {self.limit}"

    def text(self):
        """A text of a few letters of one to four bytes."""
        letters = self.rng.choices("abjkz\0\n\u00df\u4e2d\U0001f980", k=self.rng.choice((0, 1, 1, 2, 2, 3, 4, 6, 9, 17, 40)))
        return "".join(letters).encode()

    def some(self, most):
        """Some of the texts, as words."""
        return " ".join(words_of(self.rng.choices(self.texts, k=self.rng.randint(0, most))))

    def one(self):
        """One of the texts, as a word."""
        return model.digits_of(self.rng.choice(self.texts))

    def number(self):
        """A number that may have a text."""
        return self.rng.choice((0, 0, 1, 1, 2, 3, 5, len(self.texts), 254, 255, 2**32, 2**64 - 1))

    def bytes(self):
        """A limit."""
        return self.rng.choice((0, self.first, self.rng.randint(0, 100), self.rng.randint(0, 100), "max"))

    def question(self):
        """A command that only reads, and that each kind of interner has."""
        rng = self.rng
        return rng.choice(("len", "usage", "max", f"get {self.one()}", f"contains {self.one()}", f"has {self.number()}", f"resolve {self.number()}"))

    def look(self):
        """A command that only reads, and that an interner for one thread and its frozen forms have."""
        moves = " ".join(self.rng.choices(MOVES[:-1], k=5)) + self.rng.choice(("", " copy next left back"))
        return self.rng.choice(("empty", "loop", "saved", f"stands {self.number()}", f"walk {moves}", f"strings {moves}", f"compare {self.some(4)}".rstrip()))

    def array(self):
        """An array of texts, some of them equal, as a word."""
        texts = [text.decode() for text in self.rng.choices(self.texts, k=self.rng.randint(0, 3))]
        return model.digits_of(json.dumps(texts).encode())

    def change(self):
        """A command that changes an interner for one thread as a whole."""
        rng = self.rng
        kept = model.digits_of(rng.choice(STATIC))
        copies = (f"{command} {self.some(5)}".rstrip() for command in ("clonefrom", "tryclonefrom", "fill", "collect"))
        words = rng.choice(("none", "two", "four"))
        plain = (f"keep {kept}", f"keepplain {kept}", f"plain {self.one()}", f"load {self.array()}", f"words {words}")
        return rng.choice(("clear", "clear", "clone", "tryclone", "swap", *copies, *plain))

    def command(self):
        """A command of any kind."""
        shared = ([f"intern {self.one()}"] * 6, [self.question()] * 5, [f"extend {self.some(5)}".rstrip()], [f"limit {self.bytes()}"])
        own = () if self.kind == "threaded" else ([self.look()] * 2, [self.change()] * 2)
        return self.rng.choice([command for commands in (*shared, *own) for command in commands])

    def lines(self):
        """The lines of the script."""
        yield self.head
        yield from (self.command() for _ in range(self.rng.randint(5, 120)))
        for _ in range(0 if self.kind == "threaded" else self.rng.randint(0, 2)):
            yield "freeze"
            yield from (self.command() for _ in range(20))


def random_scripts(count):
    """Random scripts of all commands."""
    rng = random.Random(SEED)
    for number in range(count):
        yield from Script(rng, number).lines()


def line_of(form, keys, value):
    """The line with a JSON text."""
    return f"json {form} {keys} {model.digits_of(value.encode())}"


def values():
    """JSON values of each kind in each place, and keys."""
    every = SCALARS + GROUPS
    yield from (f"key {keys} {model.digits_of(value.encode())}" for keys in KEYS[:4] for value in every)
    arrays = [*every, *(f"[{value}]" for value in every), *(f'["a",{value},"a"]' for value in every), '["b","a"]', '["a","a",1]']
    objects = [f'{{"a":{value}}}' for value in every] + [f'{{"b":1,"a":{value}}}' for value in every]
    objects += [f'{{"a":{a},"b":{b},"c":{c}}}' for a, b, c in itertools.product(range(5), repeat=3)]
    objects += ['{"z":1,"\u00df":2}', '{"\u00df":1,"z":2,"":3}', r'{"a\u0000":1,"a":2}', '{"a":1,"a":1}', '{"a":9,"a":1}']
    yield from (line_of(form, keys, value) for form in FORMS for keys in ("spur", "below2", "hole2") for value in arrays)
    yield from (line_of("threaded", keys, value) for keys in ("spur", "below2", "hole2") for value in objects)
    yield from (line_of(form, "spur", objects[0]) for form in FORMS)
    for count in (254, 255, 256, 257):
        texts = [str(number) for number in range(count)]
        yield from (line_of(form, keys, json.dumps(texts)) for form in FORMS for keys in ("spur", "micro"))
        members = {text: count - number for number, text in enumerate(texts)}
        yield from (line_of("threaded", keys, json.dumps(members)) for keys in ("spur", "micro"))


def large_values():
    """Values with long texts, and with as many texts as keys of 16 bits stand for, and more."""
    long = "a" * 100_000
    texts = [long, ["a" * 1_000_000], [long, long], [long, [long]], [[long], long]]
    names = [{long: 0}, {long: 1}, {long: 2}, {"k": long}, {"k": [long]}]
    yield from (line_of(form, "spur", json.dumps(value)) for form in FORMS for value in texts)
    yield from (line_of("threaded", "spur", json.dumps(value)) for value in names)
    many = [str(number) for number in range(69_999)]
    yield from (line_of(form, "spur", json.dumps([*many, "0"])) for form in FORMS)
    yield from (line_of(form, "mini", json.dumps(many[:count])) for form in FORMS for count in (65_535, 65_536))
    numbers = [("mini", count, first) for count in (65_535, 65_536) for first in (1, 65_535, 65_536)]
    for keys, count, first in [*numbers, ("spur", 65_536, 65_536), ("spur", 65_536, 2**32 - 1)]:
        members = {f"{number:05}": number + 1 for number in range(count)}
        yield line_of("threaded", keys, json.dumps({**members, "00000": first}))


def lines():
    """All lines, those that are written by hand first."""
    yield from commands_and_replies(text_by_hand())[0]
    yield from runs_of_lengths()
    yield from copies()
    yield from used_up_keys()
    yield from random_scripts(200)
    yield from values()
    yield from large_values()
