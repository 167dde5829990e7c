"""What tool_replay has to reply to an input, from the definitions of an interner.

An interner is a list of distinct texts with an account of its memory: the room in the current bucket, the spare
buckets, the doubling size, the usage and the limit. There are no hashes, spans or regions here. Texts are bytes.
"""
import bisect
import json

LIMIT, KEYS = "refused MemoryLimitReached", "refused KeySpaceExhaustion"
NO_LIMIT = 2**64 - 1
DEFAULT_BYTES = 4096
# The keys of each type: how many there are, and the number that has none.
COUNTS = {"spur": 2**32 - 1, "mini": 2**16 - 1, "micro": 2**8 - 1, "large": 2**64 - 1, "below2": 2, "hole2": 2**32, "hole0": 2**32}
HOLES = {"hole2": 2, "hole0": 0}
WORDS = {"none": [], "two": [b"p", b"q"], "four": [b"if", b"else", b"while", b"a word of more bytes than an entry has"]}


def text_of(word):
    """The text of its hexadecimal digits."""
    return b"" if word == "-" else bytes.fromhex(word)


def digits_of(text):
    """The text in hexadecimal digits."""
    return text.hex() or "-"


def has_key(keys, number):
    """Whether the key type has a key of this number."""
    return number < COUNTS[keys] and number != HOLES.get(keys)


class Refused(Exception):
    """A refusal; its argument is the reply."""


class Account:
    """The memory of an interner for one thread."""

    def __init__(self, first, limit):
        self.first, self.limit = first, limit
        self.room = self.doubling = self.usage = first
        self.spares = []
        self.buckets = 1

    def store(self, size):
        """Stores a text of this many bytes, or refuses it and changes nothing."""
        if size <= self.room:
            self.room -= size
        elif self.spares and self.spares[-1] >= size:
            self.room = self.spares.pop(bisect.bisect_left(self.spares, size)) - size
        elif size > 2 * self.doubling:
            self.add(size)
        elif self.usage + 2 * self.doubling > self.limit:
            rest = max(0, self.limit - self.usage)
            if rest < size:
                raise Refused(LIMIT)
            self.add(rest)
            self.room = rest - size
        else:
            self.doubling *= 2
            self.add(self.doubling)
            self.room = self.doubling - size

    def add(self, size):
        """Adds a bucket of this size, or refuses it."""
        if self.usage + size > self.limit:
            raise Refused(LIMIT)
        self.usage += size
        self.buckets += 1

    def clear(self):
        """Only the first bucket and the doubled ones stay."""
        self.room = self.first
        self.spares = []
        size = 2 * self.first
        while size <= self.doubling:
            self.spares.append(size)
            size *= 2
        self.usage = 2 * self.doubling - self.first
        self.buckets = 1 + len(self.spares)


class SharedAccount:
    """The memory of an interner that threads share. A text may go into any bucket with room."""

    def __init__(self, first, limit):
        self.rooms = [first]
        self.doubling = self.usage = first
        self.limit = limit

    def store(self, size):
        """Stores a text of this many bytes, or refuses it and changes nothing."""
        if not size:
            return
        # The newest bucket, the first one, and then the others in order.
        for at in [len(self.rooms) - 1, *range(len(self.rooms) - 1)]:
            if self.rooms[at] >= size:
                self.rooms[at] -= size
                return
        bucket = self.size_of_next(size)
        self.usage += bucket
        self.rooms.append(bucket - size)

    def size_of_next(self, size):
        """The size of a new bucket for a text of this many bytes."""
        if size > 2 * self.doubling:
            if self.usage + size > self.limit:
                raise Refused(LIMIT)
            return size
        if self.usage + 2 * self.doubling > self.limit:
            rest = max(0, self.limit - self.usage)
            if rest < size:
                raise Refused(LIMIT)
            return rest
        self.doubling *= 2
        return self.doubling


class Interner:
    """A list of distinct texts with an account."""

    def __init__(self, keys, account):
        self.keys, self.account = keys, account
        self.texts, self.positions = [], {}

    def intern(self, text, is_static=False):
        """The position of the text, which is appended if it is absent."""
        if text in self.positions:
            return self.positions[text]
        if isinstance(self.account, SharedAccount):
            self.account.store(len(text))
        if not has_key(self.keys, len(self.texts)):
            raise Refused(KEYS)
        if isinstance(self.account, Account) and not is_static:
            self.account.store(len(text))
        self.append(text)
        return len(self.texts) - 1

    def append(self, text):
        """Puts a text last, as one that was stored."""
        self.positions.setdefault(text, len(self.texts))
        self.texts.append(text)

    def intern_all(self, texts):
        """Interns the texts up to the first refused one."""
        for text in texts:
            self.intern(text)

    def clear(self):
        """Removes all texts."""
        self.texts, self.positions = [], {}
        self.account.clear()

    def copy(self):
        """A copy in one bucket."""
        total = sum(map(len, self.texts)) or DEFAULT_BYTES
        return of_list(self.keys, self.texts, max(self.account.limit, total))

    def copy_from(self, texts):
        """The list becomes these texts, or empty if one of them is refused."""
        self.clear()
        try:
            for text in texts:
                self.account.store(len(text))
        except Refused:
            self.clear()
            raise
        for text in texts:
            self.append(text)


def of_list(keys, texts, limit):
    """An interner of these texts in one bucket."""
    made = Interner(keys, Account(sum(map(len, texts)) or DEFAULT_BYTES, limit))
    for text in texts:
        made.account.store(len(text))
        made.append(text)
    return made


def of_texts(keys, texts):
    """An interner of default capacity, which interned these texts."""
    made = Interner(keys, Account(DEFAULT_BYTES, NO_LIMIT))
    made.intern_all(texts)
    return made


def of_words(keys, words):
    """An interner of these static texts."""
    made = Interner(keys, Account(DEFAULT_BYTES, NO_LIMIT))
    for word in words:
        made.intern(word, is_static=True)
    return made


class Fault(Exception):
    """A fault of a JSON value; its argument is the reply."""


def value_of(word):
    """The JSON value of a text in hexadecimal digits. A negative zero is no whole number."""
    whole = lambda digits: -0.0 if digits == "-0" else int(digits)
    return json.loads(text_of(word).decode(), parse_int=whole)


def is_whole(value):
    """Whether the value is a whole number below 2^64."""
    return isinstance(value, int) and not isinstance(value, bool) and 0 <= value < 2**64


def read_array(keys, value, may_repeat):
    """The texts of an array, or its first fault."""
    if not isinstance(value, list):
        raise Fault("fault NotAnArray")
    seen = set()
    for at, item in enumerate(value):
        if not isinstance(item, str):
            raise Fault(f"fault NotText {at}")
        if item in seen and not may_repeat:
            raise Fault(f"fault Doubled {at}")
        if not has_key(keys, at):
            raise Fault(f"fault TooMany {at}")
        seen.add(item)
    return [item.encode() for item in value]


def read_map(keys, value):
    """The texts of an object, each at its number less one, or the first fault of a member in the order of bytes."""
    members = sorted((name.encode(), number) for name, number in value.items()) if isinstance(value, dict) else None
    if members is None:
        raise Fault("fault NotAnObject")
    texts = {}
    for at, (name, number) in enumerate(members):
        if not is_whole(number) or not 1 <= number <= len(members):
            raise Fault(f"fault NotAPosition {at}")
        if not has_key(keys, number - 1):
            raise Fault(f"fault TooMany {at}")
        if number in texts:
            raise Fault(f"fault Taken {at}")
        texts[number] = name
    return [texts[number + 1] for number in range(len(texts))]


def read(form, keys, value):
    """The texts that an interner of this form and key type has from a value."""
    if form == "threaded" and not isinstance(value, list):
        return read_map(keys, value)
    return read_array(keys, value, form == "resolver")


def reply_to_value(form, keys, word):
    """The reply to a line with an interner."""
    try:
        return " ".join(["list", *map(digits_of, read(form, keys, value_of(word)))])
    except Fault as fault:
        return str(fault)


def reply_to_key(keys, word):
    """The reply to a line with a key."""
    number = value_of(word)
    return f"key {number - 1}" if is_whole(number) and 1 <= number <= COUNTS[keys] else "fault NotAKey"


class Walk:
    """The items that are left of a walk, and how each is written."""

    def __init__(self, items, kind):
        self.items, self.kind = items, kind

    def move(self, move):
        """The reply to a call of the walk."""
        if move == "left":
            return f"left {len(self.items)} {len(self.items)} {len(self.items)}"
        is_back = "back" in move
        skipped = int(move[-1]) if move[-1].isdigit() else 0
        if skipped >= len(self.items):
            self.items = []
            return f"{self.kind} none"
        found = self.items[-1 - skipped] if is_back else self.items[skipped]
        self.items = self.items[: -1 - skipped] if is_back else self.items[skipped + 1 :]
        return f"{self.kind} {found}"


def walked(items, kind, moves):
    """The replies to the calls of a walk. After `copy` the walk makes the calls that follow, and then its copy does."""
    walk = Walk(items, kind)
    at = moves.index("copy") if "copy" in moves else len(moves)
    yield from (walk.move(move) for move in moves[:at])
    copy = Walk(walk.items, kind)
    for one in (walk, copy) if at < len(moves) else ():
        yield from (one.move(move) for move in moves[at + 1 :])


DEBUG_NAMES = {"rodeo": ("Rodeo", ", .."), "reader": ("RodeoReader", ", .."), "resolver": ("RodeoResolver", "")}


def debug_text(interner, form):
    """The debug output of the interner in this form, whose texts are printable ASCII."""
    account, (name, rest) = interner.account, DEBUG_NAMES[form]
    strings = ", ".join(json.dumps(text.decode("ascii")) for text in interner.texts)
    arena = f"buckets: ... {account.buckets} bucket{'s' * (account.buckets != 1)}, bucket_capacity: {account.doubling}"
    arena += f", memory_usage: {account.usage}, max_memory_usage: {account.limit}"
    return f"{name} {{ strings: [{strings}], arena: Arena {{ {arena} }}{rest} }}".encode()


class Replayed:
    """A script's interner, what was set aside, and the form that it has by now."""

    def __init__(self, kind, keys, strings, first, limit):
        self.form = "threaded" if kind == "threaded" else "rodeo"
        made = SharedAccount if kind == "threaded" else Account
        self.strings = strings
        self.interner, self.aside = Interner(keys, made(first, limit)), None

    def replies(self, command, *words):
        """The replies to a command."""
        if command == "freeze" and self.form in ("rodeo", "reader"):
            self.form = "reader" if self.form == "rodeo" else "resolver"
            return []
        asked = getattr(self, f"ask_{command}", None)
        changed = getattr(self, f"change_{command}", None)
        if self.form in ("rodeo", "threaded") and changed:
            try:
                return [changed(*words) or "done"]
            except (Refused, Fault) as refused:
                return [str(refused)]
        is_known = asked and not (self.form == "resolver" and command in ("get", "contains"))
        if not is_known or self.form in ("reader", "resolver") and command in ("usage", "max", "room"):
            return ["no call"]
        found = asked(*words)
        return [found] if isinstance(found, str) else list(found)

    def has(self, number):
        """Whether the number has a key, and the key a text."""
        return int(number) < len(self.interner.texts)

    def ask_get(self, word):
        return f"found {self.interner.positions.get(text_of(word), 'none')}"

    def ask_contains(self, word):
        return flag(text_of(word) in self.interner.positions)

    def ask_has(self, number):
        return flag(self.has(number))

    def ask_resolve(self, number):
        return f"text {digits_of(self.interner.texts[int(number)]) if self.has(number) else 'none'}"

    def ask_stands(self, number):
        return [self.ask_resolve(number)] * (2 if self.has(number) else 1)

    def ask_len(self):
        return f"number {len(self.interner.texts)}"

    def ask_usage(self):
        return f"number {self.interner.account.usage}"

    def ask_max(self):
        return f"number {self.interner.account.limit}"

    def ask_room(self, strings):
        """Of more texts than the script names or the list has, no definition says whether there is room."""
        if int(strings) > max(self.strings, len(self.interner.texts)):
            raise ValueError(f"room {strings}")
        return flag(True)

    def ask_empty(self):
        return flag(not self.interner.texts)

    def pairs(self):
        """The keys with the texts."""
        return [f"{number} {digits_of(text)}" for number, text in enumerate(self.interner.texts)]

    def ask_loop(self):
        return [f"pair {pair}" for pair in self.pairs()]

    def ask_walk(self, *moves):
        return walked(self.pairs(), "pair", moves)

    def ask_strings(self, *moves):
        return walked([digits_of(text) for text in self.interner.texts], "text", moves)

    def ask_saved(self):
        texts = [text.decode() for text in self.interner.texts]
        return f"text {digits_of(json.dumps(texts, ensure_ascii=False, separators=(',', ':')).encode())}"

    def ask_debug(self):
        return f"text {digits_of(debug_text(self.interner, self.form))}"

    def ask_compare(self, *words):
        try:
            is_equal = of_texts(self.interner.keys, map(text_of, words)).texts == self.interner.texts
        except Refused as refused:
            return str(refused)
        return "flags " + " ".join(str(one).lower() for one in (is_equal, is_equal, is_equal, not is_equal))

    def change_intern(self, word):
        return f"key {self.interner.intern(text_of(word))}"

    change_plain = change_intern

    def change_keep(self, word):
        return f"key {self.interner.intern(text_of(word), is_static=True)}"

    change_keepplain = change_keep

    def change_limit(self, word):
        self.interner.account.limit = NO_LIMIT if word == "max" else int(word)

    def change_extend(self, *words):
        self.interner.intern_all(map(text_of, words))

    change_fill = change_extend

    def change_clear(self):
        self.interner.clear()

    def change_clonefrom(self, *words):
        self.interner.copy_from(of_texts(self.interner.keys, map(text_of, words)).texts)

    change_tryclonefrom = change_clonefrom

    def change_collect(self, *words):
        self.interner = of_texts(self.interner.keys, map(text_of, words))

    def change_words(self, name):
        self.interner = of_words(self.interner.keys, WORDS[name])

    def change_clone(self):
        self.interner, self.aside = self.interner.copy(), self.interner

    change_tryclone = change_clone

    def change_swap(self):
        if self.aside:
            self.interner, self.aside = self.aside, self.interner

    def change_load(self, word):
        self.interner = of_list(self.interner.keys, read("rodeo", self.interner.keys, value_of(word)), NO_LIMIT)


def flag(is_true):
    """The reply to a question of yes or no."""
    return f"flag {str(bool(is_true)).lower()}"


def replies(lines):
    """The replies to the lines of an input, one after another."""
    script = None
    for line in lines:
        first, *words = line.split(" ")
        if first == "script":
            name, kind, keys, strings, size, limit = words
            script = Replayed(kind, keys, int(strings), int(size), NO_LIMIT if limit == "max" else int(limit))
            yield f"script {name}"
        elif first == "json":
            yield reply_to_value(*words)
        elif first == "key":
            yield reply_to_key(*words)
        else:
            yield from script.replies(first, *words)
