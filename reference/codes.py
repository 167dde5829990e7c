"""lasso_codes anew: what it writes, says and returns, from its README and its manual page."""
import collections
import re
import unicodedata

from lines import Account, is_utf8, lines_of

NO_CODE = 4294967295
OPTIONS = {
    "counts": ("--limit", "--top", "--utf8", "--workers", "--quiet"),
    "decode": ("--limit", "--null", "--utf8", "--quiet"),
    "dictionary": ("--limit", "--binary", "--utf8", "--quiet"),
    "distinct": ("--limit", "--utf8", "--quiet"),
    "encode": ("--limit", "--null", "--binary", "--utf8", "--workers", "--quiet"),
    "join": ("--limit", "--binary", "--utf8", "--quiet"),
    "merge": ("--limit", "--binary", "--utf8", "--quiet"),
    "recode": ("--limit", "--binary", "--utf8", "--quiet"),
}
# The options without a value.
FLAGS = ("--utf8", "--binary", "--quiet")
# The verbs that read columns, and those of them whose first column is a dictionary.
COLUMN_VERBS = ("decode", "dictionary", "join", "merge", "recode")
RECODING_VERBS = ("join", "recode")
UNITS = {"": 1, "K": 2**10, "M": 2**20, "G": 2**30}


class Ends(Exception):
    """The end of a run: its status, a pattern of its message, and what is written."""

    def __init__(self, status, message, output=b""):
        super().__init__(status, message)
        self.status, self.message, self.output = status, message, output


def number_of(word):
    """The number below 2^64 that a word is, or None."""
    found = re.fullmatch("([0-9]{1,20})([KMG]?)", word)
    number = int(found[1]) * UNITS[found[2]] if found else 2**64
    return number if number < 2**64 else None


def edits(one, other):
    """How many letters have to be put in, left out or changed to make one word the other."""
    row = list(range(len(other) + 1))
    for at, letter in enumerate(one, 1):
        before, row[0] = row[0], at
        for place, wanted in enumerate(other, 1):
            before, row[place] = row[place], min(row[place] + 1, row[place - 1] + 1, before + (letter != wanted))
    return row[-1]


def shown(word):
    """A pattern of a wrong argument, whose control characters are escaped."""
    return re.escape("".join(f"\\u{{{ord(letter):x}}}" if unicodedata.category(letter) == "Cc" else letter for letter in word))


def no_verb(word):
    """A pattern of the message for a word that is no verb: it names one of the nearest, at most two edits away."""
    nearest = min(edits(word, verb) for verb in OPTIONS)
    verbs = "|".join(verb for verb in OPTIONS if edits(word, verb) == nearest)
    return shown(word) + ": no such verb" + (rf"; did you mean ({verbs})\?" if nearest <= 2 else "")


def value_of(name, value, word):
    """The value of an option, which this word says; Ends for a wrong one."""
    if name == "--null":
        if "\n" in value:
            raise Ends(3, "--null: .+")
        return value.encode()
    number = number_of(value)
    if number is None:
        raise Ends(3, shown(word) + ": .+")
    if name == "--workers" and not 1 <= number <= 64:
        raise Ends(3, "--workers: .+")
    return number


def options_of(words):
    """The verb and its options; Ends for a wrong argument, a help text or the version."""
    if not words or any("\udc80" <= letter <= "\udcff" for word in words for letter in word):
        raise Ends(3, ".+")
    if words[0] == "--version":
        raise Ends(0, "", re.compile(rb"lasso_codes [0-9]+\.[0-9]+\.[0-9]+\n"))
    if words[0] == "--help":
        raise Ends(0, "", re.compile(rb"usage: lasso_codes VERB .+\n", re.DOTALL))
    if words[0] not in OPTIONS:
        raise Ends(3, no_verb(words[0]))
    verb, *words = words
    options = {}
    while words:
        word = words.pop(0)
        name, mark, value = word.partition("=")
        if word == "--help":
            raise Ends(0, "", re.compile(rb"usage: lasso_codes %s .+\n" % verb.encode(), re.DOTALL))
        if name not in OPTIONS[verb] or mark and name in FLAGS:
            raise Ends(3, shown(word) + ": .+")
        if name in FLAGS:
            options[name] = True
            continue
        if not mark:
            if not words:
                raise Ends(3, f"{name}: .+")
            value = word = words.pop(0)
        options[name] = value_of(name, value, word)
    return verb, options


class Dictionary:
    """Distinct lines in the order in which they first come, under a limit."""

    def __init__(self, limit):
        self.account = Account(limit)
        self.codes = {}

    def add(self, line, where):
        """The code of a line, which is appended if it is absent."""
        if line not in self.codes:
            is_own_text = is_utf8(line) and not line.startswith("\U0010ffff".encode())
            if not self.account.store(len(line) if is_own_text else 2 * len(line) + 4):
                raise Ends(1, f"{where}: .*memory limit.*")
            self.codes[line] = len(self.codes)
        return self.codes[line]


def dictionary_of(data, options):
    """The dictionary of the lines, and the code of each, None for a null. An Ends has the distinct lines before it."""
    dictionary, codes = Dictionary(options.get("--limit", 2**64 - 1)), []
    for number, line in enumerate(lines_of(data), 1):
        try:
            if "--utf8" in options and not is_utf8(line):
                raise Ends(2, f"line {number}: not UTF-8")
            codes.append(None if line == options.get("--null") else dictionary.add(line, f"line {number}"))
        except Ends as end:
            end.output = fed(dictionary.codes)
            raise
    return dictionary.codes, codes


def fed(lines):
    """The lines, each with its line feed."""
    return b"".join(line + b"\n" for line in lines)


def column(lines, codes, options):
    """A column of these distinct lines and codes."""
    if "--binary" in options:
        kind, entries = b"binary", b"".join((NO_CODE if code is None else code).to_bytes(4, "little") for code in codes)
    else:
        kind, entries = b"text", b"".join(b"-\n" if code is None else b"%d\n" % code for code in codes)
    return b"lasso-codes 1 %s %d %d\n" % (kind, len(lines), len(codes)) + fed(lines) + entries


def columns_of(data, options, dictionaries=0):
    """The columns of an input, one after another: the number, the distinct lines, and a function from a number of texts to an iterator of the
    entries, which are below it. The first columns, that many, are dictionaries."""
    place, number = 0, 0

    def line_at(fault):
        nonlocal place
        end = data.find(b"\n", place)
        if end < 0:
            raise Ends(2, fault)
        line, place = data[place:end], end + 1
        return line

    def entry(what, binary, count):
        nonlocal place
        if binary:
            if place + 4 > len(data):
                raise Ends(2, f"{what} is missing")
            code, place = int.from_bytes(data[place : place + 4], "little"), place + 4
            code = None if code == NO_CODE else code
        else:
            word = line_at(f"{what} is missing")
            if not re.fullmatch(b"-|[0-9]{1,20}", word) or word != b"-" and int(word) >= 2**64:
                raise Ends(2, f"{what} is not a code")
            code = None if word == b"-" else int(word)
        if code is not None and code >= count:
            raise Ends(2, f"{what} is past the texts")
        return code

    while place < len(data):
        number += 1
        where = f"column {number}"
        head = re.fullmatch(rb"lasso-codes 1 (text|binary) ([0-9]{1,20}) ([0-9]{1,20})", line_at(f"{where}: no header"))
        if not head or int(head[2]) >= 2**64 or int(head[3]) >= 2**64:
            raise Ends(2, f"{where}: no header")
        if number <= dictionaries and int(head[3]):
            raise Ends(2, f"{where}: a dictionary has no entries")
        dictionary = Dictionary(options.get("--limit", 2**64 - 1))
        for text in range(1, int(head[2]) + 1):
            line = line_at(f"{where}: text {text} is missing")
            if "--utf8" in options and not is_utf8(line):
                raise Ends(2, f"{where}: text {text} is not UTF-8")
            if line in dictionary.codes:
                raise Ends(2, f"{where}: text {text} comes twice")
            dictionary.add(line, f"{where}: text {text}")
        entries = lambda count: (entry(f"{where}: entry {at}", head[1] == b"binary", count) for at in range(1, int(head[3]) + 1))
        yield where, list(dictionary.codes), entries


def distinct(data, options):
    """What `distinct` writes."""
    return fed(dictionary_of(data, options)[0])


def counts(data, options):
    """What `counts` writes."""
    lines, codes = dictionary_of(data, options)
    count = collections.Counter(codes)
    ranked = sorted(lines, key=lambda line: (-count[lines[line]], line))
    return b"".join(b"%d %s\n" % (count[lines[line]], line) for line in ranked[: options.get("--top")])


def encode(data, options):
    """What `encode` writes."""
    return column(*dictionary_of(data, options), options)


def decode(data, options):
    """What `decode` writes."""
    written = []
    try:
        for where, lines, entries in columns_of(data, options):
            for at, code in enumerate(entries(len(lines)), 1):
                if code is None and "--null" not in options:
                    raise Ends(2, f"{where}: entry {at} is a null, and --null is missing")
                written.append(options["--null"] if code is None else lines[code])
    except Ends as end:
        end.output = fed(written)
        raise
    return fed(written)


def merged(data, options):
    """The dictionary of the lines of columns, and the code of each."""
    dictionary, codes = Dictionary(options.get("--limit", 2**64 - 1)), []
    for where, lines, entries in columns_of(data, options):
        places = [dictionary.add(line, where) for line in lines]
        codes.extend(None if code is None else places[code] for code in entries(len(lines)))
    return dictionary.codes, codes


def merge(data, options):
    """What `merge` writes."""
    return column(*merged(data, options), options)


def dictionary(data, options):
    """What `dictionary` writes."""
    return column(merged(data, options)[0], [], options)


def recoded(data, options):
    """The texts of a dictionary, and the codes of the columns after it by that dictionary."""
    columns = columns_of(data, options, dictionaries=1)
    first = next(columns, None)
    if first is None:
        raise Ends(2, "column 1: no header")
    texts = {text: code for code, text in enumerate(first[1])}
    codes, number = [], 1
    for number, (where, lines, entries) in enumerate(columns, 2):
        absent = next((at for at, line in enumerate(lines, 1) if line not in texts), None)
        if absent is not None:
            raise Ends(2, f"{where}: text {absent} is not in the dictionary")
        places = [texts[line] for line in lines] or range(len(texts))
        codes.extend(None if code is None else places[code] for code in entries(len(places)))
    if number == 1:
        raise Ends(2, "column 2: no header")
    return texts, codes


def recode(data, options):
    """What `recode` writes."""
    return column({}, recoded(data, options)[1], options)


def join(data, options):
    """What `join` writes."""
    return column(*recoded(data, options), options)


VERBS = {work.__name__: work for work in (counts, decode, dictionary, distinct, encode, join, merge, recode)}


def lasso_codes(words, data):
    """The status, the output (or a pattern of it) and a pattern of the message."""
    try:
        verb, options = options_of(words)
        return 0, VERBS[verb](data, options), ""
    except Ends as end:
        is_silent = end.status in (1, 2) and verb not in ("distinct", "decode")
        return end.status, b"" if is_silent else end.output, end.message
