"""Runs of the built programs over random and damaged inputs, compared with the reference's."""
import dataclasses
import os
import re
import subprocess
import tempfile

import codes
import lines

REFERENCES = {"lines": lines.lasso_lines, "codes": codes.lasso_codes}
SECONDS = 60
WORDS = ["", "0", "1", "5", "64", "65", "4096", "4100", "9000", "18446744073709551615", "18446744073709551616", "007", "1K", "1k", "-1", "NA", "é", "\udcff", "--", "-", "x", "a\nb", "\x1b[2J", "\x9b2J", "count", "decod", "recoded"]
CHARACTERS = [b"\0", b"\r", b" ", b"-", b"0", b"a", b"\x80", b"\xc3\xa9", b"\xff", b"\xed\xa0\x80", b"\xf4\x8f\xbf\xbf", b"\xf0\x9f\x98\x80", b"\xe6\xbc\xa2"]
LENGTHS = [13, 14, 15, 2046, 2047, 4095, 4096, 4097, 8191, 8192, 8193, 16384]


@dataclasses.dataclass
class Case:
    """A run of a program: its words, its input, how the input comes, and where the output goes."""

    program: str
    words: list
    data: bytes
    source: str = "pipe"  # pipe, file, or folder, which can't be read
    output: str = "pipe"  # pipe, or full, which can't be written


def line(random):
    """A line, short as a rule."""
    if random.random() < 0.1:
        return random.choice([b"a", b"\xff", b"b", b"\xc3\xa9"]) * random.choice(LENGTHS)
    return b"".join(random.choices(CHARACTERS, k=random.randrange(5)))


def some_lines(random, are_short):
    """Lines, most of which come again; the last one maybe without a line feed. A few have workers start threads, unless they have to be short."""
    known = [line(random) for _ in range(random.choice([1, 2, 5, 20]))]
    if random.random() < 0.5:
        known = [text for text in known if lines.is_utf8(text)] or [b"b"]
    data = b"".join(random.choice(known) + b"\n" for _ in range(random.choice([0, 1, 2, 5, 20, 60])))
    if data and random.random() < 0.01 and not are_short:
        data *= 600000 // len(data)
    return data[:-1] if random.random() < 0.3 else data


def some_column(random):
    """A column, as a rule a good one, of texts that entries need not name."""
    texts = list(dict.fromkeys(line(random) for _ in range(random.choice([0, 1, 2, 5, 20]))))
    numbers = [random.choice([None, *range(len(texts))]) if random.random() < 0.1 or not texts else random.randrange(len(texts)) for _ in range(random.choice([0, 1, 3, 9, 30]))]
    options = ["--binary"] if random.random() < 0.4 else []
    data = codes.column(texts, numbers, options)
    if not options and random.random() < 0.1:
        data = re.sub(rb"\n([0-9]+\n)", lambda found: b"\n" + b"0" * random.randrange(20) + found[1], data)
    return data


def some_recoding(random):
    """A dictionary and columns of its texts, with their texts or without: as a rule good ones."""
    texts = list(dict.fromkeys(line(random) for _ in range(random.choice([0, 1, 2, 5, 20]))))
    options = lambda: ["--binary"] if random.random() < 0.4 else []
    parts = [codes.column(texts, [0] if texts and random.random() < 0.03 else [], options())]
    for _ in range(random.choice([0, 1, 1, 1, 2, 3])):
        own = random.sample(texts, random.randrange(len(texts) + 1)) if random.random() < 0.6 else []
        if random.random() < 0.05:
            own.insert(random.randrange(len(own) + 1), b"another")
        count = len(own) or len(texts)
        numbers = [None if not count or random.random() < 0.1 else random.randrange(count + (random.random() < 0.01)) for _ in range(random.choice([0, 1, 3, 9, 30]))]
        parts.append(codes.column(own, numbers, options()))
    return b"".join(parts)


def some_columns(random, verb):
    """The input of a verb that reads columns."""
    if verb in codes.RECODING_VERBS and random.random() < 0.9:
        return some_recoding(random)
    return b"".join(some_column(random) for _ in range(random.choice([0, 1, 1, 2, 3])))


def damaged(random, data):
    """The bytes with a few of them changed, gone, doubled or new, or cut."""
    for _ in range(random.choice([1, 1, 2, 5])):
        at, size = random.randrange(len(data) + 1), random.choice([1, 1, 2, 4, 9, 40])
        new = random.choice([b"", b"\n", b"-", b"0", b"9", b" ", b"\xff", data[at : at + size], b"%d" % random.randrange(10**random.randrange(1, 22))])
        data = random.choice([data[:at] + new + data[at:], data[:at] + new + data[at + size :], data[:at] + new + data[at + len(new) :], data[:at]])
    return data


def some_words(random, program, are_short):
    """Arguments, as a rule good ones. Few workers go with short inputs."""
    verb = random.choice(list(codes.OPTIONS))
    names = ["--limit", "--workers"] if program == "lines" else list(codes.OPTIONS[verb])
    words = [verb] if program == "codes" else []
    for name in random.sample(names, random.randrange(len(names) + 1)):
        value = str({"--limit": random.choice([0, 4096, 4100, 9000, 30000, 2**64 - 1]), "--top": random.choice([0, 1, 3]), "--workers": random.choice([1, 2] if are_short else [1, 2, 4, 64]), "--null": random.choice([*["NA", "", "-", "é", "0", "a"] * 3, "a\nb"])}.get(name))
        value = random.choice(WORDS) if random.random() < 0.02 else value
        if name in codes.FLAGS:
            words.append(name)
        elif program == "codes" and random.random() < 0.3:
            words.append(f"{name}={value}")
        else:
            words += [name, value]
    while random.random() < 0.15:
        at = random.randrange(len(words) + 1)
        more = random.choice([random.choice(WORDS), "--help", "--version", random.choice(names), random.choice(names) + "=" + random.choice(WORDS), "distinct", "--limit"])
        words = random.choice([words[:at] + [more] + words[at:], words[:at] + words[at + 1 :], words[:at] + [more] + words[at + 1 :]])
    return words


def some_case(random, program, are_short):
    """A run of the program."""
    words = some_words(random, program, are_short)
    has_columns = bool(words) and words[0] in codes.COLUMN_VERBS
    data = some_columns(random, words[0]) if has_columns else some_lines(random, are_short)
    if random.random() < (0.4 if has_columns else 0.1):
        data = damaged(random, data)
    source = random.choice(["pipe"] * 10 + ["file"] * 9 + ["folder"])
    return Case(program, words, data, source, "full" if random.random() < 0.05 else "pipe")


# The causes of failed reads and writes. lasso_lines names none.
CAUSES = {"lines": ("", ""), "codes": (": Is a directory", ": No storage space")}


def results_of(case):
    """What the program may do: each status, output (or a pattern of it) and pattern of the message. The first is that of one thread."""
    is_folder = case.source == "folder"
    data = b"" if is_folder else case.data
    more = lines.others(case.words, data) if case.program == "lines" else []
    no_read, no_write = CAUSES[case.program]
    for status, output, message in [REFERENCES[case.program](case.words, data), *more]:
        if is_folder and status != 3 and not isinstance(output, re.Pattern):
            yield 4, b"", "read failed" + no_read
        elif case.output == "full" and output:
            yield 4, b"", "write failed" + no_write
        else:
            yield status, b"" if case.output == "full" else output, message


def run(case, path):
    """What the program did: its status, its output and its message."""
    words = [path, *(word.encode("utf-8", "surrogateescape") for word in case.words)]
    with tempfile.TemporaryFile() as file, open("/dev/full", "wb") as full:
        source = {"stdin": file}
        if case.source == "file":
            file.write(case.data)
            file.seek(0)
        elif case.source == "folder":
            source = {"stdin": os.open("/", os.O_RDONLY)}
        else:
            source = {"input": case.data}
        output = full if case.output == "full" else subprocess.PIPE
        try:
            ran = subprocess.run(words, **source, stdout=output, stderr=subprocess.PIPE, timeout=SECONDS, check=False)
        except subprocess.TimeoutExpired:
            return None, b"", "it did not end"
        finally:
            if case.source == "folder":
                os.close(source["stdin"])
    return ran.returncode, ran.stdout or b"", ran.stderr.decode("utf-8", "replace")


def fits(found, wanted):
    """Whether the status, output and message of a run are those of a result."""
    status, output, message = wanted
    pattern = re.compile(message + "\n" if message else "", re.DOTALL)
    is_output = output.fullmatch(found[1]) if isinstance(output, re.Pattern) else found[1] == output
    return found[0] == status and bool(is_output) and bool(pattern.fullmatch(found[2]))


def difference(case, path):
    """What differs between the program and the reference, or None."""
    results, found = list(results_of(case)), run(case, path)
    if any(fits(found, wanted) for wanted in results):
        return None
    (status, output, message), (wanted, wanted_output, pattern) = found, results[0]
    shown = wanted_output if isinstance(wanted_output, re.Pattern) else wanted_output[:500]
    return f"status {status}, wanted {wanted}\noutput {output[:500]!r}, wanted {shown!r}\nmessage {message[:500]!r}, wanted {pattern!r}"


# What goes wrong is made small: fewer parts, then plainer bytes, as long as it still goes wrong.


def shorter(parts, goes_wrong):
    """The parts without those that aren't needed: bytes, or a list."""
    size = len(parts)
    while size:
        at = 0
        while at < len(parts):
            fewer = parts[:at] + parts[at + size :]
            if goes_wrong(fewer):
                parts = fewer
            else:
                at += size
        size //= 2
    return parts


def plainer(data, goes_wrong):
    """The bytes with an `a` for each byte of which only that matters that it is there."""
    for at, byte in enumerate(data[:200]):
        plain = data[:at] + b"a" + data[at + 1 :]
        if byte not in b"a\n" and goes_wrong(plain):
            data = plain
    return data


def smallest(case, path):
    """The case made small, as long as there is a difference."""
    wrong = lambda **changed: difference(dataclasses.replace(case, **changed), path) is not None
    for name, plain in (("source", "pipe"), ("output", "pipe")):
        if wrong(**{name: plain}):
            case = dataclasses.replace(case, **{name: plain})
    case = dataclasses.replace(case, words=shorter(case.words, lambda words: wrong(words=words)))
    case = dataclasses.replace(case, data=shorter(case.data, lambda data: wrong(data=data)))
    return dataclasses.replace(case, data=plainer(case.data, lambda data: wrong(data=data)))
