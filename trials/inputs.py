"""The inputs of `trials/streams`, and the scripts of tool_replay for `trials/refusals`, with the replies to each line by
cases/tool_replay/model.py."""
import random

import model
from codes import column as column_text

SEED = 20261129
LETTERS = b"abcdefghijklmnopqrstuvwxyz"
LONG = 100_000_000
NULL = b"NA"

FORMS = {
    "alone": b"X",
    "alone_ended": b"X\n",
    "first": b"X\nb\nX\n",
    "between": b"b\nX\nA\n",
    "last": b"b\nA\nX",
    "last_ended": b"b\nA\nX\n",
}

MARK = b"\xf4\x8f\xbf\xbf"
ODD_LETTERS = ["a", "b", "\0", "\t", "\r", " ", "\u00e9", "\u65e5", "\U0001f600", "\U0010fffe"]
LENGTHS = [0, 1, 2, 3, 4, 5, 8, 14, 15, 16, 40]


def line_of(length):
    return (LETTERS * (length // len(LETTERS) + 1))[:length]


def odd_lines():
    """Short inputs by their names; `three` is first."""
    yield "three", b"b\na\nb"
    yield "empty", b""
    yield "feeds", b"\n\n\n"
    yield "nul", b"\0\n\n\0\0\na\0b\na\0\na\n\0a\n" + bytes(9) + b"\n" + bytes(8)
    yield "cut_letter", ("a" + "\u00e9" * 32768).encode()
    yield "many", b"".join(b"%d\n" % number for number in range(40_000))
    for length in (65_535, 65_536, 65_537):
        for name, form in FORMS.items():
            yield f"{name}_{length}", form.replace(b"X", line_of(length))


def blocks():
    """1,000,000 empty lines, and then lines of which most repeat; one in 60 is new, and comes again."""
    return b"\n" * 1_000_000 + b"".join(b"line %d\n" % (number // 60 - number % 60 * 3 if number > 10_800 else number % 7) for number in range(180_000))


def long_lines():
    """Inputs with a line of 100,000,000 bytes."""
    return {"long": b"b\n" + line_of(LONG) + b"\nA\n", "long_alone": line_of(LONG)}


def any_bytes(rng):
    return bytes(rng.choices(range(256), k=rng.choice(LENGTHS)))


def letters(rng):
    return "".join(rng.choices(ODD_LETTERS, k=rng.choice(LENGTHS))).encode()


def cut_letters(rng):
    """Letters with a byte cut off, or one byte among them that is never in UTF-8."""
    line = letters(rng)
    at = rng.randint(0, len(line))
    return rng.choice([line[at:], line[:at], line[:at] + b"\xff" + line[at:]])


def marked(rng, line):
    """What begins with the mark: the mark and the line, or its digits as in the text of the line, also damaged ones."""
    digits = line.hex().encode()
    return MARK + rng.choice([line, digits, digits.upper(), digits[:-1], digits + b"g", MARK.hex().encode() + digits, MARK + digits])


def odd_line(rng):
    line = rng.choice([any_bytes, letters, cut_letters])(rng)
    if rng.random() < 0.3:
        line = marked(rng, line)
    return line.replace(b"\n", b"\x0b")


def lines_from(rng, choices, count):
    """This number of lines, each one of these choices. New choices come up to the end."""
    lines = [odd_line(rng) for _ in range(choices)]
    return [lines[rng.randrange(number * choices // count + 1)] for number in range(count)]


def random_lines():
    """Lines of random bytes, and whether they are long. Almost a third begin with the mark U+10FFFF, and many of these look like the text of another line. The last line has no line feed."""
    for choices, count in ((1, 1), (60, 200), (900, 1000), (4000, 120_000), (60_000, 90_000)):
        lines = lines_from(random.Random(f"{SEED} bytes_{count}"), choices, count)
        yield lines, count > 1000


def column(binary, texts, entries):
    """A column; an entry of None is a null."""
    return column_text(texts, entries, ["--binary"] if binary else [])


def small(binary):
    return column(binary, [b"b", b"a"], [0, 1, None, 0])


def whole():
    """Columns that can be read."""
    yield "three", small(False) + column(True, [b"c", b"a"], [1, 0, None])
    yield "empty", b""
    yield "no_lines", column(False, [], []) + column(True, [], []) + column(False, [b"unused"], [])
    yield "text", small(False)
    yield "binary", small(True)
    yield "several", small(True) + small(False) + column(True, [b"a", b"c", b"b"], [2, 1, 0]) + small(False)
    yield "nulls", column(False, [], [None, None]) + column(True, [], [None]) + column(False, [NULL, b"-"], [1, None, 0])
    yield "odd_texts", column(False, [b"", b"\0", b"a\0b", b"a\r", "\u00e9".encode(), b"lasso-codes 1 text 0 0", b"0"], [6, 0, 5, 1, 4, 2, 3])
    yield "zeros", b"lasso-codes 1 text 02 00000000000000000003\nb\na\n00000000000000000001\n0\n01\n"
    # Codes whose bytes are line feeds, digits and minus signs.
    texts = [b"%d" % number for number in range(2571)]
    yield "codes_of_feeds", column(True, texts, [10, 2570, 45, 48, 2560]) + small(False)
    yield "long_texts", column(True, [b"x" * length for length in (65535, 65536, 65537)], [2, 1, 0, 1]) + small(False)
    texts = [b"%d" % number for number in range(20000)]
    yield "many", column(False, texts, list(range(20000))[::-1]) + column(True, texts[::-1], list(range(20000)))


def damaged():
    """Columns that can't be read, each after one that can."""
    headers = [
        b"", b"x", b"lasso-codes 1 text", b"lasso-codes 1 text ", b"lasso-codes 1 text 0", b"lasso-codes 1 text 0 ", b"lasso-codes 1 text  0 0",
        b"lasso-codes 1 text 0 0 ", b"lasso-codes 1 text 0 0 0", b"lasso-codes 1 text -0 0", b"lasso-codes 1 text +0 0", b"lasso-codes 1 text 0 x",
        b"lasso-codes 1 text 0 0\r", b"lasso-codes 1 text 0\t0", b"lasso-codes 2 text 0 0", b"lasso-codes 1 texts 0 0", b"lasso-codes 1 Text 0 0",
        b"lasso-codes 1 binary 0 0x0", b" lasso-codes 1 text 0 0", b"lasso-codes 1 text 000000000000000000000 0", b"\xff\xfe",
    ]
    for number, header in enumerate(headers):
        yield f"header_{number}", header + b"\n"
    yield "header_cut", b"lasso-codes 1 text 0 0"
    for binary in (False, True):
        kind = "binary" if binary else "text"
        front = b"lasso-codes 1 %s " % kind.encode()
        yield f"{kind}_no_texts", front + b"2 1\n"
        yield f"{kind}_one_text", front + b"2 1\na\n"
        yield f"{kind}_text_cut", front + b"2 1\na\nb"
        yield f"{kind}_endless", front + b"18446744073709551615 18446744073709551615\na\nb\n"
        yield f"{kind}_not_utf8", front + b"3 0\na\nb\xffb\nc\n"
        yield f"{kind}_cut_letter", front + b"1 0\n\xc3\n"
        yield f"{kind}_doubled", front + b"3 1\na\nb\na\n" + (b"\0\0\0\0" if binary else b"0\n")
        yield f"{kind}_doubled_empty", front + b"2 0\n\n\n"
        yield f"{kind}_past", front + b"2 3\na\nb\n" + (b"\1\0\0\0\2\0\0\0\0\0\0\0" if binary else b"1\n2\n0\n")
        yield f"{kind}_past_no_texts", front + b"0 1\n" + (b"\0\0\0\0" if binary else b"0\n")
        yield f"{kind}_few_entries", front + b"2 3\na\nb\n" + (b"\1\0\0\0\0\0\0\0" if binary else b"1\n0\n")
        yield f"{kind}_entry_cut", front + b"2 3\na\nb\n" + (b"\1\0\0\0\0\0\0\0\0\0\0" if binary else b"1\n0\n0")
        yield f"{kind}_bytes_behind", small(binary) + b"\n"
        yield f"{kind}_line_behind", small(binary) + b"0\n"
        yield f"{kind}_byte_behind", small(binary) + b"\0"
    yield "binary_most", b"lasso-codes 1 binary 1 2\na\n\0\0\0\0\xfe\xff\xff\xff"
    for number, entry in enumerate((b"", b"x", b"+0", b"-0", b"--", b" 0", b"0 ", b"0\r", b"1x", b"0" * 21, b"\xff", "\u0661".encode())):
        yield f"no_code_{number}", b"lasso-codes 1 text 2 3\na\nb\n1\n" + entry + b"\n0\n"


class Script:
    """The lines of a script, and the reply to each. Each command comes twice: after a refusal it is made again."""

    def __init__(self, lines):
        self.lines, self.worked = lines, list(model.replies(lines))

    @staticmethod
    def bytes_of(lines):
        """The lines, each with its line feed."""
        return "".join(line + "\n" for line in lines).encode()

    def may_want_memory(self, at):
        """Whether the command at this line may want memory. Of a present text none does, of a Rodeo none that is refused for another reason, and of a value none that is no array, where an array has to be."""
        verb, reply = self.lines[at].split()[0], self.worked[at]
        if verb == "intern":
            is_new = self.lines[at - 1] != self.lines[at]
            return reply.startswith("key ") and is_new or not reply.startswith("key ") and " rodeo " not in self.lines[0]
        return verb in ("extend", "clonefrom") or verb == "json" and reply != "fault NotAnArray"

    def left_by(self, at):
        """The lines in place of a refused one that do what it may have done: nothing, the first of several texts, or a copy that stopped and left its interner clear."""
        words = self.lines[at].split()
        if words[0] == "extend":
            return [[" ".join(words[:count])] for count in range(1, len(words))]
        if words[0] == "clonefrom":
            return [[], *([" ".join(words[:count]), "clear"] for count in range(1, len(words) + 1))]
        return [[]]

    def replies_after(self, at, lines):
        """The replies to the lines after this one, with others in its place."""
        return list(model.replies([*self.lines[:at], *lines, *self.lines[at + 1 :]]))[at + len(lines) :]


def script_of(kind, head, *commands):
    """A script of an interner of this kind, which ends with a look at all that it then says: how many texts it has, its usage, its limit, and the first five texts."""
    lines = [f"script refused {kind} {head}"]
    for command in commands:
        call, *words = command.split(" ")
        line = " ".join([call, *(words if call == "limit" else (model.digits_of(word.encode()) for word in words))])
        lines += [line, line]
    return Script([*lines, "len", "usage", "max", *(f"resolve {key}" for key in range(5))])


def of_both(kind):
    """The scripts of a rodeo and of an interner that threads share. Some replies differ."""
    yield script_of(kind, "spur 50 4096 max", "intern Hello,_world!")
    # A bucket of the long text's 9 bytes, and one of twice 4 for the last.
    yield script_of(kind, "spur 1 4 max", "intern qqqqqqqqq", "intern wxyz", "intern n")
    # The limit is below the first bucket, which is filled; the last text is past it.
    yield script_of(kind, "spur 2 10 5", "intern abc", "intern gdfg", "intern hij", "intern klmno", "get gdfg")
    # A rodeo no longer uses the byte that is left of the first bucket; an interner that threads share gives it to the last text.
    yield script_of(kind, "spur 1 4 max", "intern abc", "intern defghijk", "intern x")
    # Once the limit is 14 a bucket of two bytes comes.
    yield script_of(kind, "spur 0 4 12", "intern abc", "intern defghijk", "intern x", "intern yz", "limit 14", "intern yz")
    # A text that has no key takes its byte of an interner that threads share, until none are left.
    for key in ("below2", "hole2"):
        yield script_of(kind, f"{key} 1 4 4", "intern p", "intern q", "intern r", "intern r", "intern r", "intern q")
    # The 255 keys, and the 655 digits of the numbers below 255.
    numbers = [str(number) for number in range(255)]
    yield script_of(kind, "micro 1 655 655", " ".join(["extend", *numbers[:250]]), *(f"intern {number}" for number in numbers[250:]), "intern x", "intern 0")
    # Buckets of 2, 4 and 8 bytes. Two blanks: a text without bytes.
    yield script_of(kind, "mini 0 2 max", "extend ab c  ab def", "contains def", "extend g hijk")
    # After the bucket of 3 bytes the limit leaves one of 5; once it is lifted one of 6 comes. The first bucket has a byte left.
    yield script_of(kind, "large 1 3 8", "extend ab cdefg hijkl", "intern m", "limit max", "extend hijkl ")


def of_rodeo():
    """The scripts of a rodeo that is copied over."""
    # A copy over an interner empties its buckets of 4 and 8 bytes first; the last text takes one of 16.
    yield script_of("rodeo", "spur 1 4 max", "intern abc", "clonefrom d efghij ", "intern abc")
    # The limit leaves a bucket of 3 bytes after the first, and none for the copy's last text.
    yield script_of("rodeo", "micro 0 3 6", "intern ab", "clonefrom cd efg hijkl", "clear", "extend m nop")
    # A bucket of the 3 bytes of a text, after the first one. Three texts have no keys, so they are not copied.
    yield script_of("rodeo", "below2 1 1 max", "clonefrom a bcd", "clonefrom e f g", "intern a")


def of_values():
    """A value that is read twice, of each form."""
    for form in ("rodeo", "reader", "resolver", "threaded"):
        for text in ('["a","b","a"]', '["a",1]', "[]", '{"a":2,"b":1}', '["b","a"]'):
            yield Script([f"json {form} spur {model.digits_of(text.encode())}"] * 2)


def scripts():
    """All scripts."""
    for kind in ("rodeo", "threaded"):
        yield from of_both(kind)
    yield from of_rodeo()
    yield from of_values()
