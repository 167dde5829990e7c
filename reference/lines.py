"""lasso_lines anew: what it writes, says and returns, from its README and its manual page; and the bytes of an interner's buckets: what a text
takes, and when the limit refuses it."""
import re

USAGE = r"usage: lasso_lines \[--limit N\] \[--workers N\]"


def is_utf8(line):
    """Whether the bytes are UTF-8."""
    try:
        line.decode()
    except UnicodeDecodeError:
        return False
    return True


def lines_of(data):
    """The lines of an input: each ends at a line feed, the last one maybe without."""
    lines = data.split(b"\n")
    return lines[:-1] if lines[-1] == b"" else lines


def options_of(words):
    """The limit and the workers that the words ask for, or None if they are wrong."""
    found = {}
    for name, value in zip(words[::2], words[1::2]):
        if name not in ("--limit", "--workers") or name in found or not re.fullmatch("[0-9]{1,20}", value):
            return None
        found[name] = int(value)
    limit, workers = found.get("--limit", 2**64 - 1), found.get("--workers")
    is_wrong = len(words) % 2 or limit >= 2**64 or workers is not None and not 1 <= workers <= 64
    return None if is_wrong else (limit, workers)


def others(words, data):
    """What workers may do in place of what `lasso_lines` returns. Under a limit their order decides whether all lines fit, and which one
    doesn't; and a line may go into any bucket with room, also that of one worker, of which `Account` knows the current one alone. A text
    that doesn't fit never does later, so it is refused where it first comes."""
    limit, workers = options_of(words) or (None, None)
    found = lines_of(data)
    if workers is None or not all(map(is_utf8, found)):
        return []
    first = {}
    for number, line in enumerate(found, 1):
        first.setdefault(line, number)
    size, results = sum(map(len, first)), []
    if size > 4096:
        results.append((1, b"", f"line ({'|'.join(map(str, first.values()))}): .*memory limit.*"))
    if size <= max(limit, 4096):
        results.append((0, b"".join(line + b"\n" for line in sorted(first)), ""))
    return results


def lasso_lines(words, data):
    """The status, the output (or a pattern of it) and a pattern of the message."""
    if words == ["--help"]:
        return 0, re.compile(USAGE.encode() + rb".+\n", re.DOTALL), ""
    if words == ["--version"]:
        return 0, re.compile(rb"lasso_lines [0-9]+\.[0-9]+\.[0-9]+\n"), ""
    options = options_of(words)
    if options is None:
        return 3, b"", USAGE
    limit, workers = options
    account, codes, report = Account(limit), {}, []
    status, message = 0, ""
    wrong = next((number for number, line in enumerate(lines_of(data), 1) if not is_utf8(line)), None)
    for number, line in enumerate(lines_of(data), 1):
        if number == wrong or workers is not None and wrong:
            status, message = 2, f"line {wrong}: not UTF-8"
            break
        if line not in codes:
            if not account.store(len(line)):
                status, message = 1, f"line {number}: .*memory limit.*"
                break
            codes[line] = len(codes)
        report.append(b"%d %s\n" % (codes[line], line))
    if workers is not None:
        return status, b"".join(line + b"\n" for line in sorted(codes)) if status == 0 else b"", message
    if status == 0:
        report.append(b"%d texts, %d bytes\n" % (len(codes), account.usage))
    return status, b"".join(report), message


class Account:
    """The buckets of an interner: the first of `first` bytes, under a limit."""

    def __init__(self, limit, first=4096):
        self.limit = limit
        self.first = first
        self.room = self.doubling = self.usage = first
        self.doubled = []  # the sizes of the doubled buckets
        self.spares = []  # those of them that are empty since a clear

    def store(self, length):
        """Takes the bytes of a text. Whether the limit allows it; if not, nothing changes."""
        spare = min((size for size in self.spares if size >= length), default=None)
        if length <= self.room:
            self.room -= length
        elif spare is not None:
            self.spares.remove(spare)
            self.room = spare - length
        elif self.usage + length > self.limit:
            return False
        elif length > 2 * self.doubling:
            self.usage += length
        elif self.usage + 2 * self.doubling > self.limit:
            self.room = self.limit - self.usage - length
            self.usage = self.limit
        else:
            self.doubling *= 2
            self.doubled.append(self.doubling)
            self.usage += self.doubling
            self.room = self.doubling - length
        return True

    def clear(self):
        """Keeps the first bucket and the doubled ones, all of them empty."""
        self.spares = list(self.doubled)
        self.room = self.first
        self.usage = self.first + sum(self.doubled)
