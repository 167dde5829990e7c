"""Runs a program over streams that go as a case says."""
import os
import pty
import re
import select
import subprocess
import tempfile
import time
import tty
from dataclasses import dataclass, field

# Inputs that are no files.
CLOSED = "closed"
FOLDER = "a folder"
# Outputs that are no files.
FULL = "a full device"
GONE = "a pipe that nobody reads"

# The words of cases/shim.c, of which a run has those of its case alone.
with open(os.path.join(os.path.dirname(os.path.abspath(__file__)), "shim.c"), encoding="utf-8") as _source:
    WORDS = set(re.findall(r'"([A-Z_]+)"', _source.read()))

# How long an answer to typed input may take.
PATIENCE = max(10, int(os.environ.get("CASE_SECONDS", "60")) // 6)


@dataclass
class Ran:
    """What came of a run."""

    written: bytes = b""
    said: bytes = b""
    status: int = 0
    calls: list = field(default_factory=list)
    is_late: bool = False
    is_answered: bool = True  # each answer to what was typed came before more was typed


def terminal():
    """A terminal that changes no bytes: our end, and that of the program."""
    ours, theirs = pty.openpty()
    tty.setraw(theirs)
    return ours, theirs


def pass_on_lines(theirs):
    """Has a terminal pass on lines, and take Ctrl-D for the end."""
    modes = tty.tcgetattr(theirs)
    modes[tty.LFLAG] |= tty.ICANON
    tty.tcsetattr(theirs, tty.TCSANOW, modes)


class Streams:
    """The three standard streams of a run, as descriptors, and what comes of them."""

    def __init__(self, case, room):
        self.room = room
        self.is_typed = bool(case.typed)
        self.given, self.masters = [], {}
        self.closed = [name for name, kind in (("<&-", case.input), (">&-", case.into)) if kind == CLOSED]
        self.given = [self.stdin(case), self.stdout(case), self.of("2", case, "said")]

    def terminal(self, number):
        """A terminal as a descriptor of the program."""
        self.masters[number], theirs = terminal()
        return theirs

    def file(self, name, content=b""):
        """A new file of the room, open to read and write, with this content."""
        handle = os.open(os.path.join(self.room, name), os.O_RDWR | os.O_CREAT | os.O_TRUNC)
        with os.fdopen(os.dup(handle), "wb") as target:
            target.write(content)
        os.lseek(handle, 0, os.SEEK_SET)
        return handle

    def of(self, number, case, name):
        """An output, which is a file unless the case has a terminal there."""
        return self.terminal(number) if number in case.terminals else self.file(name)

    def stdin(self, case):
        if case.input == FOLDER:
            return os.open(self.room, os.O_RDONLY)
        if self.is_typed:
            ours, theirs = reversed(os.pipe())
            self.masters["0"] = ours
            return theirs
        content = b"" if case.input == CLOSED else case.input.encode() if isinstance(case.input, str) else case.input
        if "0" not in case.terminals:
            return self.file("input", content)
        theirs = self.terminal("0")
        pass_on_lines(theirs)
        os.write(self.masters["0"], content + b"\x04")
        return theirs

    def stdout(self, case):
        if case.into == FULL:
            return os.open("/dev/full", os.O_WRONLY)
        if case.into == GONE:
            reader, writer = os.pipe()
            os.close(reader)
            return writer
        if self.is_typed:
            reader, writer = os.pipe()
            self.masters["1"] = reader
            return writer
        return self.of("1", case, "written")

    def got(self, number, name):
        """What was written to an output."""
        if number in self.masters:
            return read_all(self.masters[number])
        path = os.path.join(self.room, name)
        if not os.path.exists(path):
            return b""
        with open(path, "rb") as source:
            return source.read()

    def close(self):
        for handle in [*self.given, *self.masters.values()]:
            os.close(handle)


def read_all(handle):
    """What is left to read of a terminal or a pipe whose writers are gone."""
    found = b""
    while select.select([handle], [], [], 0)[0]:
        try:
            part = os.read(handle, 1 << 16)
        except OSError:
            break
        if not part:
            break
        found += part
    return found


def answer_to(reader, count):
    """The next bytes of an answer: this number of them, or fewer if no more come in time."""
    found = b""
    until = time.monotonic() + PATIENCE
    while len(found) < count and select.select([reader], [], [], max(until - time.monotonic(), 0))[0]:
        part = os.read(reader, count - len(found))
        if not part:
            break
        found += part
    return found


def type_lines(case, streams):
    """Types the lines, each once the answer to the one before came. None for an answer: the program ends. Returns the answers, and whether each came."""
    written = b""
    is_answered = True
    for line, answer in case.typed:
        try:
            os.write(streams.masters["0"], line)
        except BrokenPipeError:
            break
        if answer is None:
            return written, is_answered
        found = answer_to(streams.masters["1"], len(answer))
        written += found
        is_answered = found == answer
        if not is_answered:
            break
    os.close(streams.masters.pop("0"))
    return written, is_answered


def run(path, case, shim, seconds, before=()):
    """Runs the program for the case, by the words of another one if some are given."""
    with tempfile.TemporaryDirectory() as room:
        streams = Streams(case, room)
        environment = {name: word for name, word in os.environ.items() if name not in WORDS}
        trace = os.open(os.path.join(room, "trace"), os.O_WRONLY | os.O_CREAT | os.O_APPEND)
        if case.words or any(wanted is not None for wanted in (case.calls, case.reads, case.threads)):
            # In a longer path the loader would take a blank or a colon for the end of a library's name.
            os.symlink(shim, os.path.join(room, "shim.so"))
            environment.update(case.words, LD_PRELOAD="./shim.so", TRACE=str(trace))
        words = [*before, path, *(case.args.split() if isinstance(case.args, str) else case.args)]
        if streams.closed:
            words = ["sh", "-c", 'exec "$0" "$@" ' + " ".join(streams.closed), *words]
        stdin, stdout, stderr = streams.given
        process = subprocess.Popen(words, stdin=stdin, stdout=stdout, stderr=stderr, env=environment, pass_fds=[trace], cwd=room)
        ran = Ran()
        if streams.is_typed:
            for handle in (stdin, stdout):
                os.close(handle)
                streams.given.remove(handle)
            ran.written, ran.is_answered = type_lines(case, streams)
        try:
            ran.status = process.wait(PATIENCE if streams.is_typed else seconds)
        except subprocess.TimeoutExpired:
            process.kill()
            process.wait()
            ran.is_late = True
        ran.written += streams.got("1", "written")
        ran.said = streams.got("2", "said")
        with open(os.path.join(room, "trace"), encoding="ascii") as source:
            ran.calls = source.read().split()
        os.close(trace)
        streams.close()
        return ran
