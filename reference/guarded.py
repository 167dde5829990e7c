"""Calls of the library for C, with each buffer before a page that can't be touched, or alone in a block of malloc for valgrind."""
import ctypes
import mmap
import struct

PAGE = mmap.PAGESIZE
FILLING = 0xA5
SYSTEM = ctypes.CDLL(None, use_errno=True)
SYSTEM.mmap.restype = SYSTEM.malloc.restype = ctypes.c_void_p
SYSTEM.mmap.argtypes = [ctypes.c_void_p, ctypes.c_size_t, ctypes.c_int, ctypes.c_int, ctypes.c_int, ctypes.c_long]
SYSTEM.mprotect.argtypes = [ctypes.c_void_p, ctypes.c_size_t, ctypes.c_int]
SYSTEM.malloc.argtypes = [ctypes.c_size_t]
SYSTEM.free.argtypes = [ctypes.c_void_p]


class Broken(Exception):
    """What a call did that it must not do."""


class Pages:
    """Memory of whole pages between two pages that can't be touched. Contents end where it ends."""

    spare = {}

    def __init__(self, content):
        self.size = max(-(-len(content) // PAGE), 1) * PAGE
        self.base = Pages.spare[self.size].pop() if Pages.spare.get(self.size) else self.new()
        self.at = self.base + self.size - len(content)
        ctypes.memmove(self.base, bytes([FILLING]) * (self.size - len(content)) + content, self.size)

    def new(self):
        """Maps the pages."""
        base = SYSTEM.mmap(None, self.size + 2 * PAGE, mmap.PROT_READ | mmap.PROT_WRITE, mmap.MAP_PRIVATE | mmap.MAP_ANONYMOUS, -1, 0)
        if any(SYSTEM.mprotect(page, PAGE, 0) for page in (base, base + PAGE + self.size)):
            raise OSError(ctypes.get_errno(), "a buffer has no page after it that can't be touched")
        return base + PAGE

    def content(self):
        """The content, if nothing was written before it."""
        whole = ctypes.string_at(self.base, self.size)
        start = self.at - self.base
        if whole[:start] != bytes([FILLING]) * start:
            raise Broken("bytes before a buffer were written")
        return whole[start:]

    def end(self):
        """Gives the pages back, to be used again."""
        Pages.spare.setdefault(self.size, []).append(self.base)


class Block:
    """A block of malloc of just the content's size. valgrind watches its ends."""

    def __init__(self, content):
        self.size = len(content)
        self.at = SYSTEM.malloc(self.size)
        ctypes.memmove(self.at, content, self.size)

    def content(self):
        """The content."""
        return ctypes.string_at(self.at, self.size)

    def end(self):
        """Frees the block."""
        SYSTEM.free(self.at)


class Input:
    """An array that a call reads: numbers of this form of `struct`, or bytes. Its length is the next argument."""

    has_length = True

    def __init__(self, values, form="B"):
        self.count = len(values)
        self.before = bytes(values) if form == "B" else struct.pack(f"{self.count}{form}", *values)


class Output:
    """An array that a call writes to. Its length is the next argument, unless it is a single value."""

    def __init__(self, count, form="B", has_length=True):
        self.count, self.form, self.has_length = count, form, has_length
        self.before = bytes([FILLING]) * (count * struct.calcsize(form))
        self.after = self.before

    def after_writing(self, values):
        """The bytes after the values were written to the front."""
        written = struct.pack(f"{len(values)}{self.form}", *values)
        return written + self.before[len(written) :]


class Library:
    """liblasso.so, over pages or blocks."""

    def __init__(self, path, memory):
        self.calls = ctypes.CDLL(path)
        self.memory = memory

    def call(self, name, result, *arguments):
        """Calls by name with numbers, addresses, inputs and outputs. Returns the result; outputs then have what they hold."""
        function = getattr(self.calls, name)
        function.restype = result
        passed, kept = [], []
        for argument in arguments:
            if isinstance(argument, int):
                passed.append(ctypes.c_uint64(argument))
                continue
            memory = self.memory(argument.before)
            kept.append((argument, memory))
            passed.append(ctypes.c_uint64(memory.at))
            if argument.has_length:
                passed.append(ctypes.c_uint64(argument.count))
        returned = function(*passed)
        for argument, memory in kept:
            after = memory.content()
            memory.end()
            if isinstance(argument, Output):
                argument.after = after
            elif after != argument.before:
                raise Broken(f"{name} wrote to an input")
        return returned
