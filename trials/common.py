"""What scripts share: files that are read, copied and replaced, built programs, packages of the system, libraries in C that are loaded first, what a
process used, runs under valgrind, and runs with requests for memory refused in turn."""
import contextlib
import glob
import importlib.machinery
import importlib.util
import os
import re
import shutil
import subprocess
import sys
import tempfile
import time
from dataclasses import dataclass

HERE = os.path.dirname(os.path.dirname(os.path.abspath(__file__)))
OUT = f"{HERE}/trials/out"
sys.path[1:1] = [f"{HERE}/cases", f"{HERE}/reference", f"{HERE}/cases/tool_replay"]
sys.dont_write_bytecode = True

# Without what options of the home and the environment pass over.
WATCH = ("env", "-u", "VALGRIND_OPTS", "HOME=/nowhere", "valgrind", "--leak-check=full", "--show-leak-kinds=all")
NOTHING_LEFT = "in use at exit: 0 bytes in 0 blocks"
WRONG = re.compile(r"ERROR SUMMARY: [1-9]|\(suppressed: [1-9]")
USED = re.compile(r"total heap usage: ([\d,]+) allocs")
HALT = 60
# A line of crates.txt.
CRATE = re.compile(r"^(?P<crate>\w+)[^:#]*:(?P<used>.*)$")
# The last line of a command that counts.
COUNTS = re.compile(r"^(\d+) passed, (\d+) failed", re.MULTILINE)
DEBIAN_PYTHON = "/usr/bin/python3"
NONE_LEFT = "0 blocks, 0 bytes"
KEEPS_ONE = "#include <stdlib.h>\nint main(void) { return malloc(7) == NULL; }\n"


class Fault(Exception):
    """What a trial found wrong."""


def run_trial(trial):
    """Runs a trial over the words of the command line, and ends with its status or with what it found wrong."""
    try:
        sys.exit(trial(sys.argv[1:]))
    except Fault as fault:
        sys.exit(str(fault))


def ran(words, seconds=None, given="", **options):
    """The status of a command over an input, or None if it had not ended in time, and all that it wrote, standard error last."""
    try:
        done = subprocess.run(words, input=given.encode(), capture_output=True, timeout=seconds, check=False, **options)
        status = done.returncode
    except subprocess.TimeoutExpired as late:
        done, status = late, None
    return status, ((done.stdout or b"") + (done.stderr or b"")).decode("utf-8", "replace")


def said_of(words, **options):
    """What a command writes to standard output. It has to end well; all that it said is shown if it does not."""
    done = subprocess.run(words, stdin=subprocess.DEVNULL, capture_output=True, check=False, **options)
    written, more = (part.decode("utf-8", "replace") for part in (done.stdout, done.stderr))
    if done.returncode:
        sys.exit(f"{written}{more}{' '.join(words)} ended with status {done.returncode}")
    return written


def read(path, errors="strict"):
    """The text of a file."""
    with open(path, encoding="utf-8", errors=errors) as source:
        return source.read()


def last_line(path):
    """The last line of a file that is not empty."""
    return read(path, "replace").strip().split("\n")[-1].strip()


def write(path, text):
    """Writes a file, and the folders that it is in."""
    os.makedirs(os.path.dirname(path) or ".", exist_ok=True)
    with open(path, "w", encoding="utf-8") as target:
        target.write(text)


def module_in(path, name):
    """The module of this name in a file, whatever the file's own name is."""
    loader = importlib.machinery.SourceFileLoader(name, path)
    module = importlib.util.module_from_spec(importlib.util.spec_from_loader(name, loader))
    sys.modules[name] = module
    loader.exec_module(module)
    return module


def used_crates(text):
    """Of each crate of a crates.txt, those that it uses."""
    return {line["crate"]: line["used"].split() for line in filter(None, map(CRATE.match, text.split("\n")))}


def listed_files(*parts):
    """The files of the tree that git lists or does not ignore, below these parts of it or all."""
    listed = subprocess.run(["git", "ls-files", "-z", "--cached", "--others", "--exclude-standard", *parts], cwd=HERE, stdout=subprocess.PIPE, check=True)
    return [name for name in os.fsdecode(listed.stdout).split("\0") if name and os.path.lexists(f"{HERE}/{name}")]


def copy_sources(tree, room):
    """Copies what rt reads of the crates of a tree to the folder."""
    for name in ("HANDLES", "crates.txt"):
        shutil.copy2(f"{tree}/{name}", room)
    for part in ("src", "specs", "proofs"):
        for path in glob.glob(f"{glob.escape(tree)}/crates/*/{part}"):
            shutil.copytree(path, os.path.join(room, os.path.relpath(path, tree)))


@dataclass
class Took:
    """The status of a command, and its seconds by the clock and of all processors: its own, and the system's."""

    status: int
    seconds: float
    own: float
    system: float


def timed(words, target, is_shown=False, begin=None, on_line=None, **options):
    """Runs a command, which writes to the target. Shows it as it comes if `is_shown` says so; `on_line` then gets each line. `begin` gets the process. What
    it took."""
    begun = time.perf_counter()
    started = subprocess.Popen(words, stdout=subprocess.PIPE if is_shown else target, **{"stdin": subprocess.DEVNULL, "stderr": subprocess.STDOUT, **options})
    if begin:
        begin(started)
    for line in started.stdout or ():
        for each in (target, sys.stdout.buffer):
            each.write(line)
            each.flush()
        if on_line:
            on_line(line)
    _, status, used = os.wait4(started.pid, 0)
    started.returncode = os.waitstatus_to_exitcode(status)
    return Took(started.returncode, time.perf_counter() - begun, used.ru_utime, used.ru_stime)


def checks_in_memory():
    """For how many checks at once memory is enough."""
    return int(said_of([f"{HERE}/.ci/jobs"]).strip() or 1)


def commit(*parts):
    """The commit of the tree, with a plus sign if the tree has other changes, or these parts of it."""
    changed = said_of(["git", "status", "--porcelain", "--", *parts], cwd=HERE)
    return said_of(["git", "rev-parse", "--short=8", "HEAD"], cwd=HERE).strip() + "+" * bool(changed)


def is_installed(packages):
    """Installs the packages by apt-get, which root alone may do. Whether that went well."""
    if os.geteuid() != 0 or not shutil.which("apt-get"):
        return False
    print(f"installing {' '.join(packages)} by apt-get", file=sys.stderr, flush=True)
    said, quiet = "", {**os.environ, "DEBIAN_FRONTEND": "noninteractive"}
    for words in (["update", "-q"], ["install", "-q", "-y", "--no-install-recommends", *packages]):
        status, more = ran(["apt-get", *words], env=quiet)
        said += more
    if status:
        print(said, end="", file=sys.stderr)
    return status == 0


def install(packages):
    """Installs the packages. Where that can't be done, ends the command and names them."""
    if not is_installed(packages):
        names = " ".join(packages)
        sys.exit(f"missing: {names}: on Debian, apt-get install {names} as root")


def need(command, package=None):
    """Installs a package of the system, which is named as the command unless it is given, if the command is missing."""
    if not shutil.which(command):
        install([package or command])


@contextlib.contextmanager
def replaced(path, mode="w", **options):
    """A new file to write into. It takes the place of the file at the path if all of it was written, and else goes."""
    part = f"{path}.part"
    try:
        with open(part, mode, **options) as target:
            yield target
        os.replace(part, path)
    finally:
        with contextlib.suppress(FileNotFoundError):
            os.remove(part)


def run_of(crate):
    """The words that prove, build and run a program so that it ends well: a status of 0 says that it is built of the sources as they are."""
    words = {"lasso_codes": "--version", "lasso_lines": "--version", "tool_soak": "0"}.get(crate)
    return ["rt", "run", *(["--", words] if words else [])]


def is_up_to_date(path):
    """Whether a file that is built is there, and no file of code, contracts or proofs is newer, nor a folder, which is newer if one was removed."""
    parts = (glob.iglob(f"{glob.escape(HERE)}/crates/*/{part}/**", recursive=True) for part in ("src", "specs", "proofs"))
    sources = [f"{HERE}/crates.txt", f"{HERE}/HANDLES", *(name for names in parts for name in names)]
    return os.path.isfile(path) and os.path.getmtime(path) >= max(map(os.path.getmtime, sources))


@contextlib.contextmanager
def building(path):
    """Within it a file is built. It gets the time at which this began, so that a source that is saved meanwhile is newer."""
    begun = time.time()
    yield
    os.utime(path, (begun, begun))


def program_of(crate):
    """The proved program of a crate, which is proved and built if it is missing or older than a source."""
    path = f"{HERE}/crates/{crate}/out/{crate}"
    if not is_up_to_date(path):
        with building(path):
            said_of(run_of(crate), cwd=f"{HERE}/crates/{crate}")
    return path


def shim_of(source, room):
    """A C file, named from the top of the repository, as a library in this folder, to be loaded before others by LD_PRELOAD."""
    shim = os.path.join(room, os.path.basename(source).replace(".c", ".so"))
    if not shutil.which("cc"):
        sys.exit(f"{source} needs a C compiler with the name cc")
    said_of(["cc", "-O2", "-Wall", "-D_GNU_SOURCE", "-shared", "-fPIC", "-o", shim, f"{HERE}/{source}", "-ldl", "-pthread"])
    return shim


def watched(start, name):
    """A run under valgrind, by a function that starts a command after other words, and how many requests for memory it made. Each block has to be given back, and no access may be wrong."""
    need("valgrind")
    with tempfile.NamedTemporaryFile("r", encoding="utf-8", errors="replace") as log:
        # valgrind reads `%` in a name.
        result = start((*WATCH, f"--log-file={log.name.replace('%', '%%')}"))
        said = log.read()
    if WRONG.search(said) or NOTHING_LEFT not in said:
        raise Fault(f"{name}: under valgrind\n{said}")
    return result, int(USED.search(said).group(1).replace(",", ""))


def missed(files, changes, faults, is_alone=True):
    """What a check does not find, by a function that says the faults in a folder. Of these files there is none. Of a change, of one file's old text to a
    new one, there is one with the words that are wanted, and no other one if `is_alone` says so."""
    for path, old, new, wanted in ((None, "", "", ""), *changes):
        with tempfile.TemporaryDirectory() as root:
            for name, text in files.items():
                write(f"{root}/{name}", text.replace(old, new, 1) if name == path else text)
            told = list(faults(root))
        is_found = any(wanted in fault for fault in told) and (len(told) == 1 or not is_alone)
        if (not is_found or old not in files[path]) if path else told:
            yield f"of {new[:80]!r} in place of {old[:80]!r} in {path} the check says {told}"


def tell_faults(found, what=""):
    """Prints faults, and how many there are of what was checked. The status."""
    found = list(found)
    print(*found, *([f"{what}, {len(found)} faults"] if what else []), sep="\n", end="\n" if found or what else "")
    return 1 if found else 0


def first_difference(found, wanted):
    """Where bytes differ from those that are wanted, in words."""
    at = next((at for at, (one, other) in enumerate(zip(found, wanted)) if one != other), min(len(found), len(wanted)))
    start = max(at - 40, 0)
    return f"from byte {at} on, of {len(found)} and {len(wanted)}: {found[start:start + 200]!r}, not {wanted[start:start + 200]!r}"


@dataclass
class Ran:
    """What came of a run: its status, what it wrote and said, whether a request was refused, and what it left."""

    status: int
    written: bytes
    said: str
    is_refused: bool
    left: str


class Refuser:
    """Runs programs with a request refused. It tries its count of blocks on a program that keeps one."""

    def __init__(self, room):
        self.room, self.runs = room, 0
        self.shim = shim_of("trials/refuse.c", room)
        keeps = os.path.join(room, "keeps")
        subprocess.run(["cc", "-O0", "-fno-builtin", "-o", keeps, "-x", "c", "-"], input=KEEPS_ONE.encode(), check=True)
        if self.run([keeps], 0).left != "1 blocks, 7 bytes":
            raise Fault("a block that is left is not counted")

    def run(self, words, number, data=b""):
        """Runs the words on an input with the request of this number refused, or with none for 0."""
        self.runs += 1
        left = os.path.join(self.room, "left")
        if os.path.exists(left):
            os.remove(left)
        with tempfile.TemporaryFile(dir=self.room) as source, tempfile.TemporaryFile(dir=self.room) as told:
            source.write(data)
            source.seek(0)
            # In a longer path the loader would take a blank or a colon for the end of a library's name.
            preload = f"./{os.path.basename(self.shim)}"
            environment = {**os.environ, "REFUSE": str(number), "HALT": str(HALT), "LEFT": left, "TOLD": str(told.fileno()), "LD_PRELOAD": preload}
            words = [os.path.abspath(words[0]), *words[1:]]
            done = subprocess.run(words, stdin=source, cwd=self.room, capture_output=True, env=environment, pass_fds=[told.fileno()], check=False)
            is_refused = told.seek(0, os.SEEK_END) > 0
        found = read(left).strip() if os.path.exists(left) else ""
        return Ran(done.returncode, done.stdout, done.stderr.decode("utf-8", "replace"), is_refused, found)

    def in_turn(self, words, data=b"", most=None):
        """The runs with the first request refused, the second and so on, each with its number: up to one that makes no request of that number, or this number of them."""
        number = 1
        while most is None or number <= most:
            found = self.run(words, number, data)
            yield number, found
            if not found.is_refused:
                return
            number += 1
