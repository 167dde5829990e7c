"""Runs parts of `make test` and `make verify`: each is a command, whose last line `N passed, M failed` counts."""
import concurrent.futures
import os
import shutil
import sys
import tempfile
import threading
from collections.abc import Callable
from dataclasses import dataclass

sys.path.insert(1, f"{os.path.dirname(os.path.dirname(os.path.abspath(__file__)))}/trials")
from common import COUNTS, HERE, is_installed, timed  # pylint: disable=wrong-import-position

CC = "cc"


@dataclass
class Part:
    """A command with its words, and a name for what it tries. It runs in a folder. If `is_shown` is set, what it writes is shown as it comes, and `on_line`
    gets each line."""

    name: str
    words: list
    is_shown: bool = False
    folder: str = HERE
    on_line: Callable = None


@dataclass
class Result:
    """How many of a part's tests passed and failed, and what it took by the clock and of all processors."""

    name: str
    passed: int = 0
    failed: int = 0
    seconds: float = 0.0
    processors: float = 0.0


def counts_of(said, status):
    """How many passed and failed, by the last line of counts; a command without one is one test. It failed if its status says so, or if none passed."""
    found = COUNTS.findall(said.decode("utf-8", "replace"))
    passed, failed = map(int, found[-1]) if found else (int(status == 0), int(status != 0))
    return passed, max(failed, int(status != 0 or not passed))


def run(part):
    """Runs the part, and returns its result and what it wrote."""
    with tempfile.TemporaryFile() as said:
        took = timed(part.words, said, part.is_shown, on_line=part.on_line, cwd=part.folder)
        said.seek(0)
        text = said.read()
    passed, failed = counts_of(text, took.status)
    return Result(part.name, passed, failed, took.seconds, took.own + took.system), text


def tell(result, said, is_shown):
    """Prints a line on the part, after what it wrote if it failed and that was not shown."""
    if result.failed and not is_shown:
        sys.stdout.flush()
        sys.stdout.buffer.write(said)
        sys.stdout.buffer.flush()
    took = f"{result.seconds:.0f} s, {result.processors:.0f} s of processors"
    print(f"{result.name}: {result.passed} passed, {result.failed} failed ({took})", flush=True)


def run_all(parts, at_once):
    """Runs the parts, this number of them side by side and the first ones first. Prints a line on each as it ends, and returns all results."""
    printing = threading.Lock()

    def one(part):
        result, said = run(part)
        with printing:
            tell(result, said, part.is_shown)
        return result

    with concurrent.futures.ThreadPoolExecutor(at_once) as pool:
        return list(pool.map(one, parts))


def total(results):
    """Prints how many passed and failed in all parts as the last line, and returns the status."""
    return told(sum(result.passed for result in results), sum(result.failed for result in results))


def told(passed, failed):
    """Prints how many passed and failed, and returns the status."""
    print(f"{passed} passed, {failed} failed", flush=True)
    return 1 if failed or not passed else 0


def set_up():
    """Names what is missing, and ends the command, before anything is done. A missing C compiler is installed where that may be done."""
    if not shutil.which(CC):
        is_installed(["gcc", "libc6-dev"])
    missing = [
        what
        for command, what in (
            ("rt", "the toolchain's command rt: put its folder in PATH"),
            ("git", "git"),
            (CC, f"a C compiler with the name {CC}: on Debian, apt-get install gcc libc6-dev as root"),
        )
        if not shutil.which(command)
    ]
    if missing:
        sys.exit("\n".join(f"missing: {what}" for what in missing))
