"""The tables beside the published crate lasso, and the figures of their pictures, as ratios of ours to others.

cargo fetches lasso 0.7.3 from crates.io. LASSO_SOURCE=path takes its sources from a folder instead, and the crates that it uses from the system's
packages."""
import json
import os
import re
import sys
import time

from measuring import CALLS as OURS
from measuring import INPUTS, LINES, NAMES, OUT, complain, count_lines, in_turns, is_built, is_built_over_crates, is_installed, keep, output_of, peak, priority
from measuring import processor_seconds, read, reordered, rustc, said_lines, said_of, start, test_alike, times_by_key
from programs import STANDARD, STANDARD_CALLS, build_standard, build_standard_calls, without_bytes
from threads import STANDARD as STANDARD_SHARED

LASSO = f"{OUT}/lasso/release/lasso"
FIGURES = ("lasso-calls", "lasso-threads", "lasso-lines", "lasso-occasion")
CALL_ROUNDS = 5
THREAD_ROUNDS = 4
LINE_ROUNDS = 7
THREAD_INPUTS = ("zipf", "distinct")
REAL_NAMES = ("packages", "words", "identifiers")
HASHERS = ("fx", "ahash", "fold")
# A rival in the tables, and the programs of which the least counts.
RIVALS = {"lasso": ("default",), "lasso, fastest hasher": HASHERS, "std": ("std",)}

COUNTS = (10_000, 100_000, 1_000_000)
SIZES = (7, 11, 35, 200)
CALLS = {"new": "intern a new text", "present": "intern a present text", "absent": "get an absent text", "resolve": "try_resolve"}

THREADS = (1, 2, 4)
# The calls of ours by the call of the others that they are compared with, each with its words.
WAYS = {
    "new": {"new": "a pass", "hinted_new": "a pass with hints"},
    "intern": {"intern": "a pass", "hinted_intern": "a pass with hints", "batch64_intern": "batches of 64"},
    "present": {"present": "a pass", "hinted_present": "a pass with hints", "batch64_present": "batches of 64", "plain_present": "plain calls"},
    "resolve": {"resolve": "a pass", "plain_resolve": "plain calls"},
}
ALL_HASHERS = ("default", *HASHERS)


def lines_of(folder, name):
    """The lines of a file, or none if it does not exist, as after a run that was cut short."""
    path = os.path.join(folder, name)
    return read(path).splitlines() if os.path.exists(path) else []


def ratio(times, rival, key_of):
    """The least of ours to the least of a rival's, by the key of a program's figures."""
    return min(times[key_of("ours")]) / min(min(times[key_of(program)]) for program in RIVALS[rival])


class Figures:
    """Ratios of ours to a rival."""

    def __init__(self, folder):
        self.calls = times_by_key(lines_of(folder, "lasso-calls"), 4)
        self.threads = times_by_key(lines_of(folder, "lasso-threads"), 4)
        self.lines = times_by_key(lines_of(folder, "lasso-lines"), 3)

    def call(self, count, size, call, rival):
        """Of the least time of a single call."""
        return ratio(self.calls, rival, lambda program: (program, str(count), str(size), call))

    def hasher(self, count, size, call):
        """The hasher with which lasso's call takes least."""
        return min(HASHERS, key=lambda hasher: min(self.calls[hasher, str(count), str(size), call]))

    def thread(self, name, ours, call, threads, rival):
        """Of the least time of a call by each of the threads."""
        return ratio(self.threads, rival, lambda program: (name, program, ours if program == "ours" else call, str(threads)))

    def line(self, name, what, rival):
        """Of the least processor seconds, or of peak memory, over an input."""
        return ratio(self.lines, rival, lambda program: (name, program, what))

    def inputs(self):
        """The inputs whose lines were numbered, and those that threads interned, in their order."""
        return [list(dict.fromkeys(key[0] for key in table)) for table in (self.lines, self.threads)]


def row(*cells):
    print("| " + " | ".join(cells) + " |")


def head(*cells):
    row(*cells)
    print("|" + "---|" * len(cells))


def all_rivals(ratio_to):
    """The ratio to each rival."""
    return ", ".join(f"{ratio_to(rival):.2f}" for rival in RIVALS)


def print_calls(figures):
    head("Single calls, to lasso, to lasso with its fastest hasher, to std", *(f"{size} bytes" for size in SIZES))
    for call, words in CALLS.items():
        for count in COUNTS:
            row(f"{words}: {count:,} texts", *(all_rivals(lambda rival: figures.call(count, size, call, rival)) for size in SIZES))


def print_threads(figures):
    head("Threads", *(f"{threads} thread{'s' * (threads > 1)}" for threads in THREADS))
    for name in figures.inputs()[1]:
        for call, ways in WAYS.items():
            for ours, words in ways.items():
                row(f"`{name}`, {call}: {words}", *(all_rivals(lambda rival: figures.thread(name, ours, call, threads, rival)) for threads in THREADS))


def print_lines(figures):
    head("`lasso_lines`", "processor time", "peak memory")
    for name in figures.inputs()[0]:
        row(f"`{name}`", *(all_rivals(lambda rival: figures.line(name, what, rival)) for what in ("seconds", "peak")))


def print_tables(folder):
    """Prints the tables of the last run, whose figures are in the folder: Markdown, for bench/lasso.md."""
    figures = Figures(folder)
    for table, known in ((print_calls, figures.calls), (print_threads, figures.threads), (print_lines, figures.lines)):
        if known:
            print()
            table(figures)
    print()
    fastest = [figures.hasher(count, size, call) for call in CALLS for count in COUNTS for size in SIZES]
    print("fastest hashers of single calls: " + ", ".join(f"{hasher} {fastest.count(hasher)}" for hasher in sorted(set(fastest))))


def is_lasso_built():
    """Builds the programs over lasso. Whether it can be fetched and built; says so if it can't."""
    source = os.environ.get("LASSO_SOURCE")
    if source:
        # What JSON escapes in a text is escaped the same in TOML.
        patch = ["--config", f"patch.crates-io.lasso.path={json.dumps(os.path.realpath(source), ensure_ascii=False)}"]
        found = is_built_over_crates("lasso", "ahash", "dashmap", "fxhash", "hashbrown", "memchr", "serde", words=patch)
    else:
        found = is_built("lasso", ["cargo", "build", "--release", "--quiet", "--manifest-path", "bench/baseline/lasso/Cargo.toml", "--target-dir", f"{OUT}/lasso"])
    if not found:
        complain(f"lasso 0.7.3 can't be fetched or built ({OUT}/lasso.log): LASSO_SOURCE=path names a folder that has it")
    return found


def make_real_inputs():
    """Inputs that nobody made for a benchmark: the lines and the words of Debian's list of packages, and the identifiers of the C headers here."""
    commands = {
        "packages": "apt-cache dumpavail | iconv -c -f UTF-8 -t UTF-8",
        "words": f"LC_ALL=C tr -s '[:space:]' '\\n' < {INPUTS}/packages",
        "identifiers": "find /usr/include -name '*.h' -exec cat {} + | LC_ALL=C grep -oaE '[A-Za-z_][A-Za-z0-9_]*'",
    }
    for name, command in commands.items():
        if not os.path.exists(f"{INPUTS}/{name}"):
            said_of(["bash", "-o", "pipefail", "-c", f"{command} > {INPUTS}/{name}.part && mv {INPUTS}/{name}.part {INPUTS}/{name}"])


def rounds_of_calls(first):
    """All rounds of single calls, each program in turn: lines of a program, a count of texts, the bytes of a text, a call and nanoseconds."""
    for _ in range(CALL_ROUNDS):
        yield from reordered("ours", (2, 0, 1), [*first, OURS, "sizes"])
        for hasher in ALL_HASHERS:
            yield from said_lines(hasher, [*first, LASSO, "calls", hasher])
        yield from said_lines("std", [*first, STANDARD_CALLS, "sizes"])


def rounds_of_threads(first, name):
    """All rounds of calls by threads over an input: lines of its name, a program, a call, a number of threads and nanoseconds."""
    path = f"{INPUTS}/{name}"
    for _ in range(THREAD_ROUNDS):
        yield from said_lines(f"{name} ours", [*first, OURS, "interners"], path)
        for hasher in ALL_HASHERS:
            yield from said_lines(f"{name} {hasher}", [*first, LASSO, "round", hasher], path)
        yield from said_lines(f"{name} std", [*first, STANDARD_SHARED, "locked", "round"], path)


def programs():
    """The programs that number lines, by their names in the table."""
    return {"ours": [LINES], **{hasher: [LASSO, "lines", hasher] for hasher in ALL_HASHERS}, "std": [STANDARD, "numbered"]}


def figures_of_lines(first):
    """The seconds and the peak of each program over each input: lines of an input, a program, `seconds` or `peak`, and the number."""
    for name in (*NAMES, *REAL_NAMES):
        path = f"{INPUTS}/{name}"
        took = in_turns(programs(), LINE_ROUNDS, lambda words: processor_seconds([*first, *words], path))
        yield from (f"{name} {program} seconds {one:.6f}" for program, times in took.items() for one in times)
        yield from (f"{name} {program} peak {peak(words, path)}" for program, words in programs().items())


def load():
    """The load of the machine in the last minutes."""
    return " ".join(f"{one:.2f}" for one in os.getloadavg())


def occasion():
    """The date, the machine and the load, which the tables and pictures are of."""
    model = re.search(r"^model name\s*: (.*)", read("/proc/cpuinfo"), re.MULTILINE)
    yield time.strftime("%-d %B %Y, %H:%M UTC", time.gmtime())
    yield model.group(1) if model else ""
    yield f"{os.cpu_count()} processors, load {load()}"
    yield said_of(["rustc", "--version"]).strip()


def times_of(name, rounds, width):
    """All values of rounds, by the words before them. The rounds get the words of their priority, and are kept by this name. Prints the occasion, and the
    load at the end."""
    first = priority()
    print("\n".join(occasion()), flush=True)
    times = times_by_key(keep(name, rounds(first)), width)
    print(f"load at the end: {load()}")
    return times


def size_of(name):
    """The lines, bytes and distinct lines of an input."""
    path = f"{INPUTS}/{name}"
    with open(path, "rb") as source:
        distinct = len({line.removesuffix(b"\n") for line in source})
    return f"{name}: {count_lines(path)} lines, {os.path.getsize(path)} bytes, {distinct} distinct"


def measure_lasso():
    """The tables beside lasso, and their pictures."""
    build_standard()
    build_standard_calls()
    rustc(STANDARD_SHARED, "interners/main.rs", "--edition", "2021")
    make_real_inputs()
    for name in (*NAMES, *REAL_NAMES):
        path = f"{INPUTS}/{name}"
        test_alike({program: lambda words=words: without_bytes(output_of(words, path)) for program, words in programs().items()}, path)
    # A run that is cut short leaves no figures beside those of another one.
    for name in FIGURES:
        if os.path.exists(f"{OUT}/{name}"):
            os.remove(f"{OUT}/{name}")
    first = priority()
    told = list(occasion())
    print("\n".join(told), flush=True)
    keep("lasso-calls", rounds_of_calls(first))
    keep("lasso-threads", [line for name in THREAD_INPUTS for line in rounds_of_threads(first, name)])
    keep("lasso-lines", figures_of_lines(first))
    more = [f"load at the end: {load()}", *map(size_of, REAL_NAMES)]
    print("\n".join(more))
    keep("lasso-occasion", [*told, *more])
    print_tables(OUT)
    draw_plots()


def draw_plots():
    """Draws the pictures of the last run."""
    python = "/usr/bin/python3"
    if not is_built("plots", [python, "-c", "import matplotlib"]) and not is_installed(["python3-matplotlib"]):
        sys.exit("matplotlib can't be had")
    start([python, "bench/plots.py", OUT, "bench/plots"])
