"""What the tables of bench/run share: programs that are built, inputs, runs in turn, what a run takes, and the form of a table. Paths are from the
top of the repository, in which bench/run runs."""
import glob
import os
import re
import subprocess
import sys
from statistics import median

sys.path.append(f"{os.path.dirname(os.path.dirname(os.path.abspath(__file__)))}/trials")
from common import HERE, is_installed, program_of, ran, read, replaced, said_of, timed, write  # noqa: E402,F401 pylint: disable=wrong-import-position

OUT = "bench/out"
INPUTS = f"{OUT}/inputs"
CRATES = "/usr/share/cargo/registry"
LINES = "crates/lasso_lines/out/lasso_lines"
CALLS = "crates/tool_bench/out/tool_bench"
NAMES = ("zipf", "distinct", "long", "few", "mid", "wide")
ALL_HASHES = ("fx", "ahash", "fold")
ROUNDS = 8
# More, as such a run is short.
SHORT_ROUNDS = 24
COLLECTED = re.compile(r"Collected : (\d+)")


def complain(*words):
    """Says why a figure is missing."""
    print(*words, file=sys.stderr, flush=True)


def keep(name, lines):
    """Writes the lines to a file that stays until the next run, and returns them."""
    lines = list(lines)
    write(f"{OUT}/{name}", "".join(f"{line}\n" for line in lines))
    return lines


def is_built(log, words):
    """Whether a command ends well; what it says is in a file of this name."""
    status, said = ran(words)
    write(f"{OUT}/{log}.log", said)
    return status == 0


def end_with(log):
    """Shows what a command said, and ends."""
    sys.exit(read(f"{OUT}/{log}.log", "replace"))


def build_library():
    """Proves and builds the library for C."""
    said_of(["make", "-s", "c"])


def rustc(program, source, *words):
    """Builds a Rust program of one file by rustc."""
    said_of(["rustc", "-O", *words, "-o", program, f"bench/baseline/{source}"])


def is_built_over_crates(baseline, *crates, words=()):
    """Installs the system's packages of these Rust crates where one is missing, and builds a baseline over them. Whether that can be done."""
    missing = [f"librust-{crate}-dev" for crate in crates if not glob.glob(f"{CRATES}/{crate}-[0-9]*")]
    if missing:
        is_installed(missing)
    system = ["--config", 'source.crates-io.replace-with="system"', "--config", f'source.system.directory="{CRATES}"']
    cargo = ["cargo", "build", "--release", "--offline", "--quiet", "--manifest-path", f"bench/baseline/{baseline}/Cargo.toml"]
    return is_built(baseline, [*cargo, "--target-dir", f"{OUT}/{baseline}", *system, *words])


def best_hashes():
    """Builds the best that Rust has, from the system's packages of Rust crates, and returns its hashes; none where they can't be had."""
    if is_built_over_crates("best", "hashbrown", "fxhash", "ahash", "memchr"):
        return ALL_HASHES
    complain(f"hashbrown can't be had or built ({OUT}/best.log): of Rust only std stands beside lasso")
    return ()


def priority():
    """The words that give what is timed real-time priority, where that may be done. Says which it is."""
    words = ["chrt", "-f", "10"]
    if is_built("chrt", [*words, "true"]):
        print(f"what is timed runs at real-time priority ({' '.join(words)})", flush=True)
        return words
    print(f"what is timed runs at normal priority: chrt -f 10 is not allowed here ({read(f'{OUT}/chrt.log').strip()})", flush=True)
    return []


def make_inputs():
    """Makes the inputs, where they are missing."""
    for name in NAMES:
        make_input(name)


def make_input(name):
    """Makes an input, whole and as a tenth, if it is missing."""
    if not os.path.exists(f"{INPUTS}/{name}.tenth"):
        said_of([sys.executable, "bench/generate.py", INPUTS, name])


def make_long_inputs():
    """Makes two inputs of 10,000,000 lines: `zipf` ten times, and `large`, to whose end there are new words."""
    if not os.path.exists(f"{INPUTS}/ten"):
        with open(f"{INPUTS}/zipf", "rb") as source, replaced(f"{INPUTS}/ten", mode="wb") as target:
            target.write(source.read() * 10)
    make_input("large")


def count_lines(path):
    """How many lines a file has."""
    with open(path, "rb") as source:
        return sum(block.count(b"\n") for block in iter(lambda: source.read(1 << 20), b""))


def start(words, path=None, **options):
    """Runs a command over an input, which has to end well."""
    with open(path or os.devnull, "rb") as source:
        done = subprocess.run(words, stdin=source, check=False, **options)
    if done.returncode:
        sys.exit(f"{' '.join(words)} ended with {done.returncode}")
    return done


def output_of(words, path=None):
    """What a command writes over an input."""
    return start(words, path, stdout=subprocess.PIPE).stdout


def said_lines(prefix, words, path=None):
    """The lines that a command writes over an input, each after a word."""
    return [f"{prefix} {line}" for line in output_of(words, path).decode().splitlines()]


def reordered(prefix, order, words, path=None):
    """The same with their first words in another order."""
    for line in output_of(words, path).decode().splitlines():
        found = line.split()
        yield " ".join([prefix, *(found[at] for at in order), *found[len(order):]])


def took(words, path):
    """What a command takes over an input, whose output is thrown away. It has to end well."""
    with open(path or os.devnull, "rb") as source:
        found = timed(words, subprocess.DEVNULL, stdin=source, stderr=None)
    if found.status:
        sys.exit(f"{' '.join(words)} ended with {found.status}")
    return found


def seconds(words, path=None):
    """The seconds from start to end of a command."""
    return took(words, path).seconds


def processor_seconds(words, path):
    """The seconds of a processor, user's and system's, that a command takes over an input."""
    found = took(words, path)
    return found.own + found.system


def peak(words, path):
    """The most memory that a program takes at once for an input, in KiB."""
    start(["/usr/bin/time", "-f", "%M", "-o", f"{OUT}/peak", *words], path, stdout=subprocess.DEVNULL)
    return int(read(f"{OUT}/peak"))


def instructions(words, path):
    """The instructions that a program takes for an input, a line of it."""
    valgrind = ["valgrind", "--tool=callgrind", "--callgrind-out-file=/dev/null"]
    said = start([*valgrind, *words], path, stdout=subprocess.DEVNULL, stderr=subprocess.PIPE).stderr.decode()
    return int(COLLECTED.search(said).group(1)) / count_lines(path)


def in_turns(programs, rounds, work):
    """All that work says of each program's words; the programs take turns."""
    found = {name: [] for name in programs}
    for _ in range(rounds):
        for name, words in programs.items():
            found[name].append(work(words))
    return found


def test_alike(outputs, path):
    """Stops unless all programs write the same over an input, by functions that give each one's output."""
    first = None
    for name, output in outputs.items():
        found = output()
        first = first or (name, found)
        if found != first[1]:
            sys.exit(f"{name} and {first[0]} write different lines for {path}")


def times_by_key(lines, width):
    """All values by the words before them, of lines of so many words and a value."""
    times = {}
    for line in lines:
        *words, value = line.split()
        assert len(words) == width, line
        times.setdefault(tuple(words), []).append(float(value))
    return times


def of_programs(times, programs, *words):
    """Of each of the programs that has some its values by these words, which follow its name."""
    found = {program: times.get((program, *map(str, words))) for program in programs}
    return {program: values for program, values in found.items() if values}


class Table:
    """A table. A row has what it is of and the least of ours; and of each rival the least, its program, the ratio of ours to it, and that of the
    middle ones. A rival may be several programs, of which the fastest counts. The goals of ratios are in the pages of this folder."""

    def __init__(self, what, *rivals):
        print(f"{what:<36}{'ours':>12}" + "".join(f"{rival:>22}{'ratio':>8}{'middle':>8}" for rival in rivals), flush=True)

    def row(self, title, ours, *rivals):
        """Prints a row: the values of ours, if there are some, and of each rival those of its programs."""
        print((f"{title:<36}{shown(min(ours)) if ours else '-':>12}" + "".join(compared(ours, programs) for programs in rivals)).rstrip(), flush=True)


def shown(value):
    """A value in three digits, or all of a whole number."""
    return f"{value:.0f}" if value >= 1000 else f"{value:.3g}"


def compared(ours, programs):
    """A rival's cells in a row."""
    if not ours or not programs:
        return f"{'-':>22}{'-':>8}{'-':>8}"
    name, least = min(((name, min(values)) for name, values in programs.items()), key=lambda pair: pair[1])
    return f"{f'{name} {shown(least)}':>22}{min(ours) / least:>8.2f}{median(ours) / min(map(median, programs.values())):>8.2f}"
