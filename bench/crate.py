"""The tables of the crate rust/lasso_proved: beside the best that Rust has, and beside lasso 0.7.3."""
import os

from lasso import ALL_HASHERS, HASHERS, LASSO, is_lasso_built, times_of
from measuring import OUT, Table, best_hashes, build_library, end_with, is_built_over_crates, of_programs, said_lines
from programs import BEST_CALLS

PROVED = f"{OUT}/proved/release/proved"
ROUNDS = 15
# The counts of texts, and their bytes.
SIZES = ((100_000, 7), (100_000, 11), (100_000, 35), (100_000, 200), (10_000, 7))
CALLS = {"new": "intern a new text", "present": "intern a present text", "get": "get a present text", "absent": "get an absent text", "resolve": "resolve a key"}


def build_crate(baseline, *crates):
    """Builds a program over the crate."""
    if not is_built_over_crates(baseline, *crates):
        end_with(baseline)


def build_over_library(*crates):
    """Builds the program over the crate, and over the library that LASSO_LIB_DIR may name in place of the proved one. Returns the library's folder."""
    if "LASSO_LIB_DIR" not in os.environ:
        build_library()
        os.environ["LASSO_LIB_DIR"] = f"{os.getcwd()}/out"
    build_crate("proved", *crates)
    return os.path.abspath(os.environ["LASSO_LIB_DIR"])


def rounds_of_crate(first, hashes, hashers):
    """All rounds of the crate's calls, each program in turn."""
    for _ in range(ROUNDS):
        yield from said_lines("ours", [*first, PROVED])
        for hasher in hashers:
            yield from said_lines(f"lasso-{hasher}", [*first, LASSO, "few", hasher])
        for name in hashes:
            for kept in (name, f"kept-{name}"):
                yield from said_lines(kept, [*first, BEST_CALLS, kept, "few"])


def print_beside_best(times, hashes):
    """The table beside the baseline with the least time."""
    table = Table("texts, bytes, call", "best")
    best = [kept for name in hashes for kept in (name, f"kept-{name}")]
    for count, size in SIZES:
        for call in CALLS:
            table.row(f"{count}, {size}, {call}", times["ours", str(count), str(size), call], of_programs(times, best, count, size, call))


def beside_lasso(times, count, size, call):
    """A cell: the nanoseconds of the crate, of lasso as it comes and of lasso with its fastest hasher, and the ratios to both."""
    least = lambda program: min(times[program, str(count), str(size), call])
    hasher = min(HASHERS, key=lambda name: least(f"lasso-{name}"))
    ours, default, fast = map(least, ("ours", "lasso-default", f"lasso-{hasher}"))
    return f"{ours:.0f}, {default:.0f}, {fast:.0f} ({hasher}): {ours / default:.2f}, {ours / fast:.2f}"


def print_beside_lasso(times):
    """Prints a table in Markdown, for bench/rust.md."""
    heads = [f"{size} bytes, {count:,} texts" for count, size in SIZES]
    print(f"| Nanoseconds of the crate, of lasso, of lasso with its fastest hasher: ratios to both | {' | '.join(heads)} |")
    print("|---" * (len(heads) + 1) + "|")
    for call, words in CALLS.items():
        print(f"| {words} | {' | '.join(beside_lasso(times, *size, call) for size in SIZES)} |")


def measure_crate():
    """The tables of the crate. That beside lasso is missing if lasso can't be had."""
    build_over_library("serde")
    hashers = ALL_HASHERS if is_lasso_built() else ()
    hashes = best_hashes()
    times = times_of("rust", lambda first: rounds_of_crate(first, hashes, hashers), 4)
    print_beside_best(times, hashes)
    if hashers:
        print()
        print_beside_lasso(times)
