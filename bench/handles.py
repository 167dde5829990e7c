"""The tables of interners from C, beside GLib, and of those that threads share, from C and from Rust: lasso_shared beside one interner under a
mutex, and the crate rust/lasso_proved beside lasso 0.7.3 and the maps that Rust has for threads."""
import sys
from statistics import median

from crate import PROVED, build_over_library
from lasso import LASSO, is_lasso_built, times_of
from measuring import INPUTS, OUT, make_input, said_lines, said_of
from threads import RUST as MAPS
from threads import build_rivals

OVER_C = f"{OUT}/threads"
NAMES = ("zipf", "uniform", "distinct")
CALLS = ("present", "new", "resolve")
THREADS = (1, 2, 4)
ROUNDS = 7
PROGRAMS = {
    "c": [OVER_C, "shared"],
    "mutex": [OVER_C, "mutex"],
    "glib": [OVER_C, "glib"],
    "alone": [OVER_C, "alone"],
    "glib-alone": [OVER_C, "glib-alone"],
    "rust": [PROVED, "round"],
    "lasso": [LASSO, "round", "default"],
    "lasso-fx": [LASSO, "round", "fx"],
    "maps": [MAPS, "maps", "round"],
}
# One thread without a lock: ours, and what it is compared with.
ALONE = ("alone", "glib-alone")
ALONE_NAMES = ("zipf", "distinct", "mid")
ALONE_CALLS = ("new", "present", "absent", "resolve")
# Ours, and what it is compared with, in the order of a cell.
TABLES = {"c": ("mutex", "glib"), "rust": ("lasso", "maps", "lasso-fx")}
NONE = (None, None, None)
# The goal of the ratio, by the pair, the input or None for each, and the call: for each number of threads, or None.
GOALS = {
    ("c", "mutex", "zipf", "present"): (1.05, 0.12, 0.05),
    ("c", "mutex", "distinct", "new"): (None, None, 0.5),
    ("rust", "lasso", None, "present"): (0.8, 0.5, 0.35),
    ("rust", "lasso", "distinct", "new"): (None, None, 1.0),
    ("rust", "maps", None, "resolve"): (None, None, 0.1),
}


def build_handles():
    """Builds the programs over the library for C, which LASSO_LIB_DIR may name in place of the proved one, and their rivals."""
    library = f"{build_over_library('serde')}/liblasso.a"
    glib = said_of(["pkg-config", "--cflags", "--libs", "glib-2.0"]).split()
    said_of(["cc", "-O2", "-Wall", "-Wextra", "-std=c11", "-pthread", "-o", OVER_C, "bench/threads.c", "-I", "crates/lasso_c/include", library, *glib])
    if not build_rivals() or not is_lasso_built():
        sys.exit(1)


def rounds_of_handles(first):
    """All rounds, each program in turn: lines of an input, a program, a call, a number of threads and nanoseconds."""
    for _ in range(ROUNDS):
        for name in dict.fromkeys((*NAMES, *ALONE_NAMES)):
            for program, words in PROGRAMS.items():
                if name in (ALONE_NAMES if program in ALONE else NAMES):
                    yield from said_lines(f"{name} {program}", [*first, *words], f"{INPUTS}/{name}")


def ratio(ours, others, goal=None):
    """The ratio of the least times with its goal, in bold if that is missed."""
    found = min(ours) / min(others)
    if goal is None:
        return f"{found:.2f}"
    return f"{found:.2f}/{goal}" if found <= goal else f"**{found:.2f}/{goal}**"


def print_table(times, ours, others):
    """The table of a program of ours: in each cell the ratio to each of the others."""
    print(f"{ours}, to {', '.join(others)}, by 1, 2 and 4 threads")
    middles = []
    for name in NAMES:
        for call in CALLS:
            row = f"| {name}, {call} |"
            for at, threads in enumerate(THREADS):
                found = [times[name, program, call, str(threads)] for program in (ours, *others)]
                goals = [GOALS.get((ours, other, name, call), GOALS.get((ours, other, None, call), NONE))[at] for other in others]
                row += f" {', '.join(ratio(found[0], other, goal) for other, goal in zip(found[1:], goals))} |"
                middles += [median(found[0]) / median(other) / min(found[0]) * min(other) for other in found[1:]]
            print(row)
    print(f"ratios of middle times are {min(middles):.2f} to {max(middles):.2f} of these")


def print_nanoseconds(times):
    """The table of four threads: nanoseconds of a call of each program."""
    programs = [program for ours, others in TABLES.items() for program in (ours, *others)]
    print(f"| nanoseconds, {THREADS[-1]} threads | {' | '.join(programs)} |")
    print("|---" * (len(programs) + 1) + "|")
    for name in NAMES:
        for call in CALLS:
            print(f"| {name}, {call} | {' | '.join(f'{min(times[name, program, call, str(THREADS[-1])]):.0f}' for program in programs)} |")


def print_alone(times):
    """The table of one thread without a lock: nanoseconds of a call over lasso and over GLib, and their ratio."""
    for call in ALONE_CALLS:
        found = [[times[name, program, call, "1"] for program in ALONE] for name in ALONE_NAMES]
        print(f"| {call} | " + " | ".join(f"{min(ours):.0f}, {min(others):.0f}: {ratio(ours, others)}" for ours, others in found) + " |")


def measure_handles():
    build_handles()
    for name in (*NAMES, *ALONE_NAMES):
        make_input(name)
    times = times_of("handles", rounds_of_handles, 4)
    print_alone(times)
    for ours, others in TABLES.items():
        print_table(times, ours, others)
    print_nanoseconds(times)
