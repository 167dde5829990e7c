"""The tables of programs that number lines: instructions, seconds of a processor and peak memory, beside std and the best that Rust has;
`lasso_lines --workers N` beside the same program in Rust; and single calls: beside the best that Rust has and std, and beside calls with all
texts over texts of given sizes."""
from measuring import CALLS as OURS
from measuring import INPUTS, LINES, NAMES, OUT, ROUNDS, SHORT_ROUNDS, Table, in_turns, instructions, keep, of_programs, output_of, peak, priority
from measuring import processor_seconds, reordered, rustc, said_lines, seconds, test_alike, times_by_key

STANDARD = f"{OUT}/standard"
BEST = f"{OUT}/best/release/lines"
WORKERS = f"{OUT}/workers"
THREADS = ("1", "2", "4")
BEST_CALLS = f"{OUT}/best/release/calls"
STANDARD_CALLS = f"{OUT}/calls-std"
CALL_ROUNDS = 15
SIZED_ROUNDS = 12
CALLS = ("new", "present", "absent", "try_resolve", "reader", "resolver")
FROZEN = ("reader", "resolver")
# The call with all texts of each single call, if there is one.
WHOLE = {"new": None, "present": "present_all", "absent": "absent_all", "resolve": "resolve_all"}


def without_bytes(output):
    """The lines, and of the last one only how many texts there are: the bytes that programs count differ."""
    *lines, last = output.splitlines(keepends=True)
    return b"".join(lines) + last.split(b" ")[0]


def build_standard():
    """Builds the programs of std that read lines."""
    rustc(STANDARD, "lines.rs", "--edition", "2021")


def measure_programs(hashes):
    """The table of programs."""
    build_standard()
    programs = {"lasso_lines": [LINES], "std": [STANDARD, "numbered"], **{name: [BEST, name] for name in hashes}}
    for name in NAMES:
        path = f"{INPUTS}/{name}"
        test_alike({program: lambda words=words: without_bytes(output_of(words, path)) for program, words in programs.items()}, path)
    table = Table("input, measure", "std", "best")
    for name in NAMES:
        path = f"{INPUTS}/{name}"
        for what, rounds, work, part in (
            ("instructions a line", 1, instructions, ".tenth"), ("processor seconds", SHORT_ROUNDS, processor_seconds, ""), ("peak memory, KiB", 1, peak, "")
        ):
            found = in_turns(programs, rounds, lambda words: work(words, path + part))
            table.row(f"{name}, {what}", found["lasso_lines"], {"std": found["std"]}, {name: found[name] for name in hashes})


def worker_programs(threads):
    """The programs for a number of threads, by their names in the table."""
    return {"lasso_lines": [LINES, "--workers", threads], "one map": [WORKERS, threads, "1"], "16 maps": [WORKERS, threads, "16"]}


def measure_workers():
    """The table of workers, also beside one thread of ours."""
    rustc(WORKERS, "workers.rs", "--edition", "2021")
    table = Table("input, measure, threads", "one map", "16 maps", "one thread")
    for name in NAMES:
        path = f"{INPUTS}/{name}"
        test_alike({program: lambda words=words: output_of(words, path) for program, words in worker_programs("4").items()}, path)
        runs = {(program, threads): words for threads in THREADS for program, words in worker_programs(threads).items()}
        for what, rounds, work in (("seconds", ROUNDS, seconds), ("peak, KiB", 1, peak)):
            found = in_turns(runs, rounds, lambda words: work(words, path))
            for threads in THREADS:
                maps = ({program: found[program, threads]} for program in ("one map", "16 maps"))
                table.row(f"{name}, {what}, {threads}", found["lasso_lines", threads], *maps, {"ours": found["lasso_lines", "1"]})


def print_single(times, hashes):
    """Prints single calls of lines `PROGRAM TEXTS CALL NANOSECONDS`. A reader and a resolver stand beside the index of a list of std."""
    table = Table("texts, call", "best", "std")
    for count in sorted({int(key[1]) for key in times}):
        for call in CALLS:
            std = of_programs(times, ["std"], count, "index" if call in FROZEN else call)
            table.row(f"{count}, {call}", times["ours", str(count), call], of_programs(times, hashes, count, call), std)


def print_sized(times, hashes):
    """Prints single calls of lines `PROGRAM TEXTS BYTES CALL NANOSECONDS` beside the best, and calls with all texts beside our single ones."""
    table = Table("texts, bytes, call", "best", "one by one")
    for count, size in sorted({(int(key[1]), int(key[2])) for key in times}):
        for call, whole in WHOLE.items():
            one = of_programs(times, ["ours"], count, size, call)
            table.row(f"{count}, {size}, {call}", one["ours"], of_programs(times, hashes, count, size, call), {})
            if whole:
                table.row(f"{count}, {size}, {whole}", times["ours", str(count), str(size), whole], {}, one)


def rounds_of_calls(first, hashes):
    """All rounds of single calls, each program in turn."""
    for _ in range(CALL_ROUNDS):
        yield from reordered("ours", (1, 0), [*first, OURS, "round"])
        yield from said_lines("std", [*first, STANDARD_CALLS])
        for name in hashes:
            yield from said_lines(name, [*first, BEST_CALLS, name])


def rounds_of_sized_calls(first, hashes):
    """The same over texts of given sizes."""
    for _ in range(SIZED_ROUNDS):
        yield from reordered("ours", (2, 0, 1), [*first, OURS, "sizes"])
        for name in hashes:
            yield from said_lines(name, [*first, BEST_CALLS, name, "sizes"])


def build_standard_calls():
    """Builds the same calls over std."""
    rustc(STANDARD_CALLS, "calls.rs", "--edition", "2021")


def measure_calls(hashes):
    """The tables of single calls, and of calls with all texts."""
    build_standard_calls()
    first = priority()
    print_single(times_by_key(keep("calls", rounds_of_calls(first, hashes)), 3), hashes)
    print()
    print_sized(times_by_key(keep("sizes", rounds_of_sized_calls(first, hashes)), 4), hashes)
