"""The tables of columns of texts, beside the same in Rust and in Python's pandas; and of batches that C interns, beside `encode` in Rattle."""
import os
import re
import shutil

from measuring import CALLS as OURS
from measuring import INPUTS, OUT, Table, build_library, complain, is_built, is_installed, keep, make_input, make_long_inputs, of_programs, priority
from measuring import replaced, said_lines, said_of, start, times_by_key

RUST = f"{OUT}/best/release/columns"
SHARED = f"{OUT}/interners/release/interners"
PYTHON = "/usr/bin/python3"
NAMES = ("zipf", "distinct", "few", "ten", "large", "long")
ROUNDS = 3
TIMED = ("encode", "encode_lines", "decode", "merge", "encode_again", "encode_in_parts_1", "encode_in_parts_2", "encode_in_parts_4",
         "private_1", "private_4", "encode_shared_1", "encode_shared_2", "encode_shared_3", "encode_shared_4")
BATCHES = f"{OUT}/batches"
END = b"\n"
BATCH_ROUNDS = 15
# The batches of an input, in lines each: 0 is all of them.
BATCH_SIZES = {"rows": (64, 1024, 0), "distinct": (10000, 0)}
# Prints the nanoseconds that pandas.factorize takes for a line of standard input, in one round.
FACTORIZE = r"""
import sys
import time

import numpy
import pandas

lines = numpy.array(sys.stdin.buffer.read().decode().removesuffix("\n").split("\n"), dtype=object)
start = time.perf_counter()
codes, texts = pandas.factorize(lines)
elapsed = time.perf_counter() - start
assert (texts[codes] == lines).all()
print(f"encode {elapsed * 1e9 / len(lines):.1f}")
"""
PANDAS_SIZES = ("", "2000000 20000", "2000000 200000 65536 7", "2000000 200000 65536 35", "1000000 100000 65536 200")
# The input, what was timed, its name in the table, and what it is compared with.
ROWS = (
    ("rows", "64", "batches of 64", "0"),
    ("rows", "1024", "batches of 1,024", "0"),
    ("rows", "0", "one batch", "encode"),
    ("rows", "encode", "encode in Rattle", None),
    ("rows", "encode_lines", "encode_lines in Rattle", None),
    ("distinct", "10000", "100 batches", "0"),
    ("distinct", "0", "one batch", None),
)


def has_pandas():
    """Installs pandas of the system's Python where it is missing. Says where a column of the table stays empty."""
    words = [PYTHON, "-c", "import pandas"]
    if is_built("pandas", words) or is_installed(["python3-pandas"]) and is_built("pandas", words):
        return True
    complain(f"pandas can't be had ({OUT}/pandas.log): it does not stand beside columns")
    return False


def named(line):
    """A line of ours with the number of threads as a part of the call's name, if threads make it."""
    return re.sub(r"^ours ([a-z_]+) 1 ", r"ours \1 ", re.sub(r"^ours (encode_shared|encode_in_parts|private) ", r"ours \1_", line))


def rounds_of_columns(hashes, path, has_shared, with_pandas):
    """Rounds over an input, each program in turn: lines of a program's name, a call, and nanoseconds a text."""
    for _ in range(ROUNDS):
        yield from map(named, said_lines("ours", [OURS, "columns"], path))
        for name in hashes:
            yield from said_lines(name, [RUST, name], path)
        if has_shared:
            yield from (line.replace("encode_shared ", "encode_shared_", 1) for line in said_lines("maps", [SHARED, "maps", "columns"], path))
        if with_pandas:
            yield from said_lines("pandas", [PYTHON, "-c", FACTORIZE], path)


def by_one_thread(times, call):
    """What threads are compared with: `encode` or `encode_again` by one, or the private work of one."""
    is_by_threads = call.startswith(("encode_shared", "encode_in_parts"))
    names = ("private_1",) if call == "private_4" else ("encode", "encode_again") if is_by_threads else ()
    return {name: times["ours", name] for name in names}


def print_columns(table, name, times, hashes):
    """The rows of an input."""
    for call in TIMED:
        rust, pandas = of_programs(times, [*hashes, "maps"], call), of_programs(times, ["pandas"], "encode" if call.startswith("encode") else call)
        ours = times.get(("ours", call))
        table.row(f"{name}, {call}", ours, rust, pandas, by_one_thread(times, call) if ours else {})


def measure_columns(hashes, has_shared):
    """The table of columns. Threads are as many times as fast as one as 1 is of the last ratio."""
    with_pandas = has_pandas()
    make_long_inputs()
    table = Table("input, call", "rust", "pandas", "one thread")
    for name in NAMES:
        lines = keep(f"columns-{name}", rounds_of_columns(hashes, f"{INPUTS}/{name}", has_shared, with_pandas))
        print_columns(table, name, times_by_key(lines, 2), hashes)


def make_codes(name):
    """The right code of each line of an input: how many distinct ones came before its first."""
    if os.path.exists(f"{INPUTS}/{name}.codes"):
        return
    codes = {}
    with open(f"{INPUTS}/{name}", "rb") as source, replaced(f"{INPUTS}/{name}.codes", encoding="ascii") as target:
        for line in source:
            target.write(f"{codes.setdefault(line.removesuffix(END), len(codes))}\n")


def rounds_of_batches(first):
    """All rounds, each program in turn and each in a process of its own: lines of an input, what is timed and nanoseconds a line."""
    for _ in range(BATCH_ROUNDS):
        for name, sizes in BATCH_SIZES.items():
            for size in sizes:
                yield from said_lines(name, [*first, BATCHES, str(size), f"{INPUTS}/{name}.codes"], f"{INPUTS}/{name}")
        for line in said_lines("rows", [*first, OURS, "columns"], f"{INPUTS}/rows"):
            if re.match(r"rows (encode|encode_lines) 1 ", line):
                yield line.replace(" 1 ", " ", 1)


def print_batches(times):
    """The table of batches, in nanoseconds a line."""
    table, names = Table("input, lines", "beside"), {(name, what): title for name, what, title, _ in ROWS}
    for name, what, title, other in ROWS:
        table.row(f"{name}, {title}", times[name, what], {names[name, other]: times[name, other]} if other else {})


def build_module():
    """Builds the Python module over the library that was built here, whatever other one is installed or named."""
    shutil.rmtree(f"{OUT}/python", ignore_errors=True)
    shutil.copytree("python", f"{OUT}/python")
    said_of([PYTHON, f"{OUT}/python/backend.py"], env={**os.environ, "LASSO_LIBRARY": "", "PKG_CONFIG_PATH": os.path.abspath("out")})


def measure_c():
    """The table of batches, and that of a pandas column."""
    build_library()
    said_of(["cc", "-O2", "-Wall", "-Wextra", "-std=c11", "-o", BATCHES, "bench/batches.c", "-I", "crates/lasso_c/include", "out/liblasso.a"])
    make_input("rows")
    for name in BATCH_SIZES:
        make_codes(name)
    first = priority()
    print_batches(times_by_key(keep("c.rounds", rounds_of_batches(first)), 2))
    if not has_pandas():
        return
    print(flush=True)
    build_module()
    for sizes in PANDAS_SIZES:
        start([*first, PYTHON, "examples/python/categorical.py", *sizes.split()], env={**os.environ, "PYTHONPATH": f"{OUT}/python"})
