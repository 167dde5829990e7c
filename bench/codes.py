"""The tables of lasso_codes, beside what else does the same; and of an input that one machine encodes in parts by 1, 2 and 4 processes, as
examples/cluster/with_parallel does, beside one process that encodes it whole. LASSO_CODES=path names a program that was built elsewhere."""
import os
import shutil
import sys
from array import array
from shlex import quote

from measuring import INPUTS, LINES, NAMES, OUT, Table, count_lines, in_turns, keep, make_long_inputs, output_of, priority, program_of, said_lines, said_of
from measuring import seconds, test_alike, times_by_key
from programs import BEST, STANDARD, build_standard

CODES = os.environ.get("LASSO_CODES") or "crates/lasso_codes/out/lasso_codes"
FOLDER = f"{OUT}/parts"
ROUNDS = 8
PARTS = 32
MAWK = "/usr/bin/mawk"
# What the system has for a verb, as commands of bash.
OTHERS = {
    "counts": {
        "sort_uniq_sort": "LC_ALL=C sort --parallel=4 < INPUT | LC_ALL=C uniq -c | LC_ALL=C sort --parallel=4 -rn",
        "mawk": f"exec {MAWK} '{{ c[$0]++ }} END {{ for (line in c) print c[line], line }}' < INPUT",
    },
    "distinct": {"mawk": f"exec {MAWK} '!seen[$0]++' < INPUT"},
}
CLUSTER_ROUNDS = 5
PROCESSES = ("1", "2", "4")
STEPS = ("cut", "encode", "merge")
WORKERS_NAMES = ("ten", "large", "few", "zipf", "distinct", "long")


def build_codes():
    """Proves and builds the program, unless LASSO_CODES names one."""
    if not os.environ.get("LASSO_CODES"):
        program_of("lasso_codes")


def shell(command):
    """The words that run a command of bash."""
    return ["bash", "-o", "pipefail", "-c", command]


def ours(words, path):
    """The command of bash that runs the program over an input."""
    return f"exec {quote(CODES)} {words} < {quote(path)}"


def commands_of(verb, hashes, path):
    """The commands that write how often each line of an input came, or its distinct lines, ours first."""
    yield "ours", ours(verb, path)
    for name, command in OTHERS[verb].items():
        yield name, command.replace("INPUT", quote(path))
    for name, program in (("std", STANDARD), *([("hashbrown", BEST)] if hashes else [])):
        yield name, f"exec {quote(program)} {verb} < {quote(path)}"


def in_one_form(output):
    """Lines of counts in one order and form, whoever wrote them."""
    return sorted(line.lstrip(b" ") for line in output.split(b"\n"))


class Timed:
    """The table of commands: seconds from start to end. The words `first` give them priority."""

    def __init__(self, first):
        self.first, self.table = first, Table("seconds", "other")

    def row(self, title, commands):
        """Rows of a command, which is named first, beside each of the others; they take turns."""
        found = in_turns({name: [*self.first, *shell(command)] for name, command in commands}, ROUNDS, seconds)
        own = found.pop("ours")
        for name, times in found.items():
            self.table.row(title, own, {name: times})


def measure_lines(timed, hashes):
    """Counts and distinct lines of some inputs, once all commands write the same."""
    for verb, form, names in (("counts", in_one_form, ("zipf", "few")), ("distinct", bytes, NAMES)):
        for name in names:
            path = f"{INPUTS}/{name}"
            commands = list(commands_of(verb, hashes, path))
            test_alike({program: lambda command=command: form(output_of(shell(command))) for program, command in commands}, path)
            timed.row(f"{verb}, {name}", commands)


def column_of(path):
    """The lines of an input as the column that `lasso_codes encode --binary` has to write, with no line of its code."""
    codes = {}
    with open(path, "rb") as source:
        numbers = array("I", (codes.setdefault(line.removesuffix(b"\n"), len(codes)) for line in source))
    if sys.byteorder == "big":
        numbers.byteswap()
    return b"lasso-codes 1 binary %d %d\n" % (len(codes), len(numbers)) + b"".join(text + b"\n" for text in codes) + numbers.tobytes()


def test_same(what, found, wanted):
    """Stops unless these are the same bytes."""
    if found != wanted:
        sys.exit(f"{what}: other bytes than those that are wanted")


def contents(path):
    """The bytes of a file."""
    with open(path, "rb") as source:
        return source.read()


def measure_columns_of_lines(timed):
    """Encoding and decoding, beside lasso_lines over the same lines."""
    column = f"{OUT}/codes.column"
    for name in NAMES:
        path = f"{INPUTS}/{name}"
        lines = ("lasso_lines", f"exec {quote(LINES)} < {quote(path)}")
        with open(column, "wb") as target:
            target.write(output_of([CODES, "encode", "--binary"], path))
        test_same(f"encode --binary, {name}", contents(column), column_of(path))
        timed.row(f"encode --binary, {name}", [("ours", ours("encode --binary", path)), lines])
        test_same(f"decode, {name}", output_of([CODES, "decode"], column), contents(path))
        timed.row(f"decode, {name}", [("ours", ours("decode", column)), lines])
    os.remove(column)


def split(name):
    """Cuts an input into parts between lines, in a new folder, and returns their paths."""
    shutil.rmtree(FOLDER, ignore_errors=True)
    os.mkdir(FOLDER)
    said_of(["split", "-n", f"l/{PARTS}", "-d", "-a", "4", f"{INPUTS}/{name}", f"{FOLDER}/"])
    return [f"{FOLDER}/{part}" for part in sorted(os.listdir(FOLDER))]


def measure_merge(timed, name):
    """Merging the columns of an input's parts into one, beside encoding the whole."""
    path, columns = f"{INPUTS}/{name}", f"{FOLDER}/columns"
    parts = split(name)
    with open(columns, "wb") as target:
        for part in parts:
            target.write(output_of([CODES, "encode", "--binary"], part))
            os.remove(part)
    test_same(f"merge, {name}", output_of([CODES, "merge", "--binary"], columns), output_of([CODES, "encode", "--binary"], path))
    timed.row(f"merge of {PARTS} parts, {name}", [("ours", ours("merge --binary", columns)), ("encode of all", ours("encode --binary", path))])
    shutil.rmtree(FOLDER)


def measure_workers_of(timed, verb):
    """A verb with its options, by four workers beside one; and by two on `ten`. Where they don't write the same bytes it stops."""
    for name in WORKERS_NAMES:
        path = f"{INPUTS}/{name}"
        right = output_of([CODES, *verb.split()], path)
        for count in ("1", "2", "4"):
            test_same(f"{verb} --workers {count}, {name}", output_of([CODES, *verb.split(), "--workers", count], path), right)
        for count in ("4", "2") if name == "ten" else ("4",):
            timed.row(f"{verb}, {count}, {name}", [("ours", ours(f"{verb} --workers {count}", path)), ("one worker", ours(f"{verb} --workers 1", path))])


def measure_codes(hashes):
    """The table of lasso_codes."""
    make_long_inputs()
    build_standard()
    timed = Timed(priority())
    measure_lines(timed, hashes)
    measure_columns_of_lines(timed)
    for name in ("ten", "large"):
        measure_merge(timed, name)
    for verb in ("counts", "encode --binary", "encode"):
        measure_workers_of(timed, verb)


def rounds_of_cluster(first, name):
    """Rounds over an input, each number of processes in turn: lines of that number, or `whole`, a step and its seconds. Each column that is written
    is compared with that of the whole input."""
    path, whole, parts = os.path.abspath(f"{INPUTS}/{name}"), f"{OUT}/cluster.whole", os.path.abspath(f"{OUT}/cluster.parts")
    os.environ.update({"TMPDIR": os.path.abspath(OUT), "LASSO_CODES": os.path.realpath(CODES)})
    for _ in range(CLUSTER_ROUNDS):
        yield f"whole encode {seconds([*first, *shell(f'exec {quote(CODES)} encode --binary < {quote(path)} > {quote(whole)}')])}"
        for processes in PROCESSES:
            yield from said_lines(processes, [*first, "examples/cluster/with_parallel", path, parts, processes, str(PARTS)])
            test_same(f"{processes} processes, {name}", contents(parts), contents(whole))
    os.remove(whole)
    os.remove(parts)


def print_cluster(table, name, times):
    """The seconds of each step by each number of processes, and those of all steps of a round, beside one process that encodes the whole."""
    whole = {"whole": times["whole", "encode"]}
    for processes in PROCESSES:
        for step in STEPS:
            table.row(f"{name}, {processes}, {step}", times[processes, step], {})
        table.row(f"{name}, {processes}, all", list(map(sum, zip(*(times[processes, step] for step in STEPS)))), whole)


def print_sizes_of_parts(name):
    """What the parts of an input hold: its bytes and lines, its distinct lines and their bytes with line feeds, and those of all parts together."""
    path = f"{INPUTS}/{name}"
    every, each = (output_of([CODES, "distinct"], path), b"".join(output_of([CODES, "distinct"], part) for part in split(name)))
    sizes = [f"{text.count(b'%c' % 10)} {len(text)}" for text in (every, each)]
    print(f"{name}: {count_lines(path)} {os.path.getsize(path)} lines and bytes, distinct {sizes[0]}, distinct in each of {PARTS} parts, in all {sizes[1]}")
    shutil.rmtree(FOLDER)


def measure_cluster():
    """The table of an input in parts."""
    make_long_inputs()
    first = priority()
    table = Table("seconds: input, processes, step", "one process")
    for name in ("ten", "large"):
        print_cluster(table, name, times_by_key(keep(f"cluster-{name}", rounds_of_cluster(first, name)), 2))
    for name in ("ten", "large"):
        print_sizes_of_parts(name)
