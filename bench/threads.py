"""The table of interners that threads share, beside those that Rust has. A call of ours that is plain, by a pass with hints or for a batch of texts
is compared with the same call of the rivals, and `get` with their call for a present text, which only looks it up."""
import os
import re
import subprocess
from collections import Counter

from measuring import CALLS as OURS
from measuring import INPUTS, OUT, ROUNDS, SHORT_ROUNDS, Table, complain, count_lines, is_built, is_built_over_crates, keep, of_programs, output_of, peak
from measuring import said_lines, start, times_by_key

RUST = f"{OUT}/interners/release/interners"
STANDARD = f"{OUT}/interners-std"
SHARED_NAMES = ("zipf", "distinct", "few")
WAYS = ("", "hinted_", "plain_", "batch64_", "batch1024_")
CALLS = [way + call for call in ("present", "get", "new", "resolve", "intern") for way in WAYS]
THREADS = ("1", "2", "4")
RIVALS = ("maps", "locked", "list", "lockless")
# A locked instruction has the prefix `lock`, or exchanges a register with memory.
INSTRUCTION = re.compile(r"\s*([0-9a-f]+):\s+(lock |xchg\s[^#<]*\()")
CALLGRIND = ("valgrind", "--tool=callgrind", "--dump-instr=yes", "--compress-strings=no", "--compress-pos=no")


def build_rivals():
    """Builds the interners that Rust has for threads, and returns each one's words; where the packages can't be had, or are not built, std stands
    alone, and nothing where that is not built either."""
    if is_built_over_crates("interners", "dashmap", "fxhash", "hashbrown"):
        return {rival: [RUST, rival] for rival in RIVALS}
    if is_built("interners-std", ["rustc", "-O", "--edition", "2021", "-o", STANDARD, "bench/baseline/interners/main.rs"]):
        complain(f"dashmap can't be had or built ({OUT}/interners.log): only std stands beside ThreadedRodeo")
        return {"locked": [STANDARD, "locked"]}
    complain(f"neither dashmap ({OUT}/interners.log) nor std ({OUT}/interners-std.log) can be built: nothing stands beside ThreadedRodeo")
    return {}


def rounds_of_interners(rivals, path, rounds):
    """So many rounds over an input, each program in turn: lines of a name, a call, a number of threads and nanoseconds."""
    for _ in range(rounds):
        yield from said_lines("ours", [OURS, "interners"], path)
        for rival, words in rivals.items():
            yield from said_lines(rival, [*words, "round"], path)


def print_input(table, name, times):
    """The rows of one input, of lines `PROGRAM CALL THREADS NANOSECONDS`."""
    for call in CALLS:
        same = call.split("_")[-1]
        same = "present" if same == "get" else same
        for threads in THREADS:
            if ("ours", call, threads) in times:
                table.row(f"{name}, {call}, {threads}", times["ours", call, threads], *(of_programs(times, [rival], same, threads) for rival in RIVALS))


def print_memory(table, name, programs):
    """The peak of each whole program while it interns each line of an input as it reads it, and that less the peak over one empty line."""
    whole = {program: peak(words, f"{INPUTS}/{name}") for program, words in programs.items()}
    own = {program: whole[program] - peak(words, f"{INPUTS}/one") for program, words in programs.items()}
    for what, taken in (("peak", whole), ("interner", own)):
        table.row(f"{name}, {what}, KiB", [taken["ours"]], *({rival: [taken[rival]]} if rival in taken else {} for rival in RIVALS))


def executions(lines):
    """How often each instruction was executed, by object file and address. A call's cost line counts what was called, and is left out."""
    counts, path, is_call = Counter(), "", False
    for line in lines:
        if line.startswith("ob="):
            path = line[3:].strip()
        elif line.startswith("calls="):
            is_call = True
        elif line.startswith("0x"):
            if not is_call:
                address, _, count = line.split()
                counts[path, int(address, 16)] += int(count)
            is_call = False
    return counts


def locked_addresses(path):
    """The addresses of the locked instructions in an object file."""
    listing = output_of(["objdump", "-d", "--no-show-raw-insn", path]).decode().splitlines()
    return {int(found[1], 16) for found in map(INSTRUCTION.match, listing) if found}


def locked(words, path):
    """How many locked instructions a program executes while it interns each line of a file."""
    found = f"{OUT}/callgrind"
    start([*CALLGRIND, f"--callgrind-out-file={found}", *words], path, stdout=subprocess.DEVNULL, stderr=subprocess.DEVNULL)
    with open(found, encoding="utf-8") as source:
        counts = executions(source)
    os.remove(found)
    paths = {path for path, _ in counts if path.startswith("/")}
    addresses = {path: locked_addresses(path) for path in paths}
    return sum(count for (path, address), count in counts.items() if address in addresses.get(path, ()))


def print_locked(programs):
    """Prints how many locked instructions a new text takes in each program: those over the tenth of `distinct` less those over one line, by the
    other lines."""
    path = f"{INPUTS}/distinct.tenth"
    more = count_lines(path) - 1
    figures = [f"{program} {(locked(words, path) - locked(words, f'{INPUTS}/one')) / more:.2f}" for program, words in programs.items()]
    print(f"locked operations of a new text: {', '.join(figures)}", flush=True)


def measure_interners(rivals):
    """The table of interners that threads share. Of the tenth of `distinct`, whose rounds are short and more, new texts alone are printed."""
    with open(f"{INPUTS}/one", "w", encoding="ascii") as one:
        one.write("\n")
    programs = {"ours": [OURS, "fill"], **{rival: [*words, "fill"] for rival, words in rivals.items()}}
    table = Table("input, call, threads", *RIVALS)
    tenth = keep("interners-distinct.tenth", rounds_of_interners(rivals, f"{INPUTS}/distinct.tenth", SHORT_ROUNDS))
    print_input(table, "distinct.tenth", times_by_key([line for line in tenth if " new " in line], 3))
    for name in SHARED_NAMES:
        print_input(table, name, times_by_key(keep(f"interners-{name}", rounds_of_interners(rivals, f"{INPUTS}/{name}", ROUNDS)), 3))
        print_memory(table, name, programs)
    print_locked(programs)
