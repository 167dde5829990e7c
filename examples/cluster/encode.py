#!/usr/bin/env python3
"""Encodes the files of a folder with the workers of a Dask scheduler: encode.py SCHEDULER PARTS OUT.

The workers and this program see the folders by the same names. OUT gets, for each part, `columns/NAME`, the column of its lines alone,
`dictionaries/NAME`, that column's distinct lines, and `codes/NAME`, the codes of its lines in OUT/dictionary: the distinct lines of all parts in
the order of the parts' names. Dictionaries are merged FAN at a time, then those that come of it, until one is left. Each task is one run of
`lasso_codes`: the program at `$LASSO_CODES`, or else the repository's, which the workers see by the same name too. Names are in the order that
`LC_ALL=C` gives them, so that `(LC_ALL=C; cat OUT/dictionary OUT/codes/*) | lasso_codes join` is the column of all lines; a name that begins with
a dot is refused, since it would pass over that. A task that fails ends the program with what `lasso_codes` said; a task whose worker is lost is
done again by another one, and ends the program if it is lost more often than the scheduler's `allowed-failures`.
"""
import contextlib
import os
import subprocess
import sys
import time
import uuid
from pathlib import Path

from distributed import Client, KilledWorker, as_completed

PROGRAM = os.environ.get("LASSO_CODES") or str(Path(__file__).resolve().parents[2] / "crates/lasso_codes/out/lasso_codes")
FAN = 8


def pipe(program, words, sources, output):
    """Runs the program over the files, one after another, and has it write to the output. Returns what went wrong, if something did."""
    with subprocess.Popen(["cat", "--", *sources], stdin=subprocess.DEVNULL, stdout=subprocess.PIPE) as cat:
        with subprocess.Popen([program, *words], stdin=cat.stdout, stdout=output, stderr=subprocess.PIPE) as process:
            cat.stdout.close()
            said = process.stderr.read().decode(errors="replace").strip()
    if process.returncode != 0:
        return f"status {process.returncode}: {said}"
    return f"a file was not read: cat ended with {cat.returncode}" if cat.returncode != 0 else None


def run(program, words, sources, target):
    """Runs the program over the files. What it writes gets the name of the target once it is whole, so a run that is killed leaves nothing
    half written there, and may be done again, also while the first one goes on. Runs on a worker."""
    what = f"{' '.join(words)} for {target}"
    sizes = [os.path.getsize(source) for source in sources]
    # In an input of several columns no program sees that an empty file was there.
    if words[0] != "encode" and 0 in sizes:
        raise RuntimeError(f"{what}: a file is empty")
    unfinished = target.with_name(f".unfinished.{target.name}.{os.getpid()}.{uuid.uuid4().hex}")
    try:
        with open(unfinished, "xb") as output:
            wrong = pipe(program, words, sources, output)
        if wrong:
            raise RuntimeError(f"{what}: {wrong}")
        os.replace(unfinished, target)
    finally:
        with contextlib.suppress(FileNotFoundError):
            os.remove(unfinished)


def run_all(client, words, steps):
    """Has the workers run the program, for each target over its files, and says when the last one is done."""
    start = time.monotonic()
    # No future outlives its answer: a lost worker's finished tasks are not done again, since their files are there.
    done = as_completed([client.submit(run, PROGRAM, words, sources, target, pure=False) for target, sources in steps], with_results=True)
    for future, _ in done:
        # Without the scheduler all futures are cancelled, and none raises an error.
        if future.status != "finished":
            raise RuntimeError(f"{words[0]}: a run was {future.status}: is the scheduler there?")
    missing = [str(target) for target, _ in steps if not target.is_file()]
    if missing:
        raise RuntimeError(f"{words[0]}: {missing[0]} was not written")
    print(f"{words[0]}: {len(steps)} runs, {time.monotonic() - start:.1f} seconds", flush=True)


def merge_all(client, files, folder, dictionary):
    """Has the workers merge the dictionaries in their order, FAN at a time, level by level, until there is one."""
    level = 1
    while len(files) > FAN:
        groups = [files[at:at + FAN] for at in range(0, len(files), FAN)]
        files = [folder / f"level{level}.{number}" for number in range(len(groups))]
        run_all(client, ["merge"], list(zip(files, groups)))
        level += 1
    run_all(client, ["merge"], [(dictionary, files)])


def names_of(parts):
    """The names of the parts in their order."""
    names = sorted((path.name for path in parts.iterdir()), key=os.fsencode)
    hidden = [name for name in names if name.startswith(".")]
    if hidden or not names:
        raise RuntimeError(f"{parts}: {f'the name {hidden[0]} begins with a dot' if hidden else 'there are no parts'}")
    return names


def main(scheduler, parts, out):
    names = names_of(parts)
    columns, dictionaries, merged, codes = (out / name for name in ("columns", "dictionaries", "merged", "codes"))
    for folder in (columns, dictionaries, merged, codes):
        folder.mkdir(parents=True)
    dictionary = out / "dictionary"
    with Client(scheduler) as client:
        run_all(client, ["encode", "--binary"], [(columns / name, [parts / name]) for name in names])
        run_all(client, ["dictionary"], [(dictionaries / name, [columns / name]) for name in names])
        merge_all(client, [dictionaries / name for name in names], merged, dictionary)
        run_all(client, ["recode", "--binary"], [(codes / name, [dictionary, columns / name]) for name in names])


if __name__ == "__main__":
    if len(sys.argv) != 4:
        sys.exit("usage: encode.py SCHEDULER PARTS OUT")
    try:
        # Of a part `-` in the folder `.` cat would read its input.
        main(sys.argv[1], Path(sys.argv[2]).absolute(), Path(sys.argv[3]).absolute())
    except (OSError, RuntimeError) as fault:
        sys.exit(str(fault))
    except KilledWorker as fault:
        sys.exit(f"a run was given up, since it lost its worker again and again; is there memory for it? {fault}")
