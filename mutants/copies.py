"""Copies of the tree in which mutants are tried, mutants in the files that they change, and what came of each."""
import contextlib
import enum
import glob
import os
import shutil
import tempfile
from dataclasses import dataclass

from edits import HERE, Edit, Unfit, of_heir, places, proof_files
from holes import with_holes
from common import copy_sources, listed_files, module_in, read, write


def link(source, target):
    """Gives the file a second name, or copies it where it can't have one. rt replaces such a file, and changes none."""
    try:
        os.link(source, target)
    except OSError:
        shutil.copy2(source, target)


def give_kept(crate, folder):
    """Gives what rt kept of the crate's proofs in this tree to the copy of the crate."""
    kept = f"{HERE}/crates/{crate}/out/incremental"
    if os.path.isdir(kept):
        shutil.copytree(kept, os.path.join(folder, "out", "incremental"), copy_function=link, dirs_exist_ok=True)


@contextlib.contextmanager
def copy_of_tree():
    """A folder with the files of the tree and the libraries that were built in it, which goes afterwards."""
    with tempfile.TemporaryDirectory() as copy:
        for name in listed_files():
            if os.path.isfile(f"{HERE}/{name}"):
                os.makedirs(os.path.dirname(f"{copy}/{name}"), exist_ok=True)
                shutil.copy2(f"{HERE}/{name}", f"{copy}/{name}")
        copy_libraries(HERE, copy)
        yield copy


@contextlib.contextmanager
def copy_of_room(room, crate):
    """A folder with the sources of the room and the libraries below the crate, which `rt ci` has built in it. It may be at work there on others. The folder
    goes afterwards."""
    with tempfile.TemporaryDirectory() as copy:
        copy_sources(room, copy)
        give_built(room, copy, crate)
        yield copy


def copy_libraries(tree, copy):
    """Gives the libraries that were built in a tree to its copy."""
    for stamp in glob.glob(f"{glob.escape(tree)}/crates/*/out/rlib/stamp"):
        built = os.path.dirname(stamp)
        shutil.copytree(built, os.path.join(copy, os.path.relpath(built, tree)), copy_function=link)


def give_built(room, copy, crate):
    """Gives the libraries below the crate that rt ci proved and built in the room to the copy of its sources, where `rt check` takes them: rt ci leaves no
    stamp that says that they are of this text."""
    # The module of rt that knows the crates of a tree, from the folder of the command.
    rt = module_in(f"{os.path.dirname(os.path.realpath(shutil.which('rt')))}/rtlib.py", "rtlib")
    for library in {other.name: other for other in rt.crates_below(copy)}[crate].below():
        built = os.path.join(room, os.path.relpath(library.rlib, copy))
        if not os.path.isdir(built):
            raise Unfit(f"{library.name} was not proved and built in {room}")
        shutil.copytree(built, library.rlib, copy_function=link)
        write(f"{library.folder}/out/rlib/stamp", library.stamp())


class Outcome(enum.Enum):
    """What came of a mutant."""

    BY_A_GOAL = "refused: a goal of its own fails"
    BY_LITTLE = "refused by little: the old proof no longer fits"
    BY_A_TEST = "refused by a test or a case alone"
    LET_THROUGH = "LET THROUGH"
    WAITS = "waits for a check in which what it calls is proved"
    NOT_TRIED = "NOT TRIED: it does not compile, or rt did not judge it"


REFUSED = (Outcome.BY_A_GOAL, Outcome.BY_LITTLE, Outcome.BY_A_TEST)


@dataclass
class Result:
    """What came of a mutant, and what said so: rt's words on the function, or the test or case."""

    edit: Edit
    outcome: Outcome
    by: str = ""


def tell(results):
    """Prints each result but of those that wait, and returns them all."""
    for result in results:
        if result.outcome is not Outcome.WAITS:
            print(f"  {result.edit.crate}/{result.edit.name}: {result.outcome.value}", flush=True)
    return results


def end_of(said):
    """The last lines of what a command said."""
    return "\n".join(said.split("\n")[-40:])


def texts_with(edits, folder):
    """Of each file that the mutants change, its text as it is and with all of them, or None where there is no such file."""
    texts = {}
    for file in {edit.file for edit in edits}:
        whole = read(f"{folder}/{file}")
        changes = sorted((*place, edit.name) for edit in edits if edit.file == file for place in places(edit, whole))
        for first, second in zip(changes, changes[1:]):
            if second[0] < first[1]:
                raise Unfit(f"{first[3]} and {second[3]} change the same text of {file}")
        text = whole
        for start, end, new, _ in reversed(changes):
            text = text[:start] + new + text[end:]
        texts[file] = (whole, text)
    for edit in edits:
        texts |= proofs_with(edit, folder)
    return texts


def proofs_with(edit, folder):
    """Of each proof file that the mutant takes from its function and gives to another, its text as it is and afterwards."""
    texts = {}
    for file in proof_files(edit, folder):
        whole = read(f"{folder}/{file}")
        texts[file] = (whole, None)
        if edit.heir != "none":
            path, text = of_heir(edit, file, whole)
            texts[path] = (None, text)
    return texts


def put(path, text):
    """Writes the file, in a folder that may be new, or removes it, with a folder that is empty then."""
    if text is not None:
        write(path, text)
        return
    os.remove(path)
    with contextlib.suppress(OSError):
        os.rmdir(os.path.dirname(path))


def applied(edits, folder, functions=()):
    """The crate's files with the mutants, and afterwards as they were. If functions are named, the others have holes."""
    texts = texts_with(edits, folder)
    return changed(with_holes(folder, functions, texts) if functions else texts, folder)


@contextlib.contextmanager
def changed(texts, folder):
    """The files in the folder with their second texts, and afterwards with their first."""
    for file, (_, text) in texts.items():
        put(os.path.join(folder, file), text)
    try:
        yield
    finally:
        for file, (whole, _) in texts.items():
            put(os.path.join(folder, file), whole)
