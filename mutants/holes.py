"""A crate with the bodies and proofs of all functions but some taken away, so that a check of those proves no other: each other has a hole in place of its proof, and is taken by its contract."""
import glob
import os
import re

from edits import functions_of
import sources
from common import read

# A body that fits each result.
BODY = " loop {} "
HOLE = """use Rattle.{crate}.proofs.{path}.Statement.{{statement}}

pub {name}_spec : {{M : Type 1}} → statement M
{name}_spec = ?
"""
GROUP = re.compile(r"\(\?:([\w:]*)\)")
PROOF_FILES = ("Answers", "Invariants", "Proof")


def bodies(folder, file, text):
    """Of each function of a file of the crate in the folder that has a body, a pattern of its path, and where the body starts and ends."""
    for start, pattern in functions_of(folder, file, text):
        signature, _, place = sources.signature_and_clauses(text, start)
        # What a constant calls is run.
        if text[place] == "{" and "const fn " not in signature:
            yield GROUP.sub(r"\1", pattern), place + 1, sources.end_of_braces(text, place + 1)


def is_other(pattern, functions):
    """Whether the pattern is the one path of a function, and that is none of these. Where rt's name of a function is not known, it keeps its proof."""
    return re.fullmatch(r"[\w:]+", pattern) and pattern not in functions


def without_bodies(folder, file, whole, text, functions):
    """The text of a file of the crate without bodies, but those of these functions and those that are not as in its whole text; and the paths of the others."""
    same = {(pattern, whole[start:end]) for pattern, start, end in bodies(folder, file, whole)}
    parts, at, taken = [], 0, []
    for pattern, start, end in bodies(folder, file, text):
        if is_other(pattern, functions) and (pattern, text[start:end]) in same:
            parts += [text[at:start], BODY]
            at = end
            taken.append(pattern)
    return "".join([*parts, text[at:]]), taken


def proofs_of(folder, path):
    """The proof files of the function of this path, and of the blocks in it."""
    module, _, name = path.rpartition("::")
    own = os.path.join(folder, "proofs", *path.split("::"))
    of_blocks = os.path.join(folder, "proofs", *module.split("::"), "fn", name)
    found = [f"{own}/{kind}.antt" for kind in PROOF_FILES] + glob.glob(f"{glob.escape(of_blocks)}/**/*.antt", recursive=True)
    return [os.path.relpath(file, folder) for file in found if os.path.isfile(file)]


def with_holes(folder, functions, texts):
    """Of each file of the crate in the folder its text as it is, and with holes for all functions but these, whose paths begin with the crate.
    `texts` has the files that are to be changed, with both of their texts, and goes before."""
    crate = os.path.basename(folder)
    functions = {function.removeprefix(f"{crate}::") for function in functions}
    found = {}
    for path in glob.glob(f"{glob.escape(folder)}/src/**/*.rt", recursive=True):
        file = os.path.relpath(path, folder)
        whole, text = texts.get(file) or (read(path),) * 2
        text, taken = without_bodies(folder, file, whole, text, functions)
        found[file] = (whole, text)
        for other in taken:
            name = other.rpartition("::")[2]
            found |= {proof: (read(f"{folder}/{proof}"), None) for proof in proofs_of(folder, other)}
            hole = os.path.join("proofs", *other.split("::"), "Proof.antt")
            found[hole] = (found.get(hole, (None, None))[0], HOLE.format(crate=crate, path=other.replace("::", "."), name=name))
    return found | {file: both for file, both in texts.items() if file not in found}
