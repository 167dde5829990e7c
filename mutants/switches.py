"""Mutants of a crate in one build: each is on where its own tests or cases run, and nowhere else.

A test runs in a process of its own, whose first word is the test's name. So a function that mutants change has their bodies beside its own, and asks
for that word. Each test is there twice, once by a name for which no mutant is on: it has to pass by that, in the same build. A program of cases asks
for its own name instead: it gets another for each mutant.
"""
import contextlib
import os
import re

from edits import Unfit
from copies import texts_with
from holes import bodies
from common import read, used_crates

# Added to the crate's root: whether the process's word of this number is this.
ASKS = """
fn has_word(number: usize, wanted: &str) -> bool {
    let mut word = [0u8; 256];
    let length = os::arg(number, &mut word);
    &word[..length] == wanted.as_bytes()
}
"""


def parts_of(folder, file, text):
    """The text of a file of the crate in the folder, cut before and after the body of each function."""
    found, at = [], 0
    for _, start, end in bodies(folder, file, text):
        found += [text[at:start], text[start:end]]
        at = end
    return [*found, text[at:]]


def is_of_bodies(edit, copy):
    """Whether the mutant can be applied to the copy of the tree, and changes bodies alone."""
    folder = os.path.join(copy, "crates", edit.crate)
    with contextlib.suppress(Unfit):
        own, other = (parts_of(folder, edit.file, text)[::2] for text in texts_with([edit], folder)[edit.file])
        return own == other
    return False


def program_with(edit, room):
    """The file by whose name a program in this folder runs with the mutant."""
    return os.path.join(room, edit.name)


def switched(edits, folder, file, room):
    """The text of a file of the crate in the folder with the bodies of these mutants beside its own."""
    parts = parts_of(folder, file, read(f"{folder}/{file}"))
    found = list(parts)
    for edit in edits:
        others = parts_of(folder, file, texts_with([edit], folder)[file][1])
        words = [(1, name) for _, name in edit.tests] or [(0, program_with(edit, room))]
        asks = " || ".join(f'crate::has_word({number}, "{word}")' for number, word in words)
        for number, other in enumerate(others):
            if other != parts[number]:
                found[number] = f" if {asks} {{{other}}} else {{{found[number]}}} "
    return "".join(found)


def texts_with_switches(edits, copy, room=""):
    """Of each file of the copy of the tree that these mutants of a crate change in a build of tests, or of a program in this folder, its text as it is and
    with them."""
    crate = edits[0].crate
    folder = os.path.join(copy, "crates", crate)
    root = next(file for file in ("src/lib.rt", "src/main.rt") if os.path.isfile(f"{folder}/{file}"))
    listed = read(f"{copy}/crates.txt")
    uses = " os" * ("os" not in used_crates(listed)[crate])
    texts = {"crates.txt": (listed, re.sub(rf"^{crate}\b.*", rf"\g<0>{uses}", listed, flags=re.MULTILINE))}
    for file in {root, *(edit.file for edit in edits)}:
        text = switched([edit for edit in edits if edit.file == file], folder, file, room)
        texts[f"crates/{crate}/{file}"] = (read(f"{folder}/{file}"), text + ASKS * (file == root))
    return texts
