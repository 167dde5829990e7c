"""The mutants of `mutants/CRATE.edits`, as `run` reads them, whether each can be applied to the code as it is, and the functions of a
crate's source files, by the paths that rt gives them."""
import functools
import glob
import os
import re
import sys
from dataclasses import dataclass, field

HERE = os.path.dirname(os.path.dirname(os.path.abspath(__file__)))
sys.path[1:1] = [f"{HERE}/docs/reference", f"{HERE}/trials", f"{HERE}/cases/tool_replay"]
import sources  # pylint: disable=wrong-import-position
import made  # pylint: disable=wrong-import-position
from common import read, used_crates  # pylint: disable=wrong-import-position

BY_SOME_HISTORY = re.compile(r"\bIsPlain(?:Call|Filling)\b")
FUNCTION = re.compile(r"\bfn (\w+)")
CLOSURE = re.compile(r"(.*::|)fn::(.*)::(\w+)")
TYPE_OR_CRATE = re.compile(r"(?<![\w:])(?:([A-Z]\w*)(?=::|\(| \{)|(lasso\w*)::)")
KNOWN_EVERYWHERE = ("Some", "Ok", "Err", "Vec", "String", "Box", "Option")
EDITED = re.compile(r"(src|specs|proofs)/[\w/+-]+\.(rt|antt)")
EXAMPLES = "lasso_shared"
KEYS = ("file", "function", "old", "new", "proof", "test", "case", "example", "gate", "ends")
# The form of what names a crate, a function or a file: with another name a path would lead out of the copy that is tried.
FORMS = {"function": r"[\w:+]+", "proof": r"\w+", "test": r"\w+ [\w:]+", "case": r"\w+ \w+", "example": r"\w+ \w+"}
# What has to refuse a mutant that the gate gives to the prover.
BY_A_GOAL, BY_THE_PROVER = "a goal", "the prover"
GATE = re.compile(rf"(\w+)(?:, ({BY_A_GOAL}|{BY_THE_PROVER}))?")
TYPE = re.compile(r"^(?:pub(?:\(\w+\))? )?(?:struct|enum) (\w+)", re.MULTILINE)
BEFORE_HEAD = re.compile(r"(?:pub(?:\(\w+\))? |unsafe )*(?:impl|trait)\b")
MARKS = (("&mut ", "RefMut"), ("&", "Ref"), ("[", "Slice"))


class Unfit(Exception):
    """An edit that cannot be applied, or a tree that cannot be checked."""


@dataclass
class Edit:
    """A mutant: what it changes in which file, the path of its function, as rt says it, where it is of one, and what refuses it."""

    crate: str
    name: str
    file: str
    function: str
    changes: list
    tests: list = field(default_factory=list)
    cases: list = field(default_factory=list)
    examples: list = field(default_factory=list)
    ends: bool = True  # whether its test or its case is to end: it may wait for ever
    gate: str = ""  # what the gate asks of it: `a goal` or `the prover`, or `a run`; nothing if it doesn't try it
    heir: str = ""  # the function, beside its own, that gets the proof files of its own, or `none`; nothing if they stay


def path_of(crate):
    """The file with the mutants of a crate."""
    return f"{HERE}/mutants/{crate}.edits"


def untried_of(crate):
    """The public functions of the crate that are said to have no mutant: of each its file, and its name after that."""
    return re.findall(r"^untried: (.*)$", read(path_of(crate)), re.MULTILINE)


def sections_of(crate):
    """Of each mutant of the crate its name and the lines of its section."""
    found = []
    for line in read(path_of(crate)).split("\n"):
        key, _, rest = line.partition(": ")
        if key == "mutant":
            found.append((rest, []))
        elif line and not line.startswith(("#", "untried: ")):
            if not found:
                raise Unfit(f"{crate}.edits: a line before the first mutant: {line}")
            found[-1][1].append(line)
    return found


def edit_of(crate, name, lines):
    """The mutant that a section has."""
    values = {key: [] for key in KEYS}
    for line in lines:
        key, mark, rest = line.partition(":")
        if not mark or key not in values or rest and not rest.startswith(" "):
            raise Unfit(f"{crate}/{name}: this is no line of a mutant: {line}")
        values[key].append(rest[1:])
    if len(values["file"]) != 1 or len(values["function"]) > 1 or not values["old"] or len(values["old"]) != len(values["new"]):
        raise Unfit(f"{crate}/{name} is no mutant")
    if not EDITED.fullmatch(values["file"][0]):
        raise Unfit(f"{crate}/{name}: this is no file of a crate: {values['file'][0]}")
    for key, form in FORMS.items():
        if not all(re.fullmatch(form, words) for words in values[key]):
            raise Unfit(f"{crate}/{name}: a line `{key}:` has other words: {', '.join(values[key])}")
    function = f"{crate}::{values['function'][0]}" if values["function"] else ""
    tests, cases, examples = ([tuple(words.split(" ")) for words in values[kind]] for kind in ("test", "case", "example"))
    gate = gate_of(f"{crate}/{name}", values["gate"], bool(tests or cases))
    if values["ends"] not in ([], ["never"]) or values["ends"] and not tests and not cases:
        raise Unfit(f"{crate}/{name}: a line `ends:` says `never`, of a mutant with a test or a case")
    if len(values["proof"]) > 1 or values["proof"] and not function:
        raise Unfit(f"{crate}/{name}: one line `proof:` at most, of a mutant of a function")
    changes, heir = list(zip(values["old"], values["new"])), "".join(values["proof"])
    return Edit(crate, name, values["file"][0], function, changes, tests, cases, examples, not values["ends"], gate, heir)


def gate_of(name, lines, is_run):
    """What the gate asks of a mutant with these lines `gate:`, of which `is_run` says whether a test or a case refuses it."""
    if not lines:
        return ""
    told = GATE.fullmatch(lines[0])
    if len(lines) > 1 or not told or bool(told.group(2)) == is_run:
        raise Unfit(f"{name}: a line `gate:` has a name, and for the prover also `, {BY_A_GOAL}` or `, {BY_THE_PROVER}`: {lines[0]}")
    return told.group(2) or "a run"


def edits_of(crate):
    """The mutants of a crate. Raises Unfit for the first that can't be read."""
    return [edit_of(crate, name, lines) for name, lines in sections_of(crate)]


def crates_with_edits():
    """The crates that have mutants."""
    return sorted(os.path.basename(path).removesuffix(".edits") for path in glob.glob(f"{glob.escape(HERE)}/mutants/*.edits"))


def every_edit():
    """Each mutant of each crate, or the fault of one that cannot be read."""
    for crate in crates_with_edits():
        names = set()
        for name, lines in sections_of(crate):
            try:
                yield Unfit(f"{crate}/{name} comes twice") if name in names else edit_of(crate, name, lines)
            except Unfit as fault:
                yield fault
            names.add(name)


def places(edit, text):
    """Where in the file's text the edit puts what: (start, end, new text) of each change."""
    found = []
    for old, new in edit.changes:
        if text.count(old) != 1:
            raise Unfit(f"{edit.crate}/{edit.name}: in {edit.file} this stands {text.count(old)} times: {old}")
        start = text.index(old)
        found.append((start, start + len(old), new))
    return found


def text_of(edit):
    """The text of the file that the edit changes."""
    return read(f"{HERE}/crates/{edit.crate}/{edit.file}")


def path_in_crate(edit):
    """The path of the edit's function below its crate."""
    return edit.function.removeprefix(f"{edit.crate}::")


def proof_files(edit, folder):
    """The proof files in the crate's folder that don't stay with the edit's function."""
    path = path_in_crate(edit).replace("::", "/")
    found = glob.glob(f"{glob.escape(folder)}/proofs/{path}/*.antt") if edit.heir else []
    return sorted(os.path.relpath(file, folder) for file in found)


def of_heir(edit, file, text):
    """Where a proof file of the edit's function goes, and its text there, which names the heir."""
    path = path_in_crate(edit)
    name = path.rsplit("::", 1)[-1]
    own = re.escape(path.replace("::", ".").removesuffix(name))
    text = re.sub(rf"^(use Rattle\.{edit.crate}\.(?:specs\.contracts|proofs)\.{own}){name}(?=[. ])", rf"\g<1>{edit.heir}", text, flags=re.MULTILINE)
    folder, kind = os.path.split(file)
    return os.path.join(os.path.dirname(folder), edit.heir, kind), re.sub(rf"\b{name}_spec\b", f"{edit.heir}_spec", text)


def contract_before(edit, text):
    """What stands from the head of the function that the edit is of up to its first change."""
    end = places(edit, text)[0][0] + len(edit.changes[0][0])
    return text[max(text.rfind("fn ", 0, end), 0) : end]


def test_grounds(edit):
    """Refuses an edit of a clause that some history explains where it names neither an example nor a test; and an example that does not exist."""
    contract = contract_before(edit, text_of(edit)) if edit.file.startswith("src/") else ""
    if BY_SOME_HISTORY.search(contract) and not edit.examples and not edit.tests and not edit.cases:
        raise Unfit(f"{edit.crate}/{edit.name}: some history may explain this reply too: name an example that refutes it, a test or a case")
    for file, name in edit.examples:
        if not re.search(rf"^  pub {re.escape(name)} :", read(f"{HERE}/crates/{EXAMPLES}/specs/{file}.antt"), re.MULTILINE):
            raise Unfit(f"{edit.crate}/{edit.name}: there is no example {file}.{name}")


def used_by(crate):
    """The crates that this one uses."""
    return used_crates(read(f"{HERE}/crates.txt"))[crate]


def test_compiles(edit, text):
    """Refuses an edit that can't compile, since its new text names a type that its file does not, or a crate that its own does not use."""
    for _, new in edit.changes:
        for kind, crate in TYPE_OR_CRATE.findall(new):
            known = crate in used_by(edit.crate) if crate else kind in KNOWN_EVERYWHERE or re.search(rf"\b{kind}\b", text)
            if not known:
                raise Unfit(f"{edit.crate}/{edit.name}: {edit.file} knows no {kind or crate}")


def test_fit(edit):
    """Refuses an edit that cannot be applied."""
    text = text_of(edit)
    if edit.heir and not proof_files(edit, f"{HERE}/crates/{edit.crate}"):
        raise Unfit(f"{edit.crate}/{edit.name}: its function has no proof file that could go")
    if edit.heir not in ("", "none", *(name for _, new in edit.changes for name in FUNCTION.findall(new))):
        raise Unfit(f"{edit.crate}/{edit.name}: it makes no function {edit.heir}")
    if edit.file.startswith("src/"):
        test_compiles(edit, text)
    places(edit, text)


def function_and_closure(named):
    """The path of the function that has the closure of this path, and the closure's name; of a function its own path and no name."""
    found = CLOSURE.fullmatch(named)
    return (found.group(1) + found.group(2), found.group(3)) if found else (named, "")


def test_function(edit):
    """Refuses an edit of a function or closure that its file does not have, and one of another than it names."""
    text = text_of(edit)
    named, closure = function_and_closure(edit.function.removeprefix(f"{edit.crate}::"))
    (_, end, new), *_ = places(edit, text)
    before, after = [], []
    for start, path in functions_of(f"{HERE}/crates/{edit.crate}", edit.file, text):
        (before if start < end else after).append((start, re.fullmatch(path, named) is not None))
    if not any(fits for _, fits in before + after):
        raise Unfit(f"{edit.crate}/{edit.name}: {edit.file} has no function {named}")
    last, is_in = before[-1] if before else (0, False)
    if not is_in and named.rsplit("::", 1)[-1] not in FUNCTION.findall(new):
        raise Unfit(f"{edit.crate}/{edit.name}: in {edit.file} its first change is not one of {named}")
    if closure and not re.search(rf"\blet (?:mut )?{closure} = (?:move )?\|", text[last:end]):
        raise Unfit(f"{edit.crate}/{edit.name}: {named} has no closure {closure} before its first change")


def test_names(edit):
    """Refuses an edit that names a function, a test or a case which does not exist."""
    if edit.function and edit.file.startswith("src/"):
        test_function(edit)
    for crate, test in edit.tests:
        *modules, name = test.split("::")
        named = [path for path in files_with_tests(HERE, crate) if re.search(rf"\bfn {name}\b", read(path))]
        if not any(module in path for path in named for module in modules[:1] or [""]):
            raise Unfit(f"{edit.crate}/{edit.name}: {crate} has no test {test}")
    for program, case in edit.cases:
        if program == "tool_replay" and has_script(case):
            continue
        if not any(f"case {case}" in read(path).split("\n") for path in glob.glob(f"{glob.escape(HERE)}/cases/{program}/*.txt")):
            raise Unfit(f"{edit.crate}/{edit.name}: {program} has no case {case}")


def files_with_tests(tree, crate):
    """The files that may have tests of the crate: its sources, and those that .ci/tests adds to a program."""
    return glob.glob(f"{glob.escape(tree)}/crates/{crate}/src/**/*.rt", recursive=True) + glob.glob(f"{glob.escape(tree)}/cases/{crate}/modules/*.rt.in")


def has_script(name):
    """Whether tool_replay has a script of this name with replies."""
    return bool(made.worked(made.text_by_hand(), name)[0])


def fault_of(edit):
    """Why the mutant cannot be applied, or None."""
    try:
        if isinstance(edit, Unfit):
            raise edit
        test_fit(edit)
        test_names(edit)
        test_grounds(edit)
    except (Unfit, OSError) as fault:
        return fault
    return None


def look():
    """Prints each mutant that cannot be applied, and how many there are."""
    every = list(every_edit())
    faults = [fault for fault in map(fault_of, every) if fault]
    print(*faults, sep="\n", end="\n" if faults else "")
    in_gate = sum(bool(edit.gate) for edit in every if not isinstance(edit, Unfit))
    print(f"mutants: {len(every)}, of which the gate tries {in_gate}; {len(faults)} cannot be applied")
    return 1 if faults or not in_gate else 0


def module_of(file):
    """The path of a file's module as the beginning of its functions' paths."""
    parts = re.sub(r"^src/|\.rt$", "", file).split("/")
    return "".join(f"{part}::" for part in parts if part not in ("lib", "main"))


@functools.cache
def homes(crate):
    """The modules in which the crate, named by its folder, has a type of each name."""
    found = {}
    for path in glob.glob(f"{glob.escape(crate)}/src/**/*.rt", recursive=True):
        for name in TYPE.findall(read(path)):
            found.setdefault(name, []).append(module_of(path[len(crate) + 1 :]))
    return found


def list_of(text):
    """The parts of a list like `<'a, K: Key, Vec<u8>>`, without its lifetimes, and what follows the list."""
    found, depth = [""], 0
    for at, letter in enumerate(text):
        depth += (letter in "<([") - (letter in ">)]")
        if depth == 0:
            return [part.strip() for part in found if part and not part.strip().startswith("'")], text[at + 1 :].strip()
        if depth == 1 and letter == ",":
            found.append("")
        elif at:
            found[-1] += letter
    return [], text


def name_of(kind):
    """The name of a type or a trait without its path, and its arguments."""
    path, bracket, rest = kind.partition("<")
    return path.rsplit("::", 1)[-1].strip(), list_of(bracket + rest)[0] if bracket else []


def pattern_of(kind, own):
    """How rt writes a type or a trait in an `impl` of these parameters: `RefStr`, `RodeoSpur`, or `RodeoAnyAny`."""
    kind = re.sub(r"&'\w+ ", "&", kind)
    for mark, word in MARKS:
        if kind.startswith(mark):
            return word + pattern_of(kind[len(mark) :].rstrip("]"), own)
    name, arguments = name_of(kind)
    if name in own:
        return "(?:Any)?"
    return name[:1].upper() + name[1:] + "".join(f"(?:{pattern_of(argument, own)}|Any)" for argument in arguments)


def owner_pattern(crate, module, item):
    """How rt writes what has a function: a trait, or for an `impl` its type, and its trait unless that is Drop."""
    if item.kind == "trait":
        return module + item.name
    head = " ".join(BEFORE_HEAD.sub("", item.head, count=1).split()).replace("->", "")
    own, head = list_of(head) if head.startswith("<") else ([], head)
    own = [part.partition(":")[0].removeprefix("const ").strip() for part in own]
    trait, _, kind = head.split(" where ")[0].partition(" for ")
    name, arguments = name_of(kind or trait)
    if trait in ("", "Drop") or not kind and all(argument in own for argument in arguments):
        return f"(?:{'|'.join(homes(crate).get(name, [module]))}){name}"
    if kind:
        return module + pattern_of(kind, own) + pattern_of(trait, own)
    return module + r"\+".join([name, *arguments])


@functools.cache
def functions_of(crate, file, text):
    """Of each function of a file its place in the text, and a pattern of its path. The crate is named by its folder."""
    module, found = module_of(file), []
    for item in sources.items_of(text):
        of = module if item.kind == "fn" else f"{owner_pattern(crate, module, item)}::" if item.members else ""
        found += [(call.start, of + call.name) for call in item.members]
    return found
