"""Reads the sources: of each crate the modules, types and calls that a caller reaches, and the definitions that contracts name.

The sources are laid out by `rt fmt`: an item begins at the first column, a member of an item after four blanks, and
a line before it is its comment, its attribute, or blank.
"""
import dataclasses
import os
import re
import sys

sys.path.insert(1, f"{os.path.dirname(os.path.dirname(os.path.dirname(os.path.abspath(__file__))))}/trials")
from common import read, used_crates  # noqa: E402

# An example of a program.
LEFT_OUT = "lasso_saving"
IMPORT = re.compile(r"^ *(?:ghost )?use (?:Rattle\.)?([\w.]+?)\.(?:\{([^}]*)\}|(\w+))(?: as (\w+))?;?$", re.MULTILINE)
MODULE = re.compile(r"^(?:(pub )|pub\(\w+\) )?mod (\w+);", re.MULTILINE)
EXPORT = re.compile(r"^pub use (?:crate::|self::|super::)?([\w:]+?)(?:::)?(?:\{([^}]*)\}|(?<=::)(\w+))?;", re.MULTILINE)
ITEM = re.compile(
    r"^(?P<indent> {0,4})(?P<how>(?:pub(?:\(\w+\))? |const |unsafe |final |extern \"C\" |default )*)"
    r"(?P<kind>fn|struct|enum|trait|impl|type|const|static)\b *(?P<rest>.*)$"
)
USED = re.compile(r"^(?:pub )?use (lasso\w*)(?:::\w+)*?::(?:\{([^}]*)\}|(\w+));", re.MULTILINE)
CONSTRUCTOR = re.compile(r"^  ([A-Za-z][\w']*) :")
LEMMA = re.compile(r"^( *)pub ([\w'-]+) : ")
PASSED_ON = re.compile(r"^pub use Rattle\.([\w.]+)\.(\w+)(?: as (\w+))?$", re.MULTILINE)
GHOST = re.compile(r"^    ghost (?!use\b)(\w+)(?:[^;{]|\{[^}]*\})*;", re.MULTILINE)
VARIANT = re.compile(r"^    ([A-Z]\w*)\b", re.MULTILINE)
DEFINITION = re.compile(r"^(?:abbrev pub|unfoldable pub|pub record|pub data|pub|pub syntax) ([\w'◌≡]+)")
NAME = re.compile(r"[A-Za-z_][\w'-]*")
# The head of a clause, after the comment of the clauses from it on.
CLAUSE = re.compile(r"(?P<above>(?:\n *//[^\n]*)*)\s+(?P<kind>requires|ensures)(?P<star>\*?)(?: (?P<name>[\w-]+))? $")


@dataclasses.dataclass
class Clause:
    """What follows `requires` or `ensures` of a function: its name or none, and the fact. `above` is the comment before it;
    `is_of_loans` that a star stands there: it holds once what was lent is given back."""

    kind: str
    name: str
    fact: str
    above: str = ""
    is_of_loans: bool = False


@dataclasses.dataclass
class Call:
    """A function: its comment, its signature without clauses, its clauses, its body or None, and where in the file its line starts."""

    name: str
    docs: str
    signature: str
    clauses: list
    line: int
    is_public: bool
    body: str
    start: int

    def ensures(self):
        """The clauses that say what it ensures."""
        return [clause for clause in self.clauses if clause.kind == "ensures"]


@dataclasses.dataclass
class Item:
    """A type, trait, `impl`, constant or function of a module. `members` are the calls in its braces. `owner` is the type of an `impl`, or the
    trait, without parameters: `&mut Names`, of which `name` is `Names`."""

    kind: str
    name: str
    docs: str
    head: str
    body: str
    line: int
    is_public: bool
    trait: str = ""
    owner: str = ""
    members: list = dataclasses.field(default_factory=list)


@dataclasses.dataclass
class Module:
    """A file of code. `names` has the definition that each imported name of a clause means, `uses` the crate of each type it uses."""

    crate: str
    path: tuple
    file: str
    docs: str
    is_public: bool
    items: list
    names: dict
    exports: list
    uses: dict


@dataclasses.dataclass
class Definition:
    """A definition of a file of specs, or a lemma of proofs: its comment, its text, what the names of the file mean, and of a
    type its constructors."""

    key: str
    name: str
    docs: str
    text: str
    file: str
    line: int
    names: dict
    constructors: tuple = ()


def crates(root):
    """The libraries and programs, whose names begin with `lasso`, in the order of crates.txt: a copy of the repository may have a caller's crates."""
    return [name for name in used_crates(read(f"{root}/crates.txt")) if name.startswith("lasso") and name != LEFT_OUT]


def imports(text):
    """Of each name that the text imports from specs or proofs, the definition that it means."""
    names = {}
    for module, group, one, renamed in IMPORT.findall(text):
        for word in (group or one).split(","):
            word, _, other = word.strip().partition(" as ")
            if word:
                names[renamed or other or word] = f"{module}.{word}"
    return names


def comment_above(lines, at, mark):
    """The comment in the lines before this one, past attributes, and where it begins."""
    first = at
    while first > 0 and re.match(r" *(?:#\[|#!\[|\)\]|" + re.escape(mark) + r"(?: |$))", lines[first - 1]):
        first -= 1
    words = [line.strip() for line in lines[first:at] if line.strip().startswith(mark)]
    return "\n".join(word[len(mark) :].removeprefix(" ") for word in words)


def end_of_braces(text, start):
    """The place of the brace that closes the one before `start`."""
    depth = 1
    for brace in re.finditer(r"[{}]", text[start:]):
        depth += 1 if brace.group() == "{" else -1
        if depth == 0:
            return start + brace.start()
    raise ValueError(f"the braces do not end: {text[start:start + 60]!r}")


def signature_and_clauses(text, start):
    """A function's signature, its clauses, and the place of its body or of the `;` in the body's stead."""
    clauses, signature, at = [], None, start
    while True:
        opening = re.compile(r"\{|;$", re.MULTILINE).search(text, at)
        before = text[at : opening.start()]
        clause = CLAUSE.search(before)
        if signature is None:
            signature = text[start : at + clause.start() if clause else opening.start()].rstrip()
        if not clause or opening.group() == ";":
            return signature, clauses, opening.start()
        at = end_of_braces(text, opening.end()) + 1
        above = " ".join(line.strip().removeprefix("//").strip() for line in clause["above"].strip().split("\n"))
        fact = text[opening.end() : at - 1].strip()
        clauses.append(Clause(clause["kind"], clause["name"] or "", fact, above, bool(clause["star"])))


def undented(text, by):
    """The text with `by` blanks less before each line."""
    return "\n".join(line.removeprefix(" " * by) for line in text.split("\n"))


def call_at(text, lines, number, start, match):
    """The function whose line this is."""
    signature, clauses, place = signature_and_clauses(text, start)
    body = text[place + 1 : end_of_braces(text, place + 1)] if text[place] == "{" else None
    indent = len(match["indent"])
    name = re.match(r"[\w]+", match["rest"]).group()
    is_public = "pub " in match["how"]
    return Call(name, comment_above(lines, number, "///"), undented(signature.strip(), indent), clauses, number + 1, is_public, body, start)


def item_at(text, lines, number, start, match):
    """The item whose line this is, without its members."""
    end = re.compile(r"\{|;$", re.MULTILINE).search(text, start)
    head = text[start : end.start()].strip()
    body = text[end.end() : end_of_braces(text, end.end())] if end.group() == "{" else ""
    if match["kind"] == "impl":
        owner, trait = subject_of(head)
        name = re.sub(r"\bmut |&", "", owner)
    else:
        name, trait = re.match(r"\w+", match["rest"]).group(), ""
        owner = name
    is_public = match["how"].startswith("pub ")
    return Item(match["kind"], name, comment_above(lines, number, "///"), head, body, number + 1, is_public, trait, owner)


def without_parameters(words):
    """A type or trait without its parameters and lifetimes."""
    shorter = re.sub(r"<[^<>]*>|'\w+ ", "", words)
    return words if shorter == words else without_parameters(shorter)


def subject_of(head):
    """The type of an `impl`, and its trait or ''."""
    rest = head.removeprefix("unsafe ").removeprefix("impl").strip().replace("->", "")
    depth = 0
    if rest.startswith("<"):
        for at, sign in enumerate(rest):
            depth += (sign == "<") - (sign == ">")
            if depth == 0:
                rest = rest[at + 1 :]
                break
    rest = " ".join(re.split(r"\bwhere\b", rest)[0].split())
    trait, _, owner = rest.rpartition(" for ")
    return without_parameters(owner).strip(), trait.strip()


def items_of(text):
    """The items of a file in their order, each with its members."""
    lines = text.split("\n")
    found, start, inside = [], 0, None
    for number, line in enumerate(lines):
        match = ITEM.match(line)
        place = start
        start += len(line) + 1
        if line == "}":
            inside = None
        if not match or match["indent"] not in ("", "    "):
            continue
        if match["indent"] == "":
            if match["kind"] == "fn":
                call = call_at(text, lines, number, place, match)
                found.append(Item("fn", call.name, call.docs, call.signature, "", number + 1, call.is_public, members=[call]))
                inside = None
            else:
                inside = item_at(text, lines, number, place, match)
                found.append(inside)
                if not inside.body:
                    inside = None
        elif inside is not None and inside.kind in ("impl", "trait") and match["kind"] == "fn":
            inside.members.append(call_at(text, lines, number, place, match))
    return found


def exports_of(text):
    """The names that a module exports of others, each with the name it has there."""
    found = []
    for path, group, one in EXPORT.findall(text):
        for word in (group or one or path.rpartition("::")[2]).split(","):
            word, _, renamed = word.strip().partition(" as ")
            if word:
                base = path if group or one else path.rpartition("::")[0]
                found.append((base, word, renamed or word))
    return found


def used_in(text):
    """Of each name that a file uses of a crate of the repository, that crate."""
    return {word.strip(): crate for crate, group, one in USED.findall(text) for word in (group or one).split(",")}


def passed_on(root, crate):
    """Of each module of specs that a crate passes on to callers, the path that it has elsewhere."""
    listed = os.path.join(root, "crates", crate, "specs", "Lib.antt")
    found = PASSED_ON.findall(read(listed)) if os.path.isfile(listed) else ()
    return {f"{crate}.specs.{renamed or name}": f"{path}.{name}" for path, name, renamed in found}


def parts_of(item, form, mark):
    """The parts of an item that have a form, each with its name, comment, text and line of the item's body."""
    lines = item.body.split("\n")
    for match in form.finditer(item.body):
        number = item.body.count("\n", 0, match.start())
        yield match.group(1), comment_above(lines, number, mark), " ".join(match.group().split()), number


def ghosts_of(item):
    """What contracts see of a trait or of a type's `Model`."""
    return parts_of(item, GHOST, "//")


def variants_of(item):
    """The variants of an enum."""
    return parts_of(item, VARIANT, "///")


def modules_of(root, crate):
    """The modules of a crate, its root first, without those of tests."""
    folder = os.path.join(root, "crates", crate, "src")
    top = next(name for name in ("lib.rt", "main.rt") if os.path.isfile(os.path.join(folder, name)))
    waiting, found = [((), top, True)], []
    while waiting:
        path, name, is_public = waiting.pop(0)
        file = os.path.join(folder, name)
        text = read(file)
        docs = "\n".join(line[3:].removeprefix(" ") for line in text.split("\n") if line.startswith("//!"))
        relative = os.path.relpath(file, root)
        found.append(Module(crate, path, relative, docs, is_public, items_of(text), imports(text), exports_of(text), used_in(text)))
        tests = set(re.findall(r"#\[cfg\(test\)\]\n(?:pub )?mod (\w+);", text))
        home = "" if name == top else name.removesuffix(".rt") + "/"
        for how, module in MODULE.findall(text):
            if module not in tests:
                waiting.append(((*path, module), f"{home}{module}.rt", is_public and bool(how)))
    return found


def definitions_of(root, crate):
    """The definitions in a crate's specs, by their key: `crate.specs.Module.name`."""
    folder = os.path.join(root, "crates", crate, "specs")
    found = {}
    for here, _, files in os.walk(folder):
        for file in sorted(files):
            path = os.path.join(here, file)
            module = os.path.relpath(path, folder).removesuffix(".antt").replace(os.sep, ".")
            for one in definitions_in(read(path), f"{crate}.specs.{module}", os.path.relpath(path, root)):
                found[one.key] = one
    return found


def definitions_in(text, module, file):
    """The definitions of a file of specs."""
    lines = text.split("\n")
    names = imports(text)
    own = {match.group(1): f"{module}.{match.group(1)}" for match in map(DEFINITION.match, lines) if match}
    for number, line in enumerate(lines):
        match = DEFINITION.match(line)
        if not match:
            continue
        end = number + 1
        while end < len(lines) and lines[end].strip() and not DEFINITION.match(lines[end]):
            end += 1
        while lines[end - 1].startswith("--"):
            end -= 1
        name = match.group(1)
        docs = comment_above(lines, number, "--")
        made = constructors_in(lines[number:end]) if line.startswith("pub data ") else ()
        own.update({word: f"{module}.{word}" for word in made if word[0].isupper()})
        yield Definition(f"{module}.{name}", name, docs, "\n".join(lines[number:end]), file, number + 1, {**names, **own}, made)


def constructors_in(lines):
    """The constructors of a type that is defined in these lines."""
    return tuple(match.group(1) for match in map(CONSTRUCTOR.match, lines) if match)


def lemmas_of(root, crate):
    """The lemmas that a crate passes on to callers, by file: of each file its crate, name and comment, and the lemmas."""
    listed = read(os.path.join(root, "crates", crate, "proofs", "Lib.antt"))
    homes = [(crate, name) for name in re.findall(r"^pub mod (\w+)$", listed, re.MULTILINE)]
    homes += re.findall(r"^pub use Rattle\.(\w+)\.proofs\.(\w+)$", listed, re.MULTILINE)
    for home, name in homes:
        file = f"crates/{home}/proofs/{name}.antt"
        text = read(os.path.join(root, file))
        about = "\n".join(line[2:].removeprefix(" ") for line in text.split("\nuse ")[0].split("\n") if line.startswith("--"))
        yield home, name, about, list(lemmas_in(text, f"{home}.proofs.{name}", file))


def lemmas_in(text, module, file):
    """The public lemmas of a file of proofs, each after the parameters of its block."""
    lines, names, block = text.split("\n"), imports(text), ""
    for number, line in enumerate(lines):
        if line and not line.startswith((" ", "--")):
            block = line if line.startswith("module _ ") else ""
        match = LEMMA.match(line)
        if not match:
            continue
        indent, name = match.groups()
        end = number + 1
        while end < len(lines) and lines[end].startswith(indent + "  "):
            end += 1
        statement = "\n".join(([block] if block and indent else []) + lines[number:end])
        yield Definition(f"{module}.{name}", name, comment_above(lines, number, "--"), statement, file, number + 1, names)
