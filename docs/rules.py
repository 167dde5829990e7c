"""Rules of `docs/check` on the code: the list of public calls that ensure nothing, a mutant for each public function, and what
`lasso` passes on.

- docs/CONTRACTS.md has the public calls that ensure nothing, between the lines `<!-- made of the calls that ensure nothing
  -->` and `<!-- made until here -->`. `docs/check --write` writes that list.
- A public function with an `ensures` has a mutant (`mutants/*.edits`) that names it in its `function:` line, or, if it has
  no such line, that changes it first. A function of a trait without a body needs one of some `impl` of that
  trait. A law, whose body is empty, has no code that could be wrong, and needs none.
- A line `untried:` in `mutants/CRATE.edits` names a function that has none. One that has a mutant, or does not exist, may
  not be named there.
- A definition that a clause of a public function cites is in a module that `lasso` passes on, if `lasso` passes on
  the function's module: so a caller that names `lasso` alone can write the contract.

A public call is one of these:

- a function that is `pub`, of a crate of crates.txt whose name begins with `lasso` (not `lasso_saving`, an example of a
  program): so a copy of the repository may have a caller's crates too;
- a function of a `pub` trait;
- a function of a trait's `impl` that has clauses of its own.

A function of a type or trait that is not `pub` is left out. `make reference` writes all public calls with their clauses.
"""
import itertools
import os
import re
import sys
import textwrap

HERE = os.path.dirname(os.path.dirname(os.path.abspath(__file__)))
sys.path[1:1] = [f"{HERE}/mutants", f"{HERE}/trials"]
import edits  # pylint: disable=wrong-import-position
from edits import sources  # pylint: disable=wrong-import-position
from common import missed, read  # pylint: disable=wrong-import-position

PAGE = "docs/CONTRACTS.md"
WIDTH = 110
PART = re.compile(r"(<!-- made of the calls that ensure nothing -->\n).*?(<!-- made until here -->)", re.DOTALL)
UNBROKEN = re.compile(r"`[^`]*`")
FRONT = "crates/lasso/src/lib.rt"
FRONT_SPECS = "crates/lasso/specs/Lib.antt"
PASSED_ON = re.compile(r"^pub use (lasso_\w+)::(\{[^}]*\}|\w+)", re.MULTILINE)
SPECS_PASSED_ON = re.compile(r"^pub use Rattle\.([\w.]+)", re.MULTILINE)
WORD = re.compile(r"[\w']+")


def title_of(item, call):
    """How a call is written, of a trait's `impl` with the trait."""
    if item.kind == "fn":
        return f"`{call.name}`"
    return f"`{item.owner}::{call.name}`" + (f" of `{sources.without_parameters(item.trait)}`" if item.trait else "")


def is_public(item, call, hidden):
    """Whether a function of an item is a public call. Types and traits that are not public are `hidden`."""
    if item.kind != "fn" and hidden & set(re.findall(r"\w+", f"{item.owner} {sources.without_parameters(item.trait)}")):
        return False
    return item.kind == "trait" or (bool(call.clauses) if item.trait else call.is_public)


def functions(root, crate):
    """The functions of a crate without those of tests, file by file in the order of their names, a module before its parts: of each its file, its
    item, and whether it is a public call."""
    modules = sorted(sources.modules_of(root, crate), key=lambda module: module.file.removesuffix(".rt").split("/"))
    declared = [item for module in modules for item in module.items if item.kind in ("struct", "enum", "trait")]
    hidden = {item.name for item in declared} - {item.name for item in declared if item.is_public}
    for module in modules:
        for item in module.items:
            yield from ((module.file, item, call, is_public(item, call, hidden)) for call in item.members)


def silent(root):
    """List items for the crates with public calls that ensure nothing: their titles."""
    for crate in sources.crates(root):
        titles = [title_of(item, call) for _, item, call, is_call in functions(root, crate) if is_call and not call.ensures()]
        if titles:
            yield filled(f"`{crate}`: {', '.join(titles)}", "- ", "  ")


def filled(words, first="", later=""):
    """Words in lines that are not too long, with what stands before them. What is in backquotes stays in one line."""
    words = UNBROKEN.sub(lambda kept: kept.group().replace(" ", "\0"), words)
    lines = textwrap.wrap(words, WIDTH, initial_indent=first, subsequent_indent=later, break_on_hyphens=False, break_long_words=False)
    return "\n".join(lines).replace("\0", " ")


def page(root):
    """The page with its list as the sources make it."""
    made = "\n" + "\n".join(silent(root)) + "\n"
    return PART.sub(lambda part: part.group(1) + made + part.group(2), read(f"{root}/{PAGE}"))


def page_faults(root):
    """Whether the list is not as the sources make it: its first line that differs."""
    text = read(f"{root}/{PAGE}")
    if not PART.search(text):
        yield f"{PAGE}: it has no made part"
    lines = itertools.zip_longest(text.splitlines(), page(root).splitlines(), fillvalue="no line")
    stale = ((number, made) for number, (line, made) in enumerate(lines, 1) if line != made)
    for number, line in itertools.islice(stale, 1):
        yield f"{PAGE}:{number}: not as the sources make it: {line} (docs/check --write writes it)"


def changed_by(root, edit):
    """Where in its file the functions are that an edit names, or that it changes first."""
    text = read(f"{root}/crates/{edit.crate}/{edit.file}")
    found = list(edits.functions_of(f"{root}/crates/{edit.crate}", edit.file, text))
    if edit.function:
        named, _ = edits.function_and_closure(edit.function.removeprefix(f"{edit.crate}::"))
        return [start for start, path in found if re.fullmatch(path, named)]
    end = text.find(edit.changes[0][0]) + len(edit.changes[0][0])
    return [start for start, _ in found if start < end][-1:]


def tried(root):
    """The file and the place of each function that a mutant is of."""
    edits.HERE = root
    found = set()
    for edit in edits.every_edit():
        # mutants/run --dry tells of one without its file.
        if not isinstance(edit, edits.Unfit) and edit.file.startswith("src/") and os.path.isfile(f"{root}/crates/{edit.crate}/{edit.file}"):
            found |= {(f"crates/{edit.crate}/{edit.file}", start) for start in changed_by(root, edit)}
    return found


def untried(root):
    """The public functions with an `ensures` that no mutant is of, each after its crate and its file."""
    every = [found for crate in sources.crates(root) for found in functions(root, crate)]
    places = tried(root)
    of_traits = {(sources.without_parameters(item.trait), call.name) for file, item, call, _ in every if (file, call.start) in places}
    for file, item, call, is_call in every:
        is_law = call.body is not None and not call.body.strip()
        is_by_impl = item.kind == "trait" and call.body is None and (item.name, call.name) in of_traits
        if is_call and call.ensures() and not is_law and not is_by_impl and (file, call.start) not in places:
            _, crate, path = file.split("/", 2)
            yield f"{crate} {path} {title_of(item, call).replace('`', '')}"


def mutant_faults(root):
    """The functions that lack a mutant, and the lines `untried:` that have to go."""
    lacking = list(untried(root))
    listed = [f"{crate} {name}" for crate in edits.crates_with_edits() for name in edits.untried_of(crate)]
    for line in lacking:
        if line not in listed:
            yield f"{line}: no mutant names this function (mutants/README.md)"
    for line in listed:
        if line not in lacking or listed.count(line) > 1:
            yield f"{line}: a line `untried:` of a function that has a mutant, or does not exist, or twice"


def modules_passed_on(root):
    """The modules of other crates that `lasso` names, as `lasso_parts/src/arena`."""
    for crate, names in PASSED_ON.findall(read(f"{root}/{FRONT}")):
        for name in WORD.findall(names):
            yield f"crates/{crate}/src/{name}"


def passing_faults(root):
    """The modules of definitions that public clauses cite, and that `lasso` doesn't pass on."""
    if not os.path.exists(os.path.join(root, FRONT)):
        return
    specs = SPECS_PASSED_ON.findall(read(f"{root}/{FRONT_SPECS}"))
    named = tuple(f"{module}{end}" for module in modules_passed_on(root) for end in (".rt", "/"))
    told = set()
    public = [found for crate in sources.crates(root) for found in functions(root, crate) if found[3] and found[0].startswith(named)]
    for file, item, call, _ in public:
        imports = sources.imports(read(f"{root}/{file}"))
        for word in WORD.findall(" ".join(clause.fact for clause in call.clauses)):
            name = imports.get(word, "")
            if name.startswith("lasso") and name not in told and not any(f"{name}.".startswith(f"{spec}.") for spec in specs):
                told.add(name)
                yield f"{FRONT_SPECS}: does not pass on {name}: {title_of(item, call)} cites {word}"


def faults(root):
    """What is wrong with the code below a folder, a line each. A folder without crates has none."""
    if os.path.exists(f"{root}/crates.txt"):
        yield from page_faults(root)
        yield from mutant_faults(root)
        yield from passing_faults(root)


# A small repository, its public calls with their clauses, and those that ensure nothing.
CALLS = {
    "crates.txt": "# A crate a line.\nlasso_names: core\nnames: lasso_names\n",
    "crates/lasso_names/src/lib.rt": "//! Names. And\n//! more.\n\n#[cfg(test)]\nmod tests;\nmod names;\n\npub fn none() {}\n\nfn own() {}\n",
    "crates/lasso_names/src/tests.rt": "pub fn tested() {}\n",
    "crates/lasso_more/src/main.rt": "//! More.\npub fn more() {}\n",
    "crates/lasso_names/src/names.rt": """//! Names.

pub trait Named<T: Copy>: Sized {
    ghost name: { ℕ };

    fn name(&self) -> [u8; 4]
        ensures { result ≡
            name | 1 };

    final fn rename(&self) {}
}

impl<'a, T: Into<Box<u8>>> Named<T> for &'a mut Names<T> {
    ghost name = { 1 };

    fn name(&self) -> [u8; 4]
        requires some { record { n = 1 } }
        ensures value { true }
    {
        own(|x| x)
    }

    fn rename(&self) {}
}

impl Named<u8> for Own {
    ghost name = { 1 };

    fn name(&self) -> [u8; 4]
        ensures value { true }
    {}
}

pub struct Names<T> {}

pub(crate) struct Own;

impl<T> Names<T>
where
    T: Copy,
{
    pub extern "C" fn len() -> usize
    where
        T: Copy,
        ensures* kept { sem }
        ensures value { true }
        ensures { LONG }
    {}

    pub(crate) fn inside() {}
}
""",
    PAGE: "# Contracts\n\n<!-- made of the calls that ensure nothing -->\n<!-- made until here -->\n",
}
FOUND_CALLS = [
    ("`none`", [], []),
    ("`Named::name`", [], ["result ≡ name | 1"]),
    ("`Named::rename`", [], []),
    ("`&mut Names::name` of `Named`", ["some"], ["value"]),
    ("`Names::len`", [], ["kept", "value", "LONG"]),
]
FOUND_SILENT = ["- `lasso_names`: `none`, `Named::rename`"]
# Of a change there its file, the old text, the new one, and words of the fault that is found then.
CHANGED_CALLS = (
    ("crates/lasso_names/src/names.rt", "        ensures* kept { sem }\n        ensures value { true }\n        ensures { LONG }\n", "", "`Names::len`"),
    ("crates/lasso_names/src/lib.rt", "fn own", "pub fn own", "`own`"),
    ("crates.txt", "\nnames:", "\nlasso_more:", "more"),
    (PAGE, "<!-- made of", "<!--", "no made part"),
    (PAGE, "`none`, ", "", "`none`, "),
)
# A small repository with mutants, and changes there.
MUTANTS = {
    "crates.txt": "lasso_low: core\nlasso: lasso_low\n",
    "crates/lasso_low/src/lib.rt": "//! Low.\npub mod arena;\n",
    "crates/lasso_low/src/arena.rt": """//! Arena.
ghost use Rattle.lasso_low.specs.Places.{HasPlace};

pub trait Sized {
    fn size(&self) -> u8
        ensures { result ≡ 1 };
}

impl Sized for u8 {
    fn size(&self) -> u8 {
        1
    }
}

pub fn law()
    ensures { HasPlace 1 }
{}

pub fn admits() -> bool
    ensures { HasPlace 1 }
{
    true
}
""",
    "mutants/lasso_low.edits": """# Two.

mutant: size
file: src/arena.rt
function: arena::U8Sized::size
old:         1
new:         2

mutant: admits
file: src/arena.rt
function: arena::admits
old:     true
new:     false
""",
    "crates/lasso/src/lib.rt": "//! All.\npub use lasso_low::{arena, more};\n",
    "crates/lasso/specs/Lib.antt": "pub use Rattle.lasso_low.specs.Places\n",
}
CHANGED_MUTANTS = (
    ("mutants/lasso_low.edits", "arena::admits", "arena::law", "arena.rt admits: no mutant"),
    ("mutants/lasso_low.edits", "U8Sized::size", "law", "Sized::size: no mutant"),
    ("mutants/lasso_low.edits", "# Two.", "untried: src/arena.rt admits", "has a mutant"),
    ("mutants/lasso_low.edits", "# Two.", "untried: src/arena.rt none", "does not exist"),
    ("crates/lasso/specs/Lib.antt", "Places", "Texts", "does not pass on lasso_low.specs.Places"),
)


def shown(call, kind):
    """The names of the clauses of a call, or their facts."""
    return [clause.name or " ".join(clause.fact.split()) for clause in call.clauses if clause.kind == kind]


def try_calls(root):
    """What is wrong with the calls and the list of the small repository."""
    found = [(title_of(item, call), shown(call, "requires"), shown(call, "ensures")) for _, item, call, is_call in functions(root, "lasso_names") if is_call]
    if found != FOUND_CALLS:
        yield f"the public calls are {found}"
    lines = list(silent(root))
    if lines != FOUND_SILENT:
        yield f"the calls that ensure nothing are {lines}"


def try_rules():
    """What the rules do not say of the small repositories."""
    calls = {**CALLS, PAGE: PART.sub(rf"\1\n{FOUND_SILENT[0]}\n\2", CALLS[PAGE])}
    yield from missed(calls, (), try_calls)
    yield from missed(calls, CHANGED_CALLS, page_faults)
    yield from missed(MUTANTS, CHANGED_MUTANTS, lambda root: [*mutant_faults(root), *passing_faults(root)])
