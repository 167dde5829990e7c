"""Writes the pages of the reference from what `sources` read."""
import collections
import html
import json
import re

import markdown
from pygments import highlight
from pygments.formatters import HtmlFormatter
from pygments.lexers.c_cpp import CLexer
from pygments.lexers.rust import RustLexer

import header
from links import GLOSSARY, GLOSSARY_URL, THREADED, Links, Place, Scope, anchor, linked_to_glossary, page_of_type, shown_glossary, terms
from sources import ghosts_of, imports, read, variants_of

KINDS = ("struct", "enum", "trait", "type")
FORMATTER = HtmlFormatter(nowrap=True)
SEARCH_SUMMARY = 240
# A name in highlighted code that may be a type's.
TYPE_SHOWN = re.compile(r'(<span class="(?:n|nc|nb|kt)">)([A-Z]\w*)(</span>)')
# Words of examples that need an explanation where they stand.
IN_EXAMPLES = (
    ('<span class="n">rt</span>', "the runtime that main or a test receives: it gives memory, threads and output"),
    ('<span class="fm">assert!</span>', "in a test, as assert!(rt; c): the test fails if c is false"),
)
# The files of a type's calls that come first on its page, by what a caller does; then the others as they are in the sources.
ORDER = ("makers", "from_static", "interning", "looking", "batches", "filling", "now", "changes", "limits", "walking", "plain")
# A list of calls is put before pages with this number of them or more.
MANY_CALLS = 4
HEADING = re.compile(r'<h2>(?P<group>.*?)</h2>|<section class="call" id="(?P<place>[^"]*)"><h3><a [^>]*>(?P<name>.*?)</a>', re.DOTALL)
FIELD = re.compile(r"^(?:    ///.*\n)*    pub (?!ghost).*,$", re.MULTILINE)
EXAMPLES = "lasso_guide"
LEMMAS = "lemmas.html"
C_CRATE = "lasso_c"
# The page that also has what the header for C says.
HEADER_PAGE = f"module.{C_CRATE}.html"
# The head of a page of the library for C.
OF_C = re.compile(rf'<p class="path">{C_CRATE}</p>|</small> {C_CRATE}(?:::|$)')


def code(text):
    """Rattle code with the colours of Rust."""
    return highlight(text, RustLexer(stripnl=False), FORMATTER)


def prose(text, level=4):
    """The HTML of a comment in Markdown, whose headings begin at a level of the page's."""
    shown = markdown.markdown(text, extensions=["fenced_code", "codehilite", "tables"], extension_configs={"codehilite": {"guess_lang": False}})
    for word, said in IN_EXAMPLES:
        shown = shown.replace(word, f'<abbr title="{said}">{word}</abbr>')
    return re.sub(r"<(/?)h([1-6])>", lambda tag: f"<{tag[1]}h{min(6, int(tag[2]) + level - 1)}>", shown)


def first_sentence(text):
    """The first sentence of a comment, without marks."""
    words = " ".join(text.split("\n\n")[0].split()).replace("`", "")
    return re.split(r"(?<=\.) ", words)[0]


# A line of the search. `task` has what a reader may want of a call.
Entry = collections.namedtuple("Entry", "name kind url summary task", defaults=("",))


class Reference:
    """All that the pages link to: modules, types and definitions with their pages."""

    def __init__(self, root, modules, definitions, passed_on, lemmas, std_words, tasks):
        self.root = root
        self.modules = modules
        self.definitions = definitions
        self.lemmas = lemmas
        self.tasks = tasks
        self.exports = self.exported()
        self.types = self.reachable_types()
        self.links = Links(definitions, passed_on, std_words, self.types, dict(self.places()))
        self.entries = []
        self.header = header.parts_of(read(f"{root}/{header.SOURCE}"))
        self.in_header = dict(self.places_of_header())
        _, self.introduction, self.reading, self.reading_c = re.split(r"<!--.*-->\n", read(f"{root}/docs/reference/texts.html"))

    def exported(self):
        """The names that reachable modules export, by the last module of their path."""
        found = set()
        for module in self.modules:
            if module.is_public:
                for path, name, _ in module.exports:
                    found.add((path.rpartition("::")[2], name))
        return found

    def is_reached(self, module, item):
        """Whether a caller can name the item."""
        last = module.path[-1] if module.path else module.crate
        return item.is_public and (module.is_public or (last, item.name) in self.exports)

    def reachable_types(self):
        """The types and traits that a caller can name: of each its module and item, by crate and name."""
        found = {}
        for module in self.modules:
            for item in module.items:
                if item.kind in KINDS and self.is_reached(module, item):
                    found[module.crate, item.name] = (module, item)
        return found

    def enter(self, name, kind, url, said, is_call=False):
        """Puts a line into the search, with the beginning of what is said."""
        self.entries.append(Entry(name, kind, url, said[:SEARCH_SUMMARY], self.task_of(name) if is_call else ""))

    # ---- links

    def places(self):
        """The parts of public types that clauses name, and the constants, by their keys."""
        for (crate, name), (module, item) in self.types.items():
            url = page_of_type(crate, name)
            for part, said, text, _ in ghosts_of(item) if item.kind == "trait" else ():
                yield f"{crate}.{name}.{part}", Place(said, text, f"{url}#ghost-{part}")
            for part, said, _, _ in variants_of(item) if item.kind == "enum" else ():
                yield f"{crate}.{name}.{part}", Place(" ".join(said.split()), f"{name}::{part}", f"{url}#variant-{part}")
        for page in self.modules:
            for _, item in self.constants_in(page) if page.is_public else ():
                yield f"{page.crate}.{item.name}", Place(" ".join(item.docs.split()), item.head, f"{page_of_module(page)}#{item.name}")

    def places_of_header(self):
        """Where the pages have each call, type and name of the header."""
        for page in self.modules:
            if page.crate == C_CRATE and page.is_public:
                yield from ((item.name, f"{page_of_module(page)}#{anchor(item.name)}") for _, item in self.functions_in(page))
        for name in (*self.header.inlines, *self.header.constants, *(status for status, _, _ in self.header.statuses)):
            yield name, f"{HEADER_PAGE}#{name}"
        for crate, name in self.types:
            if crate == C_CRATE and in_c(name) in self.header.types:
                yield f"struct {in_c(name)}", page_of_type(crate, name)

    def typed(self, text, module):
        """Code of a module with a link at each type that has a page, and an explanation at each of std."""
        def link(shown):
            home = self.links.home_of_type(module, shown[2])
            said = f'<a href="{page_of_type(home, shown[2])}">{shown[2]}</a>' if home else self.links.explained(shown[2], shown[2])
            return f"{shown[1]}{said}{shown[3]}"

        return TYPE_SHOWN.sub(link, code(text))

    def source_link(self, file, line):
        return f'<a class="source" href="../../{file}">{html.escape(file)}:{line}</a>'

    # ---- parts of pages

    def clauses(self, call, scope):
        """What a call asks of its caller, and what it promises."""
        parts = []
        for kind, title in (("requires", "The caller shows"), ("ensures", "Proved")):
            found = [clause for clause in call.clauses if clause.kind == kind]
            if not found:
                continue
            rows = []
            for clause in found:
                above = f'<p class="group">{html.escape(clause.above)}</p>' if clause.above else ""
                name = f'<span class="name">{html.escape(clause.name)}</span>' if clause.name else ""
                name += "<small>once what is lent is given back: </small>" if clause.is_of_loans else ""
                fact = " ".join(clause.fact.split())
                rows.append(f'<li>{above}{name}<code>{self.links.linked(fact, scope)}</code></li>')
            parts.append(f'<h4>{title}</h4><ul class="clauses">{"".join(rows)}</ul>')
        return "".join(parts)

    def call(self, module, item, call, url, owner):
        """A call with its comment, signature and clauses."""
        owner_of_parts = item.name if item.kind == "trait" else item.trait.partition("<")[0]
        scope = Scope({**module.names, **imports(item.body)}, module, owner_of_parts, item.head + call.signature)
        place = anchor(call.name) + ("" if not item.trait else "-" + anchor(item.trait))
        title = f"{owner}::{call.name}" if owner else call.name
        self.enter(title, "call", f"{url}#{place}", first_sentence(call.docs), is_call=True)
        of = f' <small>of <code>{html.escape(item.trait)}</code></small>' if item.trait else ""
        shown = (
            f'<section class="call" id="{place}"><h3><a href="#{place}">{html.escape(call.name)}</a>{of}</h3>{self.in_c(call)}'
            f'<pre class="signature">{self.typed(call.signature, module)}</pre>{prose(call.docs)}{self.clauses(call, scope)}'
            f"<p>{self.source_link(module.file, call.line)}</p></section>"
        )
        return linked_to_glossary(shown) if module.crate in THREADED else shown

    def in_c(self, call):
        """What the header says of a call of the library for C, or ''."""
        found = self.header.prototypes.get(call.name) if 'extern "C"' in call.signature else None
        return f"{self.declared_in_c(found)}<h4>The same call in Rattle</h4>" if found else ""

    def declared_in_c(self, found, shown_as="prototype"):
        """A part of the header with its comment."""
        return (
            f'<pre class="{shown_as}">{highlight(found.text, CLexer(), FORMATTER)}</pre>{header.shown(found.said, self.in_header)}'
            f"<p>{self.source_link(header.SOURCE, found.line)}</p>"
        )

    def page_of_header(self):
        """What the header says of every call, its statuses, its constants, and the calls that it defines."""
        rows = []
        for name, number, said in self.header.statuses:
            self.enter(name, "status in C", self.in_header[name], said)
            rows.append(f'<tr id="{name}"><td><code>{name}</code></td><td>{number}</td><td>{html.escape(said)}</td></tr>')
        parts = [f'<h2>What lasso.h says</h2>{header.shown(self.header.head, self.in_header)}<h2 id="statuses">Statuses</h2><table>{"".join(rows)}</table>']
        for title, kind, found in (("Constants", "constant in C", self.header.constants), ("Calls that lasso.h defines", "call", self.header.inlines)):
            parts.append(f"<h2>{title}</h2>")
            for name, one in found.items():
                self.enter(name, kind, self.in_header[name], first_sentence(one.said), is_call=True)
                parts.append(f'<section class="call" id="{name}"><h3><a href="#{name}">{name}</a></h3>{self.declared_in_c(one, "signature")}</section>')
        return "".join(parts)

    def with_help(self, body):
        """A page after its title, with how to read a clause, and with a list of its calls if there are many."""
        if '<section class="call"' not in body:
            return body
        parts, groups = list(HEADING.finditer(body)), []
        for part in parts:
            if part["name"]:
                groups = groups or [("", [])]
                groups[-1][1].append(f'<a href="#{part["place"]}">{part["name"]}</a>')
            else:
                groups.append((part["group"], []))
        lists = "".join(f"<li>{group} {', '.join(calls)}</li>" for group, calls in groups if calls)
        contents = f'<nav aria-label="Calls"><ul class="contents">{lists}</ul></nav>' if sum(len(calls) for _, calls in groups) >= MANY_CALLS else ""
        title, end, rest = body.partition("</h1>")
        reading = self.reading_c + self.reading if OF_C.search(title) else self.reading
        return f'{title}{end}{contents}<details class="reading"><summary>How to read a clause</summary>{reading}</details>{rest}'

    def calls_of_type(self, crate, name, url):
        """The calls of a type or trait, in the order of what a caller does, each file's under its comment."""
        parts = []
        for module in sorted((one for one in self.modules if one.crate == crate), key=order_of):
            found = []
            for item in module.items:
                if item.name != name or item.kind not in ("impl", "trait"):
                    continue
                for call in item.members:
                    if item.kind == "trait" or call.is_public or (item.trait and call.clauses):
                        found.append(self.call(module, item, call, url, name))
            if found:
                parts.append(f"<h2>{html.escape(first_sentence(module.docs))}</h2>" + "".join(found))
        return "".join(parts)

    def contract_view(self, crate, name):
        """What contracts see of a type: the ghost items of its `Model`, and of a trait the ghost members."""
        lines = []
        for module in self.modules:
            for item in module.items if module.crate == crate else ():
                if item.name == name and (item.trait == "Model" or item.kind == "trait"):
                    scope = Scope({**module.names, **imports(item.body)}, module, name if item.kind == "trait" else "", item.head)
                    for part, said, text, _ in ghosts_of(item):
                        above = f'<p class="group">{html.escape(said)}</p>' if said else ""
                        if item.kind == "trait":
                            self.enter(f"{name}::{part}", "in contracts", f"{page_of_type(crate, name)}#ghost-{part}", said)
                        lines.append(f'<li id="ghost-{part}">{above}<code>{self.links.linked(text, scope)}</code></li>')
        return f'<h2>What contracts see</h2><ul class="clauses">{"".join(lines)}</ul>' if lines else ""

    def page_of_types(self):
        for (crate, name), (module, item) in self.types.items():
            url = page_of_type(crate, name)
            self.enter(name, item.kind, url, first_sentence(item.docs))
            declared = self.typed(item.head + shown_body(item), module)
            if item.kind == "enum":
                declared = self.with_variants(declared, item, url, name)
            body = (
                f'<p class="path">{crate}</p><h1><small>{item.kind}</small> {name}</h1>'
                f"{self.type_in_c(crate, name)}"
                f'<pre class="signature">{declared}</pre>{prose(item.docs, 2)}'
                f"<p>{self.source_link(module.file, item.line)}</p>"
                f"{self.contract_view(crate, name)}{self.calls_of_type(crate, name, url)}"
            )
            yield url, name, self.with_help(body)

    def type_in_c(self, crate, name):
        """What the header says of a type of the library for C, or ''."""
        found = self.header.types.get(in_c(name)) if crate == C_CRATE else None
        if not found:
            return ""
        self.enter(f"struct {in_c(name)}", "type in C", page_of_type(crate, name), first_sentence(found.said))
        return f"<h2>In C</h2>{self.declared_in_c(found)}<h2>The same type in Rattle</h2>"

    def with_variants(self, declared, item, url, name):
        """The code of an enum with a place at each variant."""
        lines = declared.split("\n")
        for part, said, _, number in variants_of(item):
            lines[number] = f'<span id="variant-{part}"></span>{lines[number]}'
            self.enter(f"{name}::{part}", "variant", f"{url}#variant-{part}", first_sentence(said))
        return "\n".join(lines)

    def page_of_modules(self):
        for module in self.modules:
            if not module.is_public:
                continue
            name = "::".join((module.crate, *module.path))
            url = page_of_module(module)
            self.enter(name, "module", url, first_sentence(module.docs))
            of_header = self.page_of_header() if url == HEADER_PAGE else ""
            body = f"<h1><small>module</small> {name}</h1>{prose(module.docs, 2)}{of_header}{self.inside(module, url)}"
            yield url, name, self.with_help(body)

    def inside(self, module, url):
        """What a module has: its modules, types and functions, and for a guide the whole file."""
        parts = []
        elsewhere = self.exports_of(module)
        below = [one for one in self.modules if one.is_public and one.crate == module.crate and one.path[:-1] == module.path and one.path]
        types = [(crate, name) for (crate, name), (home, _) in self.types.items() if self.is_shown_in(home, module)]
        for title, rows in (
            ("Modules", [(page_of_module(one), one.path[-1], first_sentence(one.docs)) for one in below]),
            ("Types", [(page_of_type(crate, name), name, first_sentence(self.types[crate, name][1].docs)) for crate, name in types]),
        ):
            if rows:
                parts.append(f"<h2>{title}</h2>{table(rows)}")
        if elsewhere:
            parts.append(f"<h2>Passed on from other modules</h2>{table(elsewhere)}")
        constants = [self.constant(home, item, url) for home, item in self.constants_in(module)]
        if constants:
            parts.append("<h2>Constants</h2>" + "".join(constants))
        functions = [self.call(home, item, item.members[0], url, "") for home, item in self.functions_in(module)]
        if functions:
            parts.append("<h2>Functions</h2>" + "".join(functions))
        if module.crate == EXAMPLES and module.path:
            parts.append(f"<h2>The whole file</h2><pre>{self.typed(read(f'{self.root}/{module.file}'), module)}</pre>")
        return "".join(parts)

    def exports_of(self, module):
        """The types, modules and functions from elsewhere that a module exports, as rows of a table."""
        rows = []
        for path, name, _ in module.exports:
            crate = path.split("::")[0]
            home = next((one for one in self.modules if one.crate == crate and one.path == (*path.split("::")[1:], name)), None)
            if (crate, name) in self.types and crate != module.crate:
                rows.append((page_of_type(crate, name), name, first_sentence(self.types[crate, name][1].docs)))
            elif home and crate != module.crate:
                rows.append((page_of_module(home), name, first_sentence(home.docs)))
            else:
                rows += self.function_exported(module, path.split("::"), name)
        return rows

    def function_exported(self, module, path, name):
        """A function of another page that a module exports, as a row or none."""
        crate = path[0] if path[0] in {one.crate for one in self.modules} else module.crate
        for home in self.modules:
            if home.crate == crate and (home.path or (crate,))[-1] == path[-1]:
                page = next(one for one in self.modules if one.is_public and self.is_shown_in(home, one))
                for item in home.items if page is not module else ():
                    if item.kind == "fn" and item.name == name and self.is_reached(home, item):
                        yield f"{page_of_module(page)}#{anchor(name)}", name, first_sentence(item.docs)

    def is_shown_in(self, home, module):
        """Whether what a module defines is listed with the other: the nearest module above that a caller can name."""
        if home.crate != module.crate:
            return False
        path = home.path
        while not any(one.is_public and one.crate == home.crate and one.path == path for one in self.modules):
            path = path[:-1]
        return path == module.path

    def functions_in(self, module):
        """The functions of a module that a caller can name, also those that it exports of a module of its own."""
        for home in self.modules:
            if self.is_shown_in(home, module):
                for item in home.items:
                    if item.kind == "fn" and self.is_reached(home, item):
                        yield home, item

    def constants_in(self, module):
        """The public constants of a module, and those of modules of its own."""
        for home in self.modules:
            if self.is_shown_in(home, module):
                yield from ((home, item) for item in home.items if item.kind == "const" and item.is_public)

    def constant(self, home, item, url):
        """A constant with its comment."""
        self.enter(item.name, "constant", f"{url}#{item.name}", first_sentence(item.docs))
        return (
            f'<section class="constant" id="{item.name}"><pre>{self.typed(item.head + ";", home)}</pre>{prose(item.docs)}'
            f"<p>{self.source_link(home.file, item.line)}</p></section>"
        )

    def page_of_definitions(self):
        """A page for each file of specs."""
        files = collections.defaultdict(list)
        for key, one in self.definitions.items():
            files[key.rpartition(".")[0]].append(one)
        for module, found in files.items():
            url = f"words.{module.replace('.specs.', '.')}.html"
            parts = []
            for one in found:
                parts.append(self.definition(one, "word", one.name, url))
            yield url, module, f"<h1><small>words of contracts</small> {module}</h1>" + "".join(parts)

    def definition(self, one, kind, title, url):
        """A definition or a lemma with its comment and text."""
        place = anchor(title)
        self.enter(title, kind, f"{url}#{place}", " ".join(one.docs.split()))
        return (
            f'<section class="call" id="{place}"><h3><a href="#{place}">{html.escape(title)}</a></h3>'
            f"{prose(one.docs)}<pre>{self.links.linked(one.text, Scope(one.names))}</pre>"
            f"<p>{self.source_link(one.file, one.line)}</p></section>"
        )

    def page_of_lemmas(self):
        """The lemmas that a caller's proof cites."""
        parts = ["<h1>Lemmas</h1><p>What a caller's proof cites of the crate <code>lasso</code>. Its laws are functions.</p>"]
        for crate, name, about, found in self.lemmas:
            parts.append(f"<h2><small>{crate}</small> {name}</h2>{prose(about, 3)}")
            parts += [self.definition(one, "lemma", f"{name}.{one.name}", LEMMAS) for one in found]
        yield LEMMAS, "Lemmas", "".join(parts)

    def page_of_glossary(self):
        """The words of the documents."""
        text = read(f"{self.root}/{GLOSSARY}")
        self.entries += [Entry(name, "in the glossary", url, said[:SEARCH_SUMMARY]) for name, url, said in terms(text)]
        yield GLOSSARY_URL, "Glossary", shown_glossary(text)

    def front_page(self):
        """What a reader sees first: what lasso is, what one may want, and all crates."""
        tasks = [(self.url_of_call(call), call, task) for task, call in self.tasks]
        crates = [module for module in self.modules if not module.path]
        rows = [(page_of_module(one), one.crate, first_sentence(one.docs)) for one in crates]
        examples = [(page_of_module(one), one.path[0], first_sentence(one.docs)) for one in self.modules if one.crate == EXAMPLES and len(one.path) == 1]
        reading = [(GLOSSARY_URL, "glossary", "The words of comments, as shard, spine, event and pass.")]
        proving = [(LEMMAS, "lemmas", "What a caller's proof cites."), ("module.lasso.laws.html", "laws", "Laws that a caller's body calls.")]
        return (
            f"<h1>lasso: a proved string interner</h1>{self.introduction}<h2 id='reading'>How to read a clause</h2>{self.reading}<h2>I want to ..</h2>"
            f'<table>{"".join(f"<tr><td>{html.escape(task)}</td><td><a href={chr(34)}{url}{chr(34)}><code>{call}</code></a></td></tr>" for url, call, task in tasks)}</table>'
            f"<h2>Words</h2>{table(reading)}<h2>Callers to copy</h2>{table(examples)}<h2>To prove</h2>{table(proving)}<h2>Crates</h2>{table(rows)}"
        )

    def url_of_call(self, call):
        """Where a call stands that is written as `Type::call`, or a function or type by its name."""
        for entry in self.entries:
            if entry.name == call:
                return entry.url
        raise LookupError(f"tables.tsv: there is no public {call}")

    def task_of(self, call):
        """What a reader may want of a call, or ''."""
        return "; ".join(task for task, other in self.tasks if other == call)

    def search_index(self):
        return json.dumps([list(entry) if entry.task else list(entry[:4]) for entry in sorted(set(self.entries))], ensure_ascii=False)


def order_of(module):
    """Where a file's calls come on the page of their type: those of the type's own file first."""
    last = module.path[-1] if module.path else ""
    return ORDER.index(last) + 1 if last in ORDER else 0 if len(module.path) < 2 else len(ORDER) + 1


def in_c(name):
    """The name in C of a type of the library for C, as `lasso_text` of `LassoText`."""
    return re.sub(r"(?<=[a-z])(?=[A-Z])", "_", name).lower()


def shown_body(item):
    """Of an enum its variants, of a struct its public fields."""
    if item.kind == "enum":
        return " {" + item.body + "}"
    fields = FIELD.findall(item.body) if item.kind == "struct" else []
    return " {\n" + "\n".join(fields) + "\n}" if fields else ""


def page_of_module(module):
    return f"module.{'.'.join((module.crate, *module.path))}.html"


def table(rows):
    """A table of links with what each leads to."""
    cells = (f'<tr><td><a href="{url}"><code>{html.escape(name)}</code></a></td><td>{html.escape(said)}</td></tr>' for url, name, said in rows)
    return f"<table>{''.join(cells)}</table>"


def page(title, body, front="index.html"):
    """A whole page."""
    return f"""<!doctype html>
<html lang="en">
<head>
<meta charset="utf-8">
<meta name="viewport" content="width=device-width, initial-scale=1">
<meta name="color-scheme" content="light dark">
<title>{html.escape(title)}, lasso</title>
<link rel="stylesheet" href="site.css">
<script defer src="search.js"></script>
<script defer src="words.js"></script>
<script defer src="site.js"></script>
</head>
<body>
<header><a href="{front}">lasso</a>
<form role="search" onsubmit="return false"><label for="search">Search</label>
<input id="search" type="search" autocomplete="off" aria-controls="found" placeholder="a call, a type or a word: press /"></form></header>
<ol id="found" hidden></ol>
<main>{body}</main>
<div id="box" role="region" aria-label="Definition" hidden></div>
</body>
</html>
"""
