"""What the words of clauses and definitions lead to: a definition, a part of a type, or an explanation; and the page of the words of the documents,
with links to it from comments."""
import collections
import html
import re

import markdown

from sources import NAME

# Of a word that a box shows: what is said of it, its text, and its page.
Place = collections.namedtuple("Place", "said text url")
# Where a clause or a definition stands: the names that it imports, its module, the type or trait around it, and its head with the
# bounds of type parameters.
Scope = collections.namedtuple("Scope", "names module owner head", defaults=(None, "", ""))

TOKEN = re.compile(
    r'"(?:[^"\\\n]|\\.)*"|--[^\n]*|⟦.*?⟧(?:\.\w+)?|[A-Za-z_ℕ][\w\'-]*×?(?:\.[A-Za-z_][\w\'-]*)*'
    r'|\[\]|[^\w\s(){}\[\].,;"\'¬⟦⟧◌]+ₚ?|\S|\s+'
)
# What needs no import.
BUILT_IN = ("let", "in", "record", "if", "then", "else", "Some", "None", "Ok", "Err", "true", "false", "tt", "Type")
CONSTANT = re.compile(r"[A-Z][A-Z\d_]+")
OF_TRAIT = re.compile(r"(⟦.* as (\w+).*⟧)\.(\w+)")
GLOSSARY = "docs/GLOSSARY.md"
GLOSSARY_URL = "glossary.html"
# The words that lead from a comment to the glossary, and the crates whose comments have them.
LINKED = ("shard", "spine", "event", "pass", "snapshot", "history", "hint", "bucket")
THREADED = ("lasso_log", "lasso_shared")
TERM = re.compile(r"<li>\s*((?:<p>)?(?:<strong>[^<]*</strong>[^<:]*)+)")
# A word; after `would` it is no noun, as in `would pass the limit`.
WORD = re.compile(r"(?<!would )\b([a-z]+)\b")
PLAIN = re.compile(r"(<(a|code|pre|h\d)\b.*?</\2>|<[^>]*>)", re.DOTALL)


def anchor(name):
    return re.sub(r"[^\w-]", "_", name)


def page_of_type(crate, name):
    return f"type.{crate}.{name}.html"


def url_of_definition(key):
    """Where the page of a file of specs has a definition."""
    module, _, name = key.rpartition(".")
    return f"words.{module.replace('.specs.', '.')}.html#{anchor(name)}"


class Links:
    """All that words lead to. `places` has the parts of types by `crate.Type.part`, and constants by `crate.NAME`."""

    def __init__(self, definitions, passed_on, std_words, types, places):
        self.definitions = definitions
        self.passed_on = passed_on
        self.std_words = std_words
        self.types = types
        self.places = {**{key: Place(" ".join(one.docs.split()), one.text, url_of_definition(key)) for key, one in definitions.items()}, **places}
        self.constructors = {f"{key.rpartition('.')[0]}.{name}": key for key, one in definitions.items() for name in one.constructors}
        self.crates = {crate for crate, _ in types}
        self.traits = {name: set(NAME.findall(item.head)) for (_, name), (_, item) in types.items() if item.kind == "trait"}
        self.by_name = collections.defaultdict(list)
        for key in places:
            self.by_name[key.rpartition(".")[2]].append(key)

    def home_of_type(self, module, name):
        """The crate of a type that code of a module names, or None."""
        found = [crate for crate, other in self.types if other == name]
        for crate in (module.crate, module.uses.get(name)) if module else ():
            if crate in found:
                return crate
        return found[0] if len(found) == 1 else None

    def resolved(self, key):
        """The key at which an imported name is defined, past what passes it on."""
        for start, home in self.passed_on.items():
            if key.startswith(start + "."):
                key = home + key[len(start) :]
        if "declared" in key.split("."):
            crate, *parts = key.split(".")
            parts = [part for part in parts if part != "TheVariants"]
            for owner in reversed([part for part in parts if (crate, part) in self.types]):
                part = f"{crate}.{owner}.{parts[-1]}"
                return part if part in self.places else f"{crate}.{owner}"
            if f"{crate}.{parts[-1]}" in self.places:
                return f"{crate}.{parts[-1]}"
        return self.constructors.get(key, key)

    def shown_key(self, key, word):
        """A word that means what has this key."""
        key = self.resolved(key)
        if key in self.places:
            return self.shown_part(key, word)
        crate, _, name = key.partition(".")
        if (crate, name) in self.types:
            return f'<a href="{page_of_type(crate, name)}">{html.escape(word)}</a>'
        return html.escape(word) if crate in self.crates else self.explained(key.rpartition(".")[2], word)

    def explained(self, name, word):
        """A word of the standard library with its explanation, or the word alone."""
        shown = html.escape(word)
        if name not in self.std_words:
            return shown
        stop = ' tabindex="0"' if NAME.match(word) else ""
        return f'<abbr title="{html.escape(self.std_words[name])}"{stop}>{shown}</abbr>'

    def linked(self, text, scope):
        """The text of a clause or a definition, with a link or an explanation at each word that has one."""
        return "".join(self.linked_word(word, scope) for word in TOKEN.findall(text))

    def linked_word(self, word, scope):
        key = scope.names.get(word) or scope.names.get(f"◌{word}◌")
        if key:
            return self.shown_key(key, word)
        if word.startswith("⟦"):
            return self.linked_trait(word, scope)
        if not NAME.match(word):
            return self.explained(f"◌{word}◌" if f"◌{word}◌" in self.std_words else word, word)
        if "." in word:
            return self.linked_path(word, scope)
        return self.linked_bare(word, scope)

    def linked_bare(self, word, scope):
        """A name that nothing imports: of the trait around it, a constant, or built in."""
        if scope.module and f"{scope.module.crate}.{scope.owner}.{word}" in self.places:
            return self.shown_part(f"{scope.module.crate}.{scope.owner}.{word}", word)
        if CONSTANT.fullmatch(word) and scope.module:
            found = [key for key in self.by_name[word] if key.count(".") == 1]
            own = f"{scope.module.crate}.{word}"
            if own in found or len(found) == 1:
                return self.shown_part(own if own in found else found[0], word)
        return self.explained(word, word) if word in BUILT_IN else html.escape(word)

    def shown_part(self, key, word):
        """A word that a box shows."""
        return f'<a class="word" data-word="{html.escape(key)}" href="{self.places[key].url}">{html.escape(word)}</a>'

    def linked_path(self, word, scope):
        """A name with a path: a variant as `JsonError.Lasso`, a part of a trait as `K.key_at`, or a field as `found.texts`."""
        first, _, rest = word.partition(".")
        if first in scope.names and NAME.fullmatch(first):
            key = self.resolved(f"{scope.names[first]}.{rest}")
            return self.shown_part(key, word) if key in self.places else self.shown_key(scope.names[first], first) + html.escape("." + rest)
        home = self.home_of_type(scope.module, first)
        if home and f"{home}.{first}.{rest}" in self.places:
            return self.shown_part(f"{home}.{first}.{rest}", word)
        return f"{html.escape(first)}.{self.of_parameter(first, rest, scope)}" if first[0].isupper() else html.escape(word)

    def of_parameter(self, first, rest, scope):
        """What a trait has under a name, of a type parameter or of `Self`."""
        bounds = self.bounds(scope.head + (f" {scope.owner}" if first == "Self" else ""))
        for key in self.by_name[rest]:
            if key.count(".") == 2 and key.split(".")[1] in bounds:
                return self.shown_part(key, rest)
        return self.explained(rest.rpartition(".")[2], rest)

    def bounds(self, head):
        """The names in a head, and those in the heads of the traits among them."""
        found, waiting = set(), set(NAME.findall(head))
        while waiting:
            name = waiting.pop()
            found.add(name)
            waiting |= self.traits.get(name, set()) - found
        return found

    def linked_trait(self, word, scope):
        """A part of a trait for a type, as `⟦<Spur as Key>⟧.number`."""
        whole = OF_TRAIT.fullmatch(word)
        inner = whole[1] if whole else word
        shown = re.sub(r"[A-Za-z]\w*|.", lambda found: self.linked_type(found[0], scope), inner)
        if not whole:
            return shown
        found = [key for key in self.by_name[whole[3]] if key.split(".")[1] == whole[2]]
        return f"{shown}.{self.shown_part(found[0], whole[3]) if found else self.explained(whole[3], whole[3])}"

    def linked_type(self, word, scope):
        home = self.home_of_type(scope.module, word)
        return f'<a href="{page_of_type(home, word)}">{word}</a>' if home else self.explained(word, word)

    def words(self):
        """Of each word that a box shows what is said of it, its text, its page, and the words in its text that have a box."""
        numbers = {key: number for number, key in enumerate(self.places)}
        found = {}
        for key, place in self.places.items():
            one = self.definitions.get(key)
            inside = {self.resolved(one.names[word]) for word in set(TOKEN.findall(place.text)) if word in one.names} if one else set()
            found[key] = [*place, *sorted(numbers[other] for other in inside if other in numbers and other != key)]
        return found


def anchor_of_term(term):
    return "term-" + re.sub(r"\W+", "_", html.unescape(term).split(",")[0].strip())


def shown_glossary(text):
    """The glossary as a page, with a place for each word."""
    shown = markdown.markdown(text).replace('href="', 'href="../../docs/')
    return TERM.sub(lambda item: f'<li id="{anchor_of_term(re.search(r"<strong>([^<]*)", item[1])[1])}">{item[1]}', shown)


def terms(text):
    """Of each word its place and what is said of it."""
    for line in re.findall(r"^- (\*\*.*(?:\n  .*)*)", text, re.MULTILINE):
        said, _, meaning = " ".join(line.split()).partition(": ")
        name = re.match(r"\*\*(.*?)\*\*", said)[1]
        yield said.replace("*", ""), f"{GLOSSARY_URL}#{anchor_of_term(name)}", meaning.replace("*", "").replace("`", "")


def linked_to_glossary(body):
    """A page with a link to the glossary at the first of each of its words in a comment."""
    waiting = set(LINKED)

    def link(found):
        word = next((word for word in (found[1], found[1].removesuffix("s"), found[1].removesuffix("es")) if word in waiting), None)
        if not word:
            return found[0]
        waiting.remove(word)
        return f'<a class="term" href="{GLOSSARY_URL}#{anchor_of_term(word)}">{found[1]}</a>'

    def link_comment(comment):
        # Of each three parts the first is text, the second a tag with what it holds, and the third that tag's name.
        parts = PLAIN.split(comment[0])
        parts[::3] = [WORD.sub(link, text) for text in parts[::3]]
        return "".join(part for at, part in enumerate(parts) if at % 3 < 2)

    return re.sub(r"<p>.*?</p>", link_comment, body, flags=re.DOTALL)
