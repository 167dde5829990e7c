"""Reads the header of the library for C: of each call its prototype and the comment above it, and what else a program names."""
import collections
import html
import re

SOURCE = "crates/lasso_c/include/lasso.h"
# A comment, a prototype, a type, a constant, or a call that the header defines, each from the first column on.
PART = re.compile(
    r"^/\*(?P<said>.*?)\*/$|^(?:uint32_t|size_t|void) (?P<name>lasso_\w+)\([^{};]*\);$"
    r"|^(?:struct|enum) (?P<type>lasso\w*) \{.*?^\};$|^#define (?P<constant>LASSO_\w+) [^\n]+$"
    r"|^static inline (?P<inline>(?:uint32_t|size_t|void) (?P<called>lasso_\w+)\([^{};]*\))\n\{.*?^\}$",
    re.MULTILINE | re.DOTALL,
)
# A status: its name, its number, and what it means.
STATUS = re.compile(r"^ +(LASSO_\w+) = (\d+),? +/\* (.*?) \*/$", re.MULTILINE)
WORD = re.compile(r"\b(?:lasso_\w+|LASSO_[A-Z\d_]+|struct lasso\w*)\b")
HELPERS = re.compile(r"lasso_\w+_inline|lasso_read_from|lasso_write_to")

# A call, type or constant of the header: its comment as lines without marks, its text, and the line that it begins at.
Prototype = collections.namedtuple("Prototype", "said text line")
# What a program reads of the header. `head` is the comment for every call.
Header = collections.namedtuple("Header", "head prototypes types constants inlines statuses")


def plain(comment):
    """The lines of a comment without its marks."""
    lines = (re.sub(r"^ ?\*? ?", "", line).rstrip() for line in comment.strip().split("\n"))
    return "\n".join(lines).strip()


def parts_of(text):
    """The header's parts. A prototype without a comment right above it has that of the calls before it, a constant none."""
    head, said, end, found = "", "", 0, {"name": {}, "type": {}, "constant": {}, "called": {}}
    for part in PART.finditer(text):
        if part["said"] is not None:
            said, end = plain(part["said"]), part.end()
            head = head or said
            continue
        kind = part.lastgroup if part.lastgroup != "inline" else "called"
        if HELPERS.fullmatch(part[kind]):
            continue
        own = said if kind == "name" or not text[end : part.start()].strip() else ""
        shown = part["inline"] + ";" if kind == "called" else part[0]
        found[kind][part[kind]] = Prototype(own, shown, text.count("\n", 0, part.start()) + 1)
    return Header(head, found["name"], found["type"], found["constant"], found["called"], STATUS.findall(text))


def shown(comment, places):
    """The HTML of a comment: a paragraph that has columns stays in its lines. A word with a place leads there."""
    def link(word):
        return f'<a href="{places[word[0]]}">{word[0]}</a>' if word[0] in places else word[0]

    return "".join(paragraph(WORD.sub(link, html.escape(part))) for part in comment.split("\n\n"))


def paragraph(part):
    """The HTML of a paragraph, which may have lists of lines that begin with a dash."""
    if re.search(r"\S   +|^    ", part):
        return f'<pre class="said">{part}</pre>'
    shown, kind = "", ""
    for line in part.split("\n"):
        item = "li" if line.startswith("- ") or kind == "li" and line.startswith("  ") else "p"
        begins = item != kind or line.startswith("- ")
        shown += f"\0{item} {line.removeprefix('- ')}" if begins else f"\n{line}"
        kind = item
    tagged = re.sub(r"\0(li|p) ([^\0]*)", r"<\1>\2</\1>", shown)
    return re.sub(r"(?:<li>.*?</li>)+", lambda items: f"<ul>{items[0]}</ul>", tagged, flags=re.DOTALL)
