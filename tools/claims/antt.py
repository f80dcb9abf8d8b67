"""What a file of definitions and laws (specs/*.antt, proofs/*.antt) declares and imports, line by line."""
import re
from dataclasses import dataclass, field

TOKEN = re.compile(r"[(){},;]|[^\s(){},;]+")
# Before each field that is taken of a name, as twice in r.header.count.
FIELD = re.compile(r"(?<=[^.])(?=\.[^.])")
OPENING, CLOSING = "({", ")}"
TYPES = ("data", "record")


@dataclass
class Line:
    number: int
    indent: int
    text: str


@dataclass
class Declaration:
    """A name with the lines that state it (`head`) and those that define it (`body`, local definitions included)."""

    name: str
    kind: str
    public: bool
    file: str = ""
    head: list = field(default_factory=list)
    body: list = field(default_factory=list)
    members: list = field(default_factory=list)
    around: tuple = ()

    def lines(self, whole):
        """The numbers of its lines, and of those of the modules around it; unless whole, those that state it."""
        rows = self.head + (self.body if whole or self.kind in TYPES else [])
        return {line.number for part in (rows, *self.around) for line in part}


def code_lines(text, comment="--"):
    """The lines that hold code, without their comments."""
    cut = re.compile(r"(^|\s)" + re.escape(comment) + r".*$")
    rows = [Line(k, 0, cut.sub("", row).rstrip()) for k, row in enumerate(text.split("\n"), 1)]
    return [Line(x.number, len(x.text) - len(x.text.lstrip()), x.text.strip()) for x in rows if x.text.strip()]


def items(lines):
    """The statements of a block: each a line of the block's own indentation, with the deeper ones behind it."""
    found = []
    for line in lines:
        if found and line.indent > found[0][0].indent:
            found[-1].append(line)
        else:
            found.append([line])
    return found


def joined(lines):
    return " ".join(line.text for line in lines)


def tokens(text):
    """The words and brackets of a text; the dot behind the names of a λ is a word of its own, and so is each field that
    is taken of a name, with its dot."""
    found = []
    for word in TOKEN.findall(text):
        ends = len(word) > 1 and word.endswith(".") and not word.endswith("..")
        found += FIELD.split(word[:-1] if ends else word) + (["."] if ends else [])
    return found


def opened(lines):
    """The lines up to the first that ends in `where`, and those behind it."""
    at = next((k for k, line in enumerate(lines, 1) if line.text.split()[-1] == "where"), len(lines))
    return lines[:at], lines[at:]


def at_top(words):
    """The first of `:` and `=` outside all brackets, and its place."""
    depth = 0
    for k, word in enumerate(words):
        depth += (word in OPENING) - (word in CLOSING)
        if depth == 0 and word in (":", "="):
            return word, k
    return "", len(words)


class File:
    """The declarations of a file by name, each constructor and field standing for its type; and the imports."""

    def __init__(self, path, text):
        self.path = path
        self.declared = []
        self.imports = []
        self.block(items(code_lines(text)), ())
        self.names = {}
        for one in self.declared:
            self.names.update({member: one for member in one.members})
        self.names.update({one.name: one for one in self.declared})

    def block(self, statements, around):
        """The statements of a file or of a module, with the heads of the modules around them."""
        last = None
        for lines in statements:
            words = lines[0].text.split()
            kinds = [word for word in words[:2] if word != "pub"]
            if words[0] == "use":
                self.imports.append(joined(lines))
            elif words[0] == "module":
                head, body = opened(lines)
                self.block(items(body), around + (head,))
            elif kinds and kinds[0] in TYPES:
                self.add(self.type_of(lines, kinds[0], around))
            elif not (words[0] in ("unfolding", "mod") or words[0].startswith("infix") or words[:2] == ["pub", "mod"]):
                last = self.statement(lines, last, around)

    def add(self, one):
        one.file = self.path
        self.declared.append(one)
        return one

    def type_of(self, lines, kind, around):
        """A data type or a record, with the names of its constructors or fields."""
        head, body = opened(lines)
        words = tokens(joined(head))
        rows = [tokens(joined(part)) for part in items(body)]
        members = [next(word for word in row if word != "pub") for row in rows]
        return Declaration(words[words.index(kind) + 1], kind, words[0] == "pub", "", head, body, members, around)

    def statement(self, lines, last, around):
        """A signature begins a declaration; a clause belongs to the one that it names, or to the last."""
        words = tokens(joined(lines))
        if at_top(words)[0] == ":":
            marks = [word for word in words[:3] if word in ("pub", "abbrev", "unfoldable")]
            kind = next((mark for mark in marks if mark != "pub"), "plain")
            return self.add(Declaration(words[len(marks)], kind, "pub" in marks, head=lines, around=around))
        owner = next((one for one in reversed(self.declared) if one.name == words[0]), last)
        owner.body += lines
        return last
