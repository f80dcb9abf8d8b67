"""What a source file (src/*.rt) declares: types with what they have, functions with their contracts, constants."""
import re

from antt import Declaration, code_lines, joined, tokens
from names import Names

FN = re.compile(r"^(pub )?(extern \"C\" )?fn (\w+)")
TYPE = re.compile(r"^(pub )?(struct|enum) (\w+)")
CONST = re.compile(r"^(pub )?(const) (\w+)")
CLAUSE = re.compile(r"(requires|ensures)\b")
LABEL = re.compile(r"\b(requires|ensures)\s+\w+\s*\{")
WORD = re.compile(r"\b(?:\w+::)*[A-Z]\w*")
USE = re.compile(r"(pub )?use ([\w:]+?)(?:::\{([^}]*)\})?;")


def block(lines):
    """How many lines a declaration takes: up to the end of the first bracket that it opens, or its semicolon."""
    depth = 0
    for k, line in enumerate(lines, 1):
        depth += line.text.count("{") - line.text.count("}")
        if depth == 0 and line.text.endswith(("}", ";", "},")):
            return k
    return len(lines)


def contract(lines):
    """The lines of a function up to its body."""
    for k, line in enumerate(lines):
        if line.text == "{":
            return lines[:k]
        if line.text.endswith("{") and not CLAUSE.match(line.text):
            return lines[:k + 1]
    return lines


def variants(lines):
    """The names of an enum's variants or of a struct's fields."""
    found = [re.match(r"(?:pub )?(\w+)\s*[:({,]", line.text) for line in lines[1:-1]]
    return [match.group(1) for match in found if match]


def items_of(lines):
    """The imports of the source itself, each up to its semicolon on one line."""
    text = joined(lines)
    return re.findall(r"(?<!ghost )\b(?:pub )?use [^;]*;", text)


class File:
    """The declarations of a file by name, each field and variant standing for its type; the imports; what it passes on."""

    def __init__(self, path, text):
        self.path = path
        self.declared = []
        lines = code_lines(text, "//")
        for k in range(len(lines)):
            self.declaration(lines[k:])
        used = [one for line in items_of(lines) for one in self.use(line)]
        self.uses = {name: path for name, path, _ in used}
        self.passed = {name: path for name, path, public in used if public}
        self.imports = [x[len("ghost "):].rstrip(";") for x in self.ghost_uses(lines)]
        self.names = {}
        for one in self.declared:
            self.names.update({member: one for member in one.members})
        self.names.update({one.name: one for one in self.declared})

    def declaration(self, lines):
        """What begins at the first of these lines, if anything does."""
        text = lines[0].text
        match = FN.match(text) or TYPE.match(text) or CONST.match(text)
        if not match:
            return
        kind, name, public = match.group(2), match.group(3), bool(match.group(1))
        if FN.match(text):
            one = Declaration(name, "fn", public, head=contract(lines))
        else:
            rows = lines[:block(lines)]
            members = variants(rows) if kind != "const" else []
            one = Declaration(name, kind, public, head=rows, members=members)
        one.file = self.path
        self.declared.append(one)

    @staticmethod
    def use(text):
        """Each name that a `use` brings, with its path, and whether the file passes it on."""
        match = USE.match(text)
        public, path, group = match.groups() if match else (None, "", None)
        names = [name.strip() for name in group.split(",")] if group else [path.split("::")[-1]]
        start = path if group else path.rpartition("::")[0]
        return [(name, f"{start}::{name}" if start else name, bool(public)) for name in names if name]

    @staticmethod
    def ghost_uses(lines):
        """The imports of definitions, each up to its semicolon."""
        text = joined(lines)
        return re.findall(r"ghost use [^;]*;", text)


def stated(one):
    """The lines of a function that give its parameters and its answer, and those of its contract."""
    at = next((k for k, line in enumerate(one.head) if CLAUSE.match(line.text)), len(one.head))
    return one.head[:at], one.head[at:]


def types_in(one):
    """The types that a declaration names: of an enum those that its variants hold."""
    text = joined(stated(one)[0])
    if one.kind == "enum":
        text = " ".join(re.findall(r"[({]([^(){}]*)[)}]", text.split("{", 1)[1]))
    return {word for word in WORD.findall(text) if word != one.name}


def names_in_contract(one):
    """The names of definitions that a contract cites, but for the function's own parameters."""
    signature, clauses = stated(one)
    names = Names(lambda word: False)
    said = LABEL.sub(r"\1 {", joined(clauses))
    names.text(tokens(said), set(re.findall(r"(\w+):(?!:)", joined(signature))) | {"self"})
    return names.used - {"requires", "ensures"}
