"""All crates of the repository, and what a name in one of their files stands for; the kit's libraries are left out."""
import glob
import os
import re

import antt
import names
import rt

PATH = re.compile(r"Rattle\.(\w+)\.(specs|proofs)\.(.+)")
# What the kit makes of the sources: each type, and each contract.
MADE = ("declared", "contracts")
KINDS = ("*/specs/*.antt", "*/proofs/*.antt", "*/src/*.rt")
# How an import began in an older Rattle.
OLDER = "use Rattle·"
TOLD = "is of an older Rattle, and its commit has the tools that count it"
USE = re.compile(r"use (\S+?)(?:\.\{(.*)\})?(?: as (\S+))?$")


def read(path):
    with open(path, encoding="utf-8") as file:
        text = file.read()
    if OLDER in text:
        raise LookupError(f"{path} {TOLD}")
    return text


def scope(file):
    """What a file imports: a name to where it is declared, and a prefix to the names behind it."""
    found = {}
    for text in file.imports:
        path, names, alias = USE.match(text).groups()
        for word in (names or "").split(","):
            name, _, short = word.strip().partition(" as ")
            found[short.strip() or name] = (path, name)
        if alias:
            found[alias] = (path, None)
    return found


class Repository:
    def __init__(self, root):
        self.files = {}
        crates = os.path.join(root, "crates")
        for name in sorted(name for kind in KINDS for name in glob.glob(kind, root_dir=crates)):
            made = antt.File if name.endswith(".antt") else rt.File
            self.files[name] = made(name, read(os.path.join(crates, name)))
        self.crates = {name.split("/")[0] for name in self.files}
        self.scopes = {name: scope(file) for name, file in self.files.items()}

    def imported(self, path, name):
        """The declaration that an import names, or None where it is one of the kit's."""
        match = PATH.match(path)
        if not match or match.group(1) not in self.crates:
            return None
        crate, where, rest = match.groups()
        first, *more = rest.split(".")
        if first in MADE:
            return self.in_source(crate, more[0])
        return self.declared(f"{crate}/{where}/{first}.antt", name)

    def in_source(self, crate, name):
        """The type or function of this name among a crate's sources."""
        files = [file for key, file in self.files.items() if key.startswith(f"{crate}/src/")]
        named = [one for file in files for one in file.declared if one.name == name]
        if not named:
            raise LookupError(f"{crate}: no type or function {name}")
        return named[0]

    def declared(self, path, name):
        passed = getattr(self.files.get(path), "passed", {}).get(name)
        if passed:
            return self.in_source(passed.split("::")[0], name)
        if path not in self.files or name not in self.files[path].names:
            raise LookupError(f"{path}: no declaration {name}")
        return self.files[path].names[name]

    def resolve(self, path, word):
        """What a word in this file stands for: one of its own declarations, or an import."""
        file, scope = self.files[path], self.scopes[path]
        for name in (word, f"◌{word}◌"):
            if name in file.names and path.endswith(".antt"):
                return file.names[name]
            if name in scope:
                return self.imported(*scope[name])
        prefix, dot, name = word.partition(".")
        if dot and prefix in scope:
            return self.imported(scope[prefix][0], name)
        return None

    def resolve_type(self, path, word):
        """What a type in a source file stands for: crate::Type, an import, or one of the file's own."""
        file = self.files[path]
        parts = file.uses.get(word, word).split("::")
        if len(parts) > 1:
            crate = path.split("/")[0] if parts[0] == "crate" else parts[0]
            return self.in_source(crate, parts[-1]) if crate in self.crates else None
        own = [one for one in file.declared if one.name == word and one.kind in ("struct", "enum", "const")]
        return own[0] if own else None

    def is_constructor(self, path, word):
        """Whether the word is a constructor or a variant in this file."""
        file, scope = self.files[path], self.scopes[path]
        for name in (word, f"◌{word}◌"):
            if name in file.names:
                return file.names[name].kind == "data" and file.names[name].name != name
            if name in scope:
                one = self.imported(*scope[name])
                return bool(one) and one.kind in ("data", "enum") and one.name != scope[name][1]
        prefix, dot, name = word.partition(".")
        return bool(dot) and prefix in scope

    def uses(self, one, whole):
        """The declarations that this one uses: of a function its contract, of a type all of it."""
        if one.file.endswith(".antt"):
            words = names.used_by(one, whole, lambda word: self.is_constructor(one.file, word))
            found = [self.resolve(one.file, word) for word in words]
        else:
            found = [self.resolve_type(one.file, word) for word in rt.types_in(one)]
            found += [self.resolve(one.file, word) for word in rt.names_in_contract(one)]
        return [other for other in found if other and other is not one]
