"""Which names a declaration of a file of specs/ or proofs/ uses, but for those that it binds itself."""
import re

from antt import CLOSING, OPENING, TYPES, at_top, items, joined, tokens

NO_NAME = re.compile(r"[\d.:=→×λ_]+$|(Type|let|in|where|module|pub|data|record|abbrev|unfoldable|⌜|⌝)$")


class Names:
    """Which names a text uses, but for those that it binds itself."""

    def __init__(self, is_constructor):
        self.is_constructor = is_constructor
        self.used = set()

    def text(self, words, bound=frozenset()):
        """All of it, with these names bound around it; answers what it binds in its turn."""
        self.words, self.at = words, 0
        return self.group(set(bound))

    def group(self, bound):
        """Up to the bracket that closes, or to the end. What is bound inside ends there or at a comma."""
        kept = set(bound)
        while self.at < len(self.words):
            word = self.words[self.at]
            self.at += 1
            if word in CLOSING:
                break
            if word in (",", ";"):
                bound = set(kept)
            elif word == "λ":
                bound |= self.until(".", bound)
            elif word in OPENING:
                bound |= self.bracket(bound)
            elif word == "let":
                bound |= self.bound_by_let(bound)
            else:
                self.use(word, bound)
        return bound

    def use(self, word, bound):
        """A use, unless it is bound, a projection, or the label of a field that is given."""
        label = self.words[self.at:self.at + 1] == ["="] and self.words[self.at - 2] in ("{", ";")
        if not (label or word in bound or word.startswith(".") or NO_NAME.match(word)):
            self.used.add(word)

    def until(self, end, bound):
        """The names up to this word, those of a λ; the types beside them are used."""
        names = set()
        while self.at < len(self.words) and self.words[self.at] != end:
            word = self.words[self.at]
            self.at += 1
            names |= self.bracket(bound | names, True) if word in OPENING else {word}
        self.at += 1
        return names

    def bracket(self, bound, binds=False):
        """What `(x y : A)` binds, and with `binds` also (x, y); what is in any other bracket is used."""
        start = self.at
        while self.at < len(self.words) and self.words[self.at] not in list("(){},;") + [":", "=", "."]:
            self.at += 1
        names = self.words[start:self.at]
        if self.words[self.at:self.at + 1] == [":"] and names:
            self.group(set(bound))
            return set(names)
        self.at = start
        if not binds:
            self.group(set(bound))
            return set()
        return self.pair()

    def pair(self):
        """All names up to the bracket that closes."""
        names, depth = set(), 1
        while depth:
            word = self.words[self.at]
            self.at += 1
            depth += (word in OPENING) - (word in CLOSING)
            names.add(word)
        return names

    def bound_by_let(self, bound):
        """The name behind a `let`, or those of the pair."""
        word = self.words[self.at]
        self.at += 1
        return self.bracket(set(bound), True) if word in OPENING else {word}

    def pattern(self, words):
        """What the left side of a clause binds: every name in it that is no constructor."""
        names = {word for word in words[1:] if word not in "(){},;" and not NO_NAME.match(word)}
        made = {word for word in names if self.is_constructor(word)}
        self.used |= made
        return names - made

    def clause(self, lines, bound):
        """A clause: its right side, with what its left side and its local definitions bind."""
        at = next((k for k, line in enumerate(lines) if line.text == "where"), len(lines))
        local = items(lines[at + 1:])
        bound = bound | {tokens(part[0].text)[0] for part in local}
        words = tokens(joined(lines[:at]))
        end = at_top(words)[1]
        bound |= self.pattern(words[:end])
        self.text(words[end + 1:], bound)
        for part in local:
            self.local(part, bound)

    def local(self, lines, bound):
        """A definition under `where`: a signature or a clause."""
        words = tokens(joined(lines))
        if at_top(words)[0] == ":":
            self.text(words[1:], bound)
        elif words[0] != "unfolding":
            self.clause(lines, bound)

    def members(self, lines, bound):
        """Constructors or fields, each with the names of those before it bound."""
        for part in items(lines):
            words = [word for word in tokens(joined(part)) if word != "pub"]
            self.text(words[1:], bound)
            bound = bound | {words[0]}


def used_by(one, whole, is_constructor):
    """The names that a declaration uses: in what states it, and, if whole, in what defines it."""
    names = Names(is_constructor)
    bound = set()
    for head in one.around:
        bound = names.text(tokens(joined(head)), bound)
    inside = names.text([word for word in tokens(joined(one.head)) if word != one.name], bound)
    if one.kind in TYPES:
        names.members(one.body, inside)
    elif whole:
        for lines in items(one.body):
            names.clause(lines, bound)
    return names.used - {one.name}
