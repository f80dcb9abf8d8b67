"""What the index at the head of Claims.antt says, entry by entry."""
import functools
import re

from sources import BEGIN

QUOTATION = re.compile(r"(?:(?<=[\s(])|^)'(.+?)'(?=[:,;.)]|$)")
BACKQUOTED = re.compile(r"`([^`]+)`")
FILE = re.compile(r"\(([\w./-]+\.(?:antt|rt))\)")
PATH = re.compile(r"[\w.-]+(?:/[\w.-]+)+|\b\w+\.(?:txt|md)\b")
HYPHENATED = re.compile(r"(?<![\w-])[a-z0-9]+(?:-[a-z0-9]+)+(?![\w-])")
WORD = re.compile(r"[,;:]\s+([A-Za-z]\w*)\s*(?=[,;]|$)")
ROWS = re.compile(r"\brows? (\d+)(?: (?:and|to) (\d+))?")
DEMAND = re.compile(r"DEMAND (\d):")
# What an entry says that names nothing, where there is nothing to name.
PHRASES = (
    "no statement on the product", "there is no such function", "no function; its place comes with request",
    "each contract that answers such an enum: those named next",
)
FIXES = [BACKQUOTED, PATH, WORD, HYPHENATED, ROWS, re.compile("|".join(PHRASES))]


class Entry:
    """An entry of the index: its text in one line, and the line of the file that each part of it is from."""

    def __init__(self):
        self.text = ""
        self.starts = []

    def add(self, number, text):
        self.text += " " if self.text else ""
        self.starts.append((len(self.text), number))
        self.text += text

    def line(self, at):
        return [number for start, number in self.starts if start <= at][-1]

    def take(self, pattern):
        """All that the pattern finds, with its place; it is blanked out, so that nothing else finds it."""
        found = list(pattern.finditer(self.text))
        for match in found:
            start, end = match.span()
            self.text = self.text[:start] + " " * (end - start) + self.text[end:]
        return [(match.start(), match.group(match.lastindex or 0)) for match in found]


def index_rows(text):
    """The lines of the index, behind the paragraph that says how it is read."""
    rows = list(enumerate(text.split("\n"), 1))
    begin = next(k for k, (_, row) in enumerate(rows) if row.startswith(BEGIN))
    first = next(k for k in range(begin, len(rows)) if rows[k][1] == "--")
    end = next((k for k in range(first, len(rows)) if not rows[k][1].startswith("--")), len(rows))
    return rows[first:end]


def entries(text):
    """The entries of the index: each begins behind `-- `, and goes on behind more spaces."""
    found = []
    for number, row in index_rows(text):
        if row.startswith("-- ") and row[3] != " ":
            found.append(Entry())
        if row[2:].strip():
            found[-1].add(number, row[2:].strip())
    return found


def unfixed(text, quoted):
    """The quotations behind which nothing is named, with their places; text is the entry's, these blanked out. Those
    with only a comma between them share what stands behind the last."""
    starts = [at for at, _ in quoted] + [len(text)]
    behind = [text[at + len(said) + 2:end] for (at, said), end in zip(quoted, starts[1:])]
    empty = [part.strip() != "," and not any(pattern.search(part) for pattern in FIXES) for part in behind]
    return [one for one, is_empty in zip(quoted, empty) if is_empty]


class Index:
    """What the index says: each name, path, row and quotation with its line; the quotations that nothing fixes; and
    the names of each demand."""

    def __init__(self, text):
        self.names, self.cited, self.paths, self.rows, self.quotations, self.unfixed = [], [], [], [], [], []
        self.demands = {}
        self.line = index_rows(text)[0][0]
        for entry in entries(text):
            if not entry.text.isupper():
                self.read(entry)

    def read(self, entry):
        at_root, demand = "root" in entry.text, DEMAND.match(entry.text)
        quoted = entry.take(QUOTATION)
        self.quotations += [(entry.line(at), said) for at, said in quoted]
        self.unfixed += [(entry.line(at), said) for at, said in unfixed(entry.text, quoted)]
        self.rows += [(entry.line(row.start()), int(k)) for row in ROWS.finditer(entry.text) for k in row.groups() if k]
        names = entry.take(WORD)
        self.cite(entry)
        self.paths += [(entry.line(at), path.rstrip("."), at_root) for at, path in entry.take(PATH)]
        names += entry.take(HYPHENATED)
        self.names += [(entry.line(at), name) for at, name in names]
        if demand:
            self.demands[demand[1]] = {name for _, name in names}

    def cite(self, entry):
        """Each name in backquotes with the file in the next brackets."""
        files = entry.take(FILE)
        for at, name in entry.take(BACKQUOTED):
            path = next((path for place, path in files if place > at), None)
            self.cited.append((entry.line(at), name, path))
        self.paths += [(entry.line(at), path, False) for at, path in files]


@functools.lru_cache(maxsize=None)
def read_head(head):
    return Index(head)


def index_of(text):
    """The index of a file that begins with it; only its head is read."""
    return read_head(text.split("\nuse ", 1)[0])
