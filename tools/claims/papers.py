"""The papers' text, block by block and sentence by sentence, without its marks."""
import functools
import os
import re

SCOPE, REQUESTS = "01-scope.md", "02-change-requests.md"
# A full stop ends a sentence if another begins behind it.
SENTENCE = re.compile(r"(?:[^.]|\.(?! +[A-Z0-9\"]))+\.?")
# What stands before the text of an item, and before the last cell of a row.
MARK = re.compile(r"- (P )?|\|.*\| (?=[^|]+\|$)|")


def folded(text):
    """The text without the marks for bold and code, and with every white space one space."""
    return re.sub(r"\s+", " ", text.replace("**", "").replace("`", "")).strip()


def blocks(text):
    """The paragraphs, items of lists and rows of tables; no headings, no code, no head of a table."""
    for left_out in (r"^```.*?^```", r"^\|[^\n]*\n\|[-|]+$", r"^#[^\n]*$"):
        text = re.sub(left_out, "", text, flags=re.M | re.S)
    return [folded(row) for row in re.split(r"\n\s*\n|\n(?=- |\|)", text) if row.strip()]


class Papers:
    def __init__(self, scope, requests):
        self.scope = blocks(scope)
        self.blocks = self.scope + blocks(requests)

    @functools.lru_cache(maxsize=None)
    def places(self, quotation):
        """Where each part of a quotation stands, as whole words; [..] between two is for what is left out. A place is
        the block, and from where to where in it; the first blocks are those of document 01."""
        parts = [f"({re.escape(part.strip())})" for part in folded(quotation).split("[..]")]
        pattern = re.compile(r"(?<!\w)" + r"\b.*?\b".join(parts) + r"(?!\w)")
        found = [(k, match) for k, block in enumerate(self.blocks) for match in pattern.finditer(block)]
        return [(k, *match.span(part)) for k, match in found for part in range(1, len(parts) + 1)]

    def sentences(self):
        """The sentences of document 01, of a row its last cell: the block, and from where to where in it."""
        found = []
        for k, block in enumerate(self.scope):
            found += [(k, *match.span()) for match in SENTENCE.finditer(block, MARK.match(block).end())]
        return [(k, start, end) for k, start, end in found if " " in self.scope[k][start:end].strip()]

    @functools.lru_cache(maxsize=None)
    def unquoted(self, quotations):
        """The sentences of document 01 of which a letter or a digit is in no quotation."""
        spans = [place for said in quotations for place in self.places(said)]
        quoted = {(k, at) for k, start, end in spans for at in range(start, end)}
        found = []
        for k, start, end in self.sentences():
            if any(self.scope[k][at].isalnum() and (k, at) not in quoted for at in range(start, end)):
                found.append(self.scope[k][start:end].strip(" |"))
        return found


def load(root):
    """The papers beside the repository, or where PAPERS says."""
    where = os.environ.get("PAPERS") or os.path.join(root, "../shared/papers")
    texts = []
    for name in (SCOPE, REQUESTS):
        with open(os.path.join(where, name), encoding="utf-8") as file:
            texts.append(file.read())
    return Papers(*texts)
