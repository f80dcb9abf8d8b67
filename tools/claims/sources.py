"""The files that the index of the claims speaks of."""
import os

import antt
import rt

# The files of the claims, each in specs/, in proofs/ or in both: the theorems, the contracts of the calls and those of
# the exported functions; what is said of running calls, and the papers' samples.
THEOREMS, TIE, EXPORTS, RUNNING, SAMPLES = "Claims", "Tie", "Exports", "Running", "Samples"
CLAIMS = (THEOREMS, TIE, EXPORTS)
FOLDERS = ("specs", "proofs")
# With this line the index begins.
BEGIN = "-- THE INDEX."


class Sources:
    def __init__(self, root):
        self.root = root
        self.texts = {}
        self.parsed = {}

    def text(self, path):
        if path not in self.texts:
            with open(os.path.join(self.root, path), encoding="utf-8") as file:
                self.texts[path] = file.read()
        return self.texts[path]

    def exists(self, path):
        return os.path.exists(os.path.join(self.root, path))

    def places(self, name):
        """The paths of the claims' files of this name."""
        paths = [f"crates/claims/{folder}/{name}.antt" for folder in FOLDERS]
        return [path for path in paths if self.exists(path)]

    def declared(self, name):
        """What the claims' files of this name declare."""
        return [one for path in self.places(name) for one in self.file(path).declared]

    def place(self, name, text):
        """The first of the claims' files of this name that has this text."""
        return next(path for path in self.places(name) if text in self.text(path))

    @property
    def index(self):
        """The file that begins with the index."""
        return self.place(THEOREMS, BEGIN)

    def file(self, path):
        """What a file declares."""
        if path not in self.parsed:
            self.parsed[path] = (antt if path.endswith(".antt") else rt).File(path, self.text(path))
        return self.parsed[path]

    def with_text(self, path, text):
        """The same files, but for the text of this one."""
        other = Sources(self.root)
        other.texts = {**self.texts, path: text}
        other.parsed = {name: file for name, file in self.parsed.items() if name != path}
        return other


def claimed(sources):
    """The public theorems and abbreviations of the claims, each with its file and its line."""
    found = [one for name in CLAIMS for one in sources.declared(name)]
    return {one.name: (one.file, one.head[0].number) for one in found if one.public}
