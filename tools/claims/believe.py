"""Counts the lines that a reader has to believe for a claim.

    python3 tools/claims/believe.py [DIR] [--list]

Counted are the statement of the theorem, or the contract of the function, and every definition that it uses, and so on
down to the kit's own library, which is not counted: a definition with its body, a type with all that it has, a function
with its contract alone, and the line of the module around each. Not counted are comments, blank lines, imports and
proofs. A name that is neither `abbrev` nor `unfoldable` cannot be unfolded in another file; where one is used there (a
proof that a statement names) its statement is counted. The files of the claims stand in specs/, in proofs/ or in both.
DIR is the repository, this one if none is named; with --list each declaration follows, with its file and its lines.
Ends non-zero where a name or a file is missing. A commit in an older Rattle is counted with the tools of that commit.
"""
import os
import sys

sys.dont_write_bytecode = True
from repository import Repository

CLAIMS, TIE, EXPORTS = (
    (f"claims/specs/{name}.antt", f"claims/proofs/{name}.antt") for name in ("Claims", "Tie", "Exports")
)
TRACKER = ("tracker/src/lib.rt",)
CALLS = ["start", "enable", "disable", "add_policy", "tags_of", "size_of", "is_legal", "rank", "replay"]
TIED = ["start", "enable", "disable", "add_policy"]


def closure(repository, roots):
    """The statements of the roots and all that they use, each with whether its body is used too."""
    found = {}
    waiting = [(one, False) for one in roots]
    while waiting:
        one, whole = waiting.pop()
        key = (one.file, one.name, one.head[0].number)
        if key in found and found[key][1] >= whole:
            continue
        found[key] = (one, whole)
        waiting += [(other, other.kind != "plain" or other.file == one.file) for other in repository.uses(one, whole)]
    return [found[key] for key in sorted(found)]


def lines_of(part):
    """Each line once: a module's line stands for all that is in it."""
    return {(one.file, number) for one, whole in part for number in one.lines(whole)}


def present(repository, paths):
    """Those of these files that there are, one at least."""
    found = [path for path in paths if path in repository.files]
    if not found:
        raise LookupError(f"no file {paths[0]}")
    return found


def public(repository, paths):
    return [one for path in present(repository, paths) for one in repository.files[path].declared if one.public]


def named(repository, paths, name):
    """The declaration of this name in one of these files."""
    found = present(repository, paths)
    return repository.declared(next((path for path in found if name in repository.files[path].names), found[0]), name)


def tied(repository):
    """What Tie.antt states on the contracts of the calls by which a list is made."""
    ties = public(repository, TIE)
    calls = [named(repository, TRACKER, name) for name in TIED]
    return [one for one in ties if any(used in calls for used, _ in closure(repository, [one]))]


def roots(repository, paths, names):
    """The declarations of these names, or where none are given all public ones."""
    return [named(repository, paths, name) for name in names] or public(repository, paths)


def with_tie(repository, paths, names):
    return roots(repository, paths, names) + tied(repository)


def with_ties(repository, paths, names):
    return roots(repository, paths, names) + public(repository, TIE) + public(repository, EXPORTS)


# Each claim, where it stands, and what is stated: that of these names, or all that is public there.
ROWS = [
    ("the nine calls", roots, TRACKER, CALLS),
    ("demand 3 of the definitions", roots, CLAIMS, ["demand-3"]),
    ("demand 3 of running code", roots, CLAIMS, ["called-demand-3"]),
    ("demand 3 of running code, and the tie", with_tie, CLAIMS, ["called-demand-3"]),
    ("all claims", roots, CLAIMS, []),
    ("all claims, and the ties", with_ties, CLAIMS, []),
]


def spans(numbers):
    """Line numbers, those that follow each other as a range."""
    out = []
    for number in sorted(numbers):
        if out and number == out[-1][1] + 1:
            out[-1][1] = number
        else:
            out.append([number, number])
    return ", ".join(str(a) if a == b else f"{a}-{b}" for a, b in out)


def listed(part):
    """Each declaration, with its file and its lines."""
    for one, whole in part:
        how = "contract" if one.kind == "fn" else "whole" if whole else "statement"
        print(f"    {one.file}: {one.name} ({how}) {spans(one.lines(whole))}")


def row(repository, name, found):
    """The figures of a claim, and all that is counted."""
    part = closure(repository, found)
    files = {one.file for one, _ in part}
    figures = (len(found), len(part) - len(found), len(lines_of(part)), len(files))
    return f"{name:40}" + "".join(f"{figure:13}" for figure in figures), part


def main(arguments):
    given = [word for word in arguments if word != "--list"]
    here = os.path.join(os.path.dirname(os.path.abspath(__file__)), "../..")
    try:
        repository, missing = Repository(given[0] if given else here), False
    except LookupError as error:
        sys.exit(f"believe: {error.args[0]}")
    print(f"{'claim':40}" + "".join(f"{word:>13}" for word in ("statements", "definitions", "lines", "files")))
    for name, find, paths, names in ROWS:
        try:
            text, part = row(repository, name, find(repository, paths, names))
        except LookupError as error:
            text, part, missing = f"{name:40}    {error.args[0]}", [], True
        print(text)
        if "--list" in arguments:
            listed(part)
    sys.exit(1 if missing else 0)


if __name__ == "__main__":
    main(sys.argv[1:])
