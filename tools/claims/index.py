"""Holds the index of the claims, at the head of Claims.antt, against the theorems, the sources and the papers.

    python3 tools/claims/index.py               each fault with its line; ends non-zero if there is one
    python3 tools/claims/index.py --self-test   wrong indexes and wrong ties, each of which has to be found

1. Every public theorem and abbreviation of the claims stands in the index.
2. Every name in the index exists: one by itself among the claims, one in backquotes in the file in the brackets behind
   it; and every path does, below crates/, or at the root where the entry says so. A name by itself is any word with a
   hyphen, and any other that stands alone in a list.
3. Every quotation stands in the papers, within one paragraph. It is between ' and ' and ends before one of : , ; . ) or
   at the end of its entry, so that an apostrophe within it is no end; [..] stands for a part that is left out.
4. Every sentence of document 01 is quoted, each letter and digit of it; what a [..] leaves out is not.
5. Behind every quotation something is named that fixes it: a theorem, a name in backquotes, a path or a row of the
   samples, which the table has to have; or it has one of the phrases that entries.py lists.
6. The entries of the three demands have the names that DEMANDS lists, and the first every contract of Tie.antt.
7. Every public function of tracker, report and foreign has the entry of its name in Tie.antt or Exports.antt; and
   foreign_c exports each of foreign, and no other, with the same parameters, answer and contract, word by word, and
   the words of its contracts are brought from where foreign brings them.
8. The sections of the claims have the heads that ties.py lists, and no other.
9. Every word of Running.antt for what a call gave is in an entry of Tie.antt, and a hypothesis of a theorem of
   Claims.antt; behind such a hypothesis a theorem speaks of the call's result; and a theorem what-.. has one.
The files of the claims (Claims.antt, Tie.antt and so on) stand in crates/claims/specs, in proofs beside it or in both.
The papers are in ../shared/papers beside the repository, or where the environment variable PAPERS says.
"""
import os
import sys

sys.dont_write_bytecode = True
import papers
import ties
import wrong
from antt import CLOSING, OPENING, joined, tokens
from entries import index_of
from sources import SAMPLES, TIE, Sources, claimed

# The calls whose answers are by the table of refusals; and names that the entry of each demand has at least.
ANSWERING = ("start", "enable", "disable", "add", "set", "size", "permission", "rank", "n", "reading", "reading-n")
DEMANDS = {
    "1": [f"{call}-answers-by-the-table" for call in ANSWERING]
    + ["refused-start-changes-nothing", "refused-call-changes-nothing"],
    "2": ["sets-are-flows", "called-sets-are-flows", "no-flow-is-missed", "no-flow-is-invented",
          "a-written-record-is-read-back", "an-accepted-record-is-what-we-write", "an-accepted-log-is-what-we-write"],
    "3": ["demand-3", "called-demand-3"],
}


def faults_of_names(index, sources):
    """Theorems that the index lacks, and names in it that there are not."""
    known, named = claimed(sources), {name for _, name in index.names}
    missing = [(path, line, f"{name} is not in the index") for name, (path, line) in known.items() if name not in named]
    return missing + [(sources.index, line, f"no theorem {name}") for line, name in index.names if name not in known]


def faults_of_paths(index, sources):
    """Names in backquotes that are not declared in their file, and paths that there are not."""
    found = []
    for line, path, at_root in index.paths:
        if not (sources.exists("crates/" + path) or at_root and sources.exists(path)):
            found.append((sources.index, line, f"no file {path}"))
    for line, name, path in index.cited:
        if path is None:
            found.append((sources.index, line, f"no file behind `{name}`"))
        elif sources.exists("crates/" + path) and name not in sources.file("crates/" + path).names:
            found.append((sources.index, line, f"no {name} in {path}{beside(name, path, sources)}"))
    return found


def beside(name, path, sources):
    """Where a name stands that its file lacks: in the file of the same name in the other folder, or nowhere there."""
    one, other = ("/specs/", "/proofs/") if "/specs/" in path else ("/proofs/", "/specs/")
    there = "crates/" + path.replace(one, other)
    is_there = there != "crates/" + path and sources.exists(there) and name in sources.file(there).names
    return f"; it is in {there.removeprefix('crates/')}" if is_there else ""


def faults_of_quotations(index, sources, text):
    """Quotations that the papers do not have, and sentences of document 01 that are not quoted."""
    absent = [(line, said) for line, said in index.quotations if not text.places(said)]
    found = [(sources.index, line, f"not in the papers: {said}") for line, said in absent]
    missing = text.unquoted(tuple(said for _, said in index.quotations))
    return found + [(sources.index, index.line, f"no quotation of: {sentence}") for sentence in missing]


def faults_of_demands(index, sources):
    """Demands without an entry, and names that it lacks: of the first also each contract of Tie.antt."""
    contracts = [one.name for one in sources.declared(TIE) if one.name.endswith("-contract")]
    needed = {**DEMANDS, "1": DEMANDS["1"] + contracts}
    pairs = [(demand, name) for demand, names in needed.items() for name in names]
    lacking = [(demand, name) for demand, name in pairs if name not in index.demands.get(demand, ())]
    return [(sources.index, index.line, f"DEMAND {demand} is without {name}") for demand, name in lacking]


def number_of_samples(sources):
    """How many rows the table of samples has: the constructors in it that are in no bracket."""
    names, depth, found = {one.name: one for one in sources.declared(SAMPLES)}, 0, 0
    for word in tokens(joined(names["samples"].body)):
        depth += (word in OPENING) - (word in CLOSING)
        found += depth == 0 and word in names["Sample"].members
    return found


def faults_of_entries(index, sources):
    """Quotations that nothing fixes, and rows that the table of samples does not have."""
    found = [(sources.index, line, f"nothing is named for: {said}") for line, said in index.unfixed]
    last = number_of_samples(sources)
    beyond = [(line, row) for line, row in index.rows if not 1 <= row <= last]
    return found + [(sources.index, line, f"no row {row} of {last}") for line, row in beyond]


def faults(sources, text):
    """All that is wrong with the index, and the line that says how much it holds."""
    index = index_of(sources.text(sources.index))
    found = faults_of_names(index, sources) + faults_of_paths(index, sources)
    found += faults_of_quotations(index, sources, text)
    found += faults_of_demands(index, sources) + faults_of_entries(index, sources) + ties.faults(sources)
    names = len({name for _, name, _ in index.cited})
    return sorted(found), f"index: {len(claimed(sources))} theorems, {names} names, {len(index.quotations)} quotations"


def self_test(sources, text):
    """Whether each wrong copy is told of; the right one is not."""
    missed = [f"told of the right index: {fault}" for fault in faults(sources, text)[0]]
    copies = wrong.copies(sources)
    for name, path, copy, told in copies:
        found = faults(sources.with_text(path, copy), text)[0]
        if not any(told in fault for _, _, fault in found):
            missed.append(f"not told: {name}")
    return missed, f"index: {len(copies)} wrong indexes and ties found"


def main(arguments):
    root = os.path.normpath(os.path.join(os.path.dirname(os.path.abspath(__file__)), "../.."))
    try:
        text = papers.load(root)
    except OSError as error:
        sys.exit(f"index: the papers are not there ({error.filename}); PAPERS says where they are")
    if arguments == ["--self-test"]:
        found, summary = self_test(Sources(root), text)
    else:
        found, summary = faults(Sources(root), text)
        found = [f"{path}:{line}: {fault}" for path, line, fault in found]
    print("\n".join(found) or summary)
    sys.exit(1 if found else 0)


if __name__ == "__main__":
    main(sys.argv[1:])
