"""Wrong copies of the index and of the ties: what is wrong, the file, its text, and what has to be told of it."""
import re

import papers
from entries import index_of
from sources import EXPORTS, RUNNING, THEOREMS, TIE
from ties import FOR_C, PLAIN, SECTION


def chosen(text):
    """A theorem, a name with its file, and an edit, as the index has them."""
    index, head = index_of(text), text.split("\nuse ", 1)[0]
    name = next(name for _, name in index.names if "-" in name)
    cited = next((name, path) for _, name, path in index.cited if f"`{name}` ({path})" in head)
    return name, cited, next(path for _, path, _ in index.paths if path.endswith(".edit"))


def wrong_names(text, head, body):
    """Copies with a wrong name or path: what is wrong, the copy, and what has to be told of it."""
    name, (cited, path), edit = chosen(text)
    copy = lambda old, new: head.replace(old, new) + "\nuse " + body
    other, more = "refusal/specs/Lib.antt", "one-more is not in the index"
    return [
        ("a theorem that the index lacks", copy(name, ""), f"{name} is not in the index"),
        ("a theorem more", text + "\npub one-more : Type 0\n", more),
        ("an abbreviation more", text + "\nabbrev pub one-more : Type 0\none-more = ℕ\n", more),
        ("a theorem more in a module", text + "\nmodule _ (n : ℕ) where\n  pub one-more : ℕ\n", more),
        ("a name of no theorem", copy(name, name + "-not"), f"no theorem {name}-not"),
        ("a word that is no theorem", copy(name, "unknown"), "no theorem unknown"),
        ("a name in the wrong file", copy(f"`{cited}` ({path})", f"`{cited}` ({other})"), f"no {cited} in {other}"),
        ("a name that there is not", copy(f"`{cited}`", f"`{cited}s`"), f"no {cited}s in"),
        ("a name without a file", f"{head}\n-- more: `{cited}`\nuse {body}", f"no file behind `{cited}`"),
        ("a file that there is not", copy(path, path + "x.antt"), f"no file {path}x.antt"),
        ("an edit that there is not", copy(edit, edit + "s"), f"no file {edit}s"),
    ]


def wrong_quotations(text, head, body):
    """Copies with a wrong quotation, in the same way; one has an apostrophe, one goes over two lines."""
    quotations = [said for _, said in index_of(text).quotations if len(said.split()) > 4]
    said = next(said for said in quotations if f"'{said}'" in head)
    first, *_, last = said.split()
    unquoted = f"no quotation of: {papers.folded(said)}"
    owned = next(said for said in quotations if "' " in said and f"'{said}'" in head)
    wrapped = next(said for said in quotations if said not in head)
    copy = lambda old, new: head.replace(old, new) + "\nuse " + body
    return [
        ("a changed quotation", copy(f"'{said}'", f"'{said} not'"), f"not in the papers: {said} not"),
        ("a part of a word", copy(f"'{said}'", f"'{said[:-1]}'"), f"not in the papers: {said[:-1]}"),
        ("a sentence not quoted", copy(f"'{said}'", ""), unquoted),
        ("a part left out without a mark", copy(f"'{said}'", f"'{first} {last}'"), f"not in the papers: {first}"),
        ("a part left out", copy(f"'{said}'", f"'{first} [..] {last}'"), unquoted),
        ("the last word left out", copy(f"'{said}'", f"'{said.rsplit(' ', 1)[0]}'"), unquoted),
        ("an apostrophe", copy(f"'{owned}'", f"'{owned} not'"), f"not in the papers: {owned} not"),
        ("a wrapped quotation", copy(wrapped.split()[-1] + "'", "not'"), f"not in the papers: {wrapped[:20]}"),
    ]


def wrong_entries(text, head, body):
    """Copies with an entry that names nothing, names a row that there is not, or lacks what a demand has to name."""
    more = lambda entry: f"{head}\n-- {entry}\nuse {body}"
    said = next(said for _, said in index_of(text).quotations if f"'{said}'" in head)
    without = lambda name: re.sub(rf"(?<=[\s]){name}(?=[\s,;])", "", head) + f"\n-- more: {name}\nuse {body}"
    nothing, lacks = f"nothing is named for: {said}", "is without"
    return [
        ("an entry that is emptied", more(f"'{said}':"), nothing),
        ("an entry of words alone", more(f"'{said}': this holds"), nothing),
        ("an entry with no colon", more(f"'{said}'"), nothing),
        ("the first of two that is emptied", more(f"'{said}': it holds; '{said}': demand-3"), nothing),
        ("a row that there is not", head.replace("rows 14 and 15", "rows 14 and 91") + f"\nuse {body}", "no row 91"),
        ("a demand without an entry", text.replace("-- DEMAND 3:", "-- DEMANDS:"), f"DEMAND 3 {lacks} demand-3"),
        ("demand 1 without a call", without("rank-answers-by-the-table"), f"1 {lacks} rank-answers-by-the-table"),
        ("demand 1 without a contract", without("tally-contract"), f"DEMAND 1 {lacks} tally-contract"),
        ("demand 2 without its sets", without("sets-are-flows"), f"DEMAND 2 {lacks} sets-are-flows"),
    ]


def wrong_ties(sources):
    """Copies with an entry that lacks, or is of another function or another contract, and of a new call."""
    copy = lambda path, old, new: (path, sources.text(path).replace(old, new))
    tie, exports = (sources.place(name, "-contract :") for name in (TIE, EXPORTS))
    source = "crates/tracker/src/lib.rt"
    told, size = "no entry enable-contract for enable", "no entry size-of-contract for size_of"
    more = sources.text(source) + "\npub fn one_more(n: u32) -> u32\n{\n    n\n}\n"
    passed = sources.text(source) + "\npub use calls::apply_enable;\n"
    twice = sources.text(tie).replace("size-it", "tags-it")
    return [
        ("an entry that lacks", *copy(tie, "enable-it.clauses", "disable-it.clauses"), told),
        ("a contract that requires something", *copy(tie, "Ensures 𝓤 enable-it", "Asks 𝓤 enable-it"), told),
        ("an entry of another function", *copy(tie, "contracts.enable as", "contracts.disable as"), told),
        ("a call more", source, more, "no entry one-more-contract for one_more"),
        ("a call passed on more", source, passed, "no entry apply-enable-contract for apply_enable"),
        ("an entry that states another contract", *copy(tie, " size-it.", " tags-it."), size),
        ("one word for two contracts", tie, twice, size),
        ("an entry of another name", *copy(tie, "pub size-of-contract", "pub sizes-contract"), size),
        ("an entry in a comment", *copy(tie, "  pub size-of-contract", "  -- pub size-of-contract"), size),
        ("an export of another name", *copy(exports, "pub exported-rank-", "pub rank-"), "no entry exported-rank-"),
    ]


def wrong_exports(sources):
    """Copies with a C function that lacks, that says something else, or that is of no exported function."""
    copy = lambda path, old, new: (path, sources.text(path).replace(old, new))
    other = "the C function tracker_start says something else"
    alone = "\npub fn one_more(n: u32) -> u32\n    ensures { result ≡ n }\n{\n    n\n}\n"
    more = sources.text(FOR_C) + alone.replace("pub fn", 'pub extern "C" fn')
    said = "{ outcome_in result tags.new policies.new counts.new flows.new ≡ start_of n"
    return [
        ("a C function that lacks", *copy(FOR_C, " tracker_start(", " tracker_starts("), "no C function tracker_start"),
        ("a C function of another name", *copy(FOR_C, " tracker_start(", " tracker_starts("), "is of no function"),
        ("a C function more", FOR_C, more, "the C function one_more is of no function"),
        ("an exported function more", PLAIN, sources.text(PLAIN) + alone, "no C function one_more"),
        ("a C function of another contract", *copy(FOR_C, said, f"{said} + 1"), other),
        ("a C function with another parameter", *copy(FOR_C, "start(\n    n: u32", "start(\n    n: u64"), other),
        ("a C function in other words", *copy(FOR_C, "specs.Outcome.{start_of", "specs.Others.{start_of"), other),
        ("a C function with a clause more", *copy(FOR_C, said, f"{{ n < 2 }}\n    ensures {said}"), other),
    ]


def wrong_heads(sources):
    """Copies with one hypothesis more for a whole section."""
    copy = lambda path, old, new: (path, sources.text(path).replace(old, new))
    tie, exports = (sources.place(name, "-contract :") for name in (TIE, EXPORTS))
    listed, running = sources.place(THEOREMS, "pub demand-3 "), sources.place(THEOREMS, "pub called-demand-3 ")
    told, last, calls = "has another head", "(run : Routine → Fun 𝓤) where", "(calls : List Call) where"
    return [
        ("one more for the contracts", *copy(tie, last, last[:-5] + "(no : ⊥) where"), told),
        ("one more for the exports", *copy(exports, last, last[:-5] + "\n    (no : ⊥) where"), told),
        ("one more for the lists", *copy(listed, calls, calls[:-5] + "(no : ⊥) where"), told),
        ("one more for calls that run", *copy(running, "calls s) where", "calls s) (no : ⊥) where"), told),
        ("a section more", tie, sources.text(tie) + "\nmodule _ (no : ⊥) where\n  more : ⊥\n", told),
        ("a section within", tie, sources.text(tie) + "\n  module _ (no : ⊥) where\n    more : ⊥\n", told),
    ]


def wrong_words(sources):
    """Copies with a word for what a call gave that no contract or no claim has."""
    words, tie = sources.place(RUNNING, SECTION), sources.place(TIE, "(TagsGave")
    theorems = sources.place(THEOREMS, "→ StartGave ")
    running, start = sources.text(words), "\nabbrev pub StartGave :"
    more = running.replace(start, f"\nabbrev pub MoreGave : ℕ → Type 0\nMoreGave r = r ≡ 0\n{start}")
    untied = sources.text(tie).replace("(TagsGave", "(Told") + "\nmore : State → ℕ → Result TagSet Refusal → TagsGave s c r\n"
    unsupposed = re.sub(r"→ StartGave [^→]*→", "→", sources.text(theorems))
    return [
        ("a word that no contract has", words, more, "MoreGave is in no entry"),
        ("a word that an entry lost", tie, untied, "TagsGave is in no entry"),
        ("a word that no theorem has", theorems, unsupposed, "StartGave is a hypothesis of no theorem"),
        ("a word without a result", words, more.replace("MoreGave r", "MoreGave n"), "MoreGave has no result"),
        ("no word", words, running.replace("WHAT THE CONTRACTS SAY", "What they say"), "no word under"),
    ]


def wrong_hypotheses(sources):
    """Copies with a theorem that supposes what a call gave, and says nothing of it."""
    theorems = sources.index
    theorem = lambda said: f"{sources.text(theorems)}\npub one-more : {said}\n"
    start, does = "StartGave n lent r left", "StartDoes n lent (start_of n lent)"
    tally = "TallyAnswered bs lent out r → TallyLeft bs lent r tags policies counts → Told bs"
    copies = [
        ("nothing of the result", f"(r : Answered) (left : Storage) → {start} → {does}", "StartGave"),
        ("nothing, behind a name", f"(r : Answered) (left : Storage) (gave : {start}) → {does}", "StartGave"),
        ("nothing, in a pair", f"(r : Answered) (left : Storage) → ({start} × (n ≡ n)) → {does}", "StartGave"),
        ("the result in another hypothesis", f"(r : Tallied) → {tally}", "TallyAnswered"),
        ("the result beside it", f"(r : Answered) → ({start} → {does}) × (r ≡ r)", "StartGave"),
        ("another result of that name", f"(r : Answered) → {start} → (k r : ℕ) → r ≡ r", "StartGave"),
        ("nothing of the output", "TallyWrote bs lent out written → Told out", "TallyWrote"),
    ]
    found = [(name, theorems, theorem(said), f"one-more supposes {word}") for name, said, word in copies]
    nothing = f"{sources.text(theorems)}\npub what-more-does : (n : ℕ) (lent : Storage) → {does}\n"
    return found + [("no hypothesis on the call", theorems, nothing, "what-more-does supposes of no call")]


def copies(sources):
    """All wrong copies."""
    text = sources.text(sources.index)
    parts = text.split("\nuse ", 1)
    indexes = wrong_names(text, *parts) + wrong_quotations(text, *parts) + wrong_entries(text, *parts)
    found = [(name, sources.index, *rest) for name, *rest in indexes]
    found += wrong_ties(sources) + wrong_exports(sources) + wrong_heads(sources)
    return found + wrong_words(sources) + wrong_hypotheses(sources)
