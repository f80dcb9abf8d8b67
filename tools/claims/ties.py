"""Holds what ties the claims to the functions that run: the heads of their sections, the entries of Tie.antt and of
Exports.antt, and the words in which a claim speaks of a call that runs."""
import re

from antt import CLOSING, OPENING, code_lines, joined, tokens
from repository import scope
from rt import names_in_contract
from sources import EXPORTS, RUNNING, THEOREMS, TIE

# The only heads that a section may have: one parameter more would be a hypothesis of every theorem below it.
CONTRACTS = (
    "module _ {M : Type 1} {𝓤 : Ura M} (𝓛 : Logic 𝓤) (mem : Memory → SProp 𝓤) (run : Routine → Fun 𝓤) where",
)
LISTS = (
    "module _ (n : ℕ) (lent : Storage) (begun : (start_of n lent).answer.refusal ≡ 0) (calls : List Call) where",
    "module _ (n : ℕ) (lent : Storage) (calls : List Call) (s : State) (made : Called n lent calls s) where",
)
HEADS = {THEOREMS: LISTS, TIE: CONTRACTS, EXPORTS: CONTRACTS}
# The crates whose public functions are tied, those that they pass on too: the file of the entries, what stands before a
# name, and what it loses.
TIES = [
    ("tracker", TIE, "", ""),
    ("report", TIE, "", ""),
    ("foreign", EXPORTS, "exported-", "tracker_|log_"),
]
# The exported functions, and the C functions of the same names and contracts.
PLAIN, FOR_C = "crates/foreign/src/lib.rt", "crates/foreign_c/src/lib.rt"
# The section of Running.antt with the words for what a call gave, and the name that the result has in them.
SECTION, NEXT = "-- WHAT THE CONTRACTS SAY", re.compile(r"-- [A-Z]{2,}")
RESULTS = ("r", "written")
# What ends the arguments of a word.
ENDS = (")", "}", ",", ";", "→", "↔", "×", "⊎", "≡")


def faults_of_heads(sources):
    """Sections whose head is none of those that their file may have."""
    found = []
    for name, heads in HEADS.items():
        for one in sources.declared(name):
            around = [" ".join(joined(head).split()) for head in one.around]
            if around and (len(around) > 1 or around[0] not in heads):
                found.append((one.file, one.around[-1][0].number, f"the section of {one.name} has another head"))
    return found


def is_tied(crate, function, entry, text):
    """Whether the entry of this name says of the function's whole contract what it is."""
    brought = re.search(rf"use Rattle\.{crate}\.specs\.contracts\.{function} as (\S+)", text)
    if not brought or len(re.findall(rf"use \S+ as {re.escape(brought[1])}(?!\S)", text)) != 1:
        return False
    return f"pub {entry} : {brought[1]}.clauses 𝓛 mem run ≡ Ensures 𝓤 {brought[1]}.ended " in text


def faults_of_ties(sources):
    """Public functions whose contract has no entry of their name."""
    found = []
    for crate, name, before, lost in TIES:
        texts = [" ".join(joined(code_lines(sources.text(path))).split()) for path in sources.places(name)]
        path = f"crates/{crate}/src/lib.rt"
        own = [(crate, one) for one in functions(sources, path)]
        for home, one in own + passed_on(sources, path):
            entry = before + re.sub(f"^({lost})", "", one.name).replace("_", "-") + "-contract"
            if not any(is_tied(home, one.name, entry, text) for text in texts):
                found.append((one.file, one.head[0].number, f"no entry {entry} for {one.name} in {name}.antt"))
    return found


def passed_on(sources, path):
    """The public functions of other crates that a source file passes on, each with its crate."""
    found = []
    for name, there in sources.file(path).passed.items():
        crate = there.split("::")[0]
        found += [(crate, one) for one in functions(sources, f"crates/{crate}/src/lib.rt") if one.name == name]
    return found


def functions(sources, path):
    """The public functions of a source file."""
    return [one for one in sources.file(path).declared if one.kind == "fn" and one.public]


def said_of(one, imports):
    """A function's parameters, answer and contract, and where the words of the contract are brought from."""
    words = names_in_contract(one)
    named = {word: imports[name] for word in words for name in (word, f"◌{word}◌") if name in imports}
    return joined(one.head).replace('extern "C" ', ""), named


def faults_of_exports(sources):
    """Exported functions without a C function that says just the same, and C functions of no exported one."""
    plain, for_c = ({one.name: one for one in functions(sources, path)} for path in (PLAIN, FOR_C))
    imports = [scope(sources.file(path)) for path in (PLAIN, FOR_C)]
    lacking = [one for name, one in plain.items() if name not in for_c]
    found = [(one.file, one.head[0].number, f"no C function {one.name}") for one in lacking]
    for name, one in for_c.items():
        at = (one.file, one.head[0].number)
        if name not in plain:
            found.append((*at, f"the C function {name} is of no function of {PLAIN}"))
        elif said_of(plain[name], imports[0]) != said_of(one, imports[1]):
            found.append((*at, f"the C function {name} says something else than the function of {PLAIN}"))
    return found


def gave(sources):
    """The words for what a call gave, each with its file and line and the place of the result among its arguments."""
    found = {}
    for path in sources.places(RUNNING):
        rows = sources.text(path).split("\n")
        begin = next((k for k, row in enumerate(rows, 1) if row.startswith(SECTION)), len(rows))
        end = next((k for k, row in enumerate(rows[begin:], begin + 1) if NEXT.match(row)), len(rows))
        for one in sources.file(path).declared:
            inside = begin < one.head[0].number < end
            if inside and one.public and one.kind == "abbrev" and joined(one.head).endswith("→ Type 0"):
                found[one.name] = ((path, one.head[0].number), place_of_result(tokens(joined(one.body))))
    return found


def place_of_result(clause):
    """Which argument of the word that this clause defines is the result; None if there is none."""
    named = clause[1:clause.index("=")]
    return next((k for k, name in enumerate(named) if name in RESULTS), None)


def faults_of_words(sources):
    """Words for what a call gave that have no result, or that no contract is stated in or no claim supposes."""
    words = gave(sources)
    entries = [one for one in sources.declared(TIE) if one.name.endswith("-contract")]
    tied = {word for one in entries for word in tokens(joined(one.head))}
    supposed = {word for one in sources.declared(THEOREMS) for word, _, _ in hypotheses(words, one)}
    found = [] if words else [(sources.places(RUNNING)[0], 1, f"no word under {SECTION[3:]}")]
    for word, (at, place) in words.items():
        found += [(*at, f"{word} has no result")] if place is None else []
        found += [] if word in tied else [(*at, f"{word} is in no entry of {TIE}.antt")]
        found += [] if word in supposed else [(*at, f"{word} is a hypothesis of no theorem of {THEOREMS}.antt")]
    return found


def arguments(words):
    """The arguments that these words begin with, each a list of words."""
    found, depth = [], 0
    for word in words:
        if depth == 0 and word in ENDS:
            break
        if depth == 0:
            found.append([])
        found[-1].append(word)
        depth += (word in OPENING) - (word in CLOSING)
    return found


def arrow(words):
    """Where the arrow is to the left of which these words begin, or None."""
    depth = least = 0
    for k, word in enumerate(words):
        depth += (word in OPENING) - (word in CLOSING)
        least = min(least, depth)
        if word == "→" and depth == least:
            return k
    return None


def within(words):
    """These words up to the end of the brackets around them."""
    depth = 0
    for k, word in enumerate(words):
        depth += (word in OPENING) - (word in CLOSING)
        if depth < 0:
            return words[:k]
    return words


def hypotheses(words, theorem):
    """Each of these words that a theorem has to the left of an arrow: the word, its arguments, and its conclusion."""
    text = joined(theorem.head)
    said = tokens(text) if any(word in text for word in words) else []
    found = [(k, arrow(said[k:])) for k, word in enumerate(said) if word in words]
    return [(said[k], arguments(said[k + 1:]), within(said[k + at + 1:])) for k, at in found if at is not None]


def spoken_of(words, conclusion):
    """The words of a conclusion, but for those of its own hypotheses on what a call gave."""
    found, left_out = set(), 0
    for k, word in enumerate(conclusion):
        if word in words and arrow(conclusion[k:]) is not None:
            left_out = k + arrow(conclusion[k:])
        if k >= left_out:
            found.add(word)
    return found


def bound_in(conclusion):
    """The names that a conclusion binds itself: those between an opening bracket and a colon."""
    found, names = set(), None
    for word in conclusion:
        if word in OPENING:
            names = set()
        elif word in CLOSING:
            names = None
        elif word == ":":
            found |= names or set()
        elif names is not None:
            names.add(word)
    return found


def says_something(words, word, given, conclusion):
    """Whether the result among these arguments of the word is a name that the conclusion speaks of."""
    place = words[word][1]
    result = given[place] if place is not None and place < len(given) else []
    return len(result) == 1 and result[0] in spoken_of(words, conclusion) - bound_in(conclusion)


def faults_of_hypotheses(sources):
    """Theorems that suppose what a call gave and do not speak of the result; and those on what a call does (what-..)
    that suppose nothing of it."""
    words, found = gave(sources), []
    for one in sources.declared(THEOREMS):
        supposed = hypotheses(words, one)
        silent = [word for word, *rest in supposed if not says_something(words, word, *rest)]
        told = [f"supposes {word} and says nothing of its result" for word in silent]
        told += ["supposes of no call what it gave"] if one.name.startswith("what-") and not supposed else []
        found += [(one.file, one.head[0].number, f"{one.name} {fault}") for fault in told]
    return found


def faults(sources):
    """All that is wrong with the ties."""
    found = faults_of_heads(sources) + faults_of_ties(sources) + faults_of_exports(sources)
    return found + faults_of_words(sources) + faults_of_hypotheses(sources)
