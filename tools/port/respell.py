#!/usr/bin/env python3
"""Respells the repository's own definitions and lemmas: words in snake case, types and modules in camel case, a dash
between the parts of a lemma's name. Run once, at the top, after the kit's port.py. A second run changes nothing.

Names of src/ (functions, fields, types), exported names, strings, inputs and outputs stay: the script ends with an error
where a new name is a field or a constant of src/, or a name that a specification or a proof had already."""
import glob
import re
import sys

# Lemmas that had the new name of a definition get a name that says what they are.
FIRST = {
    'crates/tagset/specs/Below.antt': {'count_at': 'count-one'},
    'crates/tagset/specs/Laws.antt': {'count_at': 'count-one'},
    'crates/state/specs/IsValid.antt': {'no_flow': 'no-flow-is'},
    'crates/claims/specs/Running.antt': {'ending_of': 'ending-for'},
}
# Words of the library that parts of names still had.
PARTS = {'getD': 'get_or'}
WORD = r"(?<![A-Za-z0-9_'′])%s(?![A-Za-z0-9_'′])"
HEAD = re.compile(r"\s*(?:(?:abbrev|unfoldable|pub|record|data)\s+)*([^\s(){}:]+)((?:\s+[^\s(){}:]+)*)\s+:\s")


def ghost():
    return sorted(glob.glob('crates/*/specs/**/*.antt', recursive=True)
                  + glob.glob('crates/*/proofs/**/*.antt', recursive=True))


def texts():
    more = ['crates/*/src/**/*.rt', 'crates/*/must-fail/*.edit', 'README.md', 'docs/*.md', 'tools/claims/*',
            'tools/walks/*']
    return ghost() + sorted(f for g in more for f in glob.glob(g, recursive=True))


def snake(word):
    return re.sub(r'([a-z0-9])([A-Z])', lambda m: m.group(1) + '_' + m.group(2).lower(), word)


def declared():
    names = set()
    for f in ghost():
        for line in open(f):
            m = HEAD.match(line)
            if m:
                names.update([m.group(1)] + m.group(2).split())
    return names


def parts(names):
    found = set()
    for name in names:
        for part in name.split('-'):
            if re.fullmatch(r"[a-z][A-Za-z0-9]*'*", part) and re.search('[a-z0-9][A-Z]', part):
                found.add(part.rstrip("'"))
    return found


def replace(text, new):
    if not new:
        return text
    words = '|'.join(map(re.escape, sorted(new, key=len, reverse=True)))
    return re.sub(WORD % f'({words})', lambda m: new[m.group(1)], text)


def main():
    for f, new in FIRST.items():
        text = open(f).read()
        if not any(re.search(WORD % re.escape(word), text) for word in new.values()):
            open(f, 'w').write(replace(text, new))
    names = declared()
    camel = parts(names)
    new = {w: PARTS.get(w, snake(w)) for w in camel}
    taken = names & set(new.values())
    fields = set()
    for f in glob.glob('crates/*/src/**/*.rt', recursive=True):
        text = open(f).read()
        fields.update(re.findall(r'(?m)^\s*(?:pub )?(\w+): [^=]*,$', text))
        fields.update(re.findall(r'\bconst (\w+)', text))
    clash = (set(new.values()) - {'get_or'}) & (fields | taken)
    twice = [v for v in new.values() if list(new.values()).count(v) > 1]
    if clash or twice:
        sys.exit(f'fall together: {sorted(clash)} {sorted(set(twice))}')
    for f in texts():
        text = open(f).read()
        done = replace(text, new)
        if done != text:
            open(f, 'w').write(done)
    for w in sorted(new):
        print(w, new[w])


main()
