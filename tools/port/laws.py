#!/usr/bin/env python3
"""Moves the laws of specs/ to proofs/, statements unchanged, in the crates that have an edit of a definition: such an edit
counts only where no theorem of specs/ rests on the definition. A file of both kinds is split: what is defined stays, what
is proved goes to the file of the same name in proofs/. Every import of the repository is brought over. The names that went
are left in tools/port/laws-CRATE.txt: with these there, a second run only brings over imports that name the old place.

A block is a run of lines from one at column 0 up to the next. It is a definition where each of its declarations is an
abbrev, unfoldable, a record or a data type, and none rests on what is proved."""
import glob
import os
import re

CRATES = ['refusal', 'model', 'state', 'tagset', 'outcome', 'front', 'tallytext', 'claims']
# A name that the kit makes in proofs/ itself.
NAMED = {'Layout': 'LayoutLaws'}
# Of claims only these files have what rests on a definition with an edit, and Claims goes whole.
ONLY = {'claims': {'Claims', 'Permission'}}
WHOLE = {('claims', 'Claims')}
ID = r"[^\s(){}\[\],;.:]+"
DECL = re.compile(r"^(\s*)((?:(?:abbrev|unfoldable|pub|record|data)\s+)*)(%s)(?: \{[^}]*\})?((?:\s+(?!=\s)%s)*)\s+:\s" % (ID, ID))
WORDS = {'use', 'unfolding', 'module', 'where', 'let', 'in'}


def blocks(text):
    """The head (comments and imports), and the blocks below, each with the comments above it."""
    lines = text.rstrip('\n').split('\n')
    head, out, cur, comments = [], [], [], []
    names = set()
    i = 0
    while i < len(lines) and (lines[i].startswith(('--', 'use ')) or lines[i] == ''):
        if lines[i] == '' and any(l.startswith('use ') for l in head):
            i += 1
            break
        if lines[i].startswith('use '):
            j = i
            while '{' in lines[i] and '}' not in '\n'.join(lines[i:j + 1]):
                j += 1
            head.extend(lines[i:j + 1])
            i = j + 1
            continue
        head.append(lines[i])
        i += 1
    for line in lines[i:]:
        top = line != '' and not line[0].isspace()
        if top and line.startswith('--'):
            if cur:
                out.append(cur)
                cur = []
            comments.append(line)
        elif top:
            word = line.split()[0]
            goes_on = cur and (word in names or word == 'unfolding' or line[0] in ')]}')
            if not goes_on:
                if cur:
                    out.append(cur)
                cur, names = [], set()
                cur.extend(comments)
                comments = []
                m = DECL.match(line + ' ')
                if m:
                    names = {m.group(3)} | set(m.group(4).split())
                else:
                    m = re.match(r"(?:(?:abbrev|unfoldable|pub|record|data)\s+)*(%s)" % ID, line)
                    names = {m.group(1)} if m else set()
            cur.append(line)
        elif cur:
            cur.append(line)
        elif comments and line == '':
            out.append(comments)
            comments = []
    if cur:
        out.append(cur)
    if comments:
        out.append(comments)
    for b in out:
        while b and b[-1] == '':
            b.pop()
    return head, [b for b in out if b]


def declared(block):
    """name -> whether it is a definition, for each declaration at the top of the block or of a module's body."""
    found = {}
    body = [l for l in block if not l.startswith('--')]
    if not body:
        return found
    module = body[0].startswith('module ')
    record = None
    for line in body:
        m = DECL.match(line + ' ')
        start = re.match(r"^(\s*)((?:(?:abbrev|unfoldable|pub)\s+)*)(record|data)\s+(%s)" % ID, line)
        indent = len(line) - len(line.lstrip())
        rules = re.match(r"^(\s*)((?:pub )?)ruleset (%s)" % ID, line) or re.match(r"^(\s*)((?:pub )?)(?:pub )?ruleset pub (%s)" % ID, line)
        if rules:
            found[rules.group(3)] = False
            continue
        if start and indent in ((0,) if not module else (2,)):
            found[start.group(4)] = True
            record = indent
            continue
        if record is not None and line != '' and indent > record:
            f = re.match(r"^\s*(?:pub\s+)?((?:%s\s+)+):\s" % ID, line + ' ')
            if f:
                for w in f.group(1).split():
                    found.setdefault(w, True)
            continue
        if record is not None and line != '' and indent <= record:
            record = None
        if m and indent in ((0,) if not module else (2,)):
            for w in [m.group(3)] + m.group(4).split():
                if w not in WORDS:
                    found[w] = bool(re.search('abbrev|unfoldable', m.group(2)))
    return found


def uses(block):
    return set(re.findall(r"[^\s(){}\[\],;.:λ]+", '\n'.join(l for l in block if not l.lstrip().startswith('--'))))


def imports(head):
    """(lines that are comments, [(module, [(name, as)] or None, text)])"""
    text = '\n'.join(head)
    found = []
    for m in re.finditer(r"^use ([^\s{]+?)(?:\.\{([^}]*)\}|( as \S+)?)$", text, re.M):
        names = None if m.group(2) is None else [w.strip() for w in m.group(2).split(',') if w.strip()]
        found.append((m.group(1), names, m.group(0)))
    return [l for l in head if l.startswith('--')], found


def move(crate):
    """module -> names that went to proofs/."""
    moved = {}
    for f in sorted(glob.glob(f'crates/{crate}/specs/*.antt')):
        module = os.path.basename(f)[:-5]
        if module == 'Lib' or module not in ONLY.get(crate, {module}):
            continue
        moved[module] = split(crate, module, f)
    return moved


def split(crate, module, f):
    head, bs = blocks(open(f).read())
    comments, imps = imports(head)
    infos = [declared(b) for b in bs]
    law = [any(not d for d in i.values()) if i else None for i in infos]
    if (crate, module) in WHOLE:
        law = [None if l is None else True for l in law]
    brought = {n.split(' as ')[-1] for m, ns, _ in imps if m.startswith(f'Rattle.{crate}.specs.') for n in ns or []}
    others = LAWS[crate] & brought
    # names that laws of the crate's other files declare are laws too
    gone = set()
    changed = True
    while changed:
        changed = False
        gone = {n for i, l in zip(infos, law) if l for n in i}
        for k, b in enumerate(bs):
            if law[k] is False and (uses(b) & others or (uses(b) & gone) - set(infos[k])):
                law[k] = True
                changed = True
    # a comment alone goes with what follows
    for k in range(len(bs) - 1, -1, -1):
        if law[k] is None:
            law[k] = law[k + 1] if k + 1 < len(bs) else (law[k - 1] if k else False)
    PLAN[(crate, module)] = (f, comments, imps, bs, infos, law)
    return {n for i, l in zip(infos, law) if l for n in i}


LAWS, PLAN = {}, {}


def write(crate, module):
    f, comments, imps, bs, infos, law = PLAN[(crate, module)]
    laws = [b for b, l in zip(bs, law) if l]
    defs = [b for b, l in zip(bs, law) if not l]
    if not laws:
        return
    own = [n for i, l in zip(infos, law) if not l for n in i]
    fields = set()
    for i, b, l in zip(infos, bs, law):
        if not l:
            fields |= field_names(b)
    tops = [n for n in own if n not in fields]

    # what is private in specs/ and cited by what goes is made public
    def text(bs_, imps_):
        out = list(comments) + [i[2] for i in imps_]
        return '\n'.join(out) + '\n\n' + '\n\n'.join('\n'.join(b) for b in bs_) + '\n'

    cited = [n for n in tops if any(cites(b, n) for b in laws)]
    target = f'crates/{crate}/proofs/{NAMED.get(module, module)}.antt'
    os.makedirs(os.path.dirname(target), exist_ok=True)
    if os.path.exists(target):
        raise SystemExit(f'{target} is there already')
    more = [(f'Rattle.{crate}.specs.{module}', cited, f"use Rattle.{crate}.specs.{module}.{{{', '.join(cited)}}}")] if cited else []
    open(target, 'w').write(text(laws, imps + more))
    lib = f'crates/{crate}/proofs/Lib.antt'
    old = open(lib).read() if os.path.exists(lib) else ''
    if f'mod {NAMED.get(module, module)}\n' not in old:
        open(lib, 'w').write(old + f'pub mod {NAMED.get(module, module)}\n')
    if defs:
        made = []
        for b in defs:
            made.append(make_public(b, cited))
        open(f, 'w').write(text(made, imps))
    else:
        os.remove(f)
        lib = f'crates/{crate}/specs/Lib.antt'
        left = [l for l in open(lib) if l.split()[-1:] != [module]]
        open(lib, 'w').write(''.join(left))


def cites(block, name):
    name = name.strip('◌')
    return re.search(r"(?<![^\s(){}\[\],;.:])%s(?![^\s(){}\[\],;.:])" % re.escape(name), '\n'.join(block)) is not None


def field_names(block):
    found, record = set(), None
    for line in block:
        indent = len(line) - len(line.lstrip())
        if re.match(r"^\s*((?:(?:abbrev|unfoldable|pub)\s+)*)record\s", line):
            record = indent
            continue
        if record is not None and line != '' and indent > record:
            m = re.match(r"^\s*(?:pub\s+)?((?:%s\s+)+):\s" % ID, line + ' ')
            if m:
                found |= set(m.group(1).split())
        elif record is not None and line != '':
            record = None
    return found


def make_public(block, cited):
    out = []
    inside = data = None
    for line in block:
        indent = len(line) - len(line.lstrip())
        if re.match(r"^\s*(?:pub )?data ", line):
            data = indent
        elif data is not None and line != '' and indent > data:
            out.append(line)
            continue
        elif line != '':
            data = None
        m = re.match(r"^(\s*)((?:abbrev|unfoldable)\s+)?(record |data )?(%s)(?=(.*))" % ID, line)
        head_line = m and (m.group(3) or re.match(r"(?: \{[^}]*\})?(?:\s+%s)*\s+:(\s|$)" % ID, m.group(5)))
        if m and m.group(4) in cited and indent <= 2 and head_line and not re.search(r'\bpub\b', line.split(':')[0]):
            line = m.group(1) + (m.group(2) or '') + 'pub ' + line[len(m.group(1)) + len(m.group(2) or ''):]
            inside = indent if m.group(3) == 'record ' else None
        elif inside is not None and line != '' and indent > inside and re.match(r"^\s*((?:%s\s+)+):\s" % ID, line + ' '):
            line = ' ' * indent + 'pub ' + line.lstrip() if not line.lstrip().startswith('pub ') else line
        out.append(line)
    return out


def bring_over(where):
    """Imports of what is in proofs/ now, in every ghost file and source."""
    files = [f for g in ('crates/*/specs/**/*.antt', 'crates/*/proofs/**/*.antt', 'crates/*/src/**/*.rt')
             for f in glob.glob(g, recursive=True)]
    line = re.compile(r"^(ghost )?use Rattle\.(\w+)\.specs\.(\w+)\.\{([^}]*)\}(;?)$", re.M)

    def turn(m):
        names = where.get((m.group(2), m.group(3)))
        if not names:
            return m.group(0)
        ws = [w.strip() for w in m.group(4).split(',') if w.strip()]
        stay = [w for w in ws if w.split(' as ')[0] not in names]
        go = [w for w in ws if w.split(' as ')[0] in names]
        ghost, end = m.group(1) or '', m.group(5)
        if here == f'crates/{m.group(2)}/specs':
            go = []
        out = []
        if stay:
            out.append(f"{ghost}use Rattle.{m.group(2)}.specs.{m.group(3)}.{{{', '.join(stay)}}}{end}")
        if go:
            out.append(f"{ghost}use Rattle.{m.group(2)}.proofs.{NAMED.get(m.group(3), m.group(3))}.{{{', '.join(go)}}}{end}")
        return '\n'.join(out)

    for f in files:
        here = os.path.dirname(f)
        text = open(f).read()
        done = line.sub(turn, text)
        done = re.sub(r"^(use Rattle\.(\w+)\.)specs(\.(\w+)(?: as \S+)?)$",
                      lambda m: m.group(1) + ('proofs' if whole(m.group(2), m.group(4), where) else 'specs') + m.group(3), done,
                      flags=re.M)
        if done != text:
            open(f, 'w').write(done)


def public(crate, module):
    """What proofs/ has under a module's name, at any depth, and specs/ has not."""
    def names(f):
        return set(re.findall(r"(?m)^\s*(?:(?:abbrev|unfoldable) )?pub (%s)(?= )" % ID, open(f).read())) if os.path.exists(f) else set()
    return names(f'crates/{crate}/proofs/{NAMED.get(module, module)}.antt') - names(f'crates/{crate}/specs/{module}.antt')


def whole(crate, module, where):
    return (crate, module) in where and not os.path.exists(f'crates/{crate}/specs/{module}.antt')


def main():
    where = {}
    for crate in CRATES:
        mark = f'tools/port/laws-{crate}.txt'
        if os.path.exists(mark):
            for l in open(mark):
                module, *names = l.split()
                where[(crate, module)] = set(names) | public(crate, module)
            continue
        # which names are proved somewhere in the crate
        LAWS[crate] = set()
        last = None
        while last != LAWS[crate]:
            last = set(LAWS[crate])
            names = set()
            for module, ns in move(crate).items():
                names |= {n for n in ns}
            LAWS[crate] = names
        for (c, module) in [k for k in PLAN if k[0] == crate]:
            _, _, _, bs, infos, law = PLAN[(c, module)]
            words = [n for i, l in zip(infos, law) if l for n, d in i.items() if d]
            if words:
                print(crate, module, 'definitions that go with what is proved:', *words)
            where[(crate, module)] = {n for i, l in zip(PLAN[(c, module)][4], PLAN[(c, module)][5]) if l for n in i}
            write(c, module)
        with open(mark, 'w') as out:
            for (c, module), ns in where.items():
                if c == crate and ns:
                    out.write(' '.join([module] + sorted(ns)) + '\n')
    bring_over(where)


main()
