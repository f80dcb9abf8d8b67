#!/usr/bin/env python3
"""Respells the old and new lines of the must-fail edits, once, at the top, after port.py and respell.py: a projection is
written tight, and words are in snake case."""
import glob
import re

FIELD = re.compile(r"\(([A-Za-z_][\w']*)((?: \.[\w'-]+)+)\)")
BARE = re.compile(r"(?<![\w'.)])([a-z][\w']*)((?: \.[\w'-]+)+)")


def tight(line):
    line = FIELD.sub(lambda m: m.group(1) + m.group(2).replace(' ', ''), line)
    return BARE.sub(lambda m: m.group(1) + m.group(2).replace(' ', ''), line)


def snake(line):
    line = line.replace('Rattle·', 'Rattle.').replace('′', "'")
    return re.sub(r"(?<![\w'])([a-z][a-z0-9]*(?:[A-Z][a-z0-9]*)+)(?![\w'])",
                  lambda m: re.sub('([A-Z])', lambda c: '_' + c.group(1).lower(), m.group(1)), line)


def main():
    for f in sorted(glob.glob('crates/*/must-fail/*.edit')):
        text = open(f).read()
        lines = text.split('\n')
        antt = False
        for i, line in enumerate(lines):
            if line.startswith('file: '):
                antt = line.rstrip().endswith('.antt')
            if antt and line.startswith(('old: ', 'new: ')):
                lines[i] = line[:5] + snake(tight(line[5:]))
        done = '\n'.join(lines)
        if done != text:
            open(f, 'w').write(done)


main()
