"""Wrong programs as text, for tools/wrong and tools/promises.

An edit has lines `call: NAME` (whose answer it spoils; one or more), `wrong: WORDS` (how), and the change: `file: PATH`, then pairs
`old: TEXT` and `new: TEXT`. The old text must stand there once; after a line `in: NAME` that is asked of the body of the function NAME
alone, and after `in: TYPE::NAME` of that in the first `impl` of the type. One edit is a file of crates/CRATE/must-fail, which the gate tries, and which knows no `in:`; many stand in
crates/CRATE/wrong.txt, parted by empty lines.
"""
import os
import re

from functions import parted


class Edit:
    def __init__(self, place, text):
        self.place, self.calls, self.wrong, self.pairs = place, [], '', []
        file = inside = old = ''
        for line in text.split('\n'):
            word, _, rest = line.partition(':')
            rest = rest.removeprefix(' ')
            if word == 'call':
                self.calls.append(rest)
            elif word == 'wrong':
                self.wrong = rest
            elif word == 'file':
                file, inside = rest, ''
            elif word == 'in':
                inside = rest
            elif word == 'old':
                old = rest
            elif word == 'new':
                self.pairs.append((file, inside, old, rest))


def edits_of(crate):
    """The edits of a crate: those that the gate tries, then the others."""
    found = []
    folder = os.path.join('crates', crate, 'must-fail')
    for name in sorted(os.listdir(folder)) if os.path.isdir(folder) else []:
        path = os.path.join(folder, name)
        found.append(Edit(path, open(path, encoding='utf-8').read()))
    path = os.path.join('crates', crate, 'wrong.txt')
    if os.path.isfile(path):
        blocks = re.split(r'\n\s*\n', open(path, encoding='utf-8').read().strip())
        blocks = [b for b in blocks if re.search(r'^(call|wrong|file|old|new):', b, re.M)]
        found += [Edit(f'{path} {number + 1}', block) for number, block in enumerate(blocks)]
    return found


def changed(text, inside, old, new):
    """The text after a replacement; None where the old text does not stand there once."""
    start, end = 0, len(text)
    if inside:
        kind, _, name = inside.rpartition('::')
        first = re.search(r'^impl ' + re.escape(kind) + r'\b', text, re.M) if kind else None
        if kind and not first:
            return None
        at = re.compile(r'\bfn ' + re.escape(name) + r'\b').search(text, first.end() if first else 0)
        if not at:
            return None
        start, end = parted(text, at.start())[2:]
    part = text[start:end]
    if not old or part.count(old) != 1:
        return None
    return text[:start] + part.replace(old, new) + text[end:]
