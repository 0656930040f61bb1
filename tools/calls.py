"""The public functions of the crates, read off their text: for tools/promises and tools/refusals."""
import os
import re

from definitions import bare, cited, static_crates, uses
from functions import parted

TO_C = '#[unsafe(no_mangle)]\npub extern "C" fn '


class Call:
    """A public function: its path, its head, its clauses, what these name, and its body."""

    def __init__(self, path, head, clauses, body, names, aliases):
        self.path, self.name, self.head, self.body = path, path.split('::')[-1], head, body
        self.clauses = {k: [text for kind, text in clauses if kind == k] for k in ('requires', 'ensures')}
        signature = re.split(r'\n\s*(?:ghost|requires|ensures)\b', head)[0]
        self.parameters = re.findall(r'(\w+): ', signature)
        hidden = set(self.parameters) | {'self', 'result'}
        text = ' '.join(self.clauses['ensures'])
        for binders in re.findall(r'λ ([^.]*)\.', text) + re.findall(r'\blet (\w+)', text):
            hidden |= set(binders.split())
        self.cites = cited(text, names, aliases, hidden)


def files_of(crate):
    """lib.rt, then the modules that it names, in its order."""
    base = os.path.join('crates', crate, 'src')
    lib = os.path.join(base, 'lib.rt')
    if not os.path.isfile(lib):
        return []
    return [('', lib)] + [(m, os.path.join(base, m + '.rt')) for m in re.findall(r'^(?:pub )?mod (\w+);', open(lib).read(), re.M)]


def exported():
    """The names of the functions that the static libraries offer to C."""
    texts = [open(path, encoding='utf-8').read() for crate in static_crates() for _, path in files_of(crate)]
    return {name for text in texts for name in re.findall('^' + re.escape(TO_C) + r'(\w+)', text, re.M)}


def calls_of(crate):
    files = [(module, open(path, encoding='utf-8').read()) for module, path in files_of(crate)]
    home = {name: module for module, text in files for name in re.findall(r'^pub struct (\w+)', text, re.M)}
    found, to_c = [], exported()
    for module, text in files:
        text = bare(text, '//')
        names, aliases = uses(text, ' *ghost use')
        kind = ''
        for m in re.finditer(r'^impl (\w+)|^(\}) *$|^( *)(?:#\[unsafe\(no_mangle\)\]\s+)?pub (?:extern "C" )?fn (\w+)', text, re.M):
            if m.group(1):
                kind = m.group(1)
            elif m.group(2):
                kind = ''
            else:
                end, clauses, body, after = parted(text, m.start())
                head = '\n'.join(line.removeprefix(m.group(3)) for line in text[m.start():end].split('\n') if line.strip())
                # What C calls stands in the book under the name by which C calls it.
                where = '' if m.group(4) in to_c else home.get(kind, module) if kind else module
                found.append(Call('::'.join(x for x in (crate, where, kind, m.group(4)) if x), head, clauses, text[body:after], names, aliases))
    return found


def linked(name, path):
    return f'[{name}]({os.path.relpath(path, "docs")})'
