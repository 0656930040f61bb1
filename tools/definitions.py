"""What the definitions of specs/ cite, read off their text: for tools/promises and tools/reading."""
import os
import re

NAME = r"[A-Za-z«][\w«»'′₀-₉]*(?:-[\w'′]+)*"
KEYWORDS = {'record', 'let', 'in', 'use', 'pub', 'where', 'abbrev', 'unfoldable', 'data', 'as', 'λ'}
TABLE = []


def crates():
    """The crates of crates.txt, in its order, which puts a crate after those it rests on."""
    if not TABLE:
        TABLE.extend(re.findall(r'^(\w+)((?: [^:#\n]*)?):', open('crates.txt', encoding='utf-8').read(), re.M))
    return [name for name, _ in TABLE]


def static_crates():
    """Those that are static libraries."""
    crates()
    return [name for name, words in TABLE if 'staticlib' in words.split()]


def bare(text, mark):
    """The text without comments."""
    return re.sub(r'(^|\s)' + re.escape(mark) + r'(?=\s|$)[^\n]*', r'\1', text)


def root_of(crate):
    """The file that a crate's source begins with."""
    base = os.path.join('crates', crate, 'src')
    return next((f for f in ('lib.rt', 'main.rt') if os.path.isfile(os.path.join(base, f))), 'lib.rt')


def module_of(path):
    """Where a `use` line leads: ('spec', crate, file), ('type', crate, rt file, type), or None for the kit."""
    m = re.match(r'Rattle\.(\w+)\.specs\.(.+)$', path)
    if not m or m.group(1) not in crates():
        return None
    crate, rest = m.group(1), m.group(2).split('.')
    if rest[0] != 'declared':
        return ('spec', crate, rest[0])
    rest = [r for r in rest[1:] if r != 'TheVariants']
    return ('type', crate, rest[0] + '.rt' if len(rest) > 1 else root_of(crate), rest[-1])


def use_lines(text, word):
    """Of each `use` line: the module, the names that it brings, each with what it is called there, and the module's alias, if it brings that."""
    for m in re.finditer(r'^(?:pub )?' + word + r'\s+([\w.\-]+?)(?:\.\{([^}]*)\}|\s+as\s+(\w+))?;?\s*$', text, re.M):
        if m.group(2) is None:
            yield m.group(1), {}, m.group(3) or m.group(1).split('.')[-1]
            continue
        ways = [brought.strip().partition(' as ') for brought in m.group(2).split(',')]
        yield m.group(1), {called.strip() or name: name for name, _, called in ways}, None


def uses(text, word):
    """(names, aliases) that the `use` lines bring: each name to where it leads and what it is called there, each alias to where it leads."""
    names, aliases = {}, {}
    for module, brought, alias in use_lines(text, word):
        where = module_of(module)
        if where is None:
            continue
        if alias:
            aliases[alias] = where
        names.update({called: (where, name) for called, name in brought.items()})
    return names, aliases


class Spec:
    """A file of specs/: its declarations, in order, with their text."""

    def __init__(self, crate, file):
        self.crate, self.file = crate, file
        self.path = os.path.join('crates', crate, 'specs', file + '.antt')
        raw = open(self.path, encoding='utf-8').read()
        self.lines = raw.count('\n')
        text = bare(raw, '--')
        self.names, self.aliases = uses(text, 'use')
        self.text, self.owner = {}, {}
        heads = list(re.finditer(r'^(?:abbrev |unfoldable )?pub (?!use |mod )(?:record |data )?(' + NAME + r')', text, re.M))
        for at, m in enumerate(heads):
            end = heads[at + 1].start() if at + 1 < len(heads) else len(text)
            body, name = text[m.start():end], m.group(1)
            self.text[name] = self.text.get(name, '') + body
            self.owner[name] = name
            if re.match(r'pub data', body):
                for made in re.findall(r'^\s+(' + NAME + r') :', body, re.M):
                    self.owner[made] = name


SPECS = {}


def spec(crate, file):
    if (crate, file) not in SPECS:
        SPECS[crate, file] = Spec(crate, file)
    return SPECS[crate, file]


def lead(where, name):
    """The definition or type that a name brought from there is."""
    if where[0] == 'type':
        return where
    s = spec(where[1], where[2])
    return ('spec', where[1], where[2], s.owner[name]) if name in s.owner else None


def unknown(text, word):
    """The names that `use` lines bring from a file of specs/ that does not declare them."""
    return [name for name, (where, called) in uses(text, word)[0].items() if where[0] == 'spec' and not lead(where, called)]


def cited(text, names, aliases, hidden=()):
    """The definitions and types that a text names. What follows a name tightly, as in `state.list`, is a field of it, unless the name is a
    module's."""
    found = []
    for m in re.finditer(r"(?<![\w.«'′])(" + NAME + r')(?:\.(' + NAME + r'))?', text):
        first, name = m.group(1), m.group(2)
        if first in hidden or first in KEYWORDS:
            to = None
        elif name and first in aliases:
            to = lead(aliases[first], name)
        elif first in names:
            to = lead(*names[first])
        else:
            to = None
        if to and to not in found:
            found.append(to)
    return found


def below(item):
    """What a definition cites."""
    if item[0] == 'type':
        return []
    s = spec(item[1], item[2])
    names = dict(s.names)
    for name in s.owner:
        names[name] = (('spec', s.crate, s.file), name)
    return [x for x in cited(s.text[item[3]], names, s.aliases) if x != item]


def all_below(items):
    """These and all that they rest on."""
    seen, todo = [], list(items)
    while todo:
        item = todo.pop()
        if item not in seen:
            seen.append(item)
            todo += below(item)
    return seen


def file_depth(crate, file, seen=()):
    """How many files of its own crate a file of specs/ rests on, one below the other."""
    s = spec(crate, file)
    led = [w for w, _ in s.names.values()] + list(s.aliases.values())
    uses_ = {w[2] for w in led if w[0] == 'spec' and w[1] == crate}
    return 1 + max([file_depth(crate, f, seen + (file,)) for f in uses_ if f not in seen + (file,)], default=0)


def in_order(items):
    """Grouped by file in reading order: [(path, [name, ..]), ..], a file after those that it rests on."""
    order = crates()
    groups = {}
    for item in items:
        if item[0] == 'type':
            key = (order.index(item[1]), 0, os.path.join('crates', item[1], 'src', item[2]))
            groups.setdefault(key, []).append(item[3])
        else:
            key = (order.index(item[1]), file_depth(item[1], item[2]), spec(item[1], item[2]).path)
            groups.setdefault(key, []).append(item[3])
    answer = []
    for key in sorted(groups):
        text = open(key[2], encoding='utf-8').read()

        def place(name):
            m = re.search(r'\b(?:pub|record|data|struct|enum) ' + re.escape(name) + r'(?![\w\-])', text)
            return m.start() if m else 0
        answer.append((key[2], sorted(groups[key], key=place)))
    return answer
