"""What texts of the crates state, for tools/changes: the declarations of .antt files, and the clauses, ghost members, types and constants
of .rt files, each with where the names lead that it cites. The texts are handed in by their paths, so that an older revision's are read alike.
"""
import re

from definitions import bare, use_lines
from functions import CLAUSE, closing

USE = re.compile(r'^(?:pub )?(?:use|mod) [^\n{]*(?:\{[^}]*\})?[^\n]*', re.M)
HEAD = re.compile(r'((?:(?:abbrev|unfoldable|opaque|pub) )*)((?:record|data) )?([^\s(){}.;,]+)(?= |$)')
BLOCK = re.compile(r'^ *(pub(?:\(\w+\))? )?(impl|trait|struct|enum)\b((?:\[[^\]]*\]|[^{;\[])*)', re.M)
OWNER = re.compile(r"(?:!?(?:\w+::)*(\w+)\s+for\b)?(?:[^\w']|'\w+|(?:mut|const|dyn)\b)*(?:\w+::)*(\w+)")
FUNCTION = re.compile(r'^ *(pub(?:\(\w+\))? )?(?:(?:const|unsafe|extern "C") )*fn (\w+)', re.M)
GHOST = re.compile(r'^ *(?:pub(?:\(\w+\))? )?ghost (\w+)\s*[:=]\s*(?=\{)', re.M)
CONST = re.compile(r'^ *(?:pub(?:\(\w+\))? )?(?:const|static) (\w+):', re.M)
TO_C = re.compile(r'^ *pub extern "C" fn (\w+)', re.M)
WORD = re.compile(r"(?<![\w.«'′])([^\W\d][\w«»'′]*(?:-[\w'′]+)*)(?:\.([^\W\d][\w«»'′]*(?:-[\w'′]+)*))?")
STAND = ('definition', 'type', 'law', 'helper')
ANSWERS = ('Answers.antt', 'Invariants.antt')
QUOTED = re.compile(r'"(?:\\.|[^"\\])*"|\'(?:\\.|[^\'\\])\'')


class Item:
    """Something stated: its kind, its crate, its name there, its file, the text by which it is compared, and as a reader is shown it. Beside
    that: of a law its proof, of a function its signature; and the constructors that it makes. A function or ghost member has the type that it
    belongs to. Where the names of both texts lead is found when all is stated."""

    def __init__(self, kind, name, path, shown, beside='', makes=()):
        self.kind, self.name, self.path, self.shown, self.beside, self.makes = kind, name, path, shown, beside, makes
        self.crate = path.split('/')[1]
        self.called = f'{self.crate}::{name}'
        self.text, self.beside_text = plain(' '.join(shown)), plain(beside)
        self.cites, self.beside_cites, self.owner = {}, {}, None

    def unnamed(self):
        """Its text, and a function's signature, without its name."""
        last = re.escape(self.name.split('::')[-1])
        beside = '' if self.kind == 'law' else self.beside_text
        return re.sub(rf"(?<![\w«»'′₀-₉-]){last}(?![\w«»'′₀-₉-])", '·', f'{beside} {self.text}') if self.text else None


def squeezed(text):
    return re.sub(r'\s+', ' ', text).strip()


def plain(text):
    """The text without what a line break may bring: blanks beside brackets, a comma or semicolon before a closing one."""
    return re.sub(r'[,;](?=[)}\]])', '', re.sub(r' ?([(){}\[\],;]) ?', r'\1', squeezed(text)))


# ---- .antt

def blocks(lines):
    """The lines by what begins at the depth of the first of them, each with what stands deeper below it."""
    found, lines = [], [line for line in lines if line.strip()]
    depth = [len(line) - len(line.lstrip()) for line in lines]
    for at, line in enumerate(lines):
        if depth[at] <= depth[0]:
            found.append([])
        found[-1].append(line)
    return found


def declared(lines, around=''):
    """Of each declaration, those in modules too: whether it defines something, its name, its head, what follows, and its constructors. The
    head of one in a module begins with the module's parameters."""
    found, last = {}, None
    for block in blocks(lines):
        whole = squeezed(' '.join(block))
        m = HEAD.match(whole)
        if whole.startswith('module '):
            end = next((at for at, line in enumerate(block) if line.rstrip().endswith('where')), 0) + 1
            yield from declared(block[end:], f'{around}{squeezed(" ".join(block[:end]))} ')
        elif m and m.group(3) != '{' and (m.group(1) or m.group(2) or re.match(r' :( |$)', whole[m.end():])):
            makes = re.findall(r'^ +([^\s(){}.;,]+) :(?= |$)', '\n'.join(block), re.M) if m.group(2) == 'data ' else []
            defines = m.group(1) not in ('', 'pub ') or bool(m.group(2))
            last = found[m.group(3)] = [defines, m.group(3), around + re.sub(r'\bpub ', '', whole), '', makes]
        elif last:
            # The clauses of two that are declared before both are defined.
            to = found.get(re.split(r'[ ({]', whole)[0], last)
            to[3] += ' ' + whole
    yield from found.values()


def of_antt(path, text):
    specs = path.split('/')[2] == 'specs'
    for defines, name, head, rest, makes in declared(USE.sub('', bare(text, '--')).split('\n')):
        if specs or defines:
            yield Item('definition' if specs else 'helper', name, path, [head + rest], makes=makes)
        else:
            yield Item('law', name, path, [head], rest)


# ---- .rt

def hollow(text):
    """The text without comments, and without the braces that stand in quotes."""
    return QUOTED.sub(lambda m: re.sub(r'[{}]', '_', m.group(0)), bare(text, '//'))


def end_of(text, start, stop):
    """Where something begins, from a place on, that stands in no brackets of another kind."""
    depth = 0
    for m in re.compile(stop + r'|[(\[{]|[)\]}]').finditer(text, start):
        if depth == 0 and re.fullmatch(stop, m.group(0)):
            return m.start()
        depth += 1 if m.group(0) in '([{' else -1 if m.group(0) in ')]}' else 0
    return len(text)


def clauses_from(text, at):
    found = []
    while m := CLAUSE.match(text, at):
        at = closing(text, m.end())
        found.append(squeezed(text[m.start():at]))
    return found


def without_generics(head):
    """A head without what stands in angle brackets, however deep, and without its `where`."""
    head, less = None, head.replace('->', '')
    while head != less:
        head, less = less, re.sub(r'<[^<>]*>', '', less)
    return re.split(r'\bwhere\b', head)[0].strip()


class Block:
    """An impl, a trait, a struct or an enum: its type, the trait that it implements, and where it stands."""

    def __init__(self, text, m):
        self.word, self.public = m.group(2), m.group(1) == 'pub '
        self.trait, self.type = OWNER.match(without_generics(m.group(3))).groups()
        self.start, self.end = m.start(), m.end() + 1 if text[m.end()] == ';' else closing(text, m.end())

    def opens(self, open_types, closed_traits):
        """Whether what it states, its functions without a `pub` of their own among it, is stated to other crates."""
        if self.word != 'impl':
            return self.public
        return self.type in open_types and self.trait not in closed_traits


def of_rt(path, text, open_types, closed_traits):
    text, program = hollow(text), path.endswith('/main.rt')
    around = [Block(text, m) for m in BLOCK.finditer(text)]

    def home(at):
        return next((b for b in reversed(around) if b.start < at < b.end), None)

    def named(name, block):
        return f'{block.type}::{name}' if block else name

    for m in FUNCTION.finditer(text):
        block = home(m.start())
        end = end_of(text, m.end(), r'[{;]|\b(?:requires|ensures|ghost)\b')
        # A program exports no function: what it promises is what those of its main.rt do.
        public = m.group(1) == 'pub ' or program or (block and (block.trait or block.word == 'trait') and block.opens(open_types, closed_traits))
        name = named(m.group(2), block) + (f' of {block.trait}' if block and block.trait else '')
        yield Item('public' if public else 'private', name, path, clauses_from(text, end), squeezed(text[m.end():end]))
    for m in GHOST.finditer(text):
        block = home(m.start())
        public = block and block.opens(open_types, closed_traits)
        kind = 'public ghost' if public else 'private ghost'
        yield Item(kind, named(m.group(1), block), path, [squeezed(text[m.start():closing(text, m.end())])])
    for block in around:
        if block.word in ('struct', 'enum'):
            yield Item('type', block.type, path, [squeezed(without_ghosts(text[block.start:block.end]))])
    for m in CONST.finditer(text):
        yield Item('type', named(m.group(1), home(m.start())), path, [squeezed(text[m.start():end_of(text, m.end(), ';')])])


def without_ghosts(text):
    while m := GHOST.search(text):
        text = text[:m.start()] + text[closing(text, m.end()):].lstrip(',')
    return text


# ---- where names lead

def brought(text, word, crate, crates, rust=False):
    """(names, aliases) that the `use` lines bring: each name to its crate ('' where that is none of ours), its module, and its name there; each
    alias to its crate and module. Rust's paths are read as the others, but there an alias may stand alone."""
    def home(module):
        words = module.split('.')
        first = words[1] if words[0] == 'Rattle' and words[1:] else words[0]
        return crate if first in ('crate', 'self', 'super') else first if first in crates else ''

    names, aliases = {}, {}
    for module, those, alias in use_lines(text, word):
        names.update({called: (home(module), module, name) for called, name in those.items()})
        if alias:
            aliases[alias] = home(module), module
            if rust:
                names[alias] = (home(module),) + module.rpartition('.')[::2]
    return names, aliases


def cited(text, names, aliases, rust):
    """Of the names that lead somewhere, those that a text cites, each to where it leads. What follows a name tightly is a field of it, unless
    the name is a module's. In Rust one that is not brought, nor that of a parameter or field, leads to what stands there everywhere."""
    text, found = re.sub(r'\w+: ', '', text.replace('::', '.')), {}
    for first, name in WORD.findall(text):
        if name and first in aliases:
            found[f'{first}.{name}'] = aliases[first] + (name,)
        elif first in names or rust:
            found[first] = names.get(first, ('', '', first))
    said = set(re.split(r'[\s(){}\[\],;]+', text))
    found.update({name: to for name, to in names.items() if '◌' in name and all(part in said for part in name.split('◌') if part)})
    return found


class Names:
    """What the crates declare, by crate and name."""

    def __init__(self, items):
        self.items = {}
        for item in items:
            for name in [item.name, *item.makes]:
                self.items.setdefault((item.crate, name), []).append(item)

    def led(self, crate, module, name):
        """The item to which it leads, None where there is none; and what else tells it from others: module and name where it is not ours, the
        name where it is not the item's. Of several the item counts whose file the module names best."""
        words = module.replace('.specs.declared.', '.src.').split('.')
        # A variant is of a type, which the module names.
        owner = [word for word in words if word != 'TheVariants'][-1] if '.declared.' in module else name
        those = crate and (self.items.get((crate, owner)) or self.items.get((crate, name)))
        if not those:
            return None, f'{crate or module}.{name}'.lstrip('.')
        item = max(those, key=lambda x: sum(part in words for part in re.split('[/.]', x.path)))
        return item, '' if item.name == name else name


def lead(texts, items):
    """Finds of each item where the names lead that it cites, to what type it belongs, and its path, as docs/PROMISES.md has it."""
    crates, by_path = {path.split('/')[1] for path in texts if '/' in path}, {}
    known, types = Names([x for x in items if x.kind in STAND]), Names([x for x in items if x.kind == 'type'])
    to_c = {name for path, text in texts.items() if path.endswith('.rt') for name in TO_C.findall(text)}
    for item in items:
        by_path.setdefault(item.path, []).append(item)
    for path, those in by_path.items():
        if path not in texts:
            continue
        crate, rust = path.split('/')[1], path.endswith('.rt')
        text = bare(texts[path], '//' if rust else '--').replace('::', '.')
        own = {name: (crate, path.replace('/', '.'), name) for x in those if x.kind in STAND for name in [x.name, *x.makes]}

        def leads(text, found, rust):
            return {name: known.led(*to) for name, to in cited(text, {**own, **found[0]}, found[1], rust).items()}

        plainly = brought(text, r' *(?:pub(?:\(\w+\))? )?use' if rust else 'use', crate, crates, rust)
        in_clauses = brought(text, ' *ghost use', crate, crates) if rust else plainly
        for x in those:
            x.cites = leads(x.text, plainly, rust) if x.kind == 'type' else leads(x.text, in_clauses, False)
            x.beside_cites = leads(x.beside_text, plainly, rust)
            if rust and x.kind != 'type':
                x.owner = types.led(crate, path.replace('/', '.'), x.name.split('::')[0])[0] if '::' in x.name else None
                home = x.owner.path if x.owner else path
                modules = [] if x.name in to_c else [m for m in re.sub(r'\.rt$', '', home).split('/')[3:] if m not in ('lib', 'main')]
                x.called = '::'.join([crate, *modules, x.name])


# ---- all

def answers_of(texts):
    """One item for each function of whose proof something is written."""
    found = {}
    for path, text in sorted(texts.items()):
        folder, _, file = path.rpartition('/')
        if '/proofs/' in path and file in ANSWERS:
            found.setdefault(folder, []).append(USE.sub('', bare(text, '--')))
    return [Item('answers', folder.split('/')[-1], folder, parts) for folder, parts in found.items()]


def stated(texts):
    """All that these texts state."""
    sources = {path: text for path, text in texts.items() if path.endswith('.rt')}
    bare_sources = [bare(text, '//') for text in sources.values()]
    open_types = {name for text in bare_sources for name in re.findall(r'^pub (?:struct|enum) (\w+)', text, re.M)}
    closed_traits = {name for text in bare_sources for name in re.findall(r'^(?:pub\(\w+\) )?trait (\w+)', text, re.M)}
    found = answers_of(texts)
    for path, text in sorted(texts.items()):
        if path in sources:
            found += of_rt(path, text, open_types, closed_traits)
        elif path.endswith('.antt') and path.split('/')[-1] not in ANSWERS:
            found += of_antt(path, text)
    lead(texts, found)
    return found
