"""How a function stands in a .rt file, for tools/promises and tools/edits.py."""
import re
import sys

CLAUSE = re.compile(r'\s*(requires|ensures|ghost)\*?(?: \w+)? (?=\{)')


def closing(text, start):
    """The place after the brace that closes the one at start."""
    depth = 0
    for at in range(start, len(text)):
        depth += {'{': 1, '}': -1}.get(text[at], 0)
        if depth == 0:
            return at + 1
    sys.exit(f'a brace is not closed: {text[start:start + 80]}')


def parted(text, start=0):
    """Of the function that begins at start: where its head ends, its clauses (which kind, and what stands in braces), and from where to
    where its body stands, with its braces."""
    end = re.compile(r'.*?(?=\s*(?:(?:requires|ensures|ghost)\b[^{\n]*)?\{)', re.S).match(text, start).end()
    clauses = []
    while m := CLAUSE.match(text, end):
        end = closing(text, m.end())
        clauses.append((m.group(1), text[m.end():end]))
    body = text.index('{', end)
    return end, clauses, body, closing(text, body)
