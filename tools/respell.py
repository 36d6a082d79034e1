#!/usr/bin/env python3
"""respell.py: turns the definitions and lemmas of this repository to the spelling of today's Rattle, once, after the toolchain's own scripts.

Words of a name go in snake case, a fact is a type and goes in camel case. A dash that joins two names stays.
Run it at the top. It renames in crates/ (.rt, .antt and the must-fail edits) and, between backquotes, in README.md and docs/."""
import glob
import re

NAME = re.compile(r"[A-Za-z_][A-Za-z0-9_']*(?:-[A-Za-z0-9_']+)*")

# A plain respelling of these would be the name of a function, a lemma or a local beside them.
APART = {
    'endByte': 'end_byte_of',
    'entryIn': 'entry_of_work',
    'fieldDistance': 'distance_of_field',
    'fieldsIn': 'fields_of_parsed',
    'firstWrong': 'first_wrong_item',
    'freeIn': 'free_within',
    'heldBy': 'held_with',
    'lowerOpen': 'is_lower_open',
    'nextCut': 'cut_after',
    'rootIn': 'root_within',
    'thereBy': 'is_there_by',
    'titleFits': 'is_fitting_title',
    'upperOpen': 'is_upper_open',
    'Once-each': 'OnceEach',
    'child-rep': 'child_rep',
    'in-range': 'in_range',
    'other-rep': 'other_rep',
}

DECLARES = re.compile(r"\s*(?:abbrev |unfoldable |pub |data |record )*([^\s:(){}]+(?: [^\s:(){}]+)*) :(?: |$)")


def read(path):
    with open(path, encoding='utf-8') as file:
        return file.read()


def snake(name):
    return re.sub(r"(?<=[a-z0-9])([A-Z])", lambda m: '_' + m.group(1).lower(), name)


def declared(paths):
    """The names that the definitions and lemmas declare."""
    names = set()
    for path in paths:
        for line in read(path).split('\n'):
            found = DECLARES.match(line)
            if found and not line.lstrip().startswith('--'):
                names.update(found.group(1).split())
    return names


def main():
    antt = sorted(glob.glob('crates/*/specs/**/*.antt', recursive=True) + glob.glob('crates/*/proofs/**/*.antt', recursive=True))
    edits = sorted(glob.glob('crates/*/must-fail/*.edit'))
    sources = sorted(glob.glob('crates/*/src/**/*.rt', recursive=True))
    turned = {}
    for name in declared(antt):
        if re.match(r'[a-z]', name) and re.search(r'[A-Z]', name):
            turned[name] = snake(name)
    # A renamed word keeps its new form where a dash joins it to another.
    for name in list(turned):
        words = name.split('-')
        turned[name] = '-'.join(APART.get(w, snake(w) if re.match(r'[a-z]', w) else w) for w in words)
    turned.update(APART)

    def name_of(found):
        return turned.get(found.group(0), found.group(0))

    def put(path, text):
        if text != read(path):
            with open(path, 'w', encoding='utf-8') as file:
                file.write(text)

    for path in antt + sources:
        put(path, NAME.sub(name_of, read(path)))
    for path in edits:
        text = read(path).replace('·', '.').replace('′', "'")
        if 'file: specs/' in text:
            # A projection is written tight.
            text = re.sub(r"\((\w+) ((?:\.\w+ ?)+)\)", lambda m: m.group(1) + m.group(2).replace(' ', ''), text)
            text = re.sub(r"(?<=[\w)]) (\.\w+)", r"\1", text)
        put(path, NAME.sub(name_of, text))
    for path in ['README.md'] + glob.glob('docs/**/*.md', recursive=True):
        put(path, re.sub(r'`[^`\n]+`', lambda m: NAME.sub(name_of, m.group(0)), read(path)))


main()
