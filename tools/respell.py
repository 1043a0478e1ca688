#!/usr/bin/env python3
"""Respells the repository's own definitions and lemmas as today's Rattle writes them: words in snake case, no middle dot in a name.

Run once, at the top, on what /opt/rattle/port/port.py leaves. It goes by whole names, in code, definitions, proofs, edits and pages;
strings in the programs are not touched, since no such name stands in one."""
import glob
import re

BREAK = r'[^\s(){}.,;"`@⌜⌝|]'


def snake(name):
    name = name.replace('getD', 'get_or')
    return re.sub(r'([a-z0-9])([A-Z])', lambda m: m.group(1) + '_' + m.group(2).lower(), name)


# Lemmas that would have the new name of the definition which they are about, in the folders where both stand.
LEMMAS = {
    'crates/text/specs': ['is_digit'],
    'crates/frame': ['no_room'],
    'crates/frame_write/proofs': ['no_room'],
    'crates/desk/specs/InPlace.antt': ['own_in'],
    'crates/desk_step/proofs': ['own_in'],
    'crates/table/specs/InPlace.antt': ['own_in', 'store_in', 'take_in'],
    'crates/walks/proofs': ['room_of'],
}
# Names with a middle dot: aliases of a contract's file, and one module's words.
DOTS = {
    'number·def': 'number_def',
    'keeps·def': 'keeps_def',
    'event·type': 'Event',
    'refusal·def': 'refusal_def',
    'done·def': 'done_def',
    'waits·def': 'waits_def',
    'Script·run': 'script_run',
    'Script·answer': 'script_answer',
}
# A fact is spelled as a type.
FACTS = {'says': 'Says'}


def texts():
    for pattern in ('crates/**/*.antt', 'crates/**/*.rt', 'crates/**/*.edit', 'docs/**/*.md', 'README.md', 'rust/README.md'):
        yield from sorted(glob.glob(pattern, recursive=True))


def declared():
    """The names in camel case that specs/ and proofs/ give: at a signature, a field or a constructor."""
    found = set()
    line = re.compile(r'^\s*(?:(?:pub|abbrev|unfoldable)\s+)*([^\s(){}.,;:@]+)(?:\s+[^:]*)?\s+:\s')
    for path in glob.glob('crates/*/specs/**/*.antt', recursive=True) + glob.glob('crates/*/proofs/*.antt'):
        for text in open(path, encoding='utf-8'):
            at = line.match(re.sub(r'--.*', '', text.rstrip('\n')))
            names = ([at.group(1)] if at else []) + re.findall(r' as (\w+)', text)
            found.update(n for n in names if n[0].islower() and re.search(r'[a-z][A-Z]', n))
    return found


def put(text, table):
    if not table:
        return text
    names = '|'.join(re.escape(n) for n in sorted(table, key=len, reverse=True))
    return re.sub(rf'(?<!{BREAK})({names})(?!{BREAK})', lambda m: table[m.group(1)], text)


def main():
    table = {name: snake(name) for name in declared()}
    table.update({name: snake(name) for name in ('recordOf', 'recordFits', 'tableRule', 'leadOf')})
    table.update(DOTS)
    for path in texts():
        before = open(path, encoding='utf-8').read()
        after = before
        for place, names in LEMMAS.items():
            if path.startswith(place) and path.endswith('.antt'):
                after = put(after, {n: n + '_lem' for n in names})
        after = put(after, table)
        if path == 'crates/text/specs/Corners.antt':
            after = ''.join(s if s.startswith('--') else put(s, FACTS) for s in after.splitlines(keepends=True))
        if after != before:
            open(path, 'w', encoding='utf-8').write(after)


main()
