#!/usr/bin/env python3
"""Spells this repository's own definitions and lemmas as the kit's guides do: types in camel case, everything else in snake case, and a dash
only between two names (a definition's and a function's). Run once, at the top, right after the kit's own port.py. Prints what it renamed and
what fell together."""
import glob, re, sys

SIGNATURE = re.compile(r"^(?:abbrev |unfoldable |pub )*([^\s:(){}]+) :(?: |$)(.*)")
TOKEN = re.compile(r'[^\s(){};,."`«»⌜⌝]+')
GOAL = re.compile(r"\bgoal\.|\brules\.")
# names that would fall together with others
BY_HAND = {
    'Reading-back': 'EveryReadingBack', 'cellKind': 'kind_number', 'hasPort': 'is_port', 'portOf': 'port_number', 'inUse': 'is_used', 'ofEnd': 'is_of_end',
}
# functions of the library that lemmas name
LIBRARY = set('append cons nil suc zero map set length get getD drop take reverse filter cond nth'.split())


def snake(name):
    return re.sub(r'([a-z])([A-Z])', lambda m: m[1] + '_' + m[2].lower(), name).replace('-', '_')


def camel(name):
    return ''.join(part[:1].upper() + part[1:] for part in name.split('-'))


def lemma(name, named):
    """A dash stays between a definition and a function of the library; elsewhere it becomes an underscore."""
    head, dash, last = name.rpartition('-')
    joined = dash and last in LIBRARY and (snake(head) in named or head in LIBRARY)
    return snake(head) + '-' + last if joined else snake(name)


def survey():
    types, values, lemmas, goals = {}, {}, {}, set()
    for path in sorted(glob.glob('crates/*/*/**/*.antt', recursive=True)):
        text = open(path, encoding='utf-8').read()
        for m in re.finditer(r"use Rattle\.[^{;\n]*\.(?:Goals|Given)\.\{([^}]*)\}", text):
            goals |= {n.strip() for n in m[1].split(',')}
        lines = text.split('\n')
        inside = None
        for i, line in enumerate(lines):
            m = re.match(r"^(?:pub )?(data|record) ([^\s:(){}]+)", line)
            if m:
                types[m[2]] = path
                inside = m[1]
                continue
            if line and not line.startswith(' '):
                inside = None
            if inside:
                m = re.match(r"^  (?:pub )?([^\s:(){}]+) :", line)
                if m:
                    values[m[1]] = path
                continue
            m = SIGNATURE.match(line.strip() if not line.startswith('--') else '')
            if not m or m[1] in ('let', 'where'):
                continue
            text, j = m[2], i + 1
            depth = len(line) - len(line.lstrip())
            while j < len(lines) and lines[j].startswith(' ' * (depth + 1)):
                text += ' ' + lines[j].strip()
                j += 1
            if GOAL.search(text):
                goals.add(m[1])
                continue
            last = text.split('→')[-1]
            kind = types if re.match(r"^\s*Type [0-9]", last) else values if '/specs/' in path else lemmas
            kind[m[1]] = path
    return types, values, lemmas, goals


def foreign():
    """Names that come from a library of the kit."""
    found = set()
    for path in glob.glob('crates/*/*/**/*.antt', recursive=True) + glob.glob('crates/*/src/**/*.rt', recursive=True):
        for m in re.finditer(r"use ((?:Rattle\.\w+|[A-Za-z]+)[^{;\n]*)\.\{([^}]*)\}", open(path, encoding='utf-8').read()):
            owner = re.match(r"Rattle\.(\w+)", m[1])
            if not owner or owner[1] not in OURS:
                found |= {n.strip().split(' as ')[0] for n in m[2].split(',')}
    return found


OURS = {p.split('/')[1] for p in glob.glob('crates/*/')}
types, values, lemmas, goals = survey()
library = foreign()
new = {}
for n in types:
    new[n] = camel(n)
for n in values:
    new.setdefault(n, snake(n))
named = set(types) | set(values) | LIBRARY | {snake(n) for n in values}
for n in lemmas:
    new.setdefault(n, lemma(n, named))
new.update(BY_HAND)
new = {a: b for a, b in new.items() if a != b and a not in goals}

paths = [p for ext in ('specs/**/*.antt', 'proofs/**/*.antt', 'src/**/*.rt') for p in glob.glob('crates/*/' + ext, recursive=True)]
seen = {}
for path in paths:
    for tok in TOKEN.findall(open(path, encoding='utf-8').read()):
        seen.setdefault(tok, path)
back = {}
for a, b in sorted(new.items()):
    if a in lemmas and (b in seen or b in back or b in library):
        b = new[a] = b + '_lem'
    if b in seen or b in back or b in library or a in library:
        print('falls together:', a, '->', b, 'with', back.get(b) or seen.get(b) or 'the library')
    back[b] = a
if '--dry' in sys.argv:
    for a, b in sorted(new.items()):
        print(a, '->', b)
    sys.exit()


def turn(text, mark):
    out = []
    for line in text.split('\n'):
        code, sep, rest = line, '', ''
        m = re.search(r'(?:^|\s)' + mark, line)
        if m:
            code, rest = line[:m.start()], line[m.start():]
        out.append(TOKEN.sub(lambda t: new.get(t[0], t[0]), code) + rest)
    return '\n'.join(out)


n = 0
for path in paths + glob.glob('crates/*/must-fail/*.edit'):
    old = open(path, encoding='utf-8').read()
    now = turn(old, '//' if path.endswith('.rt') else '--')
    if now != old:
        n += 1
        open(path, 'w', encoding='utf-8').write(now)
for path in glob.glob('docs/*.md') + ['README.md']:
    old = open(path, encoding='utf-8').read()
    now = re.sub(r'`[^`\n]+`', lambda m: TOKEN.sub(lambda t: new.get(t[0], t[0]), m[0]), old)
    if now != old:
        open(path, 'w', encoding='utf-8').write(now)
print(len(new), 'names,', n, 'files')
