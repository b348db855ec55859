#!/usr/bin/env python3
"""Counts the places that docs/DESIGN-PASS.md speaks of, in the sources of a tree (this one, or the folder named).

usage: python3 -B tools/places.py [-v] [FOLDER]        -v prints each place

It goes by text: what it finds is a place to look at, and not a verdict.
"""
import collections
import glob
import os
import re
import sys

VERBOSE = '-v' in sys.argv
args = [a for a in sys.argv[1:] if a != '-v']
os.chdir(args[0] if args else os.path.join(os.path.dirname(os.path.abspath(__file__)), '..'))

FILES = sorted(glob.glob('crates/*/src/*.rt'))
TEXT = {f: open(f, encoding='utf-8').read() for f in FILES}


def code_of(text):
    """The text without comments, strings and clauses: blanks in their place, line ends kept."""
    blank = lambda m: re.sub(r'[^\n]', ' ', m.group())
    text = re.sub(r'//[^\n]*', blank, text)
    text = re.sub(r'b?"(\\.|[^"\\])*"', blank, text)
    return re.sub(r'^ *(requires|ensures|ghost) .*$', blank, text, flags=re.M)


CODE = {f: code_of(t) for f, t in TEXT.items()}


def show(name, places):
    print(f'  {name}: {len(places)}')
    if VERBOSE:
        for p in places:
            print('      ' + p)


def lines(pattern, source=CODE):
    found = []
    for f, t in source.items():
        for m in re.finditer(pattern, t, flags=re.M):
            row = t.count('\n', 0, m.start()) + 1
            found.append(f"{f[7:]}:{row}: {' '.join(TEXT[f].splitlines()[row - 1].split())[:110]}")
    return found


def functions():
    """Each function with a body: file, name, parameters, result, body."""
    out = []
    for f, t in CODE.items():
        for m in re.finditer(r'\bfn (\w+)(<[^({]*>)?\(([^)]*)\)( -> ([^{;]*))?\s*\{', t):
            depth, k = 1, m.end()
            while depth and k < len(t):
                depth += {'{': 1, '}': -1}.get(t[k], 0)
                k += 1
            params = []
            for p in re.split(r',(?![^<]*>)', m.group(3)):
                if ':' in p:
                    n, ty = p.split(':', 1)
                    params.append((n.replace('mut ', '').strip().lstrip('_'), ' '.join(ty.split())))
            row = t.count('\n', 0, m.start()) + 1
            out.append((f[7:], row, m.group(1), params, ' '.join((m.group(5) or '').split()), t[m.end():k - 1]))
    return out


FUNCTIONS = functions()


def twins():
    """Functions of one shape: the same tokens but for names and numbers, and at least 25 tokens of body."""
    shapes = collections.defaultdict(list)
    for f, row, name, params, result, body in FUNCTIONS:
        tokens = re.findall(r'\w+|[^\w\s]', body)
        keep = {'for', 'in', 'if', 'else', 'match', 'return', 'let', 'mut', 'while', 'loop', 'Ok', 'Err', 'Some', 'None', 'self', 'true', 'false'}
        shape = tuple(t if t in keep or not re.match(r'\w', t) else ('0' if t[0].isdigit() else 'x') for t in tokens)
        if len(shape) >= 12:
            shapes[shape].append(f'{f}:{row}: {name}')
    return ['   '.join(v) for v in shapes.values() if len(v) > 1]


def together():
    """Pairs of parameters that stand in three functions or more and in none apart."""
    both, each = collections.defaultdict(set), collections.Counter()
    for f, row, name, params, result, body in FUNCTIONS:
        crate = f.split('/')[0]
        names = {n for n, _ in params}
        for a in names:
            each[crate, a] += 1
            for b in names:
                if a < b:
                    both[crate, a, b].add(f'{name}')
    return [f'{c}: {a}, {b}: ' + ' '.join(sorted(v)) for (c, a, b), v in sorted(both.items())
            if len(v) >= 3 and len(v) >= 0.75 * min(each[c, a], each[c, b])]


def repeated_facts():
    facts = collections.defaultdict(set)
    for f, t in TEXT.items():
        for m in re.finditer(r'^ *requires (\w+ )?\{ (.*) \}$', t, flags=re.M):
            facts[f.split('/')[1], m.group(2)].add(t.count('\n', 0, m.start()))
    return [f'{c}: {len(v)} times: {x}' for (c, x), v in sorted(facts.items()) if len(v) >= 3]


print('1 Option, Result, flags, numbers for kinds')
show('enums', lines(r'^ *(pub(\([a-z]+\))? )?enum \w+'))
show('functions that change something and answer a bool', [f'{f}:{row}: {n} -> {r}' for f, row, n, p, r, b in FUNCTIONS
     if r in ('bool', 'io::Result<bool>') and (any('&mut' in t for _, t in p) or re.search(r'self\.\w+(\[.*?\])? = ', b))])
show('a number that stands for none', lines(r'or how many (there are|members there are)', TEXT))
show('an Option of a refusal', lines(r'-> Option<\w*(Fault|Refusal|Refused|Misfit|Wrong)>'))
show('an error handed on by a match', lines(r'Err\((\w+)\) => (return )?(Err\(|Answer::Refused)') + lines(r'None => (return )?Err\('))
show('refusals compared by number', lines(r'match \w+\.number\(\)'))
show('kinds by number', lines(r'fn (from_code|code)\b'))
print('2 twins')
show('functions of one shape', twins())
show('a match with one arm for each method', lines(r'NoRedundancy => \w+[.:(]'))
print('3 loops')
show('for over a range', lines(r'\bfor \w+ in [^{]*\.\.'))
show('while and loop', lines(r'\b(while|loop)\b'))
print('4 by hand: equality, order, copying, conversion, printing')
show('types without PartialEq', [p for f, t in CODE.items() for p in [f"{f[7:]}: {m.group(3)}" for m in re.finditer(r'((?:^ *#\[[^\n]*\]\n)*)^ *(?:pub(?:\([a-z]+\))? )?(enum|struct) (\w+)', t, flags=re.M) if 'PartialEq' not in m.group(1)]])
show('conversions and texts', lines(r'fn (number|code|from_code|text|rename|at_drive|wrong_word|done|one_fewer)\b'))
show('digits by hand', lines(r"b'0' \+|% 10"))
print('5 facts and parameters that travel together')
show('a fact required by three functions of a crate or more', repeated_facts())
show('pairs of parameters in three functions of a crate or more', together())
print('6 lengths beside, parallel arrays, searches by hand')
show('blocks with marks beside', [f'{f}:{row}: {n}' for f, row, n, p, r, b in FUNCTIONS if any('[Block]' in t for _, t in p) and any('[bool]' in t for _, t in p)])
show('an array with a length beside', lines(r'^ +(pub(\(crate\))? )?\w+: \[[^\]]*; \w+\],\n +(pub(\(crate\))? )?(count|len|number): usize'))
show('a slice with an index or a length beside', [f'{f}:{row}: {n}' for f, row, n, p, r, b in FUNCTIONS if any(re.match(r'&(mut )?\[', t) for _, t in p) and any(t == 'usize' and x in ('k', 'n', 'i', 'len') for x, t in p)])
print('7 switches on which step to run')
show('enums that only choose a step', lines(r'^ *(pub )?enum (Work|Kind|Turn)\b'))
show('matches with an arm for each method', lines(r'Xor => \w+[.:(]'))
print('8 proofs')
for c in sorted({f.split('/')[1] for f in FILES}):
    files = [p for p in glob.glob(f'crates/{c}/proofs/**/*.antt', recursive=True)]
    n = sum(len(open(p, encoding='utf-8').read().splitlines()) for p in files)
    a = [p for p in files if p.endswith('Answers.antt')]
    print(f'  {c}: {len(files)} files, {n} lines, {len(a)} of them answers')
