#!/usr/bin/env python3
"""Places where the code of crates/*/src may read like an older Rattle, by kind.

usage: tools/places.py [COMMIT] [--count]     of a commit, or of the working tree
"""
import collections
import glob
import re
import subprocess
import sys


def sources(commit):
    if commit:
        names = subprocess.run(['git', 'ls-tree', '-r', '--name-only', commit, 'crates'], capture_output=True, text=True, check=True).stdout.split('\n')
        for name in sorted(names):
            if '/src/' in name and name.endswith('.rt'):
                yield name, subprocess.run(['git', 'show', f'{commit}:{name}'], capture_output=True, text=True, check=True).stdout
    else:
        for name in sorted(glob.glob('crates/*/src/**/*.rt', recursive=True)):
            yield name, open(name).read()


# kind, what it looks for, over the whole text of a file
PATTERNS = [
    ('1', 'a variant that says that there is nothing', r'^    (Unreadable|Unknown|Stray|Refused|Skipped|NoData|Unitless|Silence|Nobody)\b.*$'),
    ('1', 'a truth value beside other values', r'^.*(\bfull: bool|\(\w+(<\w+>)?, bool\)).*$|^ +fn \w+\(&mut self,.*-> bool.*$'),
    ('1', 'a match that a method of Option or Result is', r'^.*(Some\(\w+\) => Some\(|None => (None|0|false|[A-Z_]{3,})\b|Err\(_\) => None\b).*$'),
    ('1', 'a refusal passed on by hand', r'^.*else \{\n +return (None|\w+::Unreadable);$|^.*if let Err\(\w+\) = .*\{\n +return Err\(.*$'),
    ('1', 'numbers for kinds', r'^.*(code > LAST_CODE|match code \{|number: u8,|match n \{|match dif / 16).*$'),
    ('3', 'an index or a count kept by hand', r'^ +while (?!let\b).*$|^ +for \w+ in \(?\(?\d.*$|^.*(\w+) = \1\.saturating_add\(1\);$|^ +(at|count|len|telegrams|lines) [+-]= 1;$|^ +loop \{$'),
    ('3', 'a loop that all, any, find or position is', r'^ +for .*\{\n +if .*\{\n +return .*$'),
    ('4', 'equality, conversion, printing by hand', r'^impl PartialEq .*$|^ *(pub fn report|pub fn number|(pub )?fn (\w+_name|from_bytes|from_frame|unit_of_time|function_of)|pub fn bytes)\(.*$'),
    ('4', 'a value taken apart to be printed', r'^ +let \w+ = self(\.\w+)+;$|^.*let line = \w+(Line)?[ ({;].*$'),
    ('6', 'an array with a length beside it', r'^    (pub(\(crate\))? )?\w+: (\[\w+; \w+\]|&\'a mut \[T\]|&\'a \[u8\]|Buffer|Vec<u8>),\n(    //.*\n)*    (pub(\(crate\))? )?(used|count|len|at|position): usize,$'),
    ('6', 'a table searched or indexed by hand', r'^static \w+: \[.*$'),
    ('7', 'a switch on which step to run', r'^ +match (keyword|self\.faults\.next\(\)|\(self, call\)) \{$|^.*match Retry::new.*$'),
]


def hits(files):
    for kind, what, pattern in PATTERNS:
        for name, text in files:
            for m in re.finditer(pattern, text, re.M):
                line = text.count('\n', 0, m.start()) + 1
                yield kind, what, f'{name[7:]}:{line}', ' / '.join(p.strip() for p in m[0].split('\n'))


def functions(files):
    """Each function's crate and place, parameters and clauses."""
    for name, text in files:
        crate = name.split('/')[1]
        for m in re.finditer(r'^ *(?:pub(?:\(crate\))? )?(?:extern "C" )?fn (\w+)(?:<[^{]*?>)?\(([^)]*)\)[^{;]*?((?:\n *(?:requires|ensures)[^\n]*)*)\n? *[{;]', text, re.M):
            params = [' '.join(p.split()) for p in m[2].split(',') if ':' in p]
            clauses = [c.strip() for c in m[3].split('\n') if c.strip()]
            yield crate, f'{name[7:]}:{m[1]}', params, clauses


def repeated(files):
    clauses, params = collections.defaultdict(set), collections.defaultdict(set)
    for crate, place, names, said in functions(files):
        for c in said:
            m = re.match(r'(requires|ensures)(?: \w+)? \{ (.*) \}$', c)
            if m:
                clauses[crate, m[1], m[2]].add(place)
        for i, a in enumerate(names):
            for b in names[i + 1:]:
                params[crate, a, b].add(place)
    for (crate, kind, text), places in sorted(clauses.items()):
        if len(places) >= 3:
            yield '5', 'a clause in three or more contracts', crate, f'{len(places)} x {kind} {{ {text} }}'
    for (crate, a, b), places in sorted(params.items()):
        if len(places) >= 3 and 'out: ' not in a + b:
            yield '5', 'parameters that travel together', crate, f'{len(places)} x ({a}, {b})'


def twins(files):
    """Bodies of functions that are the same but for names and numbers."""
    shapes = collections.defaultdict(list)
    for name, text in files:
        for m in re.finditer(r'^( *)(?:pub(?:\(crate\))? )?fn (\w+).*?\n\1\{\n(.*?)\n\1\}', text, re.M | re.S):
            body = re.sub(r'//.*', '', m[3])
            shape = re.sub(r'\b[a-zA-Z_]\w*\b', lambda k: k[0] if k[0] in ('if', 'else', 'match', 'return', 'for', 'while', 'let', 'Some', 'None', 'Ok', 'Err', 'self') else 'x', body)
            shape = re.sub(r'\b(0x)?\d\w*\b', '0', ' '.join(shape.split()))
            if len(shape) > 60:
                shapes[shape].append(f'{name[7:]}:{m[2]}')
    for places in sorted(shapes.values()):
        if len(places) > 1:
            yield '2', 'bodies of one shape', places[0], ', '.join(places)


def main():
    args = [a for a in sys.argv[1:] if not a.startswith('--')]
    files = list(sources(args[0] if args else None))
    found = list(hits(files)) + list(repeated(files)) + list(twins(files))
    counts = collections.Counter((kind, what) for kind, what, _, _ in found)
    for kind, what in sorted(counts):
        print(f'{kind}  {counts[kind, what]:3}  {what}')
        if '--count' not in sys.argv:
            for k, w, place, text in found:
                if (k, w) == (kind, what):
                    print(f'         {place}  {text}')


main()
