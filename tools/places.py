#!/usr/bin/env python3
"""Counts the places of docs/DESIGN-PASS.md in crates/*/src, point by point.

    tools/places.py            counts
    tools/places.py POINT      the places of one point, each with its file and line
    tools/places.py --at DIR   the same of another checkout

It goes by text. What it finds is a place to look at; docs/DESIGN-PASS.md says of each what became of it."""
import collections
import glob
import os
import re
import sys

args = sys.argv[1:]
top = '.'
if '--at' in args:
    k = args.index('--at')
    top = args[k + 1]
    del args[k:k + 2]
wanted = args[0] if args else None


def sources():
    for path in sorted(glob.glob(os.path.join(top, 'crates', '*', 'src', '*.rt'))):
        with open(path, encoding='utf-8') as f:
            yield os.path.relpath(path, os.path.join(top, 'crates')), f.read()


def code_of(text):
    """The text with its comments blanked, line for line."""
    return '\n'.join(re.sub(r'//.*', '', line) for line in text.split('\n'))


class Function:
    def __init__(self, path, text, match):
        self.path, self.name = path, match.group(2)
        self.line = text.count('\n', 0, match.start()) + 1
        rest = text[match.end() - 1:]
        depth, end = 0, len(rest)
        for i, c in enumerate(rest):
            if c in '(<[':
                depth += 1
            if c in ')]' or (c == '>' and rest[i - 1] != '-'):
                depth -= 1
            if c == ')' and depth == 0:
                end = i
                break
        self.parameters = ' '.join(rest[:end + 1].split())
        clauses, body = [], []
        state = 'head'
        for line in rest[end + 1:].split('\n'):
            if state == 'head':
                if re.match(r'\s*(requires|ensures)', line):
                    clauses.append(line.strip())
                elif line.rstrip().endswith('{') and (line.strip() == '{' or '->' in line or line.strip().endswith(') {')):
                    state = 'body'
                    indent = len(line) - len(line.lstrip())
                elif line.strip() == '' and not body:
                    continue
            else:
                if line.rstrip() == ' ' * indent + '}':
                    break
                body.append(line)
        self.clauses, self.body = clauses, '\n'.join(body)


def functions():
    for path, text in sources():
        code = code_of(text)
        for match in re.finditer(r'^[ \t]*(pub(?:\([a-z]+\))? )?(?:const )?(?:extern "C" )?fn (\w+)[^({;]*\(', code, re.M):
            yield Function(path, code, match)


def grep(pattern):
    for path, text in sources():
        for number, line in enumerate(code_of(text).split('\n'), 1):
            if re.search(pattern, line):
                yield f'{path}:{number}', line.strip()


def shaped():
    """Own enums in which a variant is named for nothing, for a refusal, or for too little room."""
    for path, text in sources():
        for m in re.finditer(r'enum (\w+)[^{]*\{(.*?)^\}', code_of(text), re.M | re.S):
            variants = re.findall(r'^    (\w+)', m.group(2), re.M)
            if len(variants) == 2 and set(variants) & {'Refused', 'Without', 'Nothing', 'TooSmall', 'None', 'Missing'}:
                yield f'{path}:{text.count(chr(10), 0, m.start()) + 1}', f'enum {m.group(1)}: {", ".join(variants)}'


def one():
    yield from shaped()
    for place, line in grep(r'^\s*pub passed:'):
        yield place, 'a part beside what it gave: ' + line
    for place, line in grep(r'Refused\(\s*(\d|fault|order|range|number)|^\s*number: \d+,$|^\s*return [1-9];$|^\s*[1-9]$'):
        yield place, 'a refusal by its number: ' + line
    for place, line in grep(r"[(,!=] ?b'[A-Z]'"):
        yield place, 'a kind by its byte: ' + line


def shape(body):
    """The body with each name, number and text replaced by the order in which it first comes."""
    names = {}
    out = []
    for token in re.findall(r"b'.'|b\"[^\"]*\"|\"[^\"]*\"|[A-Za-z_]\w*|\d[\d_]*|\S", body):
        if re.match(r'[A-Za-z_"\d]|b[\'"]', token) and token not in KEYWORDS:
            out.append('#%d' % names.setdefault(token, len(names)))
        else:
            out.append(token)
    return ' '.join(out)


KEYWORDS = set('let mut if else while for in match return break true false as fn pub use struct enum'.split())


def two():
    groups = collections.defaultdict(list)
    for f in functions():
        body = shape(f.body)
        if len(body.split()) >= 9:
            groups[body].append(f)
    for body, group in groups.items():
        if len(group) > 1:
            for f in group:
                yield f'{f.path}:{f.line}', f'{f.name}: one shape with {", ".join(g.name for g in group if g is not f)}'
    structs = collections.defaultdict(list)
    for path, text in sources():
        for m in re.finditer(r'struct (\w+)[^{;]*\{(.*?)^\}', code_of(text), re.M | re.S):
            structs[' '.join(re.sub(r'\bpub\b|ghost.*', '', m.group(2)).split())].append((path, text.count('\n', 0, m.start()) + 1, m.group(1)))
    for fields, group in structs.items():
        if len(group) > 1:
            for path, line, name in group:
                yield f'{path}:{line}', f'struct {name}: the fields of {", ".join(g[2] for g in group if g[2] != name or g[0] != path)}'


def three():
    for path, text in sources():
        code = code_of(text).split('\n')
        for k, line in enumerate(code):
            m = re.match(r'(\s*)while (.*) \{$', line)
            if m:
                body = []
                for other in code[k + 1:]:
                    if other.startswith(m.group(1) + '}'):
                        break
                    body.append(other)
                counted = re.search(r'^\s*(\w+) [+-]= 1;', '\n'.join(body), re.M)
                stepped = counted and re.search(r'\b%s\b' % counted.group(1), m.group(2))
                back = re.search(r'let (\w+) = (\w+) - 1;', '\n'.join(body))
                if stepped or (back and back.group(2) in m.group(2)):
                    yield f'{path}:{k + 1}', line.strip()


def four():
    for place, line in grep(r' as (u8|u16|u32|u64|usize)\b'):
        yield place, 'a cast: ' + line
    for f in functions():
        if re.match(r'(print_(number|four|answer|row|rows|plan)|goes_\w+|ahead|above|(answer|costs|reason|why)_told|wide|number)$', f.name):
            yield f'{f.path}:{f.line}', f'{f.name}: a comparison, a conversion or a printing by hand'


TOGETHER = [
    ('s, v', r'\bs: &(\'\w+ )?\[u8\], v: View'),
    ('s, cursor', r'\bs: &(\'\w+ )?\[u8\], c: Cursor'),
    ('begins, ends, first', r'begins: &.*ends: &.*first: &'),
    ('prices, minimums', r'prices: &.*minimums: &'),
    ('the four columns of rows', r'(processors|sits): &.*starts: &.*(finishes|ends): &.*costs: &'),
    ('ranks, edges_at', r'ranks: &.*edges_at: &'),
    ('sits, ends', r'sits: &[^,]*, ends: &'),
    ('m, costs, finishes', r'm: usize, costs: &.*finishes: &'),
]


def five():
    for f in functions():
        for name, pattern in TOGETHER:
            if re.search(pattern, f.parameters):
                yield f'{f.path}:{f.line}', f'{f.name}: {name}'
    facts = collections.Counter()
    where = collections.defaultdict(list)
    for f in functions():
        for clause in f.clauses:
            if clause.startswith('requires'):
                fact = re.sub(r'^requires \w* ?', '', clause)
                facts[fact] += 1
                where[fact].append(f)
    for fact, n in facts.items():
        if n >= 3:
            for f in where[fact]:
                yield f'{f.path}:{f.line}', f'{f.name}: requires {fact}'


def six():
    for f in functions():
        if re.search(r'out: &mut \[u8\], at: usize', f.parameters):
            yield f'{f.path}:{f.line}', f'{f.name}: a buffer and where the next byte goes'
    for place, line in grep(r'^\s*pub (begin|length): usize'):
        yield place, 'a part by where it begins and its length: ' + line
    for place, line in grep(r'^\s*let mut \w+ = \[0u(64|32|16)?;? ?\d*'):
        yield place, 'an array beside others: ' + line
    for place, line in grep(r'^\s*pub (begins|ends|first|prices|minimums|processors|starts|finishes|costs): \['):
        yield place, 'arrays side by side in a struct: ' + line


def seven():
    for place, line in grep(r'match (method|kind|step)\b'):
        yield place, line


POINTS = {'1': one, '2': two, '3': three, '4': four, '5': five, '6': six, '7': seven}
for point, places in POINTS.items():
    if wanted in (None, point):
        found = list(places())
        if wanted:
            for place, what in found:
                print(f'{place}\t{what}')
        else:
            print(f'{point}: {len(found)}')
