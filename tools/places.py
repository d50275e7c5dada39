#!/usr/bin/env python3
"""Where src/ is written in older forms, point by point, for docs/DESIGN-PASS.md. Usage: tools/places.py [TREE] [--list]
A row for each kind of place: its point, what is counted, how many. With --list the places follow each row. It reads text, so a row is a
count of what looks so, and not a verdict.
"""
import re
import sys
from collections import defaultdict
from pathlib import Path

TREE = Path(next((word for word in sys.argv[1:] if not word.startswith('-')), '.'))
LISTED = '--list' in sys.argv
CODE = {file: file.read_text() for file in sorted(TREE.glob('crates/*/src/**/*.rt')) if 'tests' not in file.name}
WORD = re.compile(r"b?'(?:\\.|[^'\\])'|b?\"(?:\\.|[^\"\\])*\"|\w+|[^\s\w]")
KEPT = set('if else match while for in loop let mut return break as self true false fn pub'.split())


def short(file):
    return f'{file.relative_to(TREE).parts[1]}/{file.name}'


def bare(text):
    """The code without comments."""
    return re.sub(r'//.*', '', text)


def closed(code, start, pair):
    """The place behind the bracket that closes the one that ends before `start`."""
    depth = 1
    while depth:
        depth += {pair[0]: 1, pair[1]: -1}.get(code[start], 0)
        start += 1
    return start


def functions():
    """(file, name, parameters, answer, clauses, body) of each function."""
    for file, text in CODE.items():
        code = bare(text)
        for m in re.finditer(r'\bfn (\w+)(?:<[^{;]*?>)?\(', code):
            i = closed(code, m.end(), '()')
            head = code[m.end():i - 1]
            # The body is the first brace after the clauses: a line that is just one, or one behind the signature.
            start = re.compile(r'^\{$|\) (?:-> [^{;\n]+ )?\{$|^    \{$', re.MULTILINE).search(code, i - 1)
            if not start:
                continue
            b = code.index('{', start.end() - 1)
            j = closed(code, b + 1, '{}')
            between = code[i:b]
            answer = re.match(r'\s*->\s*([^\n{]+)', between)
            yield file, m[1], head, answer[1].strip() if answer else '', between, code[b + 1:j - 1]


def shape(body):
    """The body with names by the order in which they come, and literals masked."""
    names, out = {}, []
    for word in WORD.findall(body):
        if word in KEPT or not re.match(r'\w|b?[\'"]', word):
            out.append(word)
        elif re.match(r'\d|b?[\'"]', word):
            out.append('N')
        elif re.fullmatch(r'[ui](8|16|32|64|size)', word):
            out.append('T')
        else:
            out.append(f'x{names.setdefault(word, len(names))}')
    return ' '.join(out)


ALL = list(functions())
rows = []


def row(point, what, places):
    rows.append((point, what, list(places)))


def lines(pattern, keep=lambda line: True):
    for file, text in CODE.items():
        for n, line in enumerate(text.splitlines(), 1):
            if re.search(pattern, line.split('//')[0]) and keep(line):
                yield f'{short(file)}:{n}: {line.strip()}'


# 1
REASON = re.compile(r'^(Refused|Bad|No[A-Z]|TooDeep|Too)')
for_enums = []
for file, text in CODE.items():
    for m in re.finditer(r'enum (\w+) \{(.*?)\n\}', bare(text), re.DOTALL):
        variants = re.findall(r'^\s*(\w+)(?:\(|,)', m[2], re.MULTILINE)
        reasons = [v for v in variants if REASON.match(v)]
        if reasons and len(reasons) < len(variants):
            for_enums.append(f'{short(file)}: {m[1]}')
row(1, 'own enums with an answer beside why there is none', for_enums)
row(1, 'constants that stand for no answer', lines(r'^\s*(?:pub )?const NO(NE|_\w+)?:'))
row(1, 'functions that answer 0 or 1, or a number of cells for none',
    (f'{short(f)}: {n}' for f, n, h, a, c, b in ALL if a in ('u8', 'u16', 'usize')
     and re.search(r'result ≡ (\(if .* then 1 else 0\)|cond .* 1 0|one_if|two_groups|find )', c.replace('(result', 'result'))))

# 2
groups = defaultdict(list)
for f, n, h, a, c, b in ALL:
    words = shape(b)
    if len(words.split()) >= 8:
        groups[words].append(f'{short(f)}: {n}')
row(2, 'functions whose bodies differ in names, types and numbers alone', (f'{" = ".join(g)}' for g in groups.values() if len(g) > 1 for _ in g))

# 3
def counting(body):
    for m in re.finditer(r'(?:while ([^{]*)|loop) \{', body):
        j = closed(body, m.end(), '{}')
        inner = body[m.end():j - 1]
        counted = re.findall(r'\b(\w+) [+-]= (?:1|w)\b', inner)
        if m[1] and any(re.search(rf'\b{x}\b', m[1]) for x in counted):
            yield m[1].strip()


row(3, 'loops that count an index by hand', (f'{short(f)}: {n}: while {x}' for f, n, h, a, c, b in ALL for x in counting(b)))
row(3, 'other loops with while or loop', (f'{short(f)}: {n}' for f, n, h, a, c, b in ALL for x in re.finditer(r'\b(while|loop)\b', b)
                                         if not any(counting(b))))

# 4
row(4, 'own functions that only widen a number, or turn a test into one',
    (f'{short(f)}: {n}' for f, n, h, a, c, b in ALL if re.fullmatch(r'\s*(\w+ as \w+|if \w+ \{ 1 \} else \{ 0 \})\s*', b)))
row(4, 'own functions for the lesser or the greater, or the equality, of two',
    (f'{short(f)}: {n}' for f, n, h, a, c, b in ALL if re.fullmatch(r'\s*if (\w+)(\.0)? (<|==) (\w+)(\.0)? \{ (\w+) \} else \{ (\w+) \}\s*', b)
     and re.search(r'\b(min|max|eqb)\b', c)))
row(4, 'comparisons of the numbers in two values of a kind', lines(r'\.0 (==|<|<=|!=) \w+\.0\b'))
row(4, 'types that derive Clone and Copy alone', lines(r'^#\[derive\(Clone, Copy\)\]$'))
row(4, 'numbers turned into a kind, or into digits, by hand',
    (f'{short(f)}: {n}' for f, n, h, a, c, b in ALL if re.search(r"b'0' \+", b) or re.search(r'if (count|manner) == [1-9]', b)))

# 5
runs = defaultdict(set)
for f, n, h, a, c, b in ALL:
    names = [re.sub(r'\s+', ' ', p.strip()) for p in re.split(r',(?![^<(\[]*[>)\]])', h) if p.strip()]
    for k in range(3, len(names) + 1):
        for i in range(len(names) - k + 1):
            runs[tuple(names[i:i + k])].add(f'{short(f)}: {n}')
most = [(r, fs) for r, fs in runs.items() if len(fs) >= 3]
top = [(r, fs) for r, fs in most if not any(r != q and set(r) < set(q) and fs <= gs for q, gs in most)]
row(5, 'runs of three parameters and more that stand in three functions and more',
    (f'{len(fs)} times ({", ".join(r)})' for r, fs in sorted(top, key=lambda x: -len(x[1]))))
row(5, 'functions with width and height as two parameters', (f'{short(f)}: {n}' for f, n, h, a, c, b in ALL
                                                             if re.search(r'\bwidth: \w+,\s*height: \w+', h)))

# 6
row(6, 'functions that take a buffer and the place after what is written in it',
    (f'{short(f)}: {n}' for f, n, h, a, c, b in ALL if re.search(r'text: &mut \[u8\]', h) and a == 'usize'))
row(6, 'numbers packed into one and taken apart', lines(r'(/|%) (33_554_432|8_192|4_096|16384)\b|\* 8192'))

# 7
row(7, 'switches on which test to run', lines(r'match sought|Sought::'))

row('-', 'places that say beside them why they stay', lines(r'^\s*$', lambda line: '// Stays: ' in line))

for point, what, places in rows:
    print(f'{point}  {len(places):4}  {what}')
    if LISTED:
        for place in places:
            print(f'           {place}')
