#!/usr/bin/env python3
"""Places in crates/*/src where an older form of the language may still stand, by the points of docs/DESIGN-PASS.md.

    python3 tools/design-places.py [COMMIT]     of the tree as it lies, or as it was at COMMIT
    python3 tools/design-places.py -v [COMMIT]  with each place

It goes by text, so what it finds is to be read: it tells where to look, and docs/DESIGN-PASS.md what was found there.
"""
import collections
import re
import subprocess
import sys

args = [a for a in sys.argv[1:] if a != '-v']
verbose = '-v' in sys.argv[1:]
commit = args[0] if args else None


def run(*command):
    return subprocess.run(command, capture_output=True, text=True, check=True).stdout


def sources():
    if commit:
        names = run('git', 'ls-tree', '-r', '--name-only', commit).split('\n')
    else:
        names = run('git', 'ls-files').split('\n')
    for name in names:
        if re.match(r'crates/[^/]+/src/.*\.rt$', name):
            if commit:
                yield name, run('git', 'show', f'{commit}:{name}')
            else:
                try:
                    yield name, open(name).read()
                except FileNotFoundError:
                    pass


files = dict(sources())
places = collections.defaultdict(list)


def line_of(text, at):
    return text.count('\n', 0, at) + 1


def found(point, name, text, at, what):
    places[point].append((name.replace('crates/', ''), line_of(text, at), ' '.join(what.split())[:110]))


def by_lines(point, pattern):
    for name, text in files.items():
        for m in re.finditer(pattern, text, re.M):
            if not text[text.rfind('\n', 0, m.start(1)) + 1:m.start(1)].lstrip().startswith('//'):
                found(point, name, text, m.start(1), m.group(1))


# Functions, with their signature, clauses and body.
FN = re.compile(r'^([ \t]*)(?:pub(?:\([a-z]+\))? )?fn ([a-z_0-9]+)', re.M)


def functions():
    for name, text in files.items():
        for m in FN.finditer(text):
            indent = m.group(1)
            body = re.compile(r'^' + indent + r'(\{\}?$)|\) ?(?:-> [^{;]*)?\{$|;$', re.M)
            end = re.compile(r'^' + indent + r'\}', re.M)
            b = body.search(text, m.start())
            if not b:
                continue
            if b.group(0).endswith(';'):
                yield name, text, m, text[m.start():b.end()], ''
                continue
            e = end.search(text, b.end())
            if not e:
                continue
            yield name, text, m, text[m.start():b.end()], text[b.end():e.start()]


def signature(head):
    return re.split(r'\n\s*(?:ensures|requires)', head)[0]


def tokens(body):
    body = re.sub(r'//[^\n]*', '', body)
    out = []
    for t in re.findall(r'[A-Za-z_][A-Za-z_0-9]*|\d[\d_a-z]*|"[^"]*"|\S', body):
        if re.match(r'(if|else|for|in|while|match|return|let|mut|Some|None|Ok|Err|true|false|as)$', t):
            out.append(t)
        elif re.match(r'[A-Za-z_]', t):
            out.append('x')
        elif re.match(r'\d', t):
            out.append('0')
        elif t != ',':
            out.append(t)
    return out


all_functions = list(functions())

# 1. Flags beside values, errors in an Option, a bool that tells whether a change was refused, numbers for refusals.
by_lines('1 a field that is a bool', r'^\s+((?:pub(?:\(crate\))? )?[a-z_]+: bool),?$')
for name, text, m, head, body in all_functions:
    sig = signature(head)
    if re.search(r'-> Option<\w*Fault>', sig):
        found('1 a refusal in an Option', name, text, m.start(2), sig)
    if re.search(r'&mut self', sig) and re.search(r'-> bool', sig):
        found('1 a bool of a change', name, text, m.start(2), sig)
    if re.search(r'Result<[^>]*, FaultParts>|\(number: u64\) -> &', sig):
        found('1 a refusal as numbers', name, text, m.start(2), sig)
by_lines('1 a refusal as numbers', r'(Refused\(FaultParts\)|Refusal\(pub FaultParts\))')
by_lines('1 a number that also says none', r'^\s+((?:first|last|next|heads|below): \[u8; \d+\],|(?:pub )?count: usize,)$')
for name, text in files.items():
    for m in re.finditer(r'#\[derive\(([^)]*)\)\]\s*(pub(?:\(crate\))? (?:enum|struct) \w+)', text):
        if 'Copy' in m.group(1) and 'PartialEq' not in m.group(1):
            found('1/4 plain data without a derived equality', name, text, m.start(2), m.group(2))

# 2. Functions whose bodies are equal once names and numbers are struck, of 12 tokens and more.
groups = collections.defaultdict(list)
for name, text, m, head, body in all_functions:
    t = tokens(body)
    if len(t) >= 12:
        groups[' '.join(t)].append((name, text, m))
for key, group in groups.items():
    if len(group) > 1:
        for name, text, m in group[1:]:
            first = group[0]
            found('2 a body equal to another', name, text, m.start(2), f'{m.group(2)} as {first[2].group(2)} of {first[0]}')
names = collections.defaultdict(list)
for name, text, m, head, body in all_functions:
    if not m.group(1) and body:
        names[m.group(2)].append((name, text, m))
for key, group in names.items():
    if key != 'main' and len({n for n, _, _ in group}) > 1:
        for name, text, m in group[1:]:
            found('2 a free function of one name twice', name, text, m.start(2), key)
for name, text, m, head, body in all_functions:
    stem = re.sub(r'u?(8|16|32|64)', '#', m.group(2))
    if stem != m.group(2):
        found('2 a width in a name', name, text, m.start(2), m.group(2))

# 3. Loops.
by_lines('3 a loop over numbers', r'^\s*(for \w+ in [^\n]*\.\.[^\n]*)\{')
by_lines('3 a while', r'^\s*(while [^\n]*)\{')
by_lines('3 a loop over items with an early end or a sum', r'^\s*(for \*?\w+ in (?![^\n]*\.\.)[^\n]*)\{')

# 4. By hand: comparisons, conversions, printing.
for name, text, m, head, body in all_functions:
    if re.match(r'(same|same_bytes|parts|journal_parts|archive_parts|words|yes_or_no|is_copy_of|is_behind|lower|nearer|number|translator|hex_digit|from_hex|is_letter|is_digit|floor_number|in_slot|place|section_of|left|unpack|handle)$', m.group(2)):
        found('4 a conversion, comparison or wording by hand', name, text, m.start(2), signature(head))

# 5. The same requires three times and more; parameters that stand together in three functions and more.
facts = collections.defaultdict(list)
for name, text, m, head, body in all_functions:
    for r in re.finditer(r'requires (?:\w+ )?\{ (.*?) \}$', head, re.M):
        fact = re.sub(r'\.(now|old|entry|new)\b', '', r.group(1))
        facts[fact].append((name, text, m, r.group(1)))
for fact, group in facts.items():
    if len(group) >= 3:
        for name, text, m, what in group:
            found('5 a requires that stands three times', name, text, m.start(2), f'{m.group(2)}: {what}')
pairs = collections.defaultdict(list)
for name, text, m, head, body in all_functions:
    sig = signature(head)
    inside = sig[sig.find('(') + 1:sig.rfind(')')]
    params = [p.strip() for p in re.split(r',\s*(?![^<]*>)', inside) if ':' in p]
    for a, b in zip(params, params[1:]):
        pairs[(a, b)].append((name, text, m))
for (a, b), group in pairs.items():
    if len({(n, line_of(t, m.start(2))) for n, t, m in group}) >= 3:
        places['5 two parameters that stand together three times'].append((f'{len(group)} functions', 0, f'{a}, {b}'))

# 6. An array or slice with a number beside it in one struct; several arrays in one struct.
for name, text in files.items():
    for m in re.finditer(r'(struct \w+(?:<[^>]*>)?) \{(.*?)^\}', text, re.M | re.S):
        fields = re.sub(r'ghost [^\n]*', '', m.group(2))
        arrays = re.findall(r'(\w+): (?:&\'a (?:mut )?)?\[', fields)
        counts = re.findall(r'\b(count|width|slots|len|next|rows): usize', fields)
        if arrays and counts:
            found('6 a table with a number beside it', name, text, m.start(1), f'{m.group(1)}: {", ".join(arrays)} with {", ".join(counts)}')
        if len(arrays) > 1:
            found('6 tables side by side', name, text, m.start(1), f'{m.group(1)}: {", ".join(arrays)}')

# 7. A bool that a caller passes to choose what is done; pointers and boxes of functions.
for name, text, m, head, body in all_functions:
    for p in re.finditer(r'(\w+): bool', signature(head)):
        found('7 a bool that chooses a step', name, text, m.start(2), f'{m.group(2)}: {p.group(1)}')
by_lines('7 a table or pointer of functions', r'(\bfn\(|dyn \w+)')

for point in sorted(places):
    group = places[point]
    print(f'{len(group):4}  {point}')
    if verbose:
        for name, line, what in group:
            print(f'        {name}:{line}  {what}' if line else f'        {name}: {what}')
