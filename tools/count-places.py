#!/usr/bin/env python3
"""Counts, in crates/*/src of this checkout or of a commit, the places that a design pass looks at.

    tools/count-places.py [COMMIT] [--list]

It goes by text: it finds where to look, and a reader judges each place. A place is printed as POINT file:line what.
"""
import collections, re, subprocess, sys

listing = '--list' in sys.argv
commits = [a for a in sys.argv[1:] if not a.startswith('--')]


def files(kind):
    """(path, text) of each file whose path fits, of the commit that is named or of this checkout."""
    command = ['git', 'ls-tree', '-r', '--name-only', commits[0], 'crates'] if commits else ['git', 'ls-files', 'crates']
    for name in sorted(subprocess.run(command, capture_output=True, text=True, check=True).stdout.split()):
        if re.fullmatch(kind, name):
            yield name, subprocess.run(['git', 'show', f'{commits[0]}:{name}'], capture_output=True, text=True, check=True).stdout if commits else open(name).read()


def functions(text):
    """(line, name, head, body) of each function with a body."""
    for m in re.finditer(r'^( *)(?:pub(?:\(crate\))? )?fn (\w+)', text, re.M):
        end = re.compile(rf'^{m.group(1)}\}}', re.M).search(text, m.start())
        if not end:
            continue
        whole = text[m.start():end.end()]
        at = re.search(rf'^{m.group(1)}\{{$|\{{$', whole, re.M)
        if not at:
            continue
        yield text[:m.start()].count('\n') + 1, m.group(2), whole[:at.start()], whole[at.end():]


def shape(body):
    """The body's tokens, each name by the order of its first use, each number and text alike."""
    body = re.sub(r'//.*', '', body)
    names, out = {}, []
    for t in re.findall(r'b?"[^"]*"|b?\'[^\']\'|\w+|[^\w\s]', body):
        if re.match(r'b?["\']|\d', t):
            out.append('0')
        elif re.match(r'\w', t) and t not in ('if', 'else', 'match', 'for', 'in', 'return', 'let', 'mut', 'while', 'self', 'true', 'false', 'Ok', 'Err', 'Some', 'None'):
            out.append(names.setdefault(t, f'n{len(names)}'))
        else:
            out.append(t)
    return tuple(out)


# what a place looks like
PATTERNS = [
    ('1 nested', r'Result<Result<|Option<Option<'),
    ('1 flag', r'^ +(?:pub )?\w+: bool,'),
    ('1 number', r'fn (?:number|numbered|tag|code)\b'),
    ('3 for over numbers', r'for \w+ in [^{\n]*\.\.'),
    ('3 while', r'\bwhile\b[^{\n]*'),
    ('3 counter by hand', r'^ +\w+ \+= (?:1|step);'),
    ('4 order by match', r'match \w+(?:\.\w+)*\.compare\([^{]*\{'),
    ('4 case to a literal', r'=> (?:b?"[^"]*"|\d+),\n'),
    ('4 order by hand', r'Ordering::(?:Less|Equal|Greater)\n'),
    ('4 cast', r' as (?:u8|u16|u32|u64|usize)\b'),
    ('6 count beside a table', r'^ +(?:pub )?(?:count|\w+_count): usize,'),
    ('6 buffer', r'= \[0(?:u8)?; \d+\]'),
    ('7 word by word', r'\bis_word\('),
    ('7 else if', r'else if'),
]

places = collections.defaultdict(list)
alike = collections.defaultdict(list)
facts = collections.defaultdict(set)
groups = collections.defaultdict(set)
for name, text in files(r'crates/\w+/src/.*\.rt'):
    def put(point, at, what):
        places[point].append((name, text[:at].count('\n') + 1, what))
    code = re.sub(r'//.*', lambda m: ' ' * len(m.group()), text)
    for m in re.finditer(r'enum (\w+)[^{]*\{\n(.*?)^\}', code, re.M | re.S):
        cases = re.findall(r'^    (\w+)( = \d+)?([({,])', m.group(2), re.M)
        bare, full = [c for c in cases if c[2] == ','], [c for c in cases if c[2] != ',']
        if bare and full:
            put('1 enum with bare and full cases', m.start(), f'{m.group(1)}: {len(bare)} bare, {len(full)} full')
    for point, pattern in PATTERNS:
        for m in re.finditer(pattern, code, re.M):
            put(point, m.start(), m.group().strip())
    for line, fn, head, body in functions(text):
        s = shape(body)
        if len(s) >= 14:
            alike[s].append((name, line, fn))
        for clause in re.findall(r'requires (?:\w+ )?\{ (.*) \}', head):
            for fact in re.split(r' × ', clause):
                fact = fact.strip('() ')
                facts[re.sub(r'\.(?:now|old|new)', '', fact)].add((name, line, fn))
        params = tuple(sorted(set(re.findall(r'(\w+): ([^,()]+?)(?:,|\)|$)', head.split('ensures')[0].split('requires')[0]))))
        for i, a in enumerate(params):
            for j in range(i + 1, len(params)):
                for k in range(j + 1, len(params)):
                    groups[(a, params[j], params[k])].add((name, line, fn))

for s, where in alike.items():
    if len(where) > 1:
        for w in where:
            places['2 bodies of one shape'].append((w[0], w[1], f'{w[2]} (one of {len(where)})'))
for fact, where in facts.items():
    if len(where) >= 3:
        places['5 fact in three or more requires'].append(('', 0, f'{fact}: {len(where)}'))
for group, where in groups.items():
    if len(where) >= 3:
        places['5 three parameters together'].append(('', 0, ', '.join(f'{n}: {t}' for n, t in group) + f': {len(where)} functions'))

answers = collections.Counter()
lines = collections.Counter()
for name, text in files(r'crates/\w+/proofs/.*\.antt'):
    crate = name.split('/')[1]
    answers[crate] += 1
    lines[crate] += text.count('\n')

for point in sorted(places):
    found = places[point]
    by = collections.Counter(p[0].split('/')[1] for p in found if p[0])
    print(f'{point}: {len(found)}' + (' (' + ', '.join(f'{c} {n}' for c, n in sorted(by.items())) + ')' if by else ''))
    if listing:
        for file, line, what in found:
            print(f'    {file}:{line} {what}' if file else f'    {what}')
print(f'8 files in proofs: {sum(answers.values())}, lines: {sum(lines.values())} (' + ', '.join(f'{c} {n}' for c, n in sorted(lines.items())) + ')')
