#!/usr/bin/env python3
"""Counts the older forms in src/: design_counts.py [FOLDER] [POINT ..]. FOLDER, with a / in it, is a checkout (./ if left out); of the points named (1a, 3b ..)
the places are listed. The forms go by text, so a count can have a place that is none: docs/DESIGN-PASS.md says which."""
import collections, glob, re, sys
args = sys.argv[1:]
root = args[0] if args and '/' in args[0] else '.'
want = [a for a in args if '/' not in a]
files = sorted(f for f in glob.glob(root + '/crates/*/src/**/*.rt', recursive=True))
src = {f.replace(root + '/crates/', '').replace('/src/', '/'): open(f).read() for f in files}
hits = collections.defaultdict(list)
def add(point, f, line, what): hits[point].append(f'{f}:{line} {what}')
def grep(point, rx, what=None, only=None):
    for f, s in src.items():
        if only and not re.search(only, f): continue
        for i, l in enumerate(s.split('\n'), 1):
            m = re.search(rx, l)
            if m: add(point, f, i, what or l.strip()[:110])
ENUM = re.compile(r'^(?:pub )?enum (\w+)[^{\n]*\{\n(.*?)^\}', re.M | re.S)
STRUCT = re.compile(r'^(?:pub )?struct (\w+)[^{\n]*\{\n(.*?)^\}', re.M | re.S)
FN = re.compile(r'^ *(?:pub )?(?:extern "C" )?fn (\w+)[^(\n]*\((.*?)\)(?: -> ([^\n{]+?))?\s*\n?(?= *(?:requires|ensures|\{|where))', re.M | re.S)
fns = []
for f, s in src.items():
    line = lambda i: s[:i].count('\n') + 1
    for m in ENUM.finditer(s):
        body = re.sub(r'//[^\n]*', '', m.group(2))
        body = re.sub(r'\{[^}]*\}', lambda k: '(' + k.group(0)[1:-1].replace('\n', ' ') + ')', body)
        vs = [v.strip() for v in re.split(r',(?![^(]*\))', body) if v.strip()]
        bare = [v for v in vs if '(' not in v]; full = [v for v in vs if '(' in v]
        fail = [v for v in vs if re.match(r'(Refused|Missing|Unfit|Unread|Shut)\b', v)]
        if fail and len(vs) == 2: add('1b result', f, line(m.start()), m.group(1))
        elif fail: add('1c result of three', f, line(m.start()), m.group(1))
        elif len(vs) == 2 and len(bare) == 1: add('1a option', f, line(m.start()), m.group(1))
        elif full and len(vs) > 2: add('1d other', f, line(m.start()), m.group(1))
    for m in STRUCT.finditer(s):
        body = re.sub(r'//[^\n]*', '', m.group(2))
        fs = re.findall(r'(\w+): ([^,\n]+)', body)
        if [n for n, t in fs] == ['v', 'next']: add('2a value and place', f, line(m.start()), m.group(1))
        if any(t.strip() == 'bool' for n, t in fs): add('1e flag beside a value', f, line(m.start()), m.group(1) + ': ' + ', '.join(n for n, t in fs if t.strip() == 'bool'))
        if fs and all(t.strip().startswith('Opt') for n, t in fs): add('2b fields so far', f, line(m.start()), m.group(1))
    for m in FN.finditer(s): fns.append((f, line(m.start()), m.group(1), ' '.join(m.group(2).split()), (m.group(3) or '').strip()))
grep('1f arm that hands a refusal on', r'::(?:Refused|Missing)\(\w+(?:, \w+)?\) => (?:return )?\w+::Refused\(')
grep('1g number for a case (const)', r'^(?:pub )?const \w+: u(?:8|16|32|64) = (?:\d+|b.);')
grep('1h alias of a number', r'^pub type \w+ = u\d+;')
grep('1i match on a number of a case', r'^ +(?:0|\d+\.\.=\d+|\d+(?: \| \d+)*) => ', only=r'^(?!words/|digits/|number/|colors/)')
grep('2c take_opt', r'fn take_opt_\w+'); grep('2d put_opt', r'fn put_opt_\w+'); grep('2e copy_opt', r'fn copy_opt_\w+')
grep('2f some_/given test', r'fn some_\w+')
grep('3a while that counts', r'^ *(?:\'\w+: )?while \w+ < '); grep('3b other while', r'^ *(?:\'\w+: )?while (?!\w+ < )'); grep('3c loop', r'^ *loop \{')
grep('3d for', r'^ *for ')
grep('4b field copied to a name', r'^ *let (?:mut )?\w+ = \w+\.\w+;$')
grep('4c `as` between numbers', r' as u(?:8|16|32|64|size)\b')
grep('5a requires with Ready text.now c', r'requires \{ Ready text\.now \w+(?:\.\w+)?')
grep('5b requires on places or widths', r'requires .*< 2 \^ 3')
for f, l, n, p, r in fns:
    names = [x.split(':')[0].strip() for x in re.split(r',(?![^<\[(]*[>\])])', p) if ':' in x]
    if 'text' in names and 'c' in names: add('5c text, c', f, l, n)
    if names[:2] == ['sheet', 'at'] or ('sheet' in names and 'out' in names): add('5d sheet, at/out', f, l, n)
    if 'pen' in names and 'out' in names: add('5e pen, out', f, l, n)
    if names[:2] == ['s', 'at']: add('5f s, at', f, l, n)
    if 'src' in names and 'numbers' in names: add('5g src .. numbers', f, l, n)
    if len(names) >= 7: add('5h seven parameters or more', f, l, f'{n} ({len(names)})')
grep('6a table of words by length bytes', r'^(?:pub )?const \w+: \[u8; \d+\] = \*b"\\x'); grep('6b local array', r'^ *let mut \w+(?:: \[[^\]]+\])? = \[[^\]]*; ')
grep('7a switch on a step', r'^ *match (?:i|row|kind|list|which) \{')
print(f'files {len(src)}, lines {sum(s.count(chr(10)) for s in src.values())}, functions {len(fns)}')
for k in sorted(hits):
    print(f'{k:36} {len(hits[k]):4}   ' + ', '.join(f'{a} {b}' for a, b in collections.Counter(h.split('/')[0] for h in hits[k]).most_common(7)))
    if any(k.startswith(w) for w in want):
        for h in hits[k]: print('    ' + h)
