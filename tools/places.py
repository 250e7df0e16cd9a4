#!/usr/bin/env python3
"""Counts, in crates/*/src, the places that docs/DESIGN-PASS.md speaks of: python3 tools/places.py [-l] [FOLDER].

-l lists them. FOLDER is a checkout; without one it is this one. It finds forms, not reasons: what it lists may stand, with its reason beside it.
"""
import collections, glob, os, re, sys

args = [a for a in sys.argv[1:] if a != '-l']
os.chdir(args[0] if args else os.path.join(os.path.dirname(os.path.abspath(__file__)), '..'))
FILES = sorted(glob.glob('crates/*/src/**/*.rt', recursive=True))
TEXT = {f: open(f, encoding='utf-8').read() for f in FILES}
found = collections.OrderedDict()


def put(point, where, what):
    found.setdefault(point, []).append((where, what))


def line(f, at):
    return '%s:%d' % (f[len('crates/'):], TEXT[f].count('\n', 0, at) + 1)


def code(s):
    """The text without comments."""
    return re.sub(r'//[^\n]*', lambda m: ' ' * len(m.group()), s)


FN = re.compile(r'^[ ]*(pub )?(?:extern "C" |const |final )*fn (\w+)(<[^(]*>)?\((.*?)\)(?: -> ([^\n{]*))?\n(.*?)^\{', re.S | re.M)

for f in FILES:
    s = code(TEXT[f])
    # 1: an enum of two variants, one of which holds something; a bool with a value beside it; a number for a kind
    for m in re.finditer(r'enum (\w+)[^{]*\{(.*?)\n\}', s, re.S):
        variants = [v for v in re.findall(r'^\s+(\w+\b[^,\n]*),', m.group(2), re.M) if not v.startswith('#')]
        if len(variants) == 2 and any('(' in v for v in variants):
            put('1a two variants', line(f, m.start()), m.group(1))
    for m in re.finditer(r'struct (\w+)[^{;]*\{(.*?)\n\}', s, re.S):
        if len(re.findall(r'^\s+pub \w+:|^\s+\w+:', m.group(2), re.M)) > 1 and re.search(r': bool,', m.group(2)):
            put('1b a bool beside a value', line(f, m.start()), m.group(1))
    for m in FN.finditer(s):
        public, name, params, result, rest = m.group(1), m.group(2), m.group(4), (m.group(5) or '').strip(), m.group(6)
        body = s[m.end():s.find('\n}', m.end())]
        where = line(f, m.start())
        if result in ('u8', 'u32', 'u64', 'usize') and re.search(r'=> 0,', body):
            put('1c a number for a kind', where, name)
        # 2: names that differ in a number or a type's word
        put('names', where, name)
        # 4: copied, compared or converted by hand: the whole body is one such expression
        flat = ' '.join(body.split())
        if re.fullmatch(r'\(?\w+(\[\w+\])?( % \d+)?\)? as \w+|if (\w+) (<|==) (\w+) \{ \w+ \} else \{ \w+ \}|v\[i\]|if \w+ == 0 \{ 0 \} else \{ 1 \}', flat):
            put('4 by hand', where, name)
        if re.search(r'\bpub fn \w*(eq|cmp|clone|fmt)\b', m.group(0)):
            put('4 by hand', where, name)
        # 7: a switch among the parameters
        for p in re.findall(r'(\w+): bool', params):
            put('7 a bool parameter', where, name + ' ' + p)
        # 5: what contracts repeat
        for c in re.findall(r'requires \{(.*?)\}', rest, re.S):
            depth, part = 0, ''
            for ch in ' '.join(c.split()) + '×':
                if ch == '(':
                    depth += 1
                elif ch == ')':
                    depth -= 1
                if ch == '×' and depth == 0:
                    put('facts', where, part.strip().strip('()').strip() + '|' + name)
                    part = ''
                else:
                    part += ch
    # 3: loops that count
    for m in re.finditer(r'\bwhile\b|\bloop \{', s):
        put('3 while or loop', line(f, m.start()), s[m.start():s.find('\n', m.start())])
    # 6: a buffer with its length beside it
    for m in re.finditer(r'(\w+): &(?:mut )?\[u8\],\s*(len|have|count|n): usize', s):
        put('6 a buffer and a length', line(f, m.start()), m.group(1) + ', ' + m.group(2))

names = found.pop('names', [])
groups = collections.defaultdict(list)
for where, name in names:
    key = re.sub(r'\d+$', '#', name)
    key = re.sub(r'(?:^|_)(wides?|words?|bytes?|counts|sixes)(?=_|$)', '_#', key)
    groups[(where.split('/')[0], key)].append((where, name))
for (crate, key), members in groups.items():
    if '#' in key and len(members) > 1:
        for where, name in members:
            put('2 names that differ in a size', where, name)
facts = collections.defaultdict(list)
for where, w in found.pop('facts', []):
    fact, name = w.rsplit('|', 1)
    facts[fact].append((where, name))
for fact, members in sorted(facts.items(), key=lambda x: -len(x[1])):
    if len(members) >= 3:
        put('5 a fact in three contracts or more', '%d functions' % len(members), fact)

for point in sorted(found):
    print('%4d  %s' % (len(found[point]), point))
    if '-l' in sys.argv:
        for where, what in found[point]:
            print('        %-46s %s' % (where, what))
