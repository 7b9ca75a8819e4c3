#!/usr/bin/env python3
"""Lists the places in the sources where a plainer form of Rust may stand, by text alone, and counts them.

    python3 tools/places.py            every place, then the counts
    python3 tools/places.py 3 5a       only these points (a number, or a number with its letter)
    python3 tools/places.py -c [..]    only the counts

It is run at the top of the repository with no other files than crates/*/src/**/*.rt and crates/*/proofs/**/*.antt. A line is

    POINT crate file:line text

and behind the lines there is a table: the count of each point, over all crates and for each crate that has any. A point marked with * in the table is
listed for a look, but is no place by itself.

 1a  enums of two or three variants, one of which has a value, and one of which has none or is named like a failure (FAILURES)
 1b  structs with a field of type bool named in FLAGS beside another field, and results that are a tuple with a bool
 1c  fields named in COUNTED, where a number beside a value says by 0 that there is none, or numbers a state
 1d  refusals by a bare numeral: `number: 17`, `refused(26)`, `not_fetched(22, ..)`, `return 13`
 1e  constants that give codes of kinds, keys, values, sections, ranks or sorts anew (names in CODES, a numeral below 16)
 1f  fields named in CODED whose type is an integer, and `number: u8`
 1g  parameters named in CODED whose type is an integer
 2a  functions whose bodies are the same once numerals, integer types and the function's own name are blank, of three statements or more
 2b  the same, once callees, constants, literals of bytes and the names of parameters and locals (by first use) are blank too; without the groups of 2a
 2c  types with the same fields
 3a  `while x < y` (or <=) whose body has `x += 1;`
 3b* `while 0 < x` or `x > 0` whose body has `x -= 1;`
 3c* other `while` and `loop`: cursors
 4a  `match` with two or more arms `Variant => numeral`, or two or more `numeral => Variant`
 4b  functions that compare two values of a type: `fn is(self, that)`
 4c  literals of structs that copy three or more fields `f: s.f` of one value
 4d  types that do not derive Debug, or not PartialEq
 4e  functions whose whole body is `x as T`
 5a  parts of `requires` (split at ×, .old as .now) that stand in three or more functions: each function that has one, once for each part
 5b  functions with three or more parameters (name and type, & as &mut) that travel together through three or more functions
 6a  structs with an array and, beside it, a length (LENGTHS)
 6b  parameters x: &[..] and n: usize, n named in LENGTHS, with a part `n ≤ length x` of `requires`
 6c  structs with two or more arrays of the same length
 6d  literals of bytes padded to a size: *b".."
 6e* parameters as in 6b of another name (a place in x), or `at + n ≤ length x` (a run in x)
 7a  `match` with three or more arms that all call with the same arguments, or half of whose arms do
 7b  tables of functions: `[fn(..`, `fn(..) ->` as a type
 8a* Answers.antt and Invariants.antt        8b* their lines        8c* answers in them
 8d  answers whose right side begins with search, simp, omega, refl or tt
 8e  answers with a right side that stands three times or more in the same crate
 8f* other proof files (lemmas)
 9a* `return true;` and `return false;`

What a text search cannot see: whether a struct's number is a flag, whether a name stands for the same thing in two crates, whether loops like 3a that also
jump have a plainer form, lists that are searched by hand, indices that serve as pointers, and whether a proof would close without its answers.
"""
import collections
import glob
import itertools
import re
import sys

FAILURES = set('Stuck Refused Lost Stop Stops Nothing None Lacks NoNumber Missing Failed Absent'.split())
FLAGS = set('ok found cut so ended refused more info refers labels is_some done'.split())
COUNTED = set('deep over lacks score'.split())
CODED = set('code kind sort key mark section site'.split())
CODES = set('''MASS TEXT COMPOSITION REFERENCE WIDE OBS INFO NO_KEY R FORMULA GLYCAN KEY VALUE UNKNOWN LABILE N_TERM ON_RESIDUE ON_RANGE C_TERM DECLARED
    PLAIN RANGE_FIRST RANGE_NEXT UNSURE_FIRST UNSURE_NEXT DEEP OVER BARRED DIGITS LABEL COPIES UNCUT NONE STATED MEASURED UNSOUND FREE FIRST FURTHER OTHER
    UNSCORED N_TERMINUS C_TERMINUS FRESH UNMARKED ONLY_INFO UNLABELLED LABELLED UNWRITTEN WRITTEN NOWHERE'''.split())
OFFSETS = {('areas', n) for n in 'FIRST KEY TEXT LABEL'.split()} | {('sheet', n) for n in 'FIRST KEY'.split()} | {('scope', 'COPIES')}
LENGTHS = set('size many count length n m held'.split())
MARKED = set('3b 3c 6e 8a 8b 8c 8f 9a'.split())
places = []


def put(point, path, line, text):
    places.append((point, path.split('/')[1], f'{path}:{line}', ' '.join(text.split())))


def blank(s):
    """Comments, imports of specifications, and literals of one byte or of text as blanks of the same length, so that braces match."""
    keep = lambda m: re.sub(r'[^\n]', ' ', m[0])
    s = re.sub(r"b?'(\\.|[^'\\\n])'", lambda m: m[0][:-2] + '?' + "'" if len(m[0]) < 5 else "b'??'", s)
    s = re.sub(r'"(\\.|[^"\\\n])*"', lambda m: '"' + '?' * (len(m[0]) - 2) + '"', s)
    return re.sub(r'^ghost use [^;]*;', keep, re.sub(r'//[^\n]*', keep, s), flags=re.M)


def shut(s, i):
    """The place behind the bracket that shuts the one at i."""
    deep = 0
    for j in range(i, len(s)):
        deep += (s[j] in '({[') - (s[j] in ')}]')
        if deep == 0:
            return j + 1
    return len(s)


def split(s, at=','):
    """The parts of s between signs that stand in no bracket."""
    out, deep, last = [], 0, 0
    for j, c in enumerate(s):
        deep += (c in '({[') - (c in ')}]')
        if c == at and deep == 0:
            out.append(s[last:j])
            last = j + 1
    return [p.strip() for p in out + [s[last:]] if p.strip()]


def functions(s):
    """Name, place, parameters, parts of `requires`, start and end of the body, of each function with a body."""
    for m in re.finditer(r'\bfn (\w+)', s):
        i, deep = m.end(), 0
        while i < len(s) and not (s[i] == '(' and deep == 0):  # behind <..>
            deep += (s[i] == '<') - (s[i] == '>' and s[i - 1] != '-')
            i += 1
        params, parts = split(s[i + 1:shut(s, i) - 1]), []
        i = shut(s, i)
        for k in re.finditer(r'\b(requires|ensures)\b[^{]*\{|[{;]', s):
            if k.start() < i:
                continue
            i = shut(s, k.end() - 1)
            if k[1] == 'requires':
                parts += split(s[k.end():i - 1], '×')
            elif k[0] == '{':
                yield m[1], m.start(), params, parts, k.start(), i
            if not k[1]:
                break


def arms(s):
    """The arms of a match: pattern and right side."""
    out, i = [], 0
    while '=>' in s[i:]:
        a = s.index('=>', i)
        j = a + 2
        while s[j:j + 1].isspace():
            j += 1
        if s[j:j + 1] == '{':
            e = shut(s, j)
        else:
            e, deep = j, 0
            while e < len(s) and not (s[e] == ',' and deep == 0):
                deep += (s[e] in '({[') - (s[e] in ')}]')
                e += 1
        out.append((s[i:a].strip(' \n,'), ' '.join(s[j:e].split())))
        i = e + 1 if s[e:e + 1] == ',' else e
    return out


# ---- the sources
bodies, loose, shapes, facts, lists = (collections.defaultdict(list) for _ in range(5))
for path in sorted(glob.glob('crates/*/src/**/*.rt', recursive=True)):
    raw = open(path, encoding='utf-8').read()
    s = blank(raw)
    crate = path.split('/')[1]
    line = lambda i: s.count('\n', 0, i) + 1

    for m in re.finditer(r'^ *(?:pub )?(enum|struct) (\w+)[^{;]*[{;]', s, re.M):
        end = shut(s, m.end() - 1)
        at, body = line(m.start(1)), s[m.end():end - 1] if m[0][-1] == '{' else ''
        derives = s[max(s.rfind(';', 0, m.start()), s.rfind('}', 0, m.start())) + 1:m.start()]
        if not ('Debug' in derives and 'PartialEq' in derives):
            put('4d', path, at, f'{m[1]} {m[2]} {derives}')
        if m[1] == 'enum':
            variants = [re.match(r'(?:#\[[^\n]*\n\s*)*(\w+)', v)[1] for v in split(body)]
            full = [v for v, t in zip(variants, split(body)) if '(' in t or '{' in t]
            rest = [v for v in variants if v not in full or v in FAILURES]
            if len(variants) <= 3 and full and rest and len(variants) > 1:
                put('1a', path, at, f'enum {m[2]} {{ {", ".join(split(body))} }}')
        else:
            fields = [(f.split(':')[0].replace('pub ', '').strip(), f.split(':', 1)[1].strip()) for f in split(body) if ':' in f]
            names = [f for f, t in fields]
            arrays = [t for f, t in fields if t.startswith('[')]
            flags = [f for f, t in fields if t == 'bool' and f in FLAGS]
            if flags and len(fields) > 1:
                put('1b', path, at, f'struct {m[2]}: {", ".join(flags)}')
            if arrays and LENGTHS & {f for f, t in fields if not t.startswith('[')}:
                put('6a', path, at, f'struct {m[2]}: {", ".join(names)}')
            if len({t.split(';')[-1] for t in arrays}) < len(arrays):
                put('6c', path, at, f'struct {m[2]}: {", ".join(names)}')
            shapes[tuple(sorted(fields))].append((path, at, m[2]))
        for f in re.finditer(r'\b(\w+): (u8|u16|u32|usize)\b', body):
            here = line(m.end() + f.start())
            if f[1] in COUNTED:
                put('1c', path, here, f'{m[2]}.{f[0]}')
            if f[1] in CODED or f[0] == 'number: u8':
                put('1f', path, here, f'{m[2]}.{f[0]}')

    for m in re.finditer(r'\b(?:number: |(?:refused|not_\w+)\()([1-9]\d*)\b|\breturn (1[3-9]|2[0-6]);', s):
        put('1d', path, line(m.start()), m[0])
    for m in re.finditer(r'-> \([^)\n]*\bbool\b[^)\n]*\)', s):
        put('1b', path, line(m.start()), m[0])
    for m in re.finditer(r'\bconst (\w+): (?:u8|u16|usize) = (\d+);', s):
        if m[1] in CODES and int(m[2]) < 16 and (crate, m[1]) not in OFFSETS:
            put('1e', path, line(m.start()), m[0])

    for m in re.finditer(r'\b(while|loop)\b([^{;]*)\{', s):
        body, test = s[m.end():shut(s, m.end() - 1)], m[2].strip()
        up, down = re.match(r'([a-z]\w*(?:\.\w+)?) <=? ', test), re.match(r'0 < (\w+)$|(\w+) > 0$', test)
        x = up and up[1] or down and (down[1] or down[2])
        if up and re.search(rf'(?<![\w.]){re.escape(x)} \+= 1;', body):
            jumps = re.search(rf'(?<![\w.]){re.escape(x)} (\+= (?!1;)|= )', body)
            put('3a', path, line(m.start()), f'while {test}' + (' (also jumps)' if jumps else ''))
        elif down and re.search(rf'(?<![\w.]){x} -= 1;', body):
            put('3b', path, line(m.start()), f'while {test}')
        else:
            put('3c', path, line(m.start()), f'{m[1]} {test}')

    for m in re.finditer(r'\bmatch [^{;]*?\{', s):
        rows = arms(s[m.end():shut(s, m.end() - 1) - 1])
        number, variant = r'\d+$', r'(Self|[A-Z]\w*)::\w+$'
        to = sum(bool(re.match(variant, p) and re.match(number, r)) for p, r in rows)
        back = sum(bool(re.match(number, p) and re.match(variant, r)) for p, r in rows)
        if to > 1 or back > 1:
            put('4a', path, line(m.start()), f'{m[0]} {len(rows)} arms')
        calls = [re.match(r'\{? ?([a-z][\w:]*)\((.*)\) ?\}?$', r) for p, r in rows]
        same = collections.Counter(c[2] for c in calls if c)
        most = same.most_common(1)[0] if same else ('', 0)
        callees = {c[1] for c in calls if c and c[2] == most[0]}
        if most[0] and most[1] > 2 and len(callees) > 2 and 2 * most[1] >= len(rows):
            put('7a', path, line(m.start()), f'{m[0]} {most[1]} of {len(rows)} arms call ({most[0]})')
    for m in re.finditer(r'\bfn (is|same|eq|equal|equals|cmp)\(self', s):
        put('4b', path, line(m.start()), m[0])
    for m in re.finditer(r'[\[:&<(] ?fn\(', s):
        put('7b', path, line(m.start()), m[0])
    for m in re.finditer(r'\breturn (true|false);', s):
        put('9a', path, line(m.start()), m[0])
    for m in re.finditer(r'\*b"', s):
        put('6d', path, line(m.start()), raw.split('\n')[line(m.start()) - 1])
    for m in re.finditer(r'\b[A-Z]\w* \{', s):
        body = s[m.end():shut(s, m.end() - 1) - 1]
        copied = collections.Counter(c[2] for c in (re.match(r'(\w+): (\w+)\.\1$', f) for f in split(body)) if c)
        if copied and copied.most_common(1)[0][1] > 2:
            put('4c', path, line(m.start()), f'{m[0]} {copied.most_common(1)[0][1]} fields of {copied.most_common(1)[0][0]}')

    for name, start, params, parts, b, e in functions(s):
        body, at = s[b + 1:e - 1], line(start)
        if re.match(r'\s*\w+ as \w+\s*$', body):
            put('4e', path, at, f'fn {name} {{ {body} }}')
        statements = len(re.findall(r';[ \t]*$', body, re.M)) + len(re.findall(r'\b(if|while|loop|for|match)\b', body)) + (not body.rstrip().endswith(';'))
        if statements > 2:
            t = re.sub(rf'\b{name}\b', 'F', re.sub(r'\b\d[\d_]*(u8|u16|u32|u64|usize|i64)?\b', 'N', ' '.join(raw[b + 1:e - 1].split())))
            t = re.sub(r'\b(u8|u16|u32|u64|usize|i32|i64)\b', 'T', re.sub(r'//[^\n]*', '', t))
            bodies[t].append((path, at, name))
            t = re.sub(r"b'(\\.|[^'])'", 'B', re.sub(r'\b(\w+::)*[A-Z][A-Z_0-9]*\b(?!::)', 'K', re.sub(r'(?<!\.)\b(?!if|match|while)[a-z][\w:]*\(', 'C(', t)))
            names = [q.split(':')[0].replace('mut ', '').strip() for q in params] + re.findall(r'\blet (?:mut )?(\w+)', t)
            seen = []
            for w in re.findall(r'(?<![.\w])[a-z]\w*\b', t):
                if w in names and w not in seen:
                    seen.append(w)
            t = re.sub(r'(?<![.\w])[a-z]\w*\b', lambda w: f'v{seen.index(w[0])}' if w[0] in seen else w[0], t)
            loose[t].append((path, at, name))
        clean = sorted({re.sub(r'^\((.*)\)$', r'\1', ' '.join(p.split())).replace('.old', '.now') for p in parts})
        for p in (p for p in clean if ' : ' not in p):
            facts[p].append((path, at, name))
        types = dict(re.sub(r'\bmut ', '', q).split(': ', 1) for q in params if ': ' in q)
        types = {k: ' '.join(v.split()) for k, v in types.items()}
        lists[(path, at, name)] = frozenset(types.items())
        for q, t in types.items():
            if q in CODED and re.match(r'(u8|u16|usize)$', t):
                put('1g', path, at, f'fn {name}: {q}: {t}')
        for p in clean:
            m = re.match(r'(?:\w+ (\+) )?(\w+) ≤ length (\w+)\.now$', p)
            if m and types.get(m[2]) == 'usize' and types.get(m[3], '').startswith('&['):
                put('6b' if m[2] in LENGTHS and not m[1] else '6e', path, at, f'fn {name}: {p}')

strict = [g for g in bodies.values() if len(g) > 1]
known = {frozenset(g) for g in strict}
for point, groups in (('2a', strict), ('2b', [g for g in loose.values() if len(g) > 1 and frozenset(g) not in known])):
    for n, g in enumerate(sorted(groups), 1):
        for path, at, name in g:
            put(point, path, at, f'group {n}, {len(g)} functions: fn {name}')
for n, (fields, g) in enumerate(sorted((f, g) for f, g in shapes.items() if f and len(g) > 1), 1):
    for path, at, name in g:
        put('2c', path, at, f'group {n}, {len(g)} types: struct {name}')
for p, g in sorted(facts.items()):
    if len(g) > 2:
        for path, at, name in g:
            put('5a', path, at, f'{len(g)} times: {p} -- fn {name}')
left = dict(lists)
while True:  # the group that spares most parameters, then the same again among the functions that are left
    shared = {a & b for a, b in itertools.combinations(set(left.values()), 2)} | set(left.values())
    best, have = frozenset(), []
    for group in (g for g in shared if len(g) > 2):
        with_it = [f for f, ps in left.items() if group <= ps]
        key = ((len(group) - 1) * len(with_it), sorted(group))
        if len(with_it) > 2 and (not have or key > ((len(best) - 1) * len(have), sorted(best))):
            best, have = group, with_it
    if not have:
        break
    text = ', '.join(sorted(k for k, v in best))
    for path, at, name in have:
        put('5b', path, at, f'{len(have)} times: ({text}) -- fn {name}')
        del left[(path, at, name)]

# ---- the proofs
for crate in sorted(glob.glob('crates/*')):
    rights = collections.defaultdict(list)
    for path in sorted(glob.glob(crate + '/proofs/**/*.antt', recursive=True)):
        s = open(path, encoding='utf-8').read()
        if path.endswith('/Lib.antt'):
            continue
        if not path.endswith(('/Answers.antt', '/Invariants.antt')):
            put('8f', path, 1, f'{s.count(chr(10))} lines')
            continue
        put('8a', path, 1, f'{s.count(chr(10))} lines')
        for n in range(s.count('\n')):
            put('8b', path, n + 1, '')
        if path.endswith('/Answers.antt'):
            goals = set(re.findall(r'^pub (\S+) : goal\.', s, re.M))
            for m in re.finditer(r'^([^\s:]+)( [^=\n]*)?=(.*(?:\n[ \t]+.*)*)', s, re.M):
                if m[1] not in goals:
                    continue
                at, right = s.count('\n', 0, m.start()) + 1, ' '.join(m[3].split())
                put('8c', path, at, m[1])
                rights[right].append((path, at, m[1]))
                if re.match(r'(search|simp|omega|refl|tt)\b(?!-)', right):
                    put('8d', path, at, f'{m[1]} = {right}')
    for right, g in rights.items():
        if len(g) > 2:
            for path, at, name in g:
                put('8e', path, at, f'{len(g)} times: {right[:80]}')

wanted = [a for a in sys.argv[1:] if a != '-c']
chosen = [p for p in places if not wanted or p[0] in wanted or p[0][0] in wanted]
if '-c' not in sys.argv:
    for point, crate, where, text in sorted(chosen, key=lambda p: p[0]):
        if point != '8b':
            print(point, crate, where, text)
for point in sorted({p[0] for p in chosen}):
    per = collections.Counter(p[1] for p in chosen if p[0] == point)
    star = '*' if point in MARKED else ' '
    print(f'{point}{star} {sum(per.values()):5}  ' + ', '.join(f'{c} {n}' for c, n in sorted(per.items(), key=lambda x: (-x[1], x[0]))))
