#!/usr/bin/env python3
"""Lists the places of docs/DESIGN-PASS.md in crates/*/src, a line each, and last how many: tools/places.py POINT [ROOT].

1  own enums of two variants; structs with a bool beside a value; parameters that are a number for a kind
2  functions that are one another's copy but for types, names and numbers
3  loops that count an index by hand
4  equality, copying and conversion written by hand
5  parameters that travel together through three functions or more
6  buffers with a length beside them, parallel arrays, lists searched by hand
7  functions that choose by a match which step to run
"""
import collections, glob, os, re, sys

root = sys.argv[2] if len(sys.argv) > 2 else '.'
files = {}
for path in sorted(glob.glob(os.path.join(root, 'crates/*/src/**/*.rt'), recursive=True)):
    files[os.path.relpath(path, os.path.join(root, 'crates'))] = open(path).read()


def functions():
    """file, line, name, signature, body of each function"""
    for f, text in files.items():
        for m in re.finditer(r'^( *)(?:pub )?(?:unsafe )?(?:extern "C" )?fn (\w+)', text, re.M):
            i = m.end()
            end = re.compile(r'^' + m.group(1) + r'\}', re.M).search(text, i)
            one = re.compile(r'\{[^\n]*\}$', re.M).search(text, i)
            stop = end.end() if end else len(text)
            whole = text[i:stop]
            sig = re.split(r'\n *(?:requires|ensures)\b|\n *\{|\{', whole, maxsplit=1)[0]
            clauses = re.search(r'\n' + m.group(1) + r'\{\n', whole)
            body = whole[clauses.end():] if clauses else whole[len(sig):]
            yield f, text.count('\n', 0, m.start()) + 1, m.group(2), sig, body


def point1():
    for f, text in files.items():
        for m in re.finditer(r'^(?:pub )?enum (\w+)[^{]*\{(.*?)^\}', text, re.M | re.S):
            body = re.sub(r'//[^\n]*', '', m.group(2))
            body = re.sub(r'\{[^{}]*\}|\([^()]*\)', '', body)
            variants = [v.strip() for v in body.split(',') if v.strip()]
            if len(variants) == 2:
                yield f, text.count('\n', 0, m.start()) + 1, f'enum {m.group(1)} {{ {", ".join(variants)} }}'
        for m in re.finditer(r'^(?:pub )?struct (\w+)[^{;]*\{(.*?)^\}', text, re.M | re.S):
            flags = re.findall(r'(\w+): bool,', m.group(2))
            answers = re.findall(r'(answer): ', m.group(2))
            if flags or answers:
                yield f, text.count('\n', 0, m.start()) + 1, f'struct {m.group(1)} with {", ".join(flags + answers)} beside'
    for f, line, name, sig, body in functions():
        kinds = re.findall(r'\b(kind|sort|mode): u(?:8|32|64)\b', sig)
        if kinds:
            yield f, line, f'fn {name}: {", ".join(kinds)} is a number'


def normal(sig, body):
    text = re.sub(r'//[^\n]*', '', sig + body)
    names = {}
    out = []
    for t in re.findall(r"[A-Za-z_]\w*|\d[\d_]*|[^\sA-Za-z0-9_]", text):
        if re.match(r'(fn|let|mut|if|else|while|for|in|match|return|loop|break|pub|as|struct|true|false)$', t):
            out.append(t)
        elif re.match(r'[A-Za-z_]', t):
            out.append(names.setdefault(t, 'v%d' % len(names)))
        elif t[0].isdigit():
            out.append('N')
        else:
            out.append(t)
    return ' '.join(out)


def point2():
    groups = collections.defaultdict(list)
    for f, line, name, sig, body in functions():
        if f.startswith('urszovely/') or len(body.split()) < 6:
            continue
        groups[normal(sig, body)].append((f, line, name))
    for group in groups.values():
        if len(group) > 1:
            f, line, name = group[0]
            for g in group:
                yield g[0], g[1], f'fn {g[2]}: as {f}:{line}' if g != group[0] else f'fn {name}: {len(group)} alike'


def point3():
    for f, text in files.items():
        lines = text.split('\n')
        for i, l in enumerate(lines):
            m = re.match(r'^( *)(while|loop)\b', l)
            if not m:
                continue
            j = i + 1
            while j < len(lines) and not lines[j].startswith(m.group(1) + '}'):
                j += 1
            if any(re.match(r'^ *\w+ [+-]= ', x) for x in lines[i + 1:j]):
                yield f, i + 1, l.strip()


def point4():
    for f, line, name, sig, body in functions():
        if re.search(r'-> bool\s*$', sig) and re.match(r'(same|are_equal|is_same|equal)', name) and re.search(r'\b(while|for)\b', body):
            yield f, line, f'fn {name}: an equality'
        flat = ' '.join(re.sub(r'//[^\n]*', '', body).split())
        if re.search(r'\(\w+: bool\) -> u\w+', sig):
            yield f, line, f'fn {name}: a bool as a number'
        elif re.match(r'if (\w+) < (\w+) \{ (\1|\2) \} else \{ (\1|\2) \}', flat):
            yield f, line, f'fn {name}: the smaller or larger of two'
        elif re.match(r'(\w+) as u\w+ \}$', flat):
            yield f, line, f'fn {name}: a conversion'
        elif re.search(r'match (self|\w+) \{(?: \w+::\w+ => [b\'"\w]+,)+ \}', flat):
            yield f, line, f'fn {name}: each variant as a value'
        elif re.search(r'^if (\w+) == \d+ \{ return \w+::\w+; \}', flat) or re.search(r'match \w+ \{(?: \d+ => \w+::\w+,)+', flat):
            yield f, line, f'fn {name}: a number as a variant'
    for f, text in files.items():
        lines = text.split('\n')
        for i, l in enumerate(lines):
            m = re.match(r'^( *)(?:while|for)\b', l)
            if m and i + 2 < len(lines) and re.match(r'^ *(\w+)\[(\w+)\] = (\w+)\[(\w+)\];$', lines[i + 1]):
                yield f, i + 1, 'a loop that copies: ' + lines[i + 1].strip()


def parameters(sig):
    inner = sig[sig.find('(') + 1:]
    return [re.sub(r'\s+', ' ', p).strip() for p in re.findall(r'(\w+: (?:&mut |&)?(?:\[[^\]]*(?:\[[^\]]*\][^\]]*)?\]|[\w:]+))', inner)]


def point5():
    together = collections.Counter()
    of = []
    for f, line, name, sig, body in functions():
        if f.startswith('urszovely/'):
            continue
        ps = sorted(set(parameters(sig)))
        of.append((f, line, name, ps))
        for i, a in enumerate(ps):
            for b in ps[i + 1:]:
                together[(a, b)] += 1
    said = set()
    for (a, b), n in together.most_common():
        if n < 3:
            break
        for f, line, name, ps in of:
            if a in ps and b in ps and (f, line) not in said:
                said.add((f, line))
                yield f, line, f'fn {name}: {a} and {b} ({n} functions)'


def point6():
    for f, text in files.items():
        for m in re.finditer(r'^(?:pub )?struct (\w+)[^{;]*\{(.*?)^\}', text, re.M | re.S):
            if re.search(r': \[', m.group(2)) and re.search(r'\b(count|length|held|len|size|end): u', m.group(2)):
                yield f, text.count('\n', 0, m.start()) + 1, f'struct {m.group(1)}: an array with its length beside'
    for f, line, name, sig, body in functions():
        if f.startswith('urszovely/'):
            continue
        ps = parameters(sig)
        arrays = [p for p in ps if re.search(r': (?:&mut |&)?\[', p)]
        lengths = [p for p in ps if re.match(r'(held|count|length|len|end|size): (u64|usize)$', p)]
        if any(';' in a for a in arrays) and lengths:
            yield f, line, f'fn {name}: {arrays[0]} with {lengths[0]}'
        same = collections.Counter(re.sub(r'^\w+: ', '', a) for a in arrays)
        pair = [t for t, n in same.items() if n > 1 and 'i64' in t]
        if pair:
            yield f, line, f'fn {name}: two arrays {pair[0]} side by side'


def point7():
    for f, line, name, sig, body in functions():
        if f.startswith('urszovely/'):
            continue
        arms = re.findall(r'^ *(?:\w+::\w+(?:\([^)]*\))?|\d+|_) => (?:\{\s*)?(?:return )?(\w+(?:::\w+)*)\(', body, re.M)
        arms = [a for a in arms if a[0].islower() and a not in ('answer', 'answers::answer')]
        if len(set(arms)) > 2:
            yield f, line, f'fn {name}: {len(arms)} arms, {len(set(arms))} functions'


if len(sys.argv) < 2 or sys.argv[1] not in '1234567':
    sys.exit(__doc__)
found = list(globals()['point' + sys.argv[1]]())
for f, line, what in found:
    print(f'{f}:{line}: {what}')
print(f'{len(found)} places')
