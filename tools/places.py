#!/usr/bin/env python3
"""places [-v] [-p POINT] [DIR]: counts the places of docs/DESIGN-PASS.md in the crates below DIR (crates); -v names each."""
import argparse, collections, glob, os, re
ap = argparse.ArgumentParser()
ap.add_argument('-v', action='store_true')
ap.add_argument('-p')
ap.add_argument('dir', nargs='?', default='crates')
a = ap.parse_args()

def source():
    for f in sorted(glob.glob(a.dir + '/*/src/**/*.rt', recursive=True)):
        yield f[len(a.dir) + 1:].replace('/src/', ' '), open(f, encoding='utf8').read()

def functions(text):
    for m in re.finditer(r'^(?:pub )?(?:extern "C" )?fn (\w+)(<[^(]*>)?\((.*?)\)\s*(?:-> ([^\n{]*?))?\s*\n((?:    (?:requires|ensures)[^\n]*\n)*)\{\n(.*?)^\}', text, re.M | re.S):
        yield m.group(1), re.sub(r'\s+', ' ', m.group(3)).strip(' ,'), m.group(4) or '', m.group(5), m.group(6)

def parameters(s):
    out, depth, cur = [], 0, ''
    for c in s:
        if c in '([<': depth += 1
        if c in ')]>': depth -= 1
        if c == ',' and depth == 0: out.append(cur.strip()); cur = ''
        else: cur += c
    if cur.strip(): out.append(cur.strip())
    return out

FAULTS = {'Fault', 'Refused', 'TooLarge', 'NotANumber', 'OutOfRange', 'NotAnOperand', 'Here', 'Back'}
points = collections.OrderedDict((k, []) for k in ('1 enums', '1 flags', '1 numbers', '2', '3', '4', '5 clauses', '5 parameters', '6', '7', '8'))
shapes = collections.defaultdict(list)
clauses = collections.defaultdict(set)
travel = collections.defaultdict(set)
for where, text in source():
    for m in re.finditer(r'enum (\w+) \{(.*?)\n\}', text, re.S):
        vs = re.findall(r'^    (\w+)(\(.*?\))?,', m.group(2), re.M)
        data = [v for v in vs if v[1]]
        if len(vs) == 2 and data or {v[0] for v in vs} & FAULTS and data and not any(v[0] in ('Here', 'Next') for v in vs):
            points['1 enums'].append('%s %s' % (where, m.group(1)))
    for m in re.finditer(r'((?:^#\[[^\n]*\n)*)(?:pub )?struct (\w+) \{(.*?)\n\}', text, re.S | re.M):
        fields = re.findall(r'^    (?:pub )?(\w+): ([^,\n]*)', m.group(3), re.M)
        if any(t == 'bool' or (n == 'number' and t == 'Word') for n, t in fields) and len(fields) > 1:
            points['1 flags'].append('%s %s%s' % (where, m.group(2), ' (repr(C))' if 'repr(C)' in m.group(1) else ''))
    name = ''
    for l in text.split('\n'):
        m = re.match(r'(?:pub )?(?:extern "C" )?fn (\w+)', l)
        name = m.group(1) if m else name
        if re.match(r'\s*(while|loop)\b', l): points['3'].append('%s %s' % (where, name))
    for name, ps, result, contract, body in functions(text):
        at = '%s %s' % (where, name)
        if result in ('Word', 'u32') and re.search(r'\b(ACCEPTED|ALL_HOLD|BAD|NOT_[A-Z]+|MISPLACED|EXCESSIVE|QUEUE_FULL|LIMIT_REACHED|WOULD_PASS|OTHER_VERSION|TOO_[A-Z]+|NO_SUCH|CHECK_BROKEN|NONE_FREE)\b', body):
            points['1 numbers'].append(at)
        if re.match(r'(same|equal|are_same|is_same|copy_|wide$|as_|words_are|is_before|is_up_to)', name) or name.endswith('_same'):
            points['4'].append(at)
        for c in re.findall(r'requires\s*\w*\s*\{ (.*) \}', contract):
            clauses[c].add(at)
        q = parameters(ps)
        for i in range(len(q)):
            for j in range(i + 2, len(q) + 1):
                travel[tuple(q[i:j])].add(at)
        if any(re.match(r'\w+: &(mut )?\[', x) for x in q) and re.search(r'\b(n|m|count|most|k): (Word|usize)', ps) and re.search(r'(v|w|codes): &(mut )?\[(usize|u32|Word)\]', ps):
            points['6'].append(at)
        if re.search(r'\b(rule|check|class|way|what|form|cell|sort): ', ps) and re.search(r'\bmatch (rule|check|class|way|what)\b|if (rule|check|class|way|what) == ', body):
            points['7'].append(at)
        toks = re.findall(r'\w+|[^\s\w]', re.sub(r'//.*', '', body))
        if len(toks) >= 25:
            keep = {'if', 'else', 'while', 'for', 'return', 'let', 'mut', 'match', 'in', 'as'}
            shapes[tuple(t if t in keep or not re.match(r'\w', t) else 'x' for t in toks)].append(at)
for s, fs in shapes.items():
    if len(fs) > 1: points['2'] += ['/'.join(fs)] if a.v else fs
for c, fs in clauses.items():
    if len(fs) >= 3: points['5 clauses'].append('%d: %s' % (len(fs), c))
best = {}
for t, fs in travel.items():
    if len(fs) >= 8 and len(t) >= 3:
        best[t] = fs
for t, fs in best.items():
    if not any(t != u and set(t) < set(u) and len(best[u]) >= len(fs) * 3 // 4 for u in best):
        points['5 parameters'].append('%d: %s' % (len(fs), ', '.join(t)))
n = lines = 0
for f in glob.glob(a.dir + '/*/proofs/**/Answers.antt', recursive=True):
    t = open(f, encoding='utf8').read()
    n += len(re.findall(r'= \(?(?:search|omega|grind|cc)\b[^.\n]*$', t, re.M)); lines += t.count('\n')
points['8'] = ['%d answers that only call a tactic' % n, '%d lines of answers' % lines] if a.v else [0] * n
for k, v in points.items():
    if a.p and not k.startswith(a.p): continue
    print('%-13s %d' % (k, len(v) if k != '8' or not a.v else n))
    if a.v:
        for x in v: print('   ', x)
