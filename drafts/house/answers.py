#!/usr/bin/env python3
# repath.py CRATE FN [ANSWERS]: re-aims the answers of FN's Proof.antt at the goals as they are now (`rt goals CRATE` first), and binds each thing by `let`.
# An answer is turned into a form where `@thing` stands for what is known (c .before .. .thing), then filled with the paths of the generated Lts.
# ANSWERS: a file of `NEED args = term` in @-form, which replace or add answers. Needs that are gone are dropped; needs without an answer get `search needs`.
import glob, os, re, sys
crate, fn = sys.argv[1:3]
lts = [f for f in glob.glob(f'target/goals/{crate}/**/Lts*.antt', recursive=True) if f'/{fn}/' in f or f'/+{fn}/' in f][0]
t = open(lts).read()
recs = {}
for m in re.finditer(r'^ +pub record (\S+) : Type 0 where\n((?: +pub .*\n(?: {9,}[^p\n].*\n)*)+)', t, re.M):
    recs[m.group(1)] = re.findall(r'pub (\S+) :\s*(\S+)', m.group(2))
things, order = {}, []
for m in re.finditer(r'^ +(Need-\S+) =\s*(?:\n\s*)?\(c : (\S+)\)', t, re.M):
    need, p = m.group(1)[5:], m.group(2).rstrip(')')
    path, d = 'c', {}
    while p in recs:
        nxt = None
        for n, ty in recs[p]:
            if n == 'before': nxt = ty
            else: d.setdefault(n, (path, n))
        path += ' .before'; p = nxt
    things[need] = d; order.append(need)
proof = [f for f in glob.glob(f'crates/{crate}/proofs/**/Proof.antt', recursive=True) if f'/{fn}/' in f or f'/+{fn}/' in f][0]
text = open(proof).read()
rec = '/+' in proof
pre = (fn.replace('_', '-') + '-') if rec else ''
# split: head (to the first answer), answers, tail (the spec)
lines = text.split('\n')
sig = re.compile(r'^(\S+) : (?:\(t : ℕ\) → )?\S*(?:tie|lts)\.Need-(\S+)(.*)$')
head, blocks, tail, cur = [], [], [], None
i = 0
while i < len(lines):
    l = lines[i]
    m = sig.match(l)
    if m:
        cur = dict(name=m.group(1), need=m.group(2), sig=l, unf=None, body=[]); blocks.append(cur)
    elif l.startswith('pub ') and '-spec :' in l:
        tail = lines[i:]; break
    elif cur is None: head.append(l)
    else:
        if l.startswith('unfolding') and not cur['body']: cur['unf'] = l
        else: cur['body'].append(l)
    i += 1
def expand(body):
    s = '\n'.join(body).strip('\n')
    binds = {}
    # place and thing lets
    pat = re.compile(r'let (\S+) = ((?:c|[a-z][\w\-′]*)(?: \.[\w\-]+)*) in\s*')
    pos = 0
    while True:
        m = pat.search(s, pos)
        if not m: break
        name, path = m.groups()
        base = path.split(' ')[0]
        if base == 'c' or base in binds:
            if base in binds: path = binds[base] + path[len(base):]
            binds[name] = path
            rest = s[m.end():]
            plain = re.fullmatch(r'c(?: \.before)*(?: \.[\w\-]+)?', path)
            rest = re.sub(r'(?<![\w\-.@′])' + re.escape(name) + r'(?![\w\-′])(?! = )', lambda k: path if plain else '(' + path + ')', rest)
            rest = rest.replace('((' + path + '))', '(' + path + ')')
            s = s[:m.start()] + rest
            pos = m.start()
        else: pos = m.end()
    return s
def toat(s):
    return re.sub(r'(?<![\w\-])c((?: \.before)*) \.(?!before(?![\w\-]))([\w\-]+)', lambda m: '@' + m.group(2), s)
def fill(need, args, s):
    d = things[need]
    used = []
    for m in re.finditer(r'@([\w\-]+)', s):
        if m.group(1) not in used: used.append(m.group(1))
    lets = []
    counts = {u: len(re.findall('@' + re.escape(u) + r'(?![\w\-])', s)) for u in used}
    for u in used:
        if u not in d: raise SystemExit(f'{need}: no {u}; there are {sorted(d)}')
        path = d[u][0] + ' .' + u
        if counts[u] == 1 and d[u][0].count('.before') <= 1:
            s = re.sub('@' + re.escape(u) + r'(?![\w\-])', path, s)
        else:
            nm = u if u not in ('match',) else 'arm'
            lets.append(f'    let {nm} = {path} in')
            s = re.sub('@' + re.escape(u) + r'(?![\w\-])', nm, s)
    return lets, s
new = {}
if len(sys.argv) > 3:
    uses = []
    curk = None; unf = None
    for l in open(sys.argv[3]).read().split('\n'):
        if l.startswith('use '): uses.append(l)
        elif l.startswith('unfolding'): unf = l
        elif l.startswith(' ') and curk: new[curk]['body'] += '\n' + l
        elif l.strip():
            h, term = l.split(' =', 1)
            curk = h.split()[0]
            new[curk] = dict(args=h.split()[1:], unf=unf, body=term.strip()); unf = None
    for u in uses:
        if u not in head:
            k = next(j for j, h in enumerate(head) if h.endswith('{statement}'))
            head.insert(k, u)
old = {}
for b in blocks:
    first = b['body'][0]
    h, term = first.split(' =', 1)
    body = [term.strip()] + b['body'][1:] if term.strip() else b['body'][1:]
    old[b['need']] = dict(args=h.split()[1:], unf=b['unf'], body=toat(expand(body)), sig=b['sig'])
sigtail = None
for b in blocks:
    sigtail = b['sig'].split('Need-' + b['need'], 1)[1]; sighead = b['sig'].split('Need-' + b['need'], 1)[0].split(' : ', 1)[1]; break
out = []
for need in order:
    a = new.get(need) or old.get(need)
    if a is None:
        a = dict(args=['t', 'c'] if rec else ['c'], unf=None, body='search needs'); print('no answer:', need)
        if need.endswith('requires') or re.search(r'requires-\d+$', need): a['args'] = a['args'] + ['κs']
    args = a['args']
    lets, s = fill(need, args, a['body'])
    name = pre + need
    out.append(f'{name} : {sighead}Need-{need}{sigtail}')
    if a['unf']: out.append(a['unf'])
    s = s.strip('\n')
    if lets or '\n' in s:
        out.append(f'{name} {" ".join(args)} =')
        out += lets
        sl = s.split('\n')
        sl[0] = sl[0].strip()
        out.append('    ' + '\n'.join(sl))
    else: out.append(f'{name} {" ".join(args)} = {s}')
    out.append('')
for n in old:
    if n not in order: print('gone:', n)
# the spec: rebuild the list of needs
tl = '\n'.join(tail)
if rec:
    k = min(tl.index(f'\n    ({pre}{n} t)') for n in list(old) + order if f'\n    ({pre}{n} t)' in tl)
    front = tl[:k]
    tl = front + '\n' + '\n'.join(f'    ({pre}{n} t)' for n in order) + '\n'
else:
    inv = re.findall(r'\b((?:Inv|μ)-\S+?)[\s)]', tl)
    args = inv + order
    nm = re.match(r'pub (\S+) :', tl).group(1)
    firstl = tl.split('\n')[0]
    tl = firstl + '\n' + nm + ' =\n    tie.close\n    (tie.spec\n' + '\n'.join('    ' + a for a in args) + ')\n'
hd = '\n'.join(head).rstrip('\n')
body = '\n'.join(out)
if 'search needs' in body and 'borrow.Author.Needs.{needs}' not in hd:
    ls = hd.split('\n'); k = next(j for j, h in enumerate(ls) if h.endswith('{statement}')); ls.insert(k, 'use borrow.Author.Needs.{needs}'); hd = '\n'.join(ls)
if 'arith' in body and 'Omega.{arith}' not in hd:
    ls = hd.split('\n'); k = next(j for j, h in enumerate(ls) if h.endswith('{statement}')); ls.insert(k, 'use native.Mathlib.Omega.{arith}'); hd = '\n'.join(ls)
open(proof, 'w').write(hd + '\n\n' + body + '\n' + tl.rstrip('\n') + '\n')
