#!/usr/bin/env python3
"""tools/lent_slices.py ROOT: the clauses that name lent slices as a whole (lent_by, at_entry, at_exit and what is made of them) name their numbers:
x.now of a `&`, x.old and x.new of a `&mut`; the definitions take lists. Prints what it leaves."""
import re, sys, glob, os
root = sys.argv[1]
HEADS = ['lent_by', 'at_entry', 'at_exit', 'state_at_entry', 'carried_at_entry', 'carried_at_exit', 'Lends']
head = re.compile(r'(?<![\w.])(' + '|'.join(HEADS) + r')(?= )')

def args_end(t, i):
    """the end of an application's arguments that begin at i"""
    while True:
        m = re.compile(r'\s+').match(t, i)
        if not m: return i
        j = m.end()
        if t[j] == '(':
            d = 0
            while True:
                if t[j] == '(': d += 1
                if t[j] == ')': d -= 1
                j += 1
                if d == 0: break
            i = j
        else:
            m = re.compile(r"[\w][\w.']*").match(t, j)
            if not m: return i
            i = m.end()

files = left = n = 0
for p in sorted(glob.glob(os.path.join(root, 'crates/*/src/**/*.rt'), recursive=True)):
    t = open(p).read(); out = []; pos = 0; did = 0
    fns = [(m.start(), m.group(1)) for m in re.finditer(r'\bfn \w+(?:<[^>]*>)?\(((?:[^()]|\([^()]*\))*)\)', t)]
    for m in head.finditer(t):
        line = t[t.rfind('\n', 0, m.start()) + 1:m.start()]
        if line.lstrip().startswith(('//', 'ghost use', 'use ')): continue
        f = [a for s, a in fns if s < m.start()]
        kinds = {}
        if f:
            for a in re.finditer(r'(\w+):\s*&(?:\'\w+ )?(mut )?\[', f[-1]): kinds[a.group(1)] = bool(a.group(2))
        e = args_end(t, m.end()); s = t[m.end():e]
        end = m.group(1).endswith('exit')
        def sub(w):
            k = kinds.get(w.group(0))
            if k is None: return w.group(0)
            return w.group(0) + ('.now' if not k else '.new' if end else '.old')
        r = re.sub(r"(?<![\w.])[a-z]\w*(?![\w.])", sub, s)
        if r == s:
            print('left:', p, m.group(0) + s[:100].replace('\n', ' ')); left += 1; continue
        out.append(t[pos:m.end()] + r); pos = e; did += 1
    if did:
        open(p, 'w').write(''.join(out) + t[pos:]); files += 1; n += did
print(files, 'files', n, 'applications', left, 'left')

# the definitions
def edit(p, pairs):
    p = os.path.join(root, p)
    if not os.path.exists(p): print('no file', p); return
    t = open(p).read()
    for a, b in pairs:
        if a not in t: print('NOT FOUND in', p, ':', a[:80])
        t = t.replace(a, b)
    open(p, 'w').write(t)

B = 'Bor (List ℕ)'
edit('crates/pool_memory/specs/Lent.antt', [
    ('use denote.Triple.Both.{Both}\n', ''),
    ('use Rattle.std.specs.Borrow.{Bor}\n', ''),
    ("""-- a lent slice at a call's entry and at its exit
abbrev pub Slice : Type 0
Slice = Both (Bor (List ℕ)) (Bor (List ℕ))
""", """-- a lent slice's numbers
abbrev pub Slice : Type 0
Slice = List ℕ
"""),
    ('lent_by : Pool → PacingBook → ' + ' → '.join([B] * 6) + ' → Lent', 'lent_by : Pool → PacingBook → ' + ' → '.join(['Slice'] * 6) + ' → Lent'),
    ('lent pool book textures.now retiring.now doomed.now spares.now newest.now stamps.now', 'lent pool book textures retiring doomed spares newest stamps'),
    ('lent_by pool book textures.entry retiring.entry doomed.entry spares.entry newest.entry stamps.entry', 'lent_by pool book textures retiring doomed spares newest stamps'),
    ('lent_by pool book textures.exit retiring.exit doomed.exit spares.exit newest.exit stamps.exit', 'lent_by pool book textures retiring doomed spares newest stamps'),
])
SIX = ['textures', 'retiring', 'doomed', 'spares', 'newest', 'stamps']
edit('crates/event_feed/specs/Places.antt', [
    (' '.join(x + '.entry.now' for x in SIX), ' '.join(SIX)), ('    buf.entry.now\n', '    buf\n'),
    (' '.join(x + '.exit.now' for x in SIX), ' '.join(SIX)), ('    buf.exit.now\n', '    buf\n'),
])
edit('crates/event_sheet/specs/SheetText.antt', [(' '.join(x + '.entry.now' for x in SIX), ' '.join(SIX))])
edit('crates/event_stream/specs/Lends.antt', [('use Rattle.std.specs.Borrow.{Bor}\n', ''), ('stamps copies views : Bor (List ℕ))', 'stamps copies views : List ℕ)')]
     + [('length ' + x + '.now', 'length ' + x) for x in SIX + ['copies', 'views']])
