#!/usr/bin/env python3
"""Turns the older proof files Proof.antt, which name each goal and close the proof, to Invariants.antt and Answers.antt.

usage: tools/convert_proofs.py NAMES.json CRATE_FOLDER [FUNCTION_PATH ..] [--generated=DIR]

NAMES.json is what `rt check --generated DIR --old-names` writes in the crate's folder; DIR, of a second run without --old-names once the crate was turned, has
the ways between places, which lemmas over a place want. It was run for each crate in the port (docs/PORT.md), and serves unfinished work of before it.
Prints what it could not turn. Proofs that walk the code by hand it leaves."""
import json, os, re, sys

W = r"[^\s(){}.;,@\"«»\[\]\\]+"
names_file, crate = sys.argv[1], sys.argv[2].rstrip('/')
only = [a for a in sys.argv[3:] if not a.startswith('--')]
generated = next((a[12:] for a in sys.argv if a.startswith('--generated=')), None)
name = os.path.basename(os.path.abspath(crate))
data = json.load(open(names_file))
alike = lambda s: re.sub('[-_]', '', s).lower()
SHORT = re.compile(r'\n?(?:  --[^\n]*\n)?  abbrev (%s) : tie\.[^\n]*\n  \1 = (%s)((?:\.before)+)[ ]*(?=\n|$)' % (W, W))
FIELDS = {'inv': 'invariant', 'taken': 'true', 'left': 'false', 'pre': 'requires', 'type-inv': 'type_inv'}
ROOT = {'pre': 'requires', 'well-formed': 'well_formed', 'fits': 'ranges', 'type-inv': 'type_inv'}


def info(path):
    """The names of the function whose proof stands in proofs/PATH."""
    key = 'Rattle-%s-proofs.%s.Lts' % (name, path.replace('/', '.'))
    return data.get(key)


def loops_of(d):
    found = []

    def walk(x):
        if isinstance(x, list) and len(x) == 2 and isinstance(x[0], list) and len(x[0]) == 2 and all(isinstance(y, str) for y in x[0]) and isinstance(x[1], list):
            found.append((x[0][0], x[0][1], x[1]))
        elif isinstance(x, list):
            for y in x:
                walk(y)
    walk(d['loops'])
    return found


def blocks(text):
    """Top-level blocks: lists of lines."""
    out, cur = [], []
    for line in text.split('\n'):
        if not line.strip():
            if cur:
                out.append(cur)
            cur = []
            continue
        cur.append(line)
    if cur:
        out.append(cur)
    return out


class Convert:
    def __init__(self, path, d):
        self.path, self.d = path, d
        self.labels = {}
        for cls, parent, (old, new), callee, subs in d['places']:
            if old:
                self.labels.setdefault(alike(old), []).append((new, callee, subs))
        self.places = {}
        self.parent = {}
        for row, new in zip(d['places'], d['places_by_name']):
            self.places.setdefault(alike(row[0]), new)
            self.parent[alike(row[0])] = alike(row[1]) if row[1] else None
        # what an arm binds: an old step and its path to the new path
        self.arms = {}
        for arm in d['arms']:
            if arm:
                for field, old, path in arm[2]:
                    if path:
                        self.arms.setdefault(alike(old), {})[tuple(path)] = arm[0] + '.' + field
        self.answers = {}
        # names of a place above, as functions of a place
        self.short = set()
        # lemmas over a place, by name: the old name of the place
        self.over = {}
        self.imports = set()
        self.needs = {}
        for old, new in d['needs']:
            self.needs[alike(old)] = new
        self.settled = {alike(x) for x in d['settled']}
        self.warn = []

    def field(self, got, rest, whole):
        """The fields behind a step, renamed."""
        if not rest:
            return rest
        subs = dict(pair for _, _, s in got for pair in s)
        if rest[0] in FIELDS and rest[0] not in subs:
            rest = [FIELDS[rest[0]]] + rest[1:]
        if rest[0] in ('auto', 'new') and len(rest) > 1 and rest[1] in ('0', '1') and got[0][1] in self.d['params']:
            names = [n for n in self.d['params'][got[0][1]] if n not in ('clock', 'env', 'rt') and (n != 'input' or 'run_lines' in got[0][1])]
            k = 1
            while k < len(rest) and rest[k] == '1':
                k += 1
            ones = k - 1
            if k < len(rest) and rest[k] == '0' and ones < len(names):
                return [rest[0], names[ones]] + rest[k + 1 :]
            if k == len(rest) and ones == len(names) - 1:
                return [rest[0], names[ones]]
            self.warn.append('no parameter for %s of %s' % (whole, names))
            return rest
        if rest[0] == 'auto' and len(rest) > 1 and rest[1] in '01':
            names = [new[5:] for _, _, s in got[:1] for _, new in s if new.startswith('long-')]
            k = 1
            ones = 0
            while k < len(rest) and rest[k] == '1':
                ones += 1
                k += 1
            if k < len(rest) and rest[k] == '0':
                k += 1
            if ones < len(names):
                return ['auto', names[ones]] + rest[k:]
            self.warn.append('no slice for %s of %s' % (whole, names))
            return rest
        if rest[0] in subs:
            return [subs[rest[0]]] + rest[1:]
        if rest[0] == 'ensures' and got[0][1] and got[0][1].split('::')[0] in ('std', 'core', 'std_io', 'std_alloc') and len(rest) == 1:
            return ['ensures', 'value']
        return rest

    def is_part(self, way):
        """Whether a way leads to what an arm binds, and not yet to one thing."""
        paths = self.arms.get(alike(way[0]), {})
        return any(len(way) - 1 < len(p) and tuple(way[1:]) == p[: len(way) - 1] for p in paths)

    def above(self, place, n):
        for _ in range(n):
            place = self.parent.get(place)
        return place

    def chain(self, at, to):
        """The way from a place to one above, as the modules that Rattle writes have it."""
        if not generated:
            return None
        base = os.path.join(generated, 'Rattle-%s-proofs' % name, self.path)
        if at == to:
            return ''
        try:
            view = open(os.path.join(base, 'Lts', 'View.antt'), encoding='utf-8').read()
        except OSError:
            return None
        m = re.search(r'(?s)\bat-%s = λ c\. record \{(.*?)\}' % re.escape(at), view)
        if not m:
            return None
        ways = dict(re.findall(r'(%s) = c((?:\.before)*)' % W, m[1].replace('(', '').replace(')', '')))
        if to not in ways:
            return None
        return ways[to]

    def cite(self, text, aliases, at, goal):
        """Calls of lemmas over a place: the place is read off the goal."""
        def one(m):
            lemma, alias, dots = m[1], m[2], m[3]
            if alias not in aliases or (m.end() < len(text) and text[m.end()] == '.'):
                return m[0]
            new = self.places.get(self.over[lemma])
            if goal:
                self.imports.add(new)
                return '%s (goal.at.%s c).%s' % (lemma, goal, new)
            exact = self.chain(self.places.get(at), new)
            if exact is not None:
                return '%s c§§%s' % (lemma, exact)
            n, p = 0, at
            while p and p != self.over[lemma]:
                p = self.parent.get(p)
                n += 1
            if p is None:
                self.warn.append('%s is not above %s' % (lemma, at))
                return m[0]
            return '%s c§§%s' % (lemma, '.before' * n)
        if not self.over:
            return text
        return re.sub(r"(?<![^\s(){},;\[\]])(%s) (%s?)((?:\.before)*)(?![^\s(){},;\[\].])" % ('|'.join(map(re.escape, sorted(self.over, key=len, reverse=True))), W), one, text)

    def body(self, text, head, at=None, goal=None, aliases=()):
        """The body of an answer, with each place called c."""
        aliases = dict.fromkeys((head, *aliases), [])
        # lets that name a place
        again = True
        if self.short:
            text = re.sub(r"(=\s*)(?:%s) (%s(?:\.before)*)(?=\s+in\b)" % ('|'.join(map(re.escape, self.short)), W), r'\1\2', text)
        let = re.compile(r"let\s+(%s)\s*=\s*(%s)((?:\.%s)*)\s+in\b[ \n]*" % (W, W, W))
        while again:
            again = False
            for m in let.finditer(text):
                way = [x for x in m[3].split('.') if x and x != 'before']
                if m[2] in aliases and (not way or self.is_part(aliases[m[2]] + way)):
                    aliases[m[1]] = aliases[m[2]] + way
                    rest = text[m.end():]
                    # keeps the layout: the text behind the `in` takes the place of the let
                    if '\n' in m[0][m[0].rindex('in'):]:
                        ind = re.search(r'\n([ ]*)$', text[:m.end()])
                    text = text[:m.start()] + rest.lstrip(' ')
                    again = True
                    break
        if self.short:
            place = r"(?:%s)(?:\.before)*" % '|'.join(map(re.escape, aliases))
            text = re.sub(r"\((?:%s) %s\)" % ('|'.join(map(re.escape, self.short)), place), head, text)
            text = re.sub(r"(?<![^\s(){},;\[\]])(?:%s) %s(?![^\s(){},;\[\]])" % ('|'.join(map(re.escape, self.short)), place), head, text)
        text = self.cite(text, aliases, at, goal)
        text = re.sub(r"(?<![^\s(){},;\[\]])(%s)(?= c(?:\.before)*(?![^\s(){},;\[\].]))" % W, lambda m: m[1] if '.' in m[1] else self.answers.get(m[1], m[1]), text)

        def repl(m):
            whole = m[0]
            if whole.startswith('c§§'):
                return 'c' + whole[3:]
            parts = whole.split('.')
            if parts[0] not in aliases:
                return whole
            k = 1
            while k < len(parts) and parts[k] == 'before':
                k += 1
            rest = aliases[parts[0]] + parts[k:]
            if rest and alike(rest[0]) in self.arms:
                for path, new in self.arms[alike(rest[0])].items():
                    if tuple(rest[1 : 1 + len(path)]) == path:
                        return '.'.join(['c', new] + rest[1 + len(path) :])
            if not rest:
                if k > 1 or len(parts) == 1:
                    if parts[0] != head or k > 1:
                        self.warn.append('bare place %s' % whole)
                return 'c'
            got = self.labels.get(alike(rest[0]))
            if got:
                rest[0] = got[0][0]
                rest[1:] = self.field(got, rest[1:], whole)
            elif rest[0] in ROOT:
                rest[0] = ROOT[rest[0]]
            elif rest[0] not in ('args', 'requires', 'ranges', 'lifetimes', 'well_formed', 'type_inv'):
                self.warn.append('no label %s' % whole)
            return 'c.' + '.'.join(rest)
        text = re.sub(r"(?<![^\s(){},;\[\]])%s(?:\.%s)*" % (W, W), repl, text)
        return self.steps(text)

    def steps(self, text):
        """Fields of a step under a name of its own."""
        for m in re.finditer(r"let\s+(%s)\s*=\s*c\.(%s)\s+in\b" % (W, W), text):
            got = [rows for rows in self.labels.values() if any(m[2] == new for new, _, _ in rows)]
            if got:
                def one(q):
                    return m[1] + '.' + '.'.join(self.field(got[0], q[1].split('.'), q[0]))
                text = re.sub(r"(?<![^\s(){},;\[\]])%s\.((?:auto|new)(?:\.[01])+)(?![\w'-])" % re.escape(m[1]), one, text)
            if any(m[2] == new for rows in self.labels.values() for new, _, _ in rows):
                text = re.sub(r"(?<![^\s(){},;\[\]])(%s)\.(inv|taken|left)(?![\w'-])" % re.escape(m[1]), lambda q: q[1] + '.' + FIELDS[q[2]], text)
        return text

    def of_place(self, text):
        """Types of places by their new names."""
        def one(m):
            new = self.places.get(alike(m[1]))
            if not new:
                self.warn.append('no place %s' % m[0])
                return m[0]
            self.imports.add(new)
            return new
        return re.sub(r"tie\.(%s)((?: (?:invariant|decreases)-%s)*)" % (W, W), one, text)

    def lemma(self, nm, sig, unf, eqs):
        s = '\n'.join(sig)
        if nm not in self.over:
            return '\n'.join(sig + (unf or []) + ['\n'.join(e) for e in eqs])
        k = re.search(r':\s*\((%s) : tie\.(%s)' % (W, W), s)
        if k:
            head, at = k[1], alike(k[2])
            end = s.index(')', k.start())
            out = [self.of_place(s[:end].replace('(%s :' % head, '(c :')) + self.body(s[end:], head, at)] + (unf or [])
        else:
            head, at = 'c', self.over[nm]
            out = [self.of_place(s)] + (unf or [])
        for e in eqs:
            lhs, rhs = '\n'.join(e).split('=', 1)
            params = lhs.split()
            h = params[1] if len(params) > 1 else head
            out.append(' '.join([params[0], 'c'] + params[2:]) + ' =' + self.body(rhs, h, at))
        return '\n'.join(out)

    def module(self, block):
        k = re.match(r'module _ \((%s) : tie\.(%s)[^)]*\) where' % (W, W), block[0])
        if not k:
            return '\n'.join(block).rstrip()
        head, at = k[1], alike(k[2])
        text = '\n'.join(block[1:])
        aliases = set()
        # a place above, under a name
        short = SHORT
        for m in short.finditer(text):
            if m[2] == head or m[2] in aliases:
                aliases.add(m[1])
                self.short.add(m[1])
                self.over.pop(m[1], None)
        text = short.sub(lambda m: '' if m[1] in aliases else m[0], text)
        inner = {n: self.over.pop(n) for n in list(self.over) if re.search(r'(?m)^\s+(?:(?:pub|abbrev|unfoldable)\s+)*%s\s*:' % re.escape(n), text)}
        out = self.of_place('module _ (c : tie.%s) where' % k[2]) + '\n' + self.body(text, head, at, None, aliases)
        self.over.update(inner)
        return out.rstrip()

    def run(self, text):
        header, uses, inv, ans, local = [], [], [], [], []
        lines = text.split('\n')
        decls = []
        i = 0
        comment = []
        while i < len(lines):
            l = lines[i]
            if not l.strip():
                i += 1
                continue
            if l.startswith('--'):
                comment.append(l)
                i += 1
                continue
            if re.match(r'(pub )?use ', l):
                uses.append(l)
                if comment and not header:
                    header = comment
                comment = []
                i += 1
                continue
            m = re.match(r'((?:(?:pub|abbrev|unfoldable)\s+)*)(%s)((?:\s*\{[^}]*\})*)\s*:\s*(.*)$' % W, l)
            if not m:
                # something else at the top: with its indented lines
                block = [l]
                i += 1
                while i < len(lines) and (not lines[i].strip() or lines[i][0].isspace()):
                    block.append(lines[i])
                    i += 1
                decls.append((None, None, comment, block))
                comment = []
                continue
            sig = [l]
            i += 1
            while i < len(lines) and lines[i].strip() and lines[i][0].isspace():
                sig.append(lines[i])
                i += 1
            unf = None
            if i < len(lines) and lines[i].startswith('unfolding'):
                unf = [lines[i]]
                i += 1
                while i < len(lines) and lines[i].strip() and lines[i][0].isspace():
                    unf.append(lines[i])
                    i += 1
            eqs = []
            while i < len(lines) and lines[i].strip() and not lines[i].startswith('--') and re.match(re.escape(m[2]) + r'(\s|$)', lines[i]):
                e = [lines[i]]
                i += 1
                while i < len(lines) and lines[i].strip() and (lines[i][0].isspace() or lines[i][0] in ')}]'):
                    e.append(lines[i])
                    i += 1
                eqs.append(e)
            decls.append((m[2], m, comment, sig, unf, eqs))
            comment = []
        loops = {alike(o): (o, n, vs) for o, n, vs in loops_of(self.d)}
        changed = self.d['changed']
        inv_names = {}
        for k, (o, n, vs) in enumerate(loops_of(self.d)):
            inv_names[alike(o)] = (n, vs, changed[k] if k < len(changed) else None)
        inv_text, ans_text, loc_text = [], [], []
        made_of = {}
        for i, dcl in enumerate(decls):
            if dcl[0] is None:
                for m in SHORT.finditer('\n'.join(dcl[3][1:])):
                    self.short.add(m[1])
        for dcl in decls:
            k = dcl[0] and re.search(r':\s*tie\.Need-(%s)' % W, ' '.join(dcl[3]))
            if k:
                old = k[1]
                new = self.needs.get(alike(re.sub(r'^overflow-', '', old))) or self.needs.get(alike(old)) or self.needs.get(alike(re.sub('^slice-bounds-', 'part-', old))) or self.needs.get(alike(re.sub('^nonzero-', '', old)))
                if new:
                    self.answers[dcl[0]] = new
        for dcl in decls:
            if dcl[0] is None:
                k = re.match(r'module _ \((%s) : tie\.(%s)[^)]*\) where' % (W, W), dcl[3][0])
                if k:
                    for l in dcl[3][1:]:
                        q = re.match(r'\s+(?:(?:pub|abbrev|unfoldable)\s+)*(%s)(?:\s*\{[^}]*\})*\s*:' % W, l)
                        if q:
                            self.over[q[1]] = alike(k[2])
                continue
            typ = ' '.join(x.strip() for x in dcl[3])
            k = re.search(r':\s*(?:\(%s : )?tie\.(%s)' % (W, W), typ)
            if k and not re.search(r': tie\.(Need|invariant|decreases)-', typ):
                self.over[dcl[0]] = alike(k[1])
        for dcl in decls:
            if dcl[0] is None:
                loc_text.append((None, dcl[2], self.module(dcl[3])))
                continue
            nm, m, comment, sig, unf, eqs = dcl
            typ = ' '.join(x.strip() for x in sig)
            typ = typ[typ.index(':') + 1:].strip() if True else ''
            t = m[4] if len(sig) == 1 else typ
            k = re.match(r'tie\.(invariant|decreases)-(%s)$' % W, typ)
            if k:
                what = inv_names.get(alike(k[2]))
                if not what:
                    self.warn.append('no loop for %s' % nm)
                    continue
                n, vs, ch = what
                new = '%s-%s' % (k[1], n)
                e = '\n'.join(eqs[0])
                lhs, rhs = e.split('=', 1)
                params = lhs.split()[1:]
                # The older loops had places of the compiler among their variables.
                if ch is not None and len(params) != len(vs) + sum(map(bool, ch)):
                    params = [p for p in params if not re.match(r't\d+$', p)]
                # A parameter that stands for what the C library gave is no variable of the older loop.
                if ch is not None and len(params) != len(vs) + sum(map(bool, ch)):
                    pairs = [(v, x) for v, x in zip(vs, ch) if v not in ('input', 'clock', 'env', 'rt')]
                    vs, ch = [v for v, _ in pairs], [x for _, x in pairs]
                want = list(vs) + [v for v, c in zip(vs, ch or []) if c]
                if ch is None or len(params) != len(want):
                    self.warn.append('%s: parameters %s for %s %s' % (nm, params, vs, ch))
                sub = {}
                for j, p in enumerate(params):
                    if p == '_' or j >= len(want):
                        continue
                    v = want[j]
                    sub[p] = ('l.initial.' + v) if j < len(vs) and ch and ch[j] else 'l.' + v
                for p in sub:
                    if re.search(r'(λ[^.]*(?<![^\s(])%s(?![^\s).])|\(\s*%s\s*:)' % (re.escape(p), re.escape(p)), rhs):
                        self.warn.append('%s binds %s' % (nm, p))
                def r2(mm):
                    parts = mm[0].split('.')
                    if parts[0] in sub:
                        return '.'.join([sub[parts[0]]] + parts[1:])
                    return mm[0]
                rhs = re.sub(r"(?<![^\s(){},;\[\]])%s(?:\.%s)*" % (W, W), r2, rhs)
                inv_text.append('\n'.join(comment + ['abbrev pub %s : goal.%s' % (new, new)] + (unf or []) + ['%s l =%s' % (new, rhs)]))
                continue
            k = re.match(r'tie\.Need-(%s)(.*)$' % W, typ)
            if k:
                old = k[1]
                short = re.sub(r'^overflow-', '', old)
                new = self.needs.get(alike(short)) or self.needs.get(alike(old)) or self.needs.get(alike(re.sub('^slice-bounds-', 'part-', old))) or self.needs.get(alike(re.sub('^nonzero-', '', old)))
                if not new:
                    if alike(old) in self.settled or re.match(r'same[-_]length', old) or re.match(r'shape', old):
                        continue
                    if not all('\n'.join(e).split('=', 1)[1].strip() == 'search rules' for e in eqs):
                        self.warn.append('no goal for %s' % old)
                    continue
                out = list(comment) + ['pub %s : goal.%s' % (new, new)] + (unf or [])
                trivial = True
                for e in eqs:
                    e = '\n'.join(e)
                    lhs, rhs = e.split('=', 1)
                    params = lhs.split()[1:]
                    params = [p for p in params if p != 'κs']
                    more = ''.join(' ' + x for x in params[1:])
                    b = self.body(rhs, params[0] if params and params[0] != '_' else 'c', None, new)
                    if b.strip() not in ('search rules',) or unf:
                        trivial = False
                    out.append('%s c%s =%s' % (new, more, b.rstrip()))
                if trivial:
                    continue
                ans_text.append('\n'.join(out))
                continue
            if 'statement' in typ and nm.endswith('spec'):
                continue
            loc_text.append((nm, comment, self.lemma(nm, sig, unf, eqs)))
        uses = [u for u in uses if '.Statement.' not in u and not u.endswith('.Tie as tie')]
        base = 'Rattle.%s.proofs.%s' % (name, self.path.replace('/', '.'))
        folder = os.path.join(crate, 'proofs', self.path)
        made = []
        # definitions that the invariants use go with them
        shared, again = {}, True
        words = set(re.findall(W, '\n'.join(inv_text)))
        while again:
            again = False
            for nm, comment, body in loc_text:
                if nm and nm in words and nm not in shared:
                    shared[nm] = '\n'.join(comment + [re.sub(r'^(abbrev |unfoldable )?(?!pub)', lambda m: (m[1] or '') + 'pub ', body, count=1)])
                    words |= set(re.findall(W, body))
                    again = True
        if inv_text:
            t = '\n'.join(header + uses + ['use %s.Given as goal' % base]) + '\n\n' + '\n\n'.join([shared[nm] for nm, _, _ in loc_text if nm in shared] + inv_text) + '\n'
            open(os.path.join(folder, 'Invariants.antt'), 'w').write(t)
            made.append('Invariants')
        rest = ['\n'.join(comment + [body]) for nm, comment, body in loc_text if nm not in shared]
        if ans_text or rest:
            more = ['use %s.Invariants.{%s}' % (base, ', '.join(shared))] if shared else []
            goals = ['use %s.Goals as goal' % base]
            if self.imports:
                goals.append('use %s.Goals.{%s}' % (base, ', '.join(sorted(self.imports))))
            t = '\n'.join(header + uses + more + goals) + '\n\n' + '\n\n'.join(rest + ans_text) + '\n'
            open(os.path.join(folder, 'Answers.antt'), 'w').write(t)
            made.append('Answers')
        return made


for folder, dirs, files in os.walk(os.path.join(crate, 'proofs')):
    dirs.sort()
    if 'Proof.antt' not in files:
        continue
    path = os.path.relpath(folder, os.path.join(crate, 'proofs'))
    if only and path not in only:
        continue
    p = os.path.join(folder, 'Proof.antt')
    text = open(p).read()
    if 'Tie as tie' not in text:
        print('by hand: %s' % path)
        continue
    d = info(path)
    if d is None:
        print('no names: %s' % path)
        continue
    c = Convert(path, d)
    made = c.run(text)
    os.remove(p)
    for w in c.warn:
        print('%s: %s' % (path, w))
