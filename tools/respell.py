#!/usr/bin/env python3
"""Respells the repository's own definitions, lemmas, constructors and fields of specs/ and proofs/ in snake case: isPool to is_pool, pool-fits to pool_fits.

usage: tools/respell.py [--list] [ROOT]

It was run once, right after the kit's port.py. The names are those that the .antt files declare. Types and facts, which begin with a capital, keep their
spelling, and so does all that the code declares. A lemma that would get the name of a definition ends in _lem. Names that files import from the library stay in
those files. What turns: the .antt files; clauses, `ghost use` items and comments' names of the .rt files, and no string; the must-fail edits, also those of edits/;
the pages. --list prints the table and the names that fall together, and writes nothing."""
import collections
import os
import re
import sys

WORD = r"[^\s(){}.;,@\"«»\[\]\\]+"
DECLARED = re.compile(r'^\s*(?:(?:pub|abbrev|unfoldable|private)\s+)*(?!let |module )(%s)(?:\s*\{[^}]*\})*\s*:\s' % WORD)
KIND = re.compile(r'^\s*(?:(?:pub|abbrev|unfoldable)\s+)*(?:data|record)\s+(%s)' % WORD)
MEMBER = re.compile(r'^\s+((?!--)%s(?:\s+%s)*)\s*:\s' % (WORD, WORD.replace('[^', '[^:')))
# The goals of a proof that closes by itself: Rattle's names, which the proofs' own forms replace.
GOAL = re.compile(r':\s*(?:tie\.|\{M : Type 1\} → statement M)')
IMPORT = re.compile(r'^(?:ghost )?(?:pub )?use\s+((?!Rattle\.(?:%s)\.)[\w.+-]+)\.\{([^}]*)\}', re.M)


def read(path):
    with open(path, encoding='utf-8') as f:
        return f.read()


def files(root, endings, below=('crates', 'edits')):
    for top in below:
        for folder, dirs, names in os.walk(os.path.join(root, top)):
            dirs[:] = sorted(d for d in dirs if d not in ('out', 'target', '.git'))
            for name in sorted(names):
                if name.endswith(endings):
                    yield os.path.join(folder, name)


def old_form(name):
    return '-' in name or re.search(r'[a-z0-9][A-Z]', name) and name[0].islower()


def snake(name):
    name = re.sub(r'^getD(?![a-z])', 'get_or', name)
    name = re.sub(r'^([A-Z])-', lambda m: m[1].lower() + '_', name)
    name = re.sub(r'([a-z0-9])([A-Z])', lambda m: m[1] + '_' + m[2].lower(), name)
    return name.replace('-', '_')


def table(root):
    """Old spelling to new, and what else is declared."""
    declared = set()
    for path in files(root, '.antt'):
        inside = False
        for line in read(path).split('\n'):
            kind = KIND.match(line)
            if kind:
                declared.add(kind[1])
                inside = True
                continue
            if DECLARED.match(line) and not line.startswith(' '):
                inside = False
            member = inside and MEMBER.match(line)
            if member:
                declared.update(member[1].split())
                continue
            declared.update(re.findall(r' as ([a-z]%s)[,}]' % WORD, line) if 'use ' in line else [])
            found = DECLARED.match(line)
            if found and not GOAL.search(line):
                declared.add(found[1])
    declared = {n for n in declared if not n.startswith('--')}
    old = sorted(n for n in declared if old_form(n))
    by_new = collections.defaultdict(list)
    for n in old:
        by_new[snake(n)].append(n)
    rows, together = {}, []
    for new, names in sorted(by_new.items()):
        for n in names:
            # A definition keeps the plain name; a lemma that would get it ends in _lem.
            again = len(names) > 1 or new in declared and both(root, n, new)
            rows[n] = new + '_lem' if again and '-' in n else new
            if again:
                together.append((n, rows[n]))
    return rows, together


def both(root, old, new):
    """Whether one file has both names."""
    for path in files(root, '.antt'):
        words = set(re.findall(WORD, re.sub(r'--.*', '', read(path))))
        if old in words and new in words:
            return True
    return False


# Lemmas that the kit's script gave the name that a definition gets here: CRATE/FILE to names.
LEMMAS = {
    'grid_stamps/proofs/Legal.antt': ['box_of'],
    'pool_records/proofs/Counts.antt': ['held_number'],
    'pool_records/proofs/Codecs.antt': ['held_number'],
    'event_cost/proofs/Telling.antt': ['row_told'],
    'pool_tracking/proofs/Refusals.antt': ['take_found'],
}


PARTS = re.compile(r'"(?:\\.|[^"\\\n])*"|' + WORD)


def turned(text, rows, keep):
    def one(m):
        w = m[0]
        if w[0] == '"' or w in keep or w not in rows:
            return w
        # Behind a dot a word with a dash may be Rattle's name of a step.
        if '-' in w and rows[w].endswith('_lem') and text[m.start() - 1 : m.start()] == '.':
            return w
        return rows[w]
    return PARTS.sub(one, text)


def comments(text, mark, rows, keep):
    """Turns the code and, in comments, names in capitals within words or between backticks."""
    out = []
    for line in text.split('\n'):
        m = re.match(r'((?:[^"\n]|"(?:\\.|[^"\\])*")*?)(%s.*)$' % mark, line)
        if m and (mark == '//' or not m[1] or m[1][-1] in ' ('):
            note = re.sub(r'`[^`]*`', lambda q: turned(q[0], rows, keep), m[2])
            out.append(turned(m[1], rows, keep) + in_prose(note, rows, keep))
        else:
            out.append(turned(line, rows, keep))
    return '\n'.join(out)


def in_prose(text, rows, keep):
    """Names of a text: those with a capital inside, and those between backticks."""
    text = re.sub(r"[A-Za-z0-9'_]+", lambda m: rows[m[0]] if m[0] in rows and m[0] not in keep and '-' not in m[0] else m[0], text)
    return re.sub(r'`([^`\n]*)`', lambda q: '`' + re.sub(r"[^\s(){}.;,@\"`\[\]|/:]+", lambda m: rows.get(m[0], m[0]), q[1]) + '`', text)


def main(argv):
    show = '--list' in argv
    argv = [a for a in argv if a != '--list']
    root = argv[0] if argv else os.path.dirname(os.path.dirname(os.path.abspath(__file__)))
    own = sorted(os.listdir(os.path.join(root, 'crates')))
    rows, together = table(root)
    if show:
        for old in sorted(rows):
            print(old + '\t' + rows[old])
        for t in together:
            print('together:', *t)
        return 0
    count = 0
    for path in list(files(root, ('.antt', '.rt', '.edit'))):
        text = read(path)
        keep = set()
        if not path.endswith('.edit'):
            for module, names in re.findall(r'^(?:ghost )?(?:pub )?use\s+([^\s{]+)\.\{([^}]*)\}', text, re.M):
                head = module.split('.')
                if not (head[0] == 'Rattle' and len(head) > 1 and head[1] in own):
                    keep.update(x.strip() for item in names.split(',') for x in item.split(' as '))
        lemmas = LEMMAS.get(os.path.relpath(path, os.path.join(root, 'crates')), [])
        text_now = PARTS.sub(lambda m: m[0] + '_lem' if m[0] in lemmas else m[0], text)
        new = comments(text_now, '--' if path.endswith('.antt') else '//', rows, keep) if not path.endswith('.edit') else turned(text_now, rows, keep)
        if new != text:
            count += 1
            with open(path, 'w', encoding='utf-8') as f:
                f.write(new)
    pages = [os.path.join(root, f) for f in sorted(os.listdir(root)) if f.endswith('.md')] + list(files(root, '.md', ('docs', 'bench', 'compare', 'edits')))
    for path in pages:
        text = read(path)
        new = in_prose(text, rows, set())
        if new != text:
            count += 1
            with open(path, 'w', encoding='utf-8') as f:
                f.write(new)
    print('%d names, %d files' % (len(rows), count))
    return 0


if __name__ == '__main__':
    raise SystemExit(main(sys.argv[1:]))
