#!/usr/bin/env python3
"""Proves, for each edit of a rule or of a book that demand 3 rests on, that the claim is false of the edited definitions: `Demand3 → ⊥`. So an edit does
not merely break a proof's text, and a claim that an edit has made true is seen. What refutes it is a list of calls that keeps to renames, after which the
live number of a texel of the shape, in a level that is not left out, is not the plain book's. Where an edit has several lists, each refutes the claim.

Each edit is applied to a copy of the definitions of the crates pool_rules and pool_books (and of those between, where it is of a lower one), which is a crate
of its own in a temporary repository beside copies of the crates below, and the refutation is a computed theorem there. Run from anywhere.

    run.py [--built] [CRATE/EDIT ..]    tries every edit, or those named
    run.py [--built] control            tries the same theorems over the definitions as they are, where each refutation has to be refused

What the crates below lack of proof is proved first, which takes some minutes where no check of them was kept. With --built they are taken as rt ci has
just left them in crates/NAME/out, where that serves. Exit status 0 if the claim is refuted for every edit; 1 if not, with what the prover said in
target/counterexamples."""
import os
import re
import shutil
import subprocess
import sys
import tempfile

root = os.path.dirname(os.path.dirname(os.path.abspath(__file__)))
said = root + '/target/counterexamples'
crates = ['base_blocks', 'base_unequal', 'grid_shapes', 'grid_rects', 'grid_axes', 'grid_stamps', 'pool_rules', 'pool_books']

# the sample's shape, and those of specs/ComputedBooks.antt
FLAT = '(flat_shape 2 64 64 1 1 0)'
CUBE = 'cube'
VOLUME = 'volume'


def write(x, y, w=1, h=1, slice=0, level=0):
    return ['between (write_call 7 %d %d (record { x = %d; y = %d; width = %d; height = %d }))' % (slice, level, x, y, w, h)]


def rename(held, view, seq, cover='no_cover', shape=FLAT):
    return ['take_call 7 %s true %d' % (shape, seq), 'plan_call 7 %s %s %s 90' % (shape, held, cover), 'retire_call 7 %d %d' % (view, seq)]


def settle(failed):
    return ['between (pop_call 10)', 'between (park_call %d 11)' % failed]


forget = ['between (forget_call 7)']
regenerate = ['between (regen_call 7)']
# calls that change no book; with a rename, a write, a regeneration, a pop and a park, and a forget, they are the twelve
others = ['between (note_call 0)', 'between (trim_call 12)', 'between (doomed_call 90)', 'between (drain_call 90)']
first = rename('Unknown', 900, 10)
first_cube = rename('Unknown', 900, 10, shape=CUBE)
first_volume = rename('Unknown', 900, 10, shape=VOLUME)
twelve = first + write(0, 0) + regenerate + settle(0) + others + forget + first
# edit: lists, each as shape, calls, texel (slice, level, x, y, z), the live version's number there, the plain book's
cases = {
    'pool_rules/copies_no_box': [
        (FLAT, first + write(0, 0) + settle(0) + rename('(Known 0)', 901, 11), (0, 0, 0, 0, 0), 'some 0', 1),
        (CUBE, first_cube + write(1, 1, slice=5, level=2) + settle(0) + rename('(Known 0)', 901, 11, shape=CUBE), (5, 2, 1, 1, 0), 'some 0', 1),
        (VOLUME, first_volume + write(4, 2, level=1) + settle(0) + rename('(Known 0)', 901, 11, shape=VOLUME), (0, 1, 4, 2, 1), 'some 0', 1),
        # After each of the twelve calls: the plain number is the next one, although a take stands between.
        (FLAT, twelve + write(40, 40) + settle(0) + rename('(Known 0)', 901, 11), (0, 0, 40, 40, 0), 'some 0', 3),
    ],
    'pool_rules/stamps_first_write_only': [
        (FLAT, first + write(0, 0) + write(40, 40) + settle(0) + rename('(Known 0)', 901, 11), (0, 0, 40, 40, 0), 'some 0', 2),
    ],
    'pool_rules/retires_one_write_ahead': [
        (FLAT, first + write(0, 0) + settle(0) + rename('(Known 1)', 901, 11), (0, 0, 0, 0, 0), 'some 0', 1),
        (CUBE, first_cube + write(7, 7, slice=5) + settle(0) + rename('(Known 1)', 901, 11, shape=CUBE), (5, 0, 7, 7, 0), 'some 0', 1),
    ],
    'pool_rules/older_tracking_parks': [
        (FLAT, first + write(0, 0) + forget + rename('Unknown', 901, 10) + settle(0) + rename('(Known 0)', 902, 11), (0, 0, 0, 0, 0), 'some 0', 1),
    ],
    'pool_rules/ignores_failed': [
        (FLAT, first + write(0, 0) + settle(5) + rename('(Known 0)', 901, 11), (0, 0, 50, 50, 0), 'none', 0),
        (VOLUME, first_volume + write(0, 0) + settle(5) + rename('(Known 0)', 901, 11, shape=VOLUME), (0, 1, 4, 2, 1), 'none', 0),
    ],
    'pool_rules/birth_strict': [
        (FLAT, rename('Unknown', 900, 5) + rename('Unknown', 901, 6) + write(0, 0) + settle(0) + settle(5) + rename('(Known 0)', 902, 11), (0, 0, 50, 50, 0), 'none', 0),
    ],
    'pool_rules/box_left_out_without_full_cover': [(FLAT, first, (0, 0, 0, 0, 0), 'none', 0)],
    'grid_axes/box_misses_last_column': [
        (FLAT, first + write(20, 5, 10, 10) + settle(0) + rename('(Known 0)', 901, 11), (0, 0, 20, 5, 0), 'some 0', 1),
    ],
    'pool_books/regeneration_covers_level_0': [
        (FLAT, first + regenerate + settle(0) + rename('(Known 0)', 901, 11), (0, 0, 0, 0, 0), 'some 0', 1),
    ],
    'pool_books/copies_bring_nothing': [(FLAT, first, (0, 0, 0, 0, 0), 'none', 0), (CUBE, first_cube, (5, 2, 1, 1, 0), 'none', 0)],
    'pool_books/covered_level_not_left_out': [(FLAT, rename('Unknown', 900, 10, 'full_cover'), (0, 0, 0, 0, 0), 'none', 0)],
    'pool_books/partial_write_ends_it': [(FLAT, rename('Unknown', 900, 10, 'full_cover') + write(0, 0), (0, 0, 50, 50, 0), 'none', 0)],
}


def allowed(calls):
    """The proof that the list keeps to renames: what Allowed asks of each call."""
    if not calls:
        return 'tt'
    ask = {'take_call': 'tt', 'between': 'tt', 'plan_call': '(refl, refl, refl)', 'retire_call': 'refl'}[calls[0].split()[0]]
    return '(%s, %s)' % (ask, allowed(calls[1:]))


class Unfit(Exception):
    """Says why an edit cannot be tried as it stands."""


def read(path):
    with open(path, encoding='utf-8') as file:
        return file.read()


def write_file(path, text):
    with open(path, 'w', encoding='utf-8') as file:
        file.write(text)


def unfoldable(crate, skip=()):
    """(module, name) of each definition of a crate's specs that opens only where it is asked to."""
    found = []
    for f in sorted(os.listdir('%s/crates/%s/specs' % (root, crate))):
        if f.endswith('.antt') and f[:-5] not in skip:
            for name in re.findall(r'^ *unfoldable pub (\S+)', read('%s/crates/%s/specs/%s' % (root, crate, f)), re.M):
                found.append((f[:-5], name))
    return found


def declare(folder, copied):
    """The declared types of the copied crates alone: the functions and their contracts are not what is tried here."""
    os.makedirs(folder)
    found, places = [], {}
    for c in copied:
        # A folder below src/ has no types (grid_axes: tables).
        for f in sorted(f for f in os.listdir('%s/crates/%s/src' % (root, c)) if f.endswith('.rt')):
            text = read('%s/crates/%s/src/%s' % (root, c, f))
            types = re.findall(r'^(?:#\[derive\([^\n]*\)\]\n)?pub (?:struct|enum) .*?^}\n', text, re.M | re.S)
            if types:
                found.append((f, text, types))
                places.update((name, f[:-3]) for t in types for name in re.findall(r'^pub (?:struct|enum) (\w+)', t, re.M))
    mods = ''
    for f, text, types in found:
        lines = []
        for other, names in re.findall(r'^use ((?:\w+::)*\w+)::\{?([\w, \n]+)\}?;$', text, re.M):
            for n in re.findall(r'[A-Z]\w*[a-z]\w*', names):
                if any(re.search(r'\b%s\b' % n, t) for t in types):
                    # A copied crate's types stand in this one.
                    lines.append('use %s::%s;\n' % ('crate::' + places[n] if n in places else other, n))
        write_file('%s/%s' % (folder, f), ''.join(lines) + '\n'.join(types))
        mods += 'pub mod %s;\n' % f[:-3]
    write_file(folder + '/lib.rt', '#![tactic(auto)]\n\n' + mods)


def lines_of_crates():
    """What each crate uses, by crates.txt."""
    lines = (line.split('#')[0].partition(':') for line in read(root + '/crates.txt').splitlines())
    return {name: uses.split() for name, colon, uses in lines if colon}


def replacements(path):
    """The pairs of an edit, as (file, old, new)."""
    pairs, file, old = [], '', ''
    for line in read(path).splitlines():
        if line.startswith('file: '):
            file = line[6:]
        elif line.startswith('old: '):
            old = line[5:]
        elif line.startswith('new:'):
            pairs.append((file, old, line[4:].removeprefix(' ')))
    return pairs


def theorems(i, unfolding, shape, calls, texel, live, plain):
    """One list's theorems, of which the last is that the claim is false."""
    return f'''
abbrev there{i} : Texel
there{i} = texel {' '.join(map(str, texel))}

abbrev list{i} : List Call
list{i} = {' ∷ '.join(calls)} ∷ []

abbrev book{i} : Option Book
book{i} = (run (start cube_lent 0) list{i}).books 7

-- the list keeps to renames
renames{i} : Renames (start cube_lent 0) list{i}
{unfolding}
renames{i} = {allowed(calls)}

-- the texel is one of the shape
inside{i} : Inside {shape} there{i}
unfolding flat_shape slices_of level_width level_height level_depth level_extent
inside{i} = record {{ slice = omega arith; level = omega arith; x = omega arith; y = omega arith; z = omega arith }}

-- the live number there is not the plain book's, and the level is not left out
differs{i} : (live_at book{i} there{i} ≡ {live}) × (plain_at book{i} there{i} ≡ some {plain}) × (left_at book{i} there{i} ≡ some false)
{unfolding}
differs{i} = (refl, refl, refl)

-- so the claim is false
refuted{i} : Demand3 → ⊥
{unfolding} Demand3 Agrees
refuted{i} claim = subst (AnyBut {plain}) ((claim cube_lent 0 list{i} renames{i}){'.2' * len(calls)}.agrees 7 there{i} inside{i} refl) tt
'''


def check(top, name, lower, built):
    """Checks the crate of that name over those below it, and returns its status and what the prover said."""
    words = ['rt', 'check']
    libraries = ['%s/crates/%s/out/rlib/%s.rlib' % (root, c, c) for c in lower]
    if built and all(map(os.path.isdir, libraries)):
        for c, library in zip(lower, libraries):
            words += ['--extern', '%s=%s' % (c, library), '-L', 'dependency=' + os.path.dirname(library)]
        lines = []
    else:
        built = False
        below = lines_of_crates()
        lines = ['%s: %s\n' % (c, ' '.join(below[c])) for c in lower]
        for c in lower:
            if not os.path.isdir('%s/crates/%s' % (top, c)):
                shutil.copytree('%s/crates/%s' % (root, c), '%s/crates/%s' % (top, c), ignore=shutil.ignore_patterns('out', 'must-fail'))
    write_file(top + '/crates.txt', ''.join(lines) + '%s: %s\n' % (name, '' if built else ' '.join(lower)))
    ran = subprocess.run(words, stdin=subprocess.DEVNULL, stdout=subprocess.PIPE, stderr=subprocess.STDOUT, text=True, cwd='%s/crates/%s' % (top, name))
    if built and not re.search('^logic=', ran.stdout, re.M):
        # The libraries do not fit together: some are of another run.
        return check(top, name, lower, False)
    return ran.returncode, ran.stdout


def refute(top, case, edited=True, built=False):
    """Proves the case's theorems in the repository `top`."""
    crate, edit = case.split('/')
    name = 'edited_' + edit
    d = '%s/crates/%s' % (top, name)
    os.makedirs(d + '/specs')
    os.makedirs(d + '/proofs')
    own = 'Rattle.%s.specs.' % name
    # the edited crate and all above it are copied into one crate; those below are taken as they are
    copied = crates[min(crates.index(crate), crates.index('pool_rules')):]
    lower = crates[:crates.index(copied[0])]
    pairs = replacements('%s/crates/%s/must-fail/%s.edit' % (root, crate, edit))
    mods = ''
    for c in copied:
        for f in sorted(os.listdir('%s/crates/%s/specs' % (root, c))):
            text = read('%s/crates/%s/specs/%s' % (root, c, f))
            # What is said of the lent stores rests on crates that are not copied.
            if f == 'LentLists.antt':
                continue
            if f == 'Lib.antt':
                mods += text.replace('pub mod LentLists\n', '')
                continue
            for where, old, new in pairs:
                if edited and c == crate and where == 'specs/' + f:
                    if text.count(old) != 1:
                        raise Unfit("its 'old:' text stands %d times in %s" % (text.count(old), where))
                    text = text.replace(old, new)
            for one in copied:
                text = text.replace('Rattle.%s.specs.' % one, own)
            write_file('%s/specs/%s' % (d, f), text)
    write_file(d + '/specs/Lib.antt', mods)
    declare(d + '/src', copied)
    names = [('Rattle.%s.specs.%s' % (c, m), n) for c in lower for m, n in unfoldable(c, ('Outcomes',))]
    names += [(own + m, n) for c in copied for m, n in unfoldable(c, ('Formed', 'Closed', 'Demand3', 'LentLists'))]
    uses = ''.join('use %s.{%s}\n' % (m, ', '.join(n for k, n in names if k == m)) for m in dict.fromkeys(m for m, n in names))
    unfolding = 'unfolding %s flat_map' % ' '.join(n for m, n in names)
    write_file(d + '/proofs/Lib.antt', 'pub mod Counterexample\n')
    write_file(d + '/proofs/Counterexample.antt', f'''use Rattle.std.specs.Prelude.{{ℕ, ◌≡◌, true, false, cond, List, [], ◌∷◌, eqb}}
use Rattle.std.proofs.Math.Option.{{Option, none, some}}
use mathlib.Core.Path.{{refl, subst}}
use mathlib.Core.List.{{flat_map}}
use native.Mathlib.Omega.{{arith}}
use {own}declared.held.Held.TheVariants.{{Known, Unknown}}
use {own}Model.{{UploadFootprint}}
use {own}Texels.{{Texel, Inside}}
use {own}VersionBook.{{Book}}
use {own}Lists.{{write_call, regen_call, pop_call, park_call, note_call, doomed_call, drain_call, trim_call, forget_call, Call, take_call, plan_call, retire_call, between}}
use {own}Demand3.{{Demand3, Agrees}}
use {own}Sample.{{no_cover}}
use {own}ComputedBooks.{{texel, cube, volume, cube_lent, live_at, plain_at, left_at}}
{uses}
abbrev full_cover : UploadFootprint
full_cover = record {{ slice = 0; level = 0; cover = true }}

-- holds of unknown and of each number but k
abbrev AnyBut : ℕ → Option ℕ → Type 0
AnyBut k none = Unit {{0}}
AnyBut k (some n) = cond (eqb n k) ⊥ (Unit {{0}})
''' + ''.join(theorems(i, unfolding, *one) for i, one in enumerate(cases[case])))
    status, told = check(top, name, lower, built)
    write_file('%s/%s.out' % (said, name), told)
    # Over the edited definitions each list has to refute the claim, over those as they are none may. A theorem is refused itself, or what it rests on is.
    if edited:
        return status == 0 and re.search('^logic=proved', told, re.M) is not None
    refused = [re.search(r'error: `refuted%d`|not checked: [^\n]*\brefuted%d\b' % (i, i), told) for i in range(len(cases[case]))]
    return not all(refused)


def main(words):
    built = words[:1] == ['--built']
    words = words[built:]
    control = words == ['control']
    tried = list(cases) if control else words or list(cases)
    for case in tried:
        if case not in cases:
            sys.exit('%s: there is no such case' % case)
    os.makedirs(said, exist_ok=True)
    bad = 0
    with tempfile.TemporaryDirectory(prefix='counterexamples-') as top:
        # The kit takes a folder with .git for the top of a repository.
        os.makedirs(top + '/.git')
        for case in tried:
            try:
                false = refute(top, case, not control, built)
            except Unfit as why:
                print('%s: DOES NOT FIT, %s' % (case, why), flush=True)
                bad += 1
                continue
            bad += false == control
            if control:
                print('%s, not edited: %s' % (case, 'REFUTED' if false else 'not refuted, as it must be'), flush=True)
            else:
                print('%s: %s' % (case, 'the claim is false of it' if false else 'NOT REFUTED, see target/counterexamples/edited_%s.out' % case.split('/')[1]), flush=True)
    return 1 if bad else 0


if __name__ == '__main__':
    sys.exit(main(sys.argv[1:]))
