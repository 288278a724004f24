#!/usr/bin/env python3
"""Says whether crates.txt names, for each crate, what the crate uses directly and nothing else. Exit status 0 if so; else 1, with a line for each fault.

A crate uses another where
  - a path of its code begins with the other's name, or Rattle.NAME stands in its code, specs/ or proofs/ (comments do not count);
  - or a value of its code has a type that the other declares: a type of the signature of a function that it calls, or of a field of such a type, however
    deep. The prover asks for that crate too, though no source names it.

It fails where a crate uses a name and does not list it, lists one that it does not use, lists one that stands below it in crates.txt or out of order, or looks
into a layer that its own may not see (LAYERS)."""
import os
import re
import sys

os.chdir(os.path.dirname(os.path.dirname(os.path.abspath(__file__))))

KIT = ['check', 'io']

# What each layer may list. The event program sees the pool, and of the grids what the pool's contracts name: shapes and rectangles.
LAYERS = {
    'base': ['base'],
    'grid': ['base', 'grid'],
    'pool': ['base', 'grid', 'pool'],
    'event': ['base', 'grid_shapes', 'grid_rects', 'pool', 'event'],
    'test': ['base', 'grid', 'pool', 'event', 'test'],
    'bench': ['base', 'grid', 'pool', 'bench'],
}
# A crate that may list more, and why.
MORE = {
    'event_books': ['grid_axes', 'grid_stamps'],  # its proofs compute 01's sample, and so unfold the grids' definitions
    # The programs lend as many stamps a page as the pool's contracts ask for (`page_stamps` in `sizes_fit`).
    'event_stream': ['grid_stamps'],
    'event_program': ['grid_stamps'],
    'event_program_large': ['grid_stamps'],
    'event_sheet': ['grid_stamps'],
    'event_cost': ['grid_stamps'],
}


def read(path):
    with open(path, encoding='utf-8') as f:
        return f.read()


def crates():
    """The lines of crates.txt: (crate, what it lists), in order."""
    found = []
    for line in read('crates.txt').splitlines():
        if line and not line.startswith('#'):
            name, _, rest = line.partition(':')
            found.append((name, rest.split()))
    return found


def parts(names):
    """The parts of a list at its commas, those inside of braces left out of account."""
    found, depth = [''], 0
    for letter in names:
        depth += {'{': 1, '}': -1}.get(letter, 0)
        if letter == ',' and depth == 0:
            found.append('')
        else:
            found[-1] += letter
    return [part.strip() for part in found if part.strip()]


def paths_of(names):
    """The paths that `a::{b, c::D}` stands for."""
    front, brace, rest = names.partition('{')
    if not brace:
        return [front.split(' as ')[0].strip()]
    return [front.strip() + path for part in parts(rest.rpartition('}')[0]) for path in paths_of(part)]


def ungrouped(text):
    """Code whose imports have a line each: `use a::{b, c};` is `use a::b;` and `use a::c;`."""
    return re.sub(r'^((?:pub )?use) ([^;]*\{[^;]*);', lambda m: '\n'.join('%s %s;' % (m.group(1), path) for path in paths_of(m.group(2))), text, flags=re.M)


def sources(crate, ending):
    """The texts of a crate's files without comments: (path, text)."""
    comment = {'.rt': r'//[^\n]*', '.antt': r'--[^\n]*'}[ending]
    for part in ('src', 'specs', 'proofs'):
        for folder, _, names in os.walk('crates/%s/%s' % (crate, part)):
            for name in sorted(names):
                if name.endswith(ending):
                    path = os.path.join(folder, name)
                    text = re.sub(comment, '', read(path))
                    yield path, ungrouped(text) if ending == '.rt' else text


LISTED = crates()
ORDER = [name for name, _ in LISTED]
PLACE = {name: i for i, name in enumerate(ORDER + KIT)}
CODE = {crate: list(sources(crate, '.rt')) for crate in ORDER}

# ---- what is declared: (crate, name) to the text in which its types stand, and to the file's imports

TYPES, CALLS, EXPORTS = {}, {}, {}
PATH = re.compile(r'(?<![\w:.])([a-z_]\w*)::((?:\w+::)*)(\w+)')
LOGIC = re.compile(r'\bRattle\.(\w+)\.')
# A function's parameters and its result, where its contract or its body begins.
SIGNATURE = r'fn (\w+)(?:<[^(]*>)?\((.*?)\)(?:\s*->\s*([^\n{]*))?\s*\{?\}?$'


def imports(text):
    """The names that a file brings in from other crates: name to crate."""
    return {name: crate for crate, name in re.findall(r'^(?:pub )?use (\w+)::(?:\w+::)*(\w+);', text, re.M) if crate in CODE}


def declare(crate, text):
    names = imports(text)
    for m in re.finditer(r'^(?:pub )?(?:struct|enum) (\w+)\s*(\{.*?^\}|\([^;]*\);|;)', text, re.M | re.S):
        TYPES.setdefault((crate, m.group(1)), []).append((m.group(2), names))
    for m in re.finditer(r'^(?:pub )?' + SIGNATURE, text, re.M | re.S):
        CALLS.setdefault((crate, m.group(1)), []).append((m.group(2) + ' ' + (m.group(3) or ''), names))
    for m in re.finditer(r'^impl\S* (\w+).*?\{\n(.*?)^\}', text, re.M | re.S):
        # A type brings its methods: whoever names it may call them.
        for f in re.finditer(r'^    (?:pub )?' + SIGNATURE, m.group(2), re.M | re.S):
            CALLS.setdefault((crate, m.group(1)), []).append((f.group(2) + ' ' + (f.group(3) or ''), names))
    for other, name in re.findall(r'^pub use (\w+)::(?:\w+::)*(\w+);', text, re.M):
        if other in CODE:
            EXPORTS[crate, name] = other


def types_in(crate, text, names):
    """The types, as (crate, name), that a piece of a declaration speaks of."""
    found = set()
    for other, name in re.findall(r'(?:\b(\w+)::)?\b([A-Z]\w*)\b', text):
        if other in CODE:
            found.add((other, name))
        elif (crate, name) in TYPES:
            found.add((crate, name))
        elif name in names:
            found.add((names[name], name))
    return found


def reached(crate):
    """The crates that declare a type which a value of this crate's code may have."""
    todo, seen = [], set()
    for _, text in CODE[crate]:
        for other, _, name in PATH.findall(text):
            if other in CODE:
                todo.append((other, name))
    while todo:
        item = todo.pop()
        if item in seen:
            continue
        seen.add(item)
        if item in EXPORTS:
            todo.append((EXPORTS[item], item[1]))
        for text, names in TYPES.get(item, []) + (CALLS.get(item, [])):
            todo += types_in(item[0], text, names)
    return {other for other, name in seen if (other, name) in TYPES}


def named(crate):
    """The crates and libraries of the kit that a source of this crate names."""
    found = set()
    for _, text in CODE[crate]:
        modules = set(re.findall(r'^(?:pub )?mod (\w+);', text, re.M))
        found |= {other for other, _, _ in PATH.findall(text)} - modules
        found |= set(LOGIC.findall(text))
    for _, text in sources(crate, '.antt'):
        found |= set(LOGIC.findall(text))
    return {other for other in found if other in PLACE and other != crate}


def allowed(crate, other):
    layers = LAYERS.get(crate.split('_')[0], [])
    return other in KIT or other in MORE.get(crate, []) or any(other == layer or other.startswith(layer + '_') for layer in layers)


def faults(crate, listed):
    if os.path.isdir('crates/' + crate):
        uses = named(crate)
        for other in sorted(uses - set(listed), key=PLACE.get):
            yield '%s names %s, which its line of crates.txt lacks' % (crate, other)
        for other in listed:
            if other not in PLACE:
                yield '%s lists %s, which is no crate and no library of the kit' % (crate, other)
            elif other not in uses and other not in reached(crate):
                yield '%s lists %s, which nothing in it names and no type of its values comes from' % (crate, other)
    else:
        yield 'crates/%s is missing' % crate
    places = [PLACE[other] for other in listed if other in PLACE]
    if places != sorted(set(places)):
        yield '%s lists its crates out of order, or one twice: lowest first, the libraries of the kit last' % crate
    for other in listed:
        if other in ORDER and PLACE[other] >= PLACE[crate]:
            yield '%s lists %s, which stands below it in crates.txt' % (crate, other)
        if other in PLACE and not allowed(crate, other):
            yield '%s lists %s, which its layer may not see' % (crate, other)


for crate in ORDER:
    for _, text in CODE[crate]:
        declare(crate, text)
wrong = [fault for crate, listed in LISTED for fault in faults(crate, listed)]
wrong += ['crates/%s is not in crates.txt' % name for name in sorted(os.listdir('crates')) if name not in PLACE]
for fault in wrong:
    print(fault)
sys.exit(1 if wrong else 0)
