#!/usr/bin/env python3
"""Counts, in crates/*/src, the places that docs/DESIGN-PASS.md is about: forms of an older language for which Rattle has better ones.

    tools/count_places.py [POINT ..]    prints each place of the points 1 to 7 (or of those named), then a line of counts a point
    tools/count_places.py --counts      prints the counts alone
    tools/count_places.py --help        prints this

What counts as a place of each point:

 1  an enum of the shape of Option (two cases, one of them without fields) or with a case for a refusal; a field of a struct that is a flag (a bool, or a
    number of which a comment says that it is 0 or 1) in a struct with other fields; a refusal or a reason as a number: a field `outcome` or `why`, a case
    `Refused(u64)`, a function named for a refusal that returns a number, a number given for one of these
 2  two functions whose code is the same when constants, numbers, types and the names of records and axes are left out
 3  a `while` that is no `while let`
 4  field-by-field comparison, a struct written out of the fields of another of its type, the smaller or larger of two by `if`, bytes compared or copied
    one by one, a number widened by a function of its own
 5  a fact that stands in the `requires` of three functions or more; three parameters or more that travel together through three functions or more
 6  an array beside its count in one struct; a search by halving
 7  a chain of four `if`s or more that each compare one value with a constant and return

A place is named by its file and line. The counts are of places, not of lines. The crates of tests and benchmarks count too."""
import collections
import glob
import os
import re
import sys

root = os.path.dirname(os.path.dirname(os.path.abspath(__file__)))
IDENT = r'[A-Za-z_][A-Za-z_0-9]*'


def files():
    """Source files of the crates, in order."""
    return sorted(glob.glob(root + '/crates/*/src/**/*.rt', recursive=True))


class Function:
    """A function: where it stands, its name, its parameters, its clauses and its body."""

    def __init__(self, path, line, name, params, result, clauses, body):
        self.path, self.line, self.name, self.params = path, line, name, params
        self.result, self.clauses, self.body = result, clauses, body

    def where(self):
        return '%s:%d %s' % (self.path, self.line, self.name)


def closing(text, start, open_, close):
    """The index after the bracket that closes the one at start."""
    depth = 0
    for i in range(start, len(text)):
        if text[i] == open_:
            depth += 1
        elif text[i] == close:
            depth -= 1
            if depth == 0:
                return i + 1
    return len(text)


def functions(path, text):
    """The functions of a file that have a body."""
    found = []
    for m in re.finditer(r'^[ ]*(?:pub(?:\([a-z]+\))? )?(?:const )?fn (%s)' % IDENT, text, re.M):
        at = text.index('(', m.end())
        end = closing(text, at, '(', ')')
        params = text[at + 1:end - 1]
        rest = text[end:]
        head = re.match(r'\s*(->\s*[^{;\n]+?)?(?=\s*\n|\s*\{|\s+requires|\s+ensures|;)', rest)
        result = (head.group(1) or '') if head else ''
        at = end + (head.end() if head else 0)
        clauses = []
        while True:
            c = re.compile(r'\s*(requires|ensures)\b([^{]*)\{').match(text, at)
            if not c:
                break
            close = closing(text, c.end() - 1, '{', '}')
            clauses.append((c.group(1), text[c.end():close - 1]))
            at = close
        b = re.compile(r'\s*\{').match(text, at)
        if not b:
            continue
        close = closing(text, b.end() - 1, '{', '}')
        found.append(Function(path, text.count('\n', 0, m.start()) + 1, m.group(1), params, result, clauses, text[b.end():close - 1]))
    return found


def bare(text):
    """The text without its comments."""
    return re.sub(r'//[^\n]*', '', text)


def enums(text):
    """The enums of a file: line, name and cases, each with its fields."""
    for m in re.finditer(r'^[ ]*(?:pub )?enum (%s)[^{]*\{' % IDENT, text, re.M):
        body = bare(text[m.end():closing(text, m.end() - 1, '{', '}') - 1])
        cases, depth, start = [], 0, 0
        for i, c in enumerate(body + ','):
            if c in '({<':
                depth += 1
            elif c in ')}>':
                depth -= 1
            elif c == ',' and depth == 0:
                case = body[start:i].strip()
                start = i + 1
                if case:
                    cases.append(case)
        yield text.count('\n', 0, m.start()) + 1, m.group(1), cases


def structs(text):
    """The structs of a file: line, name, the comment before it and its fields, each with its type."""
    for m in re.finditer(r'((?:^[ ]*//[^\n]*\n)*)((?:^[ ]*#\[[^\n]*\n)*)^[ ]*(?:pub )?struct (%s)[^{;(]*\{' % IDENT, text, re.M):
        body = text[m.end():closing(text, m.end() - 1, '{', '}') - 1]
        fields = re.findall(r'^\s*(?:pub )?(%s): ([^\n]+?),?\s*$' % IDENT, bare(body), re.M)
        yield text.count('\n', 0, m.start(3)) + 1, m.group(3), m.group(1), fields


def point_1(sources):
    for path, text in sources:
        for line, name, cases in enums(text):
            empty = [c for c in cases if re.fullmatch(IDENT, c)]
            if (len(cases) == 2 and len(empty) == 1) or any(c.startswith('Refused') for c in cases):
                yield path, line, 'enum ' + name
        for line, name, comment, fields in structs(text):
            for field, kind in fields:
                said = re.search(r'`%s`[^.;]*\b(1 or 0|is 1|are 1|1 while)' % field, comment) or re.search(r'\bmark\b[^.]*\(1 while', comment) and field == 'pressed'
                if kind == 'bool' and len(fields) > 1 or said:
                    yield path, line, 'flag %s.%s' % (name, field)
                if field in ('outcome', 'why') and kind == 'u64':
                    yield path, line, 'number %s.%s' % (name, field)
        code = bare(text)
        for m in re.finditer(r'\b(?:outcome|why): \d+\b|\b(?:Refused|Why|Refusal)\(\d+\)|\bReturn(?:ed)?\(\d+\)', code):
            yield path, code.count('\n', 0, m.start()) + 1, m.group(0)
        for f in functions(path, text):
            if re.search(r'refusal|outcome|reason', f.name) and re.search(r'\bu(64|8|size)\b', f.result):
                yield path, f.line, 'number of ' + f.name


SAME = [(re.compile(p), r) for p, r in (
    (r'"[^"\n]*"', 'S'),
    (r"b?'(?:\\.|[^'\\])'", 'N'),
    (r'\b[A-Z][A-Z_0-9]+\b', 'N'),
    (r'\b\d[\d_a-z]*\b', 'N'),
    (r'\b(texture|spare|doomed|retiring|grid|stamp|grids|stamps|across|down|width|height|columns|rows|column|row|held|recorded|left|top|x|y|up|small|large|first|last|low|high|within|contain|contains|before|after)\b', 'X'),
    (r'(?<![A-Za-z])(read|write|put|push|insert|take|record|has)_[a-z_]+\b', r'\1_X'),
    (r'\b[a-z]+(_[a-z]+)*_(at|end|numbers|number|axis|count|before|within|contain|start)\b', r'X_\2'),
    (r'\b[A-Z][a-z][A-Za-z0-9]*\b', 'T'),
)]


def shape_of(body):
    """A function's code with what twins differ in left out."""
    code = bare(body)
    for pattern, put in SAME:
        code = pattern.sub(put, code)
    return re.sub(r'\s+', ' ', code).strip()


def point_2(sources):
    groups = collections.defaultdict(list)
    for path, text in sources:
        for f in functions(path, text):
            if len([l for l in bare(f.body).splitlines() if l.strip()]) >= 2 and f.name != 'main':
                groups[(shape_of(f.body), re.sub(r'\b[A-Z]\w+', 'T', f.result))].append(f)
    for shape, members in groups.items():
        if len(members) > 1 and len(shape[0]) > 40:
            first = members[0]
            for f in members[1:]:
                yield f.path, f.line, '%s like %s' % (f.name, first.where())


def point_3(sources):
    for path, text in sources:
        for m in re.finditer(r'^\s*while (?!let\b)([^\n]*)\{\s*$', text, re.M):
            yield path, text.count('\n', 0, m.start(1)) + 1, 'while ' + m.group(1).strip()


def point_4(sources):
    for path, text in sources:
        for f in functions(path, text):
            code = bare(f.body)
            if len(re.findall(r'\((\w+)\.(\w+) == (\w+)\.\2\)', code)) >= 2:
                yield path, f.line, 'fields compared in ' + f.name
            for m in re.finditer(r'\b([A-Z]\w+) \{([^{}]*)\}', code):
                same = re.findall(r'\b(\w+): (\w+)\.\1\b', m.group(2))
                by = collections.Counter(v for _, v in same)
                if by and by.most_common(1)[0][1] >= 3:
                    yield path, f.line, 'fields copied in ' + f.name
            if re.search(r'let mut (\w+) = (\w+);\s*\n(?:\s*\1\.\w+ = [^\n]*\n){2,}', code):
                yield path, f.line, 'fields set one by one in ' + f.name
            m = re.fullmatch(r'\s*if (\w+) < (\w+) \{\s*(return )?(\w+);?\s*\}\s*(else \{\s*)?(\w+)\s*\}?\s*', code)
            if m and {m.group(1), m.group(2)} == {m.group(4), m.group(6)}:
                yield path, f.line, 'the smaller or larger in ' + f.name
            elif re.search(r'if (\w+) < (\w+) \{ (\1|\2) \} else \{ (\1|\2) \}', code):
                yield path, f.line, 'the smaller or larger in ' + f.name
            if re.fullmatch(r'\s*\w+ as u\d+\s*', code):
                yield path, f.line, 'a number widened in ' + f.name
            m = re.fullmatch(r'\s*if (\w+) < (\w+) \{\s*return 0;\s*\}\s*\1 - \2\s*', code)
            if m:
                yield path, f.line, 'a difference or 0 in ' + f.name
            for m in re.finditer(r'\b(\w+)\[([^\]]+)\] = (\w+)\[([^\]]+)\];\s*\n\s*\w+ \+= 1;', code):
                yield path, f.line, 'elements copied one by one in ' + f.name
            for m in re.finditer(r'if (\w+)\[(\w+)\] != (\w+)\[\2\]', code):
                yield path, f.line, 'elements compared one by one in ' + f.name


def conjuncts(clause):
    """The facts of a clause that stand at its top."""
    facts, depth, start = [], 0, 0
    for i, c in enumerate(clause + '×'):
        if c in '([{':
            depth += 1
        elif c in ')]}':
            depth -= 1
        elif c == '×' and depth == 0:
            facts.append(re.sub(r'\s+', ' ', clause[start:i]).strip())
            start = i + 1
    return [re.sub(r'^\((.*)\)$', r'\1', f) for f in facts]


def point_5(sources):
    facts = collections.defaultdict(list)
    groups = collections.defaultdict(set)
    for path, text in sources:
        for f in functions(path, text):
            for kind, clause in f.clauses:
                if kind == 'requires':
                    for fact in conjuncts(clause):
                        fact = re.sub(r'\b(\w+)\.(now|old)\b', r'\1', fact)
                        facts[fact].append(f)
            names = re.findall(r'(\w+): ', f.params)
            groups[tuple(n for n in names)].add(f.where())
    for fact, members in sorted(facts.items(), key=lambda x: -len(x[1])):
        if len({m.name for m in members}) >= 3:
            yield members[0].path, members[0].line, 'in %d functions: %s' % (len(members), fact)
    # The longest runs of parameters that stand together in three functions or more.
    runs = collections.defaultdict(set)
    for names, where in groups.items():
        for i in range(len(names)):
            for j in range(i + 3, len(names) + 1):
                runs[names[i:j]] |= where
    kept = []
    for run, where in sorted(runs.items(), key=lambda x: (-len(x[0]), -len(x[1]))):
        if len(where) >= 3 and not any(set(run) <= set(k) and len(where) <= len(w) for k, w in kept):
            kept.append((run, where))
    for run, where in kept:
        path, line = sorted(where)[0].split(' ')[0].rsplit(':', 1)
        yield path, int(line), 'in %d functions: %s' % (len(where), ', '.join(run))


def point_6(sources):
    for path, text in sources:
        for line, name, comment, fields in structs(text):
            if any(k.startswith('[') for _, k in fields) and any(f in ('count', 'len', 'used', 'slot') for f, _ in fields):
                yield path, line, 'an array beside its count in ' + name
        for f in functions(path, text):
            if re.search(r'while [^\n]*\blo\b[^\n]*\bhi\b|while [^\n]*\bhi\b[^\n]*\blo\b', f.body) and '/ 2' in f.body:
                yield path, f.line, 'a search by halving in ' + f.name


def point_7(sources):
    for path, text in sources:
        for f in functions(path, text):
            if len(re.findall(r'^\s*if (?:\w+ == [A-Z]\w+|is_word\([^)]*\)|\(?\w+ == [A-Z0-9]\w*\)?[^{]*) \{\s*\n\s*return', f.body, re.M)) >= 4:
                yield path, f.line, 'a chain of comparisons in ' + f.name


POINTS = (point_1, point_2, point_3, point_4, point_5, point_6, point_7)


def main():
    words = sys.argv[1:]
    if '--help' in words:
        print(__doc__)
        return 0
    counts = '--counts' in words
    wanted = [int(w) for w in words if w.isdigit()] or list(range(1, len(POINTS) + 1))
    sources = [(os.path.relpath(p, root + '/crates'), open(p).read()) for p in files()]
    for number in wanted:
        places = sorted(set(POINTS[number - 1](sources)))
        if not counts:
            for path, line, what in places:
                print('%d  %s:%d  %s' % (number, path, line, what))
        library = [p for p in places if not p[0].startswith(('test_', 'bench_'))]
        print('point %d: %d places, %d of them in the library and the event programs' % (number, len(places), len(library)))
    return 0


if __name__ == '__main__':
    sys.exit(main())
