#!/usr/bin/env python3
"""Tries the second edits: wrong programs and rules that the prover has to refuse, beside those of crates/CRATE/must-fail, which the gate tries.

    edits/run.py [CRATE | CRATE/NAME ..]    tries every edits/CRATE/NAME.edit, or those named
    edits/run.py --self-test                shows that an edit which is proved, fails elsewhere or does not fit is seen
    edits/run.py --help                     prints this

An edit has the lines of a must-fail edit, and 'at:':

    file: a path below crates/CRATE, in src/, specs/ or proofs/; it holds for the pairs after it
    old: a text that stands in that file exactly once
    new: what to put there
    at: a text that has to stand in the prover's first error, of the form 'FILE: `FACT`: what differs ..', on one line, or, of a goal that no proof
        file answers, 'fn FUNCTION: `search` did not prove `FACT`': the law or fact that is broken. Where there are several, each has to stand there.

Where an 'at:' names a Proof.antt, a file of the older kit, its fact has another name today: such an edit has to be refused by an error that shows something,
and is said to have the older kit's 'at:'. Other lines are passed over. All is tried in temporary copies of the repository, two crates at a time. rt begins
there with what checks elsewhere on this machine kept, and proves the rest. Each crate is first checked as it is; an edit of it then costs the check of what
it touches. Needs rt and python3's standard library.

The last line is 'N refused, M not'; before it stands how many of the N have the older kit's 'at:'. Exit status 0 if every edit was refused, at its fact where
its 'at:' is today's; 1 if one was proved, failed elsewhere, or does not fit the file; 2 if nothing could be tried."""
import concurrent.futures
import glob
import os
import re
import shutil
import subprocess
import sys
import tempfile
import threading
import time

root = os.path.dirname(os.path.dirname(os.path.abspath(__file__)))
# What an error says where the edit changed the code's shape, and so shows nothing (the last: a proof that spells the code out); what merely follows from an
# earlier error; a fact of the older kit.
SHAPE = re.compile(r'has no `Need-|that can be named from here|has no field|no such name|not in scope|unknown name|is not defined|cannot be parsed|parse error|where one has `[^`]*mir\.')
FOLLOWS = re.compile(r'which was (not admitted|rejected)')
OLDER = re.compile(r'proofs/(\S+/)?Proof\.antt\b')
printing = threading.Lock()


class Unfit(Exception):
    """Says why an edit cannot be tried as it stands."""


class Unproved(Exception):
    """Says why nothing of a crate can be tried."""


def crate_lines():
    """Crates in the order of crates.txt, each with what it uses."""
    found = {}
    for line in open(root + '/crates.txt'):
        name, colon, uses = line.split('#')[0].partition(':')
        if colon:
            found[name.strip()] = uses.split()
    return found


def read_edit(path):
    """The replacements of an edit, as (file, old, new), and its 'at:' texts. The words are those of rt must-fail."""
    pairs, facts, file, old = [], [], '', ''
    for line in open(path).read().split('\n'):
        if line.startswith('file: '):
            file = line[6:]
        elif line.startswith('old: '):
            old = line[5:]
        elif line.startswith('new:'):
            pairs.append((file, old, line[4:].removeprefix(' ')))
            old = ''
        elif line.startswith('at: '):
            # The older kit's words of a search that fails.
            facts.append(line[4:].replace('`search` does not close', '`search` did not prove'))
    return pairs, facts


def edited(path, crate_folder):
    """The files of the crate that the edit changes, with their new text, and the facts that it has to break."""
    pairs, facts = read_edit(path)
    if not pairs:
        raise Unfit("it has no 'old:' and 'new:' pair")
    if not all(fact.strip() for fact in facts) or not facts:
        raise Unfit("it has no 'at:' text")
    texts = {}
    for file, old, new in pairs:
        if not re.match(r'(src|specs|proofs)/', file) or '..' in file.split('/'):
            raise Unfit("a 'file:' line names no file under src/, specs/ or proofs/")
        if file not in texts:
            if not os.path.isfile(crate_folder + '/' + file):
                raise Unfit('there is no file ' + file)
            texts[file] = open(crate_folder + '/' + file).read()
        times = texts[file].count(old) if old else 0
        if times != 1:
            raise Unfit("an 'old:' text stands in %s %d times" % (file, times))
        texts[file] = texts[file].replace(old, new)
    return texts, facts


def errors_of(log):
    """The prover's errors, each on one line, without line and column, so that an edit need not follow its file's lines."""
    errors, current, open_goals = [], None, []
    for line in log.split('\n'):
        begins = re.match(r'\./(\S+?):\d+:\d+: error: (.*)', line)
        # A goal that no proof file answers is left to the kit's own search; where that fails, a note names the goal, and the function comes after it.
        left = re.match(r'note: src/\S+?:\d+:\d+: it is not proved that .*\(`([^`]+)`\)', line)
        unproved = re.match(r'fn (\S+): (not proved$|no proof: (?!it calls).*?; (.*))', line)
        if line.startswith('  ') and current:
            current.append(line.strip())
            continue
        current = None
        if begins:
            current = ['%s: %s' % begins.groups()]
            errors.append(current)
        elif left:
            open_goals.append(left.group(1))
        elif unproved:
            name, how, said = unproved.groups()
            errors += [['fn %s: %s' % (name, said)]] if said else [['fn %s: `search` did not prove `%s`' % (name, goal)] for goal in open_goals]
        if line.startswith('fn '):
            open_goals = []
    return [' '.join(parts) for parts in errors]


def judge(status, log, facts):
    """Whether the edit was refused at its fact, and what to say of it."""
    if status == 0:
        return False, 'PROVED: the crate is proved with it'
    if not re.search(r'^logic=not-proved', log, re.M):
        return False, 'NOT TRIED: it did not reach the prover: ' + ' '.join(log.split())[:600]
    errors = [e for e in errors_of(log) if not FOLLOWS.search(e)]
    if not errors:
        return False, 'NOT REFUSED AT A FACT: the prover named no error'
    if SHAPE.search(errors[0]):
        return False, 'SHOWS NOTHING: it changed the shape of the code: ' + errors[0][:600]
    missing = [fact for fact in facts if fact not in errors[0]]
    if missing and all(OLDER.match(fact) for fact in missing):
        return True, "refused; its 'at:' is the older kit's (%s), so where is not tested: %s" % (' and '.join(missing), errors[0][:200])
    if missing:
        return False, 'REFUSED ELSEWHERE: the first error lacks %s: %s' % (' and '.join(missing), errors[0][:600])
    return True, 'refused at ' + ' and '.join(facts)


class Copy:
    """A temporary copy of the repository, in which one crate at a time is edited."""

    def __init__(self, folder):
        """Copies the sources."""
        self.folder = folder
        os.makedirs(folder)
        shutil.copy(root + '/crates.txt', folder)
        shutil.copytree(root + '/crates', folder + '/crates', ignore=shutil.ignore_patterns('out', 'must-fail'))

    def check(self, crate):
        ran = subprocess.run(['rt', 'check'], cwd='%s/crates/%s' % (self.folder, crate), stdin=subprocess.DEVNULL, capture_output=True, text=True)
        return ran.returncode, ran.stdout + ran.stderr

    def begin(self, crate):
        """Checks the crate as it is, and keeps what was checked for each edit to start from."""
        status, log = self.check(crate)
        if status != 0:
            raise Unproved('%s is not proved as it is: %s' % (crate, ' '.join(log.split())[:600]))
        self.kept = '%s/kept/%s' % (self.folder, crate)
        shutil.copytree('%s/crates/%s/out' % (self.folder, crate), self.kept)

    def try_edit(self, crate, path):
        folder = '%s/crates/%s' % (self.folder, crate)
        texts, facts = edited(path, folder)
        before = {file: open(folder + '/' + file).read() for file in texts}
        for file, text in texts.items():
            open(folder + '/' + file, 'w').write(text)
        status, log = self.check(crate)
        for file, text in before.items():
            open(folder + '/' + file, 'w').write(text)
        shutil.rmtree(folder + '/out')
        shutil.copytree(self.kept, folder + '/out')
        return judge(status, log, facts)

    def end(self):
        shutil.rmtree(self.kept, ignore_errors=True)


def try_all(edits):
    """Tries the edits, a list of (crate, name, path), two crates at a time. Returns the outcome of each, in the order in which they ended."""
    outcomes = []
    by_crate = {}
    for crate, name, path in edits:
        by_crate.setdefault(crate, []).append((name, path))

    def tell(crate, name, good, said, began):
        with printing:
            outcomes.append((crate, name, good, said))
            print('%d of %d %s/%s %s (%.0f s)' % (len(outcomes), len(edits), crate, name, said, time.time() - began), flush=True)

    def try_crate(copies, crate):
        copy = copies.pop()
        began = time.time()
        try:
            copy.begin(crate)
        except Unproved as why:
            for name, path in by_crate[crate]:
                tell(crate, name, False, 'NOT TRIED: %s' % why, began)
        else:
            for name, path in by_crate[crate]:
                began = time.time()
                tell(crate, name, *copy.try_edit(crate, path), began)
            copy.end()
        copies.append(copy)

    # What does not fit its file is said at once, before anything is proved.
    for crate, name, path in edits:
        try:
            edited(path, '%s/crates/%s' % (root, crate))
        except Unfit as why:
            tell(crate, name, False, 'DOES NOT FIT: %s' % why, time.time())
            by_crate[crate].remove((name, path))
    by_crate = {crate: those for crate, those in by_crate.items() if those}
    if not by_crate:
        return outcomes
    with tempfile.TemporaryDirectory(prefix='edits-') as work:
        copies = [Copy('%s/%d' % (work, k)) for k in range(min(2, len(by_crate)))]
        with concurrent.futures.ThreadPoolExecutor(len(copies)) as pool:
            for ended in [pool.submit(try_crate, copies, crate) for crate in by_crate]:
                ended.result()
    return outcomes


def listed(wanted):
    """The edits named, or all of them, in the order of crates.txt."""
    order = list(crate_lines())
    edits = []
    for path in glob.glob(root + '/edits/*/*.edit'):
        crate, name = os.path.basename(os.path.dirname(path)), os.path.basename(path)[:-len('.edit')]
        if crate not in order:
            raise Unproved('edits/%s: crates.txt has no such crate' % crate)
        edits.append((crate, name, path))
    for word in wanted:
        if not any(word in (crate, crate + '/' + name) for crate, name, path in edits):
            raise Unproved('there is no edit ' + word)
    chosen = [e for e in edits if not wanted or e[0] in wanted or e[0] + '/' + e[1] in wanted]
    return sorted(chosen, key=lambda e: (order.index(e[0]), e[1]))


# A definition of a small crate; edits of it that are not refused at their fact, and one that is, each with how it has to be judged.
TRIED = 'renewed i k ys xs = take i xs ++ (ys ++ drop (i + k) xs)'
TRIALS = {
    'comment': (TRIED + ' -- a comment', 'renewed', 'PROVED'),
    'elsewhere': ('renewed i k ys xs = take i xs ++ (ys ++ drop i xs)', 'a fact of another file', 'REFUSED ELSEWHERE'),
    'missing_name': ('renewed i k ys xs = take i xs ++ (nowhere ++ drop (i + k) xs)', 'renewed', 'SHOWS NOTHING'),
    'refused': ('renewed i k ys xs = take i xs ++ (ys ++ drop i xs)', 'proofs/Starts.antt: `total_renewed`', 'refused at'),
    'refused_older': ('renewed i k ys xs = take i xs ++ (ys ++ drop i xs)', 'proofs/starts/Proof.antt: `returns-2`', "refused; its 'at:' is the older kit's"),
}


def self_test():
    """Tries the edits above, and one whose 'old:' text stands nowhere. True if each is judged as it has to be."""
    want = {name: judged for name, (new, fact, judged) in TRIALS.items()}
    with tempfile.TemporaryDirectory(prefix='edits-trials-') as folder:
        edits = []
        for name, (new, fact, judged) in TRIALS.items():
            text = 'file: specs/Unequal.antt\nold: %s\nnew: %s\nat: %s\n' % (TRIED, new, fact)
            open('%s/%s.edit' % (folder, name), 'w').write(text)
            edits.append(('base_unequal', name, '%s/%s.edit' % (folder, name)))
        open(folder + '/unfit.edit', 'w').write('file: specs/Unequal.antt\nold: stands nowhere\nnew: x\nat: x\n')
        edits.append(('base_unequal', 'unfit', folder + '/unfit.edit'))
        want['unfit'] = 'DOES NOT FIT'
        outcomes = try_all(edits)
    return len(outcomes) == len(want) and all(said.startswith(want[name]) and good == name.startswith('refused') for crate, name, good, said in outcomes)


def main(words):
    if '--help' in words or '-h' in words:
        print(__doc__)
        return 0
    if words == ['--self-test']:
        good = self_test()
        print('each was judged as it has to be' if good else 'AN EDIT WAS MISJUDGED')
        return 0 if good else 1
    began = time.time()
    edits = listed(words)
    if not edits:
        raise Unproved('there is no edit')
    outcomes = try_all(edits)
    refused = sum(good for crate, name, good, said in outcomes)
    for crate, name, good, said in outcomes:
        if not good:
            print('%s/%s: %s' % (crate, name, said[:160]))
    older = sum("the older kit's" in said for crate, name, good, said in outcomes if good)
    if older:
        print("%d of those refused have the older kit's 'at:', so where they are refused is not tested" % older)
    print('%.0f s' % (time.time() - began))
    print('%d refused, %d not' % (refused, len(edits) - refused))
    return 0 if refused == len(edits) else 1


if __name__ == '__main__':
    try:
        sys.exit(main(sys.argv[1:]))
    except Unproved as why:
        print(why, file=sys.stderr)
        sys.exit(2)
