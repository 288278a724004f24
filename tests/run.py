#!/usr/bin/env python3
"""Tests of ./run: what a user sees who runs lists of events by it. The programs have to be proved and built ('rt run' in crates/event_program,
crates/event_sheet and crates/event_cost, or 'rt ci').

    tests/run.py          tries ./run on these programs in a folder of their own, with a stand-in for rt that has nothing left to prove
    tests/run.py --kit    the same in this repository with the kit's rt, which first proves what it has not kept

Exit status 0 if every test passed, 1 if one failed. Python's standard library alone. What it prints while it proves is tried on a repository of three crates
with a stand-in for rt."""
import os
import re
import shutil
import socket
import subprocess
import sys
import tempfile

root = os.path.dirname(os.path.dirname(os.path.abspath(__file__)))

# Where ./run is tried, and a folder with the rt that it finds first, if that is a stand-in.
home, stand_in = root, None

PROGRAMS = ('event_program', 'event_sheet', 'event_cost')

# 01's list of events and its output.
EVENTS = b"""open,0
take,7,2,64,64,1,1,0,1,10
plan,7,-,0,0,0
retire,7,900,10
write,7,0,0,20,5,10,10
pop,10
park,0,11
take,7,2,64,64,1,1,0,1,11
plan,7,0,0,0,0
"""
ANSWERS = b"""1,0
2,0,-,-
3,0,1
3,0,0,-,-,-,-
4,0
5,0
6,0,7,900
7,0
8,0,900,0
9,0,1
9,0,0,16,0,16,16
"""

# The sheet that it leaves: version 900, the only spare, was taken again in submission 11.
SHEET = (b'                  id k lv   sp              parked            last      \n'
         b'                   7 0  1    0                   0              11      \n'
         b'                             0                   0                      \n')

# Two textures, one of which has a spare.
SPARES = b"""open,0
take,12,2,64,64,1,3,1,0,10
take,7,2,64,64,1,1,0,1,10
retire,7,900,10
take,7,2,64,64,1,1,0,1,11
retire,7,901,11
pop,10
park,0,11
"""

# What its plans cost: a whole level of 64 by 64 texels of 4 bytes, then 16 by 16 texels of it.
COSTS = b"""3,0,16384
9,0,1024
sum,17408,32768
"""

NO_SHEET = b'run: the list opens no pool, so there is no sheet\n'


class Failure(Exception):
    pass


def environment(path):
    return dict(os.environ, **({'PATH': path + ':' + os.environ['PATH']} if path else {}))


def run(words, given=b'', folder=root, of=None, path=None, to=subprocess.PIPE):
    env = environment(path or stand_in)
    # With the kit's rt the first run may have to prove the program.
    ran = subprocess.run([(of or home) + '/run'] + words, input=given, cwd=folder, env=env, stdout=to, stderr=subprocess.PIPE, timeout=3600)
    return ran.returncode, ran.stdout, ran.stderr


def expect(got, expected):
    if got != expected:
        raise Failure('%r for %r' % (got, expected))


def refused(words, folder=root):
    """Status 2, one line on standard error, and nothing on standard output."""
    status, out, said = run(words, EVENTS, folder)
    expect((status, out, said.count(b'\n'), said[:5]), (2, b'', 1, b'run: '))
    for word in words:
        if len(words) == 1 and word.encode() not in said:
            raise Failure('the error does not name %r: %r' % (word, said))


def help_is_printed(folder):
    for words in (['--help'], ['-h'], [folder, '--help']):
        status, out, said = run(words)
        expect((status, said), (0, b''))
        for part in (b'./run', b'docs/EVENTS.md', b'Exit status'):
            if part not in out:
                raise Failure('nothing is said of %r' % part)


def unknown_words(folder):
    """Whether or not there is a file of that name."""
    with open(folder + '/-x', 'wb') as events:
        events.write(EVENTS)
    for words in (['--unknown'], ['-x'], ['-'], ['--'], ['-h1'], ['./-x', './-x']):
        refused(words, folder)


def unreadable_files(folder):
    refused(['nothing-here'], folder)
    refused([''], folder)
    os.mkdir(folder + '/a folder')
    refused(['a folder'], folder)
    with socket.socket(socket.AF_UNIX) as unread:
        unread.bind(folder + '/unread')
        refused(['unread'], folder)


def sample(folder):
    """01's output, and nothing on standard error where all is proved. FILE is found from the caller's folder."""
    with open(root + '/examples/sample.events', 'rb') as events:
        expect(events.read(), EVENTS)
    expect(run(['examples/sample.events']), (0, ANSWERS, b''))
    expect(run([], EVENTS), (0, ANSWERS, b''))
    with open(folder + '/-x', 'wb') as events:
        events.write(EVENTS[:-1])
    expect(run(['./-x'], b'x\n', folder), (0, ANSWERS, b''))
    expect(run([folder + '/-x'], b'x\n', '/'), (0, ANSWERS, b''))


# ---- the sheet

def sheet(*rows):
    """The sheet of textures given by id, kind, levels, spares, parked bytes and last rename."""
    lines = ['%20s %1s %2s %4s %19s %15s' % ('id', 'k', 'lv', 'sp', 'parked', 'last')]
    lines += ['%20d %1d %2d %4d %19d %15d' % row for row in rows]
    lines.append('%20s %1s %2s %4d %19d' % ('', '', '', sum(row[3] for row in rows), sum(row[4] for row in rows)))
    return ''.join(line.ljust(72) + '\n' for line in lines).encode()


def closed(stream):
    """The sheet of 01's list, with a standard stream closed."""
    command = ['/bin/sh', '-c', 'exec "$0" --sheet ' + stream, home + '/run']
    ran = subprocess.run(command, input=EVENTS, env=environment(stand_in), stdout=subprocess.PIPE, stderr=subprocess.PIPE, timeout=60)
    return ran.returncode, ran.stdout, ran.stderr


def sample_sheet(folder):
    """Its whole text and nothing else, of FILE and of standard input, with the word before FILE or after it."""
    expect(sheet((7, 0, 1, 0, 0, 11)), SHEET)
    expect(run(['--sheet', 'examples/sample.events']), (0, SHEET, b''))
    expect(run(['examples/sample.events', '--sheet']), (0, SHEET, b''))
    expect(run(['--sheet'], EVENTS), (0, SHEET, b''))
    expect(run(['--sheet'], EVENTS[:-1]), (0, SHEET, b''))
    with open(folder + '/-x', 'wb') as events:
        events.write(EVENTS)
    expect(run(['--sheet', './-x'], b'open,0\n', folder), (0, SHEET, b''))
    expect(run([folder + '/-x', '--sheet'], b'open,0\n', '/'), (0, SHEET, b''))


def other_sheets(folder):
    """A pool just opened; spares, in ascending id; numbers as wide as they can be; as many textures as there can be; and more answers, which are not
    shown, than a pipe holds."""
    expect(run(['--sheet'], b'open,0'), (0, sheet(), b''))
    expect(run(['--sheet'], SPARES), (0, sheet((7, 0, 1, 1, 16384, 11), (12, 1, 3, 0, 0, 10)), b''))
    most, last = 2**64 - 1, 2**48
    expect(run(['--sheet'], b'open,0\ntake,%d,2,1,1,1,15,2,0,%d' % (most, last)), (0, sheet((most, 2, 15, 0, 0, last)), b''))
    events = b'open,0\n' + b''.join(b'take,%d,2,1,1,1,1,0,0,%d\n' % (9 - id, id) for id in range(9))
    expect(run(['--sheet'], events + 100000 * b'doomed\n'), (0, sheet(*((id, 0, 1, 0, 0, 9 - id) for id in range(2, 10))), b''))


def late_open(folder):
    """Lines before an accepted `open` leave nothing, and one after it opens nothing again."""
    expect(run(['--sheet'], b'x\n\n' + EVENTS[7:] + b'open\nopen,x\n' + EVENTS + b'open,0\n'), (0, SHEET, b''))


def no_sheet(folder):
    """A list that opens no pool: status 2, one line that says why, and nothing on standard output."""
    for given in (b'', b'\n', b'open', b'open,x\n', b'OPEN,0\n', b'open,0' + 300 * b'0' + b'\n', EVENTS[7:], 30000 * EVENTS[7:]):
        expect(run(['--sheet'], given), (2, b'', NO_SHEET))
    with open(folder + '/empty', 'wb'):
        expect(run(['--sheet', 'empty'], EVENTS, folder), (2, b'', NO_SHEET))
    expect(closed('<&-'), (2, b'', NO_SHEET))


def sheet_words(folder):
    """A word that is unknown or stands twice, two files, or none that can be read."""
    with open(folder + '/x', 'wb') as events:
        events.write(EVENTS)
    for words in (['--sheets'], ['-sheet'], ['--sheet=x'], ['sheet'], ['--sheet', '--sheet'], ['--sheet', 'x', '--sheet'], ['--sheet', 'x', 'x'],
                  ['x', '--sheet', 'x'], ['--sheet', '--'], ['--sheet', '-x'], ['--sheet', 'nothing-here'], ['--sheet', ''], ['--sheet', '.']):
        refused(words, folder)
    status, out, said = run(['--sheet', '--help'])
    expect((status, said, b'--sheet' in out), (0, b'', True))


def unwritten_sheet(folder):
    """Output that takes nothing, or that is closed."""
    with open('/dev/full', 'wb') as full:
        expect(run(['--sheet'], EVENTS, to=full), (2, None, b'run: the sheet cannot be written\n'))
    expect(closed('>&-'), (2, b'', b'run: the sheet cannot be written\n'))


# ---- what plans cost

def sample_costs(folder):
    expect(run(['--cost', 'examples/sample.events']), (0, COSTS, b''))
    expect(run(['examples/sample.events', '--cost']), (0, COSTS, b''))
    expect(run(['--cost'], EVENTS), (0, COSTS, b''))
    with open(folder + '/-x', 'wb') as events:
        events.write(EVENTS[:-1])
    expect(run(['--cost', './-x'], b'open,0\n', folder), (0, COSTS, b''))
    expect(run([folder + '/-x', '--cost'], b'open,0\n', '/'), (0, COSTS, b''))


def no_costs(folder):
    """Lists without a plan that is called: no lines, no event, no pool, no take line."""
    for given in (b'', b'\n', b'x', b'open,0\npop,1\n', EVENTS[7:], b'open,0\nplan,7,-,0,0,0\n'):
        expect(run(['--cost'], given), (0, b'sum,0,0\n', b''))
    expect(run(['--cost'], b'open,0\ntake,7,2,16385,1,1,1,0,0,1\nplan,7,-,0,0,0'), (0, b'3,2\nsum,0,0\n', b''))


def large_costs(folder):
    """A volume of 16384 by 16384 by 2048 texels of 16 bytes with all its levels, planned until 64 bits do not hold the sum."""
    each = sum(max(1, 16384 >> level) ** 2 * max(1, 2048 >> level) * 16 for level in range(15))
    most = (2 ** 64 - 2) // each
    for plans, last in ((most, b'sum,%d,%d\n' % (most * each, most * each)), (most + 1, b'sum,-,-\n')):
        status, out, said = run(['--cost'], b'open,0\ntake,1,4,16384,16384,2048,15,2,0,1\n' + plans * b'plan,1,-,0,0,0\n')
        rows = b''.join(b'%d,0,%d\n' % (line, each) for line in range(3, plans + 3))
        if (status, out, said) != (0, rows + last, b''):
            raise Failure('%d, %d bytes for %d, ending %r' % (status, len(out), len(rows + last), out[-80:]))


def cost_words(folder):
    """A word that is unknown, stands twice or beside the other, two files, or none that can be read."""
    with open(folder + '/x', 'wb') as events:
        events.write(EVENTS)
    for words in (['--costs'], ['-cost'], ['--cost=x'], ['cost'], ['--cost', '--cost'], ['--cost', 'x', '--cost'], ['--cost', '--sheet'], ['--sheet', '--cost'],
                  ['--sheet', 'x', '--cost'], ['--cost', 'x', 'x'], ['--cost', '-x'], ['--cost', 'nothing-here'], ['--cost', '.']):
        refused(words, folder)
    together = b'run: --sheet and --cost are given together (./run --help says what there is)\n'
    expect(run(['--cost', '--sheet']), (2, b'', together))
    expect(run(['--sheet', '--cost']), (2, b'', together))
    expect(run(['--cost', '--cost']), (2, b'', b'run: --cost is given twice (./run --help says what there is)\n'))
    expect(run(['--sheet', '--sheet']), (2, b'', b'run: --sheet is given twice (./run --help says what there is)\n'))
    status, out, said = run(['--cost', '--help'])
    expect((status, said, b'--cost' in out), (0, b'', True))


# ---- what it prints while it proves

# What rt says of a program that it has nothing to prove of, and where it runs one.
UNCHANGED = 'rt: nothing has changed since the last proved build, by out/x.stamp, so nothing is checked now\n'
RUNNING = 'rt: running out/x; to give it other input, run that file yourself\n'


def checking(name):
    """What rt says first of a crate that it checks."""
    return 'rt: %s: begins with what a check kept in /x/crates/%s\nrt: chose --jobs 2 for %s\nfn %s::f: proved\n' % (name, name, name, name)


def proving(name):
    """What it says of one that is proved."""
    return checking(name) + 'crate %s: modules loaded=0 checked=7\nlogic=proved functions=1 sum=0\n' % name


def write_program(path, text):
    os.makedirs(os.path.dirname(path), exist_ok=True)
    with open(path, 'w') as out:
        out.write('#!/bin/sh\n' + text)
    os.chmod(path, 0o755)


def repository(folder, said, status, words=(), given=b'pop,1\n', built=True):
    """A repository whose program uses two crates, and those of the sheet and of the costs three, and an rt that says `said` and ends with `status`. If
    the programs are not built, that rt builds them. It runs the program as the kit's does: on standard input, with what it prints on standard output."""
    shutil.copy(root + '/run', folder)
    with open(folder + '/crates.txt', 'w') as out:
        out.write('# NAME: what it uses directly.\nlow:\nunused: low\nhigh: low io\nevent_program: low high io # the program\n'
                  'printing:\nevent_sheet: low high printing io\nevent_cost: low high printing io\n')
    for name, text in (('program', 'echo it runs; exec cat\n'), ('cost', 'echo it sums; exec cat\n'),
                       ('sheet', 'read -r line || exit 0; [ "$line" != fail ] || exit 7; echo "$line"\n')):
        at = '%s/crates/event_%s/out' % (folder, name)
        shutil.rmtree(at, ignore_errors=True)
        os.makedirs(at)
        write_program('%s/%s/event_%s' % (folder, 'crates/event_%s/out' % name if built else 'made', name), text)
        if built:
            open('%s/event_%s.stamp' % (at, name), 'w').close()
    name = 'event_' + (words[0][2:] if words else 'program')
    write_program(folder + '/bin/rt', 'echo "$@" >"%s/asked"\necho "${PWD##*/}" >>"%s/asked"\ncat >&2 <<"END"\n%sEND\n' % (folder, folder, said)
                  + ('' if built else 'cp "%s/made/%s" out/\n' % (folder, name)) + '[ %d -ne 0 ] || "out/%s"\nexit %d\n' % (status, name, status))
    ran = run(list(words), given, '/', folder, folder + '/bin')
    with open(folder + '/asked') as asked:
        expect(asked.read(), 'run\n%s\n' % name)
    return ran[0], ran[1], re.sub(rb'\(\d+ s\)', b'(0 s)', ran[2])


def progress(folder):
    """The place of a crate is that in the order in which rt proves them; those proved before have no line."""
    said = proving('low') + proving('event_program') + 'linked target=x\n' + RUNNING
    expect(repository(folder, said, 0), (0, b'it runs\npop,1\n', b'run: 1 of 3 low proved (0 s)\nrun: 3 of 3 event_program proved (0 s)\n'))
    expect(repository(folder, UNCHANGED + RUNNING, 0), (0, b'it runs\npop,1\n', b''))


def first_build(folder):
    """Says so where there is no program yet, and runs the one that rt built."""
    said = 'only=0 proved=0\n' + ''.join(map(proving, ('low', 'high', 'event_program'))) + RUNNING
    told = (b'run: proving and building the program, 3 crates; this takes some minutes, once\nrun: 1 of 3 low proved (0 s)\n'
            b'run: 2 of 3 high proved (0 s)\nrun: 3 of 3 event_program proved (0 s)\n')
    expect(repository(folder, said, 0, built=False), (0, b'it runs\npop,1\n', told))


def failed_proof(folder):
    said = (proving('low') + checking('high') + './proofs/f/Answers.antt:9:9: error: `returns`: no\nfn high::f: not proved\nlogic=not-proved\n'
            'rattle build: nothing was built, since only a proved crate is built\nrt: the library high did not build, so nothing above it was checked\n')
    status, out, told = repository(folder, said, 1)
    lines = told.decode().splitlines()
    expect((status, out), (2, b''))
    expect(lines[:4], ['run: 1 of 3 low proved (0 s)', './proofs/f/Answers.antt:9:9: error: `returns`: no', 'run: high NOT PROVED',
                       'run: the library high did not build, so nothing above it was checked'])
    expect(lines[4:], ['run: the program is not proved, so it is not run; rt check in crates/event_program prints all that the prover says'])


def broken_source(folder):
    """What a quick look at the sources finds before any proof."""
    said = 'src/lib.rt:14:10: error[unclosed-delimiter]: unclosed delimiter `(`\nrt: mend these first: no library was built\n'
    status, out, told = repository(folder, said, 1)
    expect((status, out, told.splitlines()[:2]), (2, b'', [b'src/lib.rt:14:10: error[unclosed-delimiter]: unclosed delimiter `(`', b'run: mend these first: no library was built']))


def broken_kit(folder):
    status, out, told = repository(folder, 'rt: no toolchain for this machine\n', 2)
    expect((status, out, told.splitlines()[0]), (2, b'', b'run: no toolchain for this machine'))


def sheet_progress(folder):
    """The crates of the sheet's program are those that are counted. A program that fails says nothing of the list, so it is told apart."""
    said, told = '', b''
    for number, name in enumerate(('low', 'high', 'printing', 'event_sheet'), 1):
        said += proving(name)
        told += b'run: %d of 4 %s proved (0 s)\n' % (number, name.encode())
    expect(repository(folder, said, 0, ['--sheet']), (0, b'pop,1\n', told))
    expect(repository(folder, said, 0, ['--sheet'], b''), (2, b'', told + NO_SHEET))
    expect(repository(folder, said, 0, ['--sheet'], b'fail\n'), (2, b'', told + b'run: the program ended with status 7\n'))
    status, out, told = repository(folder, said, 1, ['--sheet'])
    expect((status, out, told.endswith(b'rt check in crates/event_sheet prints all that the prover says\n')), (2, b'', True))


def cost_progress(folder):
    """The same of the costs, whose program writes as it goes."""
    said, told = '', b''
    for number, name in enumerate(('low', 'high', 'printing', 'event_cost'), 1):
        said += proving(name)
        told += b'run: %d of 4 %s proved (0 s)\n' % (number, name.encode())
    expect(repository(folder, said, 0, ['--cost']), (0, b'it sums\npop,1\n', told))
    status, out, told = repository(folder, said, 1, ['--cost'])
    expect((status, out, told.endswith(b'rt check in crates/event_cost prints all that the prover says\n')), (2, b'', True))


TESTS = (
    help_is_printed, unknown_words, unreadable_files, sample, sample_sheet, other_sheets, late_open, no_sheet, sheet_words, unwritten_sheet,
    sample_costs, no_costs, large_costs, cost_words, progress, first_build, failed_proof, broken_source, broken_kit, sheet_progress, cost_progress,
)


def copy_programs(folder):
    """Lays out what ./run needs: itself, crates.txt and the programs, and an rt that says of each that nothing has changed."""
    for name in ('run', 'crates.txt'):
        shutil.copy(root + '/' + name, folder)
    for name in PROGRAMS:
        at = 'crates/%s/out' % name
        os.makedirs('%s/%s' % (folder, at))
        if not os.path.isfile('%s/%s/%s' % (root, at, name)):
            sys.exit('there is no %s/%s: rt run in crates/%s builds it' % (at, name, name))
        shutil.copy('%s/%s/%s' % (root, at, name), '%s/%s' % (folder, at))
        open('%s/%s/%s.stamp' % (folder, at, name), 'w').close()
    write_program(folder + '/bin/rt', 'cat >&2 <<"END"\n%sEND\nexec "out/${PWD##*/}"\n' % (UNCHANGED + RUNNING))


def main():
    global home, stand_in
    if sys.argv[1:] not in ([], ['--kit']):
        sys.exit(__doc__)
    failed = 0
    with tempfile.TemporaryDirectory() as programs:
        if sys.argv[1:]:
            # So that no test meets a program that is proved only now.
            for words in ([], ['--sheet'], ['--cost']):
                run(words)
        else:
            copy_programs(programs)
            home, stand_in = programs, programs + '/bin'
        for test in TESTS:
            with tempfile.TemporaryDirectory() as folder:
                try:
                    test(folder)
                except (Failure, OSError, subprocess.TimeoutExpired) as why:
                    print('%s FAILED: %s' % (test.__name__, str(why)[:1000]))
                    failed += 1
    print('tests/run.py: %d passed, %d failed' % (len(TESTS) - failed, failed))
    sys.exit(1 if failed else 0)


if __name__ == '__main__':
    main()
