#!/usr/bin/env python3
"""Tests of the two event programs as processes: what no proof can say, namely what a read brings, where a write goes, and the sizes that `main` lends.

    tests/stream.py [SMALL LARGE]    the programs to try; by default those that the crates' proofs built

What is expected is written here from document 01 or computed by a formula; none of it was taken from a program. Python's standard library alone.
Exit status 0 if every test passed, 1 if one failed."""
import concurrent.futures
import fcntl
import os
import select
import struct
import subprocess
import sys
import tempfile
import termios
import threading
import time

root = os.path.dirname(os.path.dirname(os.path.abspath(__file__)))


def built(name):
    """Where the kit leaves a program that it proved and built, by 'rt ci' or by 'rt run' in the crate's folder."""
    return '%s/crates/%s/out/%s' % (root, name, name)


# Seconds that a program may take where it has all its input, or where its output is gone. It takes a small part of one.
LIMIT = 10

# Bytes of a line that the program keeps: no event has as many.
KEPT = 196

# Bytes that it reads at most at once.
BLOCK = 65536


class Failure(Exception):
    pass


def same(got, expected):
    """Fails at the first byte where two outputs differ."""
    if got == expected:
        return
    at = next((i for i in range(min(len(got), len(expected))) if got[i] != expected[i]), min(len(got), len(expected)))
    start = max(0, at - 30)
    raise Failure('%d bytes for %d, first different at byte %d: %r for %r' % (len(got), len(expected), at, got[start:at + 40], expected[start:at + 40]))


def output_of(program, given):
    """What a program prints that is given all its input at once."""
    ran = subprocess.run([program], input=given, stdout=subprocess.PIPE, timeout=LIMIT)
    if ran.returncode != 0:
        raise Failure('it ended with status %d' % ran.returncode)
    return ran.stdout


def text_of(pairs):
    """The input and the output of a list of lines, each with its answer: the outcome and its fields, then the lines of copies or view numbers, parted by
    spaces. The last line has no line feed."""
    given = b'\n'.join(line.encode() for line, _ in pairs)
    return given, b''.join(answer_of(k, answer) for k, (_, answer) in enumerate(pairs, 1))


def answer_of(number, answer):
    return ''.join('%d,%s\n' % (number, part) for part in answer.split(' ')).encode()


# ---- lists of events with their answers

# 01's own list.
SAMPLE = [
    ('open,0', '0'),
    ('take,7,2,64,64,1,1,0,1,10', '0,-,-'),
    ('plan,7,-,0,0,0', '0,1 0,0,-,-,-,-'),
    ('retire,7,900,10', '0'),
    ('write,7,0,0,20,5,10,10', '0'),
    ('pop,10', '0,7,900'),
    ('park,0,11', '0'),
    ('take,7,2,64,64,1,1,0,1,11', '0,900,0'),
    ('plan,7,0,0,0,0', '0,1 0,0,16,0,16,16'),
]

# Every word, refusals and lines that call nothing among them. 900 is live again after the sample.
ALL_WORDS = [
    ('open,0' + 300 * 'x', '?'),  # no event, though its front is one
    ('pop,10', '?'),  # before `open`
    SAMPLE[0],
    ('plan,7,-,0,0,0', '?'),  # before any take line
    *SAMPLE[1:],
    ('retire,7,901,11', '0'),
    ('regen,7', '0'),
    ('pop,10', '0,-,-'),  # 901 settles with submission 11
    ('pop,11', '0,7,901'),
    ('pop,11', '9'),  # hand full
    ('park,0,12', '0'),
    ('park,0,12', '10'),  # hand empty
    ('forget,7', '0'),  # its spare, 901, is queued for destruction
    ('doomed', '0,1 901'),
    ('note,4096', '0'),
    ('trim,12', '0'),
    ('retire,5,44,20', '0'),  # untracked, and queued all the same
    ('retire,5,45,19', '8'),  # below the last still queued
    ('drain', '0,1 44'),
    ('take,7,9,64,64,1,1,0,1,12', '2'),  # there is no format 9
    ('plan,7,-,0,0,0', '2'),  # the latest take line's shape, though it was refused
    ('trim,281474976710657', '3'),  # 2^48 + 1
    ('open,0', '?'),  # a second one
    ('', '?'),
    ('take,7', '?'),
    ('pop,18446744073709551616', '?'),  # 2^64
    ('take,%020d,%020d,%020d,%020d,%020d,%020d,%020d,0,%020d' % (8, 2, 64, 64, 1, 1, 0, 12), '0,-,-'),  # no event is longer
    ('doomed', '0,0'),
]


def whole_text(program, small):
    given, expected = text_of(ALL_WORDS)
    same(output_of(program, given), expected)
    same(output_of(program, given + b'\n'), expected)


# ---- the last line, and lines that are too long

def empty_input(program, small):
    same(output_of(program, b''), b'')
    same(output_of(program, b'\n'), b'1,?\n')
    same(output_of(program, b'\n\n'), b'1,?\n2,?\n')


def last_line_without_its_feed(program, small):
    for last in (b'x', b',', b'\0', b'\r', b'po', b'0,', b'pop', b'x,y'):
        same(output_of(program, last), b'1,?\n')
        same(output_of(program, last + b'\n'), b'1,?\n')
        same(output_of(program, b'open,0\n' + last), b'1,0\n2,?\n')
    same(output_of(program, b'open,0'), b'1,0\n')
    same(output_of(program, b'open,0\npop,1'), b'1,0\n2,0,-,-\n')


def long_lines(program, small):
    """A line that is no event, though its front or its end is one: no part of it opens the pool, and the lines after it are as they are."""
    after = b'\npop,5\nopen,0\npop,5\n'
    for length in (KEPT - 1, KEPT, KEPT + 1, 1000, 70000, BLOCK - 1, BLOCK, BLOCK + 1, BLOCK + 5, BLOCK + 6, BLOCK + 7, 3 * BLOCK):
        fronts = b'open,0'.ljust(length, b'x'), b'open,0'.ljust(length), b'open,'.ljust(length, b'0')
        for line in (*fronts, b'open,0'.rjust(length, b'x'), b'open,0'.rjust(length, b',')):
            same(output_of(program, line), b'1,?\n')
            same(output_of(program, line + after), b'1,?\n2,?\n3,0\n4,0,-,-\n')
            same(output_of(program, b'open,0\n' + line), b'1,0\n2,?\n')


# ---- input in parts

def output_in_parts(program, given, size):
    """What a program prints that reads its input in parts of one size: dd makes a write of each, and a pipe in packet mode hands out one write a read."""
    source, sink = os.pipe2(os.O_DIRECT)
    with tempfile.TemporaryFile() as text:
        text.write(given)
        text.seek(0)
        giving = subprocess.Popen(['dd', 'bs=%d' % size, 'status=none'], stdin=text, stdout=sink)
    running = subprocess.Popen([program], stdin=source, stdout=subprocess.PIPE)
    os.close(source)
    os.close(sink)
    try:
        return running.communicate(timeout=6 * LIMIT)[0]
    finally:
        for process in (running, giving):
            process.kill()
            process.wait()


def parts_of_every_size(program, small):
    given, expected = text_of(ALL_WORDS)
    for size in range(1, 201):
        same(output_in_parts(program, given, size), expected)


def many_reads(program, small):
    """More than 1,000,000 reads, of a byte each."""
    lines = 500001
    same(output_in_parts(program, b'x\n' * lines, 1), b''.join(b'%d,?\n' % k for k in range(1, lines + 1)))


def waiting_bytes(pipe):
    return struct.unpack('i', fcntl.ioctl(pipe, termios.FIONREAD, b'\0\0\0\0'))[0]


def conversation(program, small):
    """A byte at a time, each given once the last was read: nothing is answered before a line's feed, all of it before the next line's first byte."""
    running = subprocess.Popen([program], stdin=subprocess.PIPE, stdout=subprocess.PIPE, bufsize=0)
    end = time.monotonic() + LIMIT

    def answered(expected):
        got = b''
        while len(got) < len(expected):
            if not select.select([running.stdout], [], [], max(0, end - time.monotonic()))[0]:
                raise Failure('no answer, or a part of it: %r for %r' % (got, expected))
            more = running.stdout.read(len(expected) - len(got))
            if not more:
                break
            got += more
        same(got, expected)

    try:
        for number, (line, answer) in enumerate(ALL_WORDS, 1):
            for byte in line.encode():
                running.stdin.write(bytes([byte]))
                while waiting_bytes(running.stdin.fileno()) and time.monotonic() < end:
                    time.sleep(0)
                if select.select([running.stdout], [], [], 0)[0]:
                    raise Failure('something was printed before line %d ended' % number)
            if number < len(ALL_WORDS):
                running.stdin.write(b'\n')
            else:
                running.stdin.close()
            answered(answer_of(number, answer))
        same(running.stdout.read(), b'')
        if running.wait(timeout=LIMIT) != 0:
            raise Failure('it ended with status %d' % running.returncode)
    finally:
        running.kill()
        running.wait()


def many_lines(program, small):
    """More than 1,000,000 lines, of three kinds in turn."""
    lines = 1100001
    kinds = ((b'pop,1\n', b',0,-,-\n'), (b'doomed\n', b',0,0\n'), (b'x\n', b',?\n'))
    given = b'open,0\n' + b''.join(line for line, _ in kinds) * (lines // 3)
    expected = b'1,0\n' + b''.join(b'%d%s%d%s%d%s' % (k, kinds[0][1], k + 1, kinds[1][1], k + 2, kinds[2][1]) for k in range(2, lines + 1, 3))
    same(output_of(program, given), expected)


# ---- input and output that fail

def ends(command, block=b'open,0\n' + 9000 * b'pop,1\n', **streams):
    """Gives these lines without end, and fails unless the program ends by itself. What it printed does not matter."""
    source, sink = os.pipe()
    running = subprocess.Popen(command, stdin=source, **streams)
    os.close(source)
    ended = threading.Event()

    def give():
        try:
            while not ended.is_set():
                os.write(sink, block)
        except BrokenPipeError:
            pass
        os.close(sink)

    giver = threading.Thread(target=give)
    giver.start()
    try:
        if running.stdout:
            if not select.select([running.stdout], [], [], LIMIT)[0]:
                raise Failure('nothing was printed')
            running.stdout.close()
        running.wait(timeout=LIMIT)
    except subprocess.TimeoutExpired:
        raise Failure('it went on for %d seconds' % LIMIT)
    finally:
        ended.set()
        running.kill()
        running.wait()
        giver.join()


def output_closes(program, small):
    """The reader goes away: with the signal that ends a program then, and without it, where the write fails. Or there is no output from the start."""
    ends([program], stdout=subprocess.PIPE, restore_signals=True)
    ends([program], stdout=subprocess.PIPE, restore_signals=False)
    ends(['/bin/sh', '-c', 'exec "$0" >&-', program])


def output_fills(program, small):
    with open('/dev/full', 'wb') as full:
        ends([program], stdout=full)


def no_input(program, small, expected=b''):
    """Standard input that is closed, a folder, or not open for reading: an end, with nothing printed."""
    def printed(command, **streams):
        same(subprocess.run(command, stdout=subprocess.PIPE, timeout=LIMIT, **streams).stdout, expected)

    printed(['/bin/sh', '-c', 'exec "$0" <&-', program])
    folder = os.open('/', os.O_RDONLY)
    printed([program], stdin=folder)
    os.close(folder)
    with open('/dev/null', 'wb') as sink:
        printed([program], stdin=sink)


# ---- the sizes that `main` lends

def check(program, pairs):
    given, expected = text_of(pairs)
    same(output_of(program, given), expected)


def places(program, small):
    """Textures, versions and stamps: as many as 01 or the large program's own comment has are accepted, one more is refused. A level of 512 by 512 texels
    has 32 by 32 tiles, as many as a page has stamps; a cube has it six times. A level of one texel has one tile."""
    textures, versions, pages = (8, 64, 6) if small else (64, 2000, 256)

    def take(id, extent, kind, records):
        return 'take,%d,2,%d,%d,1,1,%d,%d,1' % (id, extent, extent, kind, records)

    some = [(take(id, 64, 0, 0), '0,-,-') for id in range(textures)]
    check(program, [('open,0', '0')] + some + [(take(textures, 64, 0, 0), '5'), some[0]])
    some = [('retire,1,%d,5' % view, '0') for view in range(versions)]
    check(program, [('open,0', '0')] + some + [('retire,1,0,5', '7')])
    cubes, flat = divmod(pages, 6)
    some = [(take(id, 512, int(id < cubes), 1), '0,-,-') for id in range(cubes + flat)]
    check(program, [('open,0', '0')] + some + [(take(len(some), 1, 0, 1), '6'), (take(len(some), 1, 0, 0), '0,-,-')])


def most_grids(program, small):
    """Six slices of 15 levels for every texture, each of one tile: as many grids as there can be."""
    textures = 8 if small else 64
    check(program, [('open,0', '0')] + [('take,%d,2,1,1,1,15,1,1,1' % id, '0,-,-') for id in range(textures)])


def longest_plan(program, small):
    """Six slices of 15 levels, each whole: 90 copies, as many as a plan can have."""
    copies = ' '.join('%d,%d,-,-,-,-' % (slice, level) for slice in range(6) for level in range(15))
    check(program, [('open,0', '0'), ('take,1,0,16384,16384,1,15,1,0,1', '0,-,-'), ('plan,1,-,0,0,0', '0,90 ' + copies)])


def retired(count):
    """Opened, and view numbers 1 to `count` retired by a texture that is not tracked."""
    return [('open,0', '0')] + [('retire,9,%d,1' % view, '0') for view in range(1, count + 1)]


def queued(count):
    """The same, each popped and parked: so each is queued for destruction."""
    return retired(count) + [pair for view in range(1, count + 1) for pair in (('pop,1', '0,9,%d' % view), ('park,0,1', '0'))]


def handed(first, count):
    return ' '.join(['0,%d' % count] + [str(view) for view in range(first, first + count)])


def longest_drain(program, small):
    """All version places of the small program. 300 of the large one's, as many as its answers have entries, and 301, with one left in the hand."""
    if small:
        check(program, retired(64) + [('drain', handed(1, 64)), ('drain', '0,0')])
        return
    check(program, retired(300) + [('drain', handed(1, 300)), ('drain', '0,0')])
    check(program, retired(301) + [('drain', '11'), ('drain', '11'), ('pop,1', '0,9,1'), ('drain', handed(2, 300)), ('park,0,1', '0'), ('doomed', '0,1 1')])


def longest_batch(program, small):
    """Batches of the destroy queue: an eighth of what came, and an eighth of what waits, each rounded up, at least 64. 01's 678, then 300 entries and more."""
    if small:
        check(program, queued(64) + [('doomed', handed(1, 64)), ('doomed', '0,0')])
        return
    pairs, first = queued(678), 1
    for count in (170, 149, 130, 114, 100, 15):
        pairs.append(('doomed', handed(first, count)))
        first += count
    check(program, pairs + [('doomed', '0,0')])
    check(program, queued(1200) + [('doomed', handed(1, 300))])
    check(program, queued(1201) + [('doomed', '11'), ('doomed', '11')])


TESTS = (
    whole_text, empty_input, last_line_without_its_feed, long_lines, parts_of_every_size, many_reads, conversation, many_lines,
    output_closes, output_fills, no_input, places, most_grids, longest_plan, longest_drain, longest_batch,
)


def passes(test, program, small):
    """Tries a test, and says why it failed."""
    try:
        test(program, small)
        return True
    except (Failure, OSError, subprocess.TimeoutExpired) as why:
        print('%s: %s FAILED: %s' % (os.path.basename(program), test.__name__, str(why)[:500]))
        return False


def tell(name, results):
    """Prints how many of these passed, and ends with 1 if one failed."""
    print('%s: %d passed, %d failed' % (name, sum(results), len(results) - sum(results)))
    sys.exit(0 if all(results) else 1)


def main():
    if len(sys.argv) not in (1, 3):
        sys.exit(__doc__)
    programs = [os.path.abspath(p) for p in sys.argv[1:]] or [built('event_program'), built('event_program_large')]
    with concurrent.futures.ThreadPoolExecutor(len(programs)) as pool:
        results = list(pool.map(lambda k: [passes(test, programs[k], k == 0) for test in TESTS], range(len(programs))))
    tell('tests/stream.py', sum(results, []))


if __name__ == '__main__':
    main()
