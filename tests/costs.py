#!/usr/bin/env python3
"""Tests of event_cost as a process, which prints what the plans of a list move: how its input is cut, and what its output may meet.

    tests/costs.py [PROGRAM]    the program to try; by default the one that the crate's proof built

What is expected is computed from the answers that stream.py has written out for the event program. Python's standard library alone.
Exit status 0 if every test passed, 1 if one failed."""
import os
import subprocess
import sys

# Leaves no compiled copy of stream.py beside it.
sys.dont_write_bytecode = True
import stream


def costs_of(pairs):
    """The input of a list, as in `text_of` of stream.py, and what its plans cost. All their copies are of a level of 64 by 64 texels of 4 bytes."""
    rows, moved, whole = [], 0, 0
    for number, (line, answer) in enumerate(pairs, 1):
        if not line.startswith('plan') or answer == '?':
            continue
        outcome, *copies = answer.split(' ')
        if outcome == '0,%d' % len(copies):
            boxes = [(64, 64) if copy.endswith('-') else map(int, copy.split(',')[4:]) for copy in copies]
            bytes_moved = sum(width * height * 4 for width, height in boxes)
            moved, whole, outcome = moved + bytes_moved, whole + len(copies) * 16384, '0,%d' % bytes_moved
        rows.append('%d,%s\n' % (number, outcome))
    return stream.text_of(pairs)[0], ''.join(rows + ['sum,%d,%d\n' % (moved, whole)]).encode()


def whole_text(program, small):
    given, expected = costs_of(stream.ALL_WORDS)
    stream.same(expected, b'6,0,16384\n12,0,1024\n28,2\nsum,17408,32768\n')
    stream.same(stream.output_of(program, given), expected)
    stream.same(stream.output_of(program, given + b'\n'), expected)


def empty_input(program, small):
    for given in (b'', b'\n', b'\n\n', b'x', b'plan', b'open,0'):
        stream.same(stream.output_of(program, given), b'sum,0,0\n')


def long_lines(program, small):
    """A line that is no plan, though its front or its end is one."""
    plan, before = b'plan,7,-,0,0,0', b'open,0\ntake,7,2,64,64,1,1,0,1,10\n'
    for length in (stream.KEPT - 1, stream.KEPT, stream.KEPT + 1, 1000, stream.BLOCK - 1, stream.BLOCK, stream.BLOCK + 1, 3 * stream.BLOCK):
        for line in (plan.ljust(length, b'x'), plan.ljust(length), plan.rjust(length, b'x'), plan.rjust(length, b',')):
            stream.same(stream.output_of(program, before + line), b'sum,0,0\n')
            stream.same(stream.output_of(program, before + line + b'\n' + plan), b'4,0,16384\nsum,16384,16384\n')


def parts_of_every_size(program, small):
    given, expected = costs_of(stream.ALL_WORDS)
    for size in range(1, 201):
        stream.same(stream.output_in_parts(program, given, size), expected)


def many_lines(program, small):
    """More lines of output than a block's buffer has room for."""
    plans = 300000
    rows = b''.join(b'%d,0,16384\n' % line for line in range(3, plans + 3))
    given = b'open,0\ntake,7,2,64,64,1,1,0,0,1\n' + plans * b'plan,7,-,0,0,0\n'
    stream.same(stream.output_of(program, given), rows + b'sum,%d,%d\n' % (plans * 16384, plans * 16384))


def output_closes(program, small):
    block = b'open,0\ntake,7,2,64,64,1,1,0,0,1\n' + 4000 * b'plan,7,-,0,0,0\n'
    stream.ends([program], block, stdout=subprocess.PIPE, restore_signals=True)
    stream.ends([program], block, stdout=subprocess.PIPE, restore_signals=False)
    stream.ends(['/bin/sh', '-c', 'exec "$0" >&-', program], block)
    with open('/dev/full', 'wb') as full:
        stream.ends([program], block, stdout=full)


def no_input(program, small):
    stream.no_input(program, small, b'sum,0,0\n')


TESTS = (whole_text, empty_input, long_lines, parts_of_every_size, many_lines, output_closes, no_input)


def main():
    if len(sys.argv) > 2:
        sys.exit(__doc__)
    program = os.path.abspath(sys.argv[1]) if len(sys.argv) == 2 else stream.built('event_cost')
    stream.tell('tests/costs.py', [stream.passes(test, program, True) for test in TESTS])


if __name__ == '__main__':
    main()
