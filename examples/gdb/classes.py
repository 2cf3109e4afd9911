#!/usr/bin/env python3
"""The classes of a report, smallest first, with the host to which a debugger goes.

    classes.py SAMPLES < REPORT

For example:

    ranktree direct --topology job.top --samples job.smp --script job.scr | ./classes.py job.smp

SAMPLES is the samples file of the report: its `daemon` lines say on which host a rank is. For each class: how many ranks
it has, its first rank and that rank's host, on how many hosts it is, how many paths it was seen in, and the frame in which
the first of these paths ends (one that begins with main, where there is one).

What is no report, was cut off, or is no samples file ends with one line and status 2. Bytes by which a name could steer the
terminal are shown as `?`.
"""
import os
import re
import sys

CLASS = re.compile(r'class [0-9]{1,7}:\[([0-9,-]+)\] paths ([0-9]{1,7})$')
RANKS = re.compile(r'[0-9]{1,7}(-[0-9]{1,7})?(,[0-9]{1,7}(-[0-9]{1,7})?)*$')
STEERS = re.compile('[\0-\x1f\x7f-\x9f\u200e\u200f\u2028-\u202e\u2066-\u2069]')  # controls, and marks of writing direction


def ranks(text):
    """The ranks that a text as 0-2,7 names.

    >>> list(ranks('0-2,7'))
    [0, 1, 2, 7]
    """
    for item in text.split(','):
        first, _, last = item.partition('-')
        yield from range(int(first), int(last or first) + 1)


def hosts(name, lines):
    """Each rank's host, by the `daemon` lines of a samples file of this name.

    >>> hosts('job.smp', ['daemon n1:0 0-1', 'stack 0 0 main', 'daemon n2:0 7'])
    {0: 'n1', 1: 'n1', 7: 'n2'}
    >>> hosts('job.smp', ['# none', 'daemon n1:0 [0-1]'])
    Traceback (most recent call last):
    ValueError: job.smp: line 2: not a good `daemon` line
    >>> hosts('job.top', ['fe:0 => a:0 ;'])
    Traceback (most recent call last):
    ValueError: job.top: line 1: there is no `daemon` line, so this is no samples file
    """
    home = {}
    for number, line in enumerate(lines, 1):
        words = line.split()
        if words[:1] == ['daemon']:
            if len(words) != 3 or not RANKS.match(words[2]):
                raise ValueError('%s: line %d: not a good `daemon` line' % (name, number))
            home.update((rank, words[1].rpartition(':')[0]) for rank in ranks(words[2]))
    if not home:
        raise ValueError('%s: line 1: there is no `daemon` line, so this is no samples file' % name)
    return home


def leaf(paths):
    """The frame in which the most telling of some paths ends.

    >>> leaf(['clone;helper', 'main;solve;poll']), leaf([])
    ('poll', '(no stack)')
    """
    with_main = [path for path in paths if path.startswith('main;')]
    return STEERS.sub('?', (with_main + paths + ['(no stack)'])[0].split(';')[-1])


def table(rows):
    """The rows under a heading, smallest class first."""
    rows = [('ranks', 'first', 'host', 'hosts', 'paths', 'in')] + [tuple(map(str, row)) for row in sorted(rows)]
    widths = [max(len(row[i]) for row in rows) for i in range(5)]
    for row in rows:
        cells = [cell.ljust(width) if i == 2 else cell.rjust(width) for i, (cell, width) in enumerate(zip(row, widths))]
        yield '  '.join(cells + [row[5]])


def row_of(found, paths, home):
    """The row of a class."""
    covered = list(ranks(found[1]))
    at = home.get(covered[0], '?')
    return len(covered), covered[0], at, len({home.get(rank) for rank in covered}), len(paths), leaf(paths)


def view(lines, home):
    """The lines of the view of a report.

    >>> list(view(['stream 0 wave 0 release 1 final', 'class 1:[7] paths 1', '  main;poll', 'end'], {7: 'n2'}))[2]
    '    1      7  n2        1      1  poll'
    >>> list(view(['stream 0 wave 0 release 1 final', 'class 1:[7] paths 1'], {7: 'n2'}))
    Traceback (most recent call last):
    ValueError: standard input: line 2: the report was cut off: its last line is not `end`
    """
    if not lines[0].startswith('stream '):
        raise ValueError('standard input: line 1: no report as text')
    if lines[-1] != 'end':
        raise ValueError('standard input: line %d: the report was cut off: its last line is not `end`' % len(lines))
    rows = []
    for i, line in enumerate(lines):
        found = CLASS.match(line)
        if found and RANKS.match(found[1]):
            rows.append(row_of(found, [path[2:] for path in lines[i + 1:i + 1 + int(found[2])]], home))
        elif rows and line.startswith(('stream ', 'fault ', 'end')):
            yield from table(rows)
            rows = []
        if line.startswith('stream '):
            yield line


def main():
    if len(sys.argv) != 2 or sys.argv[1] in ('-h', '--help'):
        is_asked = len(sys.argv) == 2
        print(__doc__ if is_asked else 'classes.py: usage: classes.py SAMPLES < REPORT (see classes.py --help)',
              file=sys.stdout if is_asked else sys.stderr)
        sys.exit(0 if is_asked else 2)
    try:
        with open(sys.argv[1], encoding='utf-8', errors='replace') as samples:
            home = hosts(sys.argv[1], samples)
        lines = sys.stdin.buffer.read().decode('utf-8', 'replace').rstrip('\n').split('\n')
        text = ''.join(line + '\n' for line in view(lines, home))
        sys.stdout.buffer.write(text.encode('utf-8'))
        sys.stdout.buffer.flush()
    except (OSError, ValueError) as why:
        if isinstance(why, BrokenPipeError):
            os.dup2(os.open(os.devnull, os.O_WRONLY), 1)  # what could not be written is not tried again at the end
        text = '%s: %s' % (why.filename or 'standard output', why.strerror) if isinstance(why, OSError) else why
        print('classes.py: %s' % text, file=sys.stderr)
        sys.exit(2)


if __name__ == '__main__':
    main()
