#!/usr/bin/env python3
"""A view of a report: its classes, smallest first, from where they part, and how to attach to the first rank of each.

    where.py REPORT.json [PIDS]

REPORT.json is a report as JSON; PIDS has a line RANK HOST PID for each rank (fold.py writes it). For example:

    ranktree direct --topology hung.top --samples hung.smp --script hung.scr --report json > hung.json
    where.py hung.json hung.pids

Bytes by which a name could steer the terminal are shown as `?`. What is no report, or no such line, ends with one line on
standard error and status 2.
"""
import io
import json
import os
import re
import sys

import command_line
import paths

WIDTH, PATHS = 60, 4  # columns of a set or a frame; paths of a class that are shown
STEERS = re.compile('[\0-\x1f\x7f-\x9f\u200e\u200f\u2028-\u202e\u2066-\u2069]')  # controls, and marks of writing direction
SET = re.compile(r'[0-9]{1,7}:\[[0-9]{1,7}(-[0-9]{1,7})?(,[0-9]{1,7}(-[0-9]{1,7})?)*\]$')
RELEASE = {'stream': int, 'wave': int, 'number': int, 'kind': str, 'covered': str, 'missing': list, 'classes': list}


def ranks(text):
    """The runs of a set's text.

    >>> ranks('4:[0-2,7]'), ranks('0:[]')
    ([(0, 2), (7, 7)], [])
    """
    items = [item.partition('-') for item in text.partition('[')[2].rstrip(']').split(',') if item]
    return [(int(first), int(last or first)) for first, _, last in items]


def short(text, width=WIDTH):
    """A text with its middle left out where it is too wide.

    >>> short('abcdefgh', 6), short('abc', 6)
    ('ab..gh', 'abc')
    """
    half = (width - 2) // 2
    return text if len(text) <= width else text[:width - 2 - half] + '..' + text[-half:]


def parting(texts):
    """The number of frames that all paths have in common; those that are a remark alone don't count.

    >>> parting(['main;a;b', 'main;a;c', '(not found)']), parting(['main']), parting(['(not found)'])
    (2, 0, 0)
    """
    lists = [text.split(';') for text in texts]
    lists = [frames for frames in lists if len(frames) > 1 or not paths.is_remark(frames[0])]
    if len(set(map(tuple, lists))) < 2:
        return 0
    return next((i for i, frames in enumerate(zip(*lists)) if len(set(frames)) > 1), min(map(len, lists)))


def outline(text, common):
    """A path from the last frame that all have in common.

    >>> outline('main;a;b;c', 2), outline('main;a;b;c;d;e;f;g', 1), outline('(not found)', 2)
    ('a | b | c', 'main | a | b | .. | f | g', '(not found)')
    """
    frames = text.split(';')
    frames = frames[max(0, common - 1):] or frames
    if len(frames) > 6:
        frames = frames[:3] + ['..'] + frames[-2:]
    return ' | '.join(short(STEERS.sub('?', frame)) for frame in frames)


def place(first, hosts, home):
    """On how many hosts a class is, and how to attach to its first rank."""
    if first not in home:
        return ''
    host, pid = home[first]
    if not pid.isdigit():
        return '  first: gdb -c %s' % pid
    on = '  on %d host%s' % (len(hosts), 's' * (len(hosts) > 1))
    return on + (', first: ssh %s gdb -p %s' % (host, pid) if pid != '0' else ', first: on %s' % host)


def lines(release, home):
    """The lines of a release."""
    yield 'stream %d wave %d release %d %s: %s ranks' % (
        release['stream'], release['wave'], release['number'], release['kind'], release['covered'].partition(':')[0])
    for missing in release['missing']:
        yield '  %s: %s is %s' % (missing['ranks'], missing['daemon'], missing['state'])
    common = parting([path for found in release['classes'] for path in found['paths']])
    for found in sorted(release['classes'], key=lambda one: int(one['ranks'].partition(':')[0])):
        runs = ranks(found['ranks'])
        hosts = {home[rank][0] for first, last in runs for rank in range(first, last + 1) if rank in home}
        yield ''
        yield short(found['ranks']) + place(runs[0][0], hosts, home)
        for path in found['paths'][:PATHS]:
            yield '    ' + outline(path, common)
        if len(found['paths']) > PATHS:
            yield '    and %d more paths' % (len(found['paths']) - PATHS)


def test_fields(value, fields, what):
    """Tests that a value has these fields, each of its kind.

    >>> test_fields({'ranks': 3}, {'ranks': str}, 'a class')
    Traceback (most recent call last):
    ValueError: a class without a good "ranks"
    """
    for name, kind in fields.items():
        if not isinstance(value, dict) or not isinstance(value.get(name), kind):
            raise ValueError('%s without a good "%s"' % (what, name))


def test(report):
    """Tests that a value is a report, as far as it is shown.

    >>> test({'releases': []})
    Traceback (most recent call last):
    ValueError: a report without a release
    """
    test_fields(report, {'releases': list}, 'a report')
    if not report['releases']:
        raise ValueError('a report without a release')
    for release in report['releases']:
        test_fields(release, RELEASE, 'a release')
        for one in release['missing']:
            test_fields(one, {'ranks': str, 'daemon': str, 'state': str}, 'a daemon with missing ranks')
        for one in release['classes']:
            test_fields(one, {'ranks': str, 'paths': list}, 'a class')
            if not SET.match(one['ranks']) or not all(isinstance(path, str) for path in one['paths']):
                raise ValueError('a class without ranks, or with a path that is no text')


def read_report(name):
    """The releases of the report in a file."""
    try:
        with open(name, encoding='utf-8') as file:
            report = json.load(file)
        test(report)
    except json.JSONDecodeError as why:
        raise ValueError('%s: line %d: no report as JSON: %s' % (name, why.lineno, why.msg))
    except (ValueError, RecursionError) as why:
        raise ValueError('%s: line 1: %s' % (name, why))
    return report['releases']


def read_pids(name):
    """The host and the process of each rank, by the lines of a file."""
    home = {}
    with open(name, encoding='utf-8', errors='replace') as file:
        for number, line in enumerate(file, 1):
            parts = line.strip().split(None, 2)
            if len(parts) != 3 or not re.match(r'[0-9]{1,7}$', parts[0]):
                raise ValueError('%s: line %d: not RANK HOST PID' % (name, number))
            if int(parts[0]) in home:
                raise ValueError('%s: line %d: rank %s is there once more' % (name, number, parts[0]))
            home[int(parts[0])] = parts[1], parts[2]
    return home


def view(report, pids):
    """The lines of a report, by its file and the file of its processes."""
    home = read_pids(pids) if pids else {}
    return '\n\n'.join('\n'.join(lines(release, home)) for release in read_report(report)) + '\n'


def main():
    parser = command_line.Parser(__doc__)
    parser.add_argument('report', metavar='REPORT.json')
    parser.add_argument('pids', metavar='PIDS', nargs='?')
    asked = parser.parse_args()
    sys.stdout = io.TextIOWrapper(sys.stdout.buffer, 'utf-8')  # whatever the locale is
    try:
        sys.stdout.write(view(asked.report, asked.pids))
        sys.stdout.flush()
    except (OSError, ValueError) as why:
        if isinstance(why, BrokenPipeError):
            os.dup2(os.open(os.devnull, os.O_WRONLY), 1)  # what could not be written is not tried again at the end
        text = '%s: %s' % (why.filename or 'standard output', why.strerror) if isinstance(why, OSError) else why
        print('where.py: %s' % text, file=sys.stderr)
        sys.exit(2)


if __name__ == '__main__':
    main()
