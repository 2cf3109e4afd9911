"""What the views of a report share: a report as JSON is read and tested, and a view is written.

A report that is broken, cut off or changed by hand is refused with one line, since a view of it would look right.
The format is in docs/FORMATS.md, "The report as JSON".
"""
import json
import os
import re
import sys

SET = re.compile(r'(\d+):\[((?:\d+(?:-\d+)?(?:,\d+(?:-\d+)?)*)?)\]\Z')
FRAME = re.compile(r'[^\x00-\x1f\x7f;]+\Z')
REPORT = {'faults': list, 'releases': list}
FAULT = {'after': int, 'node': str, 'state': str}
RELEASE = {'classes': list, 'covered': str, 'kind': str, 'missing': list, 'number': int, 'stream': int, 'tree': list,
           'wave': int}
CLASS = {'paths': list, 'ranks': str}
MISSING = {'daemon': str, 'ranks': str, 'state': str}
ROW = {'depth': int, 'ends': str, 'frame': str, 'label': str}


def stop(why):
    """Ends the program with one line on standard error, and status 1."""
    sys.exit('%s: %s' % (os.path.basename(sys.argv[0]), why))


def count(text):
    """How many ranks a set has.

    >>> count('4:[0-2,7]')
    4
    """
    return int(text.partition(':')[0])


def runs(text):
    """The runs of neighbouring ranks in a set.

    >>> runs('4:[0-2,7]'), runs('0:[]')
    ([(0, 2), (7, 7)], [])
    >>> for text in '5:[0-2,7]', '3:[0-1,2]', '2:[1,0]', '0-2,7':
    ...     try:
    ...         runs(text)
    ...     except ValueError as error:
    ...         print(error)
    5:[0-2,7] is no set of ranks
    3:[0-1,2] is no set of ranks
    2:[1,0] is no set of ranks
    0-2,7 is no set of ranks
    """
    found = SET.match(text)
    pairs = [item.partition('-') for item in found.group(2).split(',') if item] if found else []
    parts = [(int(first), int(last or first)) for first, _, last in pairs]
    apart = all(a <= b for a, b in parts) and all(this[1] + 1 < after[0] for this, after in zip(parts, parts[1:]))
    if not found or not apart or sum(b - a + 1 for a, b in parts) != count(text):
        raise ValueError('%s is no set of ranks' % (text if len(text) < 40 else text[:38] + '..'))
    return parts


def joined(parts):
    """Runs that have no rank in common as the runs of one set, in order.

    >>> joined([(3, 5), (0, 2), (7, 7)])
    [(0, 5), (7, 7)]
    >>> joined([(0, 2), (2, 3)])
    Traceback (most recent call last):
    ValueError: rank 2 is there twice
    """
    whole = []
    for first, last in sorted(parts):
        if whole and first <= whole[-1][1]:
            raise ValueError('rank %d is there twice' % first)
        if whole and first == whole[-1][1] + 1:
            whole[-1] = (whole[-1][0], last)
        else:
            whole.append((first, last))
    return whole


def set_text(parts):
    """Runs that may overlap as the text of one set.

    >>> set_text([(7, 7), (0, 2), (1, 3)]), set_text([])
    ('5:[0-3,7]', '0:[]')
    """
    whole = []
    for first, last in sorted(parts):
        if whole and first <= whole[-1][1] + 1:
            whole[-1][1] = max(last, whole[-1][1])
        else:
            whole.append([first, last])
    items = ['%d' % a if a == b else '%d-%d' % (a, b) for a, b in whole]
    return '%d:[%s]' % (sum(b - a + 1 for a, b in whole), ','.join(items))


def test_fields(value, fields, what):
    """Tests that a value has these fields, each of its kind.

    >>> test_fields({'paths': [], 'ranks': 3}, CLASS, 'a class')
    Traceback (most recent call last):
    ValueError: a class without a good "ranks"
    """
    for name, kind in sorted(fields.items()):
        if not isinstance(value, dict) or type(value.get(name)) is not kind:
            raise ValueError('%s without a good "%s"' % (what, name))


def test_classes(release):
    """Tests that each covered rank is in one class, and no other rank is."""
    for found in release['classes']:
        test_fields(found, CLASS, 'a class')
        if any(not isinstance(path, str) for path in found['paths']) or not runs(found['ranks']):
            raise ValueError('a class without ranks, or with a path that is no text')
    for missing in release['missing']:
        test_fields(missing, MISSING, 'a daemon with missing ranks')
        runs(missing['ranks'])
    if joined(run for found in release['classes'] for run in runs(found['ranks'])) != runs(release['covered']):
        raise ValueError('the classes have other ranks than the release covers')


def tree_ends(rows):
    """The ranks whose stacks end in each path of a tree, whose rows are tested.

    >>> tree_ends([{'depth': 0, 'ends': '0:[]', 'frame': '/', 'label': '2:[0-1]'},
    ...            {'depth': 1, 'ends': '1:[1]', 'frame': 'main', 'label': '2:[0-1]'},
    ...            {'depth': 2, 'ends': '1:[0]', 'frame': 'poll', 'label': '1:[0]'}]) == {'main': '1:[1]', 'main;poll': '1:[0]'}
    True
    >>> tree_ends([{'depth': 1, 'ends': '1:[1]', 'frame': 'main', 'label': '1:[1]'}])
    Traceback (most recent call last):
    ValueError: row 0 of the tree has depth 1
    """
    frames, ends = [], {}
    for i, row in enumerate(rows):
        test_fields(row, ROW, 'a row')
        if not 1 <= row['depth'] <= len(frames) + 1 if i else row['depth'] != 0:
            raise ValueError('row %d of the tree has depth %d' % (i, row['depth']))
        if i and not FRAME.match(row['frame']):
            raise ValueError('row %d of the tree has no good frame' % i)
        frames[max(0, row['depth'] - 1):] = [row['frame']] if i else []
        runs(row['label'])
        if runs(row['ends']):
            ends[';'.join(frames)] = row['ends']
    return ends


def test_labels(rows):
    """Tests that the label of each row is the ranks that end there or pass a row below. The root has all covered ranks.

    >>> rows = [{'depth': 0, 'ends': '0:[]', 'label': '3:[0-2]'}, {'depth': 1, 'ends': '1:[1]', 'label': '2:[0-1]'}]
    >>> test_labels(rows + [{'depth': 2, 'ends': '1:[0]', 'label': '1:[0]'}])
    >>> test_labels(rows)
    Traceback (most recent call last):
    ValueError: row 1 of the tree has other ranks than are below it
    """
    below = {}  # by depth, the runs of the rows that no row above has taken yet
    for i, row in reversed(list(enumerate(rows))):
        parts = runs(row['ends']) + below.pop(row['depth'] + 1, [])
        if i and set_text(parts) != row['label']:
            raise ValueError('row %d of the tree has other ranks than are below it' % i)
        below.setdefault(row['depth'], []).extend(runs(row['label']))


def test_release(release):
    """Tests a release: its sets, its tree, its classes, and that tree and classes say the same of each path."""
    test_fields(release, RELEASE, 'a release')
    test_classes(release)
    if not release['tree']:
        raise ValueError('a release without a tree')
    ends, seen = tree_ends(release['tree']), {}
    for found in release['classes']:
        for path in found['paths']:
            seen.setdefault(path, []).extend(runs(found['ranks']))
    test_labels(release['tree'])
    if {path: set_text(parts) for path, parts in seen.items()} != ends or release['tree'][0]['label'] != release['covered']:
        raise ValueError('the classes and the tree disagree')


def report_in(text):
    """The report in the bytes of a text.

    >>> report_in(b'stream 0 wave 0 release 1 final')
    Traceback (most recent call last):
    ValueError: this is a report as text: make one with --report json
    >>> report_in(b'{"faults":[],"releases":[]}')
    Traceback (most recent call last):
    ValueError: the report has no release
    """
    if not text.strip():
        raise ValueError('the report is empty')
    if text.startswith(b'stream '):
        raise ValueError('this is a report as text: make one with --report json')
    try:
        report = json.loads(text.decode('utf-8'))
        json.dumps(report, ensure_ascii=False).encode('utf-8')
    except (ValueError, RecursionError) as error:
        raise ValueError('this is not JSON: %s' % error)
    test_fields(report, REPORT, 'a report')
    if not report['releases']:
        raise ValueError('the report has no release')
    for fault in report['faults']:
        test_fields(fault, FAULT, 'a fault')
    for release in report['releases']:
        test_release(release)
    return report


def read_report(name):
    """The report in a file, or in standard input where the name is `-`. The program ends where there is none."""
    try:
        if name == '-':
            return report_in(sys.stdin.buffer.read())
        with open(name, 'rb') as file:
            return report_in(file.read())
    except OSError as error:
        stop('cannot read %s: %s' % (name, error.strerror))
    except ValueError as error:
        stop('%s: %s' % ('standard input' if name == '-' else name, error))


def chosen(report, stream, wave):
    """The final release of a wave of a stream. Where neither is given, a report with one final release has no other.

    >>> releases = [{'kind': kind, 'stream': 0, 'wave': wave} for kind, wave in (('partial', 0), ('final', 0), ('final', 1))]
    >>> chosen({'releases': releases}, None, 1) == releases[2]
    True
    >>> chosen({'releases': releases[:2]}, None, None) == releases[1]
    True
    """
    finals = [release for release in report['releases'] if release['kind'] == 'final']
    fitting = [release for release in finals if stream in (None, release['stream']) and wave in (None, release['wave'])]
    if len(fitting) == 1:
        return fitting[0]
    there = ', '.join('--stream %d --wave %d' % (release['stream'], release['wave']) for release in finals)
    stop('%s there is %s' % ('which release?' if fitting else 'no such final release;', there or 'none'))


def add_choice(parser):
    """The arguments of a view that shows one release."""
    parser.add_argument('report', nargs='?', default='-', metavar='REPORT.json', help='standard input where it is left out')
    parser.add_argument('--stream', type=int, metavar='S', help='the final release of stream S')
    parser.add_argument('--wave', type=int, metavar='W', help='the final release of wave W')


def put(text):
    """Writes a view to standard output, in UTF-8 whatever the locale is."""
    try:
        sys.stdout.buffer.write(text.encode('utf-8'))
        sys.stdout.buffer.flush()
    except OSError as error:
        os.dup2(os.open(os.devnull, os.O_WRONLY), 1)  # what could not be written is not tried again at the end
        stop('cannot write the view: %s' % error.strerror)
