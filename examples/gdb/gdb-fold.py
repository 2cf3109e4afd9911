#!/usr/bin/env python3
"""Folds the backtraces of many processes into the three files that `stat` reads.

    gdb-fold.py [OPTIONS] FOLDER OUT

For example, of a job of 8 ranks, whose samples are in /tmp/bt:

    ./gdb-fold.py --size 8 /tmp/bt /tmp/job

FOLDER has a file FOLDER/HOST/RANK.TIME for each sample: what gdb printed, or a line `why REASON` where it printed no stack
(gdb-sample.sh writes them). Written are OUT.top, OUT.smp, OUT.scr and OUT.pids. How stacks become paths, and what is said of
ranks that are missing, is that of ../cluster/fold.py. What the processes don't tell is how many ranks there are: without --size
ranks above the greatest that was sampled are missing without a word.

With --folded the files have folded stacks in place of gdb's text: a line FRAME;FRAME;.. COUNT for each, root first, as the
stackcollapse scripts write them. The count is taken off.

Where no rank has a stack the status is 1. What can't be read, or has no such name, ends with one line and status 2.
"""
import os
import re
import sys

sys.dont_write_bytecode = True
sys.path.insert(0, os.path.join(os.path.dirname(os.path.abspath(__file__)), '../cluster'))

import command_line
import fold
import paths
import stacks


def folded_stacks(text):
    """The stacks in folded text.

    >>> [[frame.name for frame in stack] for stack in folded_stacks('main;f (x);poll 17\\n')]
    [['main', 'f (x)', 'poll']]
    """
    lines = [re.sub(r'\s+\d+\s*$', '', line) for line in text.splitlines() if line.strip()]
    return [[stacks.Frame(name, '', '', '', '') for name in line.split(';')] for line in lines]


def rank_and_time(name, file):
    """The rank and the time that a sample's name says.

    >>> rank_and_time('417.2', ''), rank_and_time('0.0', '')
    ((417, 2), (0, 0))
    >>> rank_and_time('417.64', 'bt/n1/417.64')
    Traceback (most recent call last):
    fold.Refused: bt/n1/417.64: line 1: the name is not RANK.TIME, with a rank below 1048576 and a time below 64
    """
    parts = re.match(r'([0-9]{1,7})\.([0-9]{1,2})$', name)
    if not parts or int(parts[1]) >= fold.RANKS or int(parts[2]) >= fold.TIMES:
        fold.refuse('%s: line 1: the name is not RANK.TIME, with a rank below %d and a time below %d'
                    % (file, fold.RANKS, fold.TIMES), 2)
    return int(parts[1]), int(parts[2])


def files(folder):
    """Each sample's host, as a topology names it, rank, time and text."""
    taken = set()
    for host in sorted(os.listdir(folder)):
        own = fold.host_of(host, taken)
        taken.add(own)
        for name in sorted(os.listdir(os.path.join(folder, host))):
            sample = os.path.join(folder, host, name)
            rank, when = rank_and_time(name, sample)
            with open(sample, encoding='utf-8', errors='replace') as file:
                yield own, rank, when, file.read()


def paths_of(found, text, rank, is_folded):
    """The paths in a sample's text."""
    if not is_folded:
        return found.paths(text, 0, rank)
    here, was_long = found.joined([paths.path(one, found.choice) for one in folded_stacks(text)])
    if was_long:
        found.too_long.add(rank)
    return here


def read(asked):
    """What the folder has."""
    found = fold.Fold(asked)
    found.size = asked.size
    for host, rank, when, text in files(asked.folder):
        found.hosts.add(host)
        if found.is_placed(rank, (host, '0')):
            why = re.search(r'^why (.*)$', text, re.M)
            found.take(rank, when, paths_of(found, text, rank, asked.folded), '(%s)' % why[1] if why else '')
    return found


def main():
    parser = command_line.Parser(__doc__)
    fold.add_options(parser)
    parser.add_argument('--folded', action='store_true', help='the files have folded stacks')
    parser.add_argument('--size', type=command_line.number(int, 1, fold.RANKS), default=0, metavar='N',
                        help='the job has N ranks, 0 to N - 1: those without a sample are in `(not found)`')
    parser.add_argument('folder', metavar='FOLDER')
    parser.add_argument('out', metavar='OUT')
    asked = parser.parse_args()
    asked.lines = False
    try:
        print('\n'.join(fold.finish(read(asked), asked.out)), file=sys.stderr)
    except fold.Refused as why:
        print('gdb-fold.py: %s' % why, file=sys.stderr)
        sys.exit(why.status)
    except OSError as why:
        print('gdb-fold.py: %s: cannot be read: %s' % (why.filename, why.strerror), file=sys.stderr)
        sys.exit(2)


if __name__ == '__main__':
    main()
