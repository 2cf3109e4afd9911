#!/usr/bin/env python3
"""A report as folded stacks, which flame graphs and speedscope read.

    folded.py [--stream S --wave W] [REPORT.json] > report.folded

A line is a path and a count: FRAME;FRAME;.. COUNT, where COUNT ranks were seen in just this path. A rank that was seen in
several paths is counted in each. Ranks without a stack and ranks that are missing have lines of their own, so that none
is left out unseen.
"""
import argparse

from report import add_choice, chosen, count, put, read_report, tree_ends


def lines(release):
    """The lines of a release.

    >>> tree = [{'depth': 0, 'ends': '0:[]', 'frame': '/', 'label': '4:[0-3]'},
    ...         {'depth': 1, 'ends': '2:[0-1]', 'frame': 'main', 'label': '3:[0-2]'},
    ...         {'depth': 2, 'ends': '2:[1-2]', 'frame': 'poll', 'label': '2:[1-2]'}]
    >>> classes = [{'paths': [], 'ranks': '1:[3]'}]
    >>> missing = [{'daemon': 'n3:0', 'ranks': '8:[4-11]', 'state': 'lost'}]
    >>> list(lines({'tree': tree, 'classes': classes, 'missing': missing}))
    ['main 2', 'main;poll 2', '(no stack) 1', '(missing: n3:0 is lost) 8']
    """
    for path, ranks in tree_ends(release['tree']).items():
        yield '%s %d' % (path, count(ranks))
    for found in release['classes']:
        if not found['paths']:
            yield '(no stack) ' + str(count(found['ranks']))
    for missing in release['missing']:
        yield '(missing: %s is %s) %d' % (missing['daemon'], missing['state'], count(missing['ranks']))


def main():
    parser = argparse.ArgumentParser(description=__doc__, formatter_class=argparse.RawDescriptionHelpFormatter)
    add_choice(parser)
    asked = parser.parse_args()
    release = chosen(read_report(asked.report), asked.stream, asked.wave)
    put(''.join(line + '\n' for line in lines(release)))


if __name__ == '__main__':
    main()
