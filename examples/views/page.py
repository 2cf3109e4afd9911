#!/usr/bin/env python3
"""A report as one page that needs nothing else: no other file, and no network.

    page.py [--pids JOB.pids | --samples JOB.smp] [REPORT.json] > report.html

The classes stand first, the smallest on top, then the hosts and the tree. What is typed above them picks ranks (417 or
3,10-12), a class, a host or functions by a part of their name; report.html#417 does so at once.

Where the ranks are: --pids has a line RANK HOST PID for each rank, as stat-job leaves it; --samples is the samples file of the
report, whose `daemon` lines name the hosts. Without either there are no hosts.
"""
import argparse
import json
import os

from report import count, joined, put, read_report, runs, set_text, stop

PAGE = os.path.join(os.path.dirname(os.path.abspath(__file__)), 'page.html')


def hosts_of_pids(lines):
    """The hosts in lines RANK HOST PID, where the name of a core file may stand in the place of PID.

    >>> hosts_of_pids(['0 n1 71', '2 n1 73', '1 n2 core 1']) == [{'name': 'n1', 'ranks': '2:[0,2]', 'pids': ['71', '73']},
    ...                                                          {'name': 'n2', 'ranks': '1:[1]', 'pids': ['core 1']}]
    True
    >>> hosts_of_pids(['0 n1'])
    Traceback (most recent call last):
    ValueError: line 1 is not RANK HOST PID
    """
    there, ranks = {}, set()
    for number, line in enumerate(lines, 1):
        words = line.strip().split(None, 2)
        if len(words) != 3 or not words[0].isdecimal():
            raise ValueError('line %d is not RANK HOST PID' % number)
        if int(words[0]) in ranks:
            raise ValueError('line %d has rank %s once more' % (number, words[0]))
        ranks.add(int(words[0]))
        there.setdefault(words[1], []).append((int(words[0]), words[2]))
    return [{'name': name, 'ranks': set_text((rank, rank) for rank, _ in pairs), 'pids': [pid for _, pid in sorted(pairs)]}
            for name, pairs in sorted(there.items())]


def hosts_of_samples(lines):
    """The hosts in the `daemon` lines of samples.

    >>> hosts_of_samples(['daemon n1:0 0-3', '# a remark', 'daemon n1:1 8,9', 'stack 0 0 main']) == [
    ...     {'name': 'n1', 'ranks': '6:[0-3,8-9]'}]
    True
    >>> hosts_of_samples(['daemon n1:0'])
    Traceback (most recent call last):
    ValueError: line 1 is no good `daemon` line
    """
    there = {}
    for number, line in enumerate(lines, 1):
        words = line.split()
        if words[:1] != ['daemon']:
            continue
        pairs = [item.partition('-') for item in words[-1].split(',')]
        if len(words) != 3 or not all(first.isdecimal() and (last or first).isdecimal() for first, _, last in pairs):
            raise ValueError('line %d is no good `daemon` line' % number)
        there.setdefault(words[1].rpartition(':')[0], []).extend((int(first), int(last or first)) for first, _, last in pairs)
    return [{'name': name, 'ranks': set_text(parts)} for name, parts in sorted(there.items())]


def read_hosts(name, read, releases):
    """The hosts that a file names. The program ends where it isn't about the ranks of these releases."""
    try:
        with open(name, encoding='utf-8', errors='replace') as file:
            hosts = read(file)
        whole = joined(run for host in hosts for run in runs(host['ranks']))
    except OSError as error:
        stop('cannot read %s: %s' % (name, error.strerror))
    except ValueError as error:
        stop('%s: %s' % (name, error))
    covered = [run for release in releases for run in runs(release['covered'])]
    ranks = count(set_text(whole))
    if ranks + count(set_text(covered)) == count(set_text(whole + covered)):
        stop('%s has no rank of the report' % name)
    return hosts


def page(report, hosts, title, template):
    r"""The page of a report.

    >>> page({'faults': [], 'releases': []}, [], '</script>', '<script>@DATA@</script>')
    '<script>{"faults":[],"hosts":[],"releases":[],"title":"\\u003c/script>"}</script>'
    """
    data = {'faults': report['faults'], 'hosts': hosts, 'releases': report['releases'], 'title': title}
    text = json.dumps(data, ensure_ascii=False, separators=(',', ':'), sort_keys=True)
    return template.replace('@DATA@', text.replace('<', '\\u003c'))  # no name of a frame can end the script


def main():
    parser = argparse.ArgumentParser(description=__doc__, formatter_class=argparse.RawDescriptionHelpFormatter)
    parser.add_argument('report', nargs='?', default='-', metavar='REPORT.json', help='standard input where it is left out')
    where = parser.add_mutually_exclusive_group()
    where.add_argument('--pids', metavar='FILE', help='a line RANK HOST PID for each rank')
    where.add_argument('--samples', metavar='FILE', help='the samples file of the report')
    asked = parser.parse_args()
    report, hosts = read_report(asked.report), []
    if asked.pids:
        hosts = read_hosts(asked.pids, hosts_of_pids, report['releases'])
    if asked.samples:
        hosts = read_hosts(asked.samples, hosts_of_samples, report['releases'])
    with open(PAGE, encoding='utf-8') as file:
        template = file.read()
    title = '' if asked.report == '-' else os.path.splitext(os.path.basename(asked.report))[0]
    put(page(report, hosts, os.fsencode(title).decode('utf-8', 'replace'), template))


if __name__ == '__main__':
    main()
