#!/usr/bin/env python3
"""Samples core files, as sample.py does running processes, into the file FOLDER/hosts/cores.

    cores.py CORE .. FOLDER

A core file's rank is what its launcher told the process: it is in the environment, which the core has. A file in which no
rank is found, or two, is named on standard error, and left out; RANK:CORE in place of CORE says it. Where a file was left
out the status is 1. stat-job starts it with --cores; by hand:

    mkdir -p hung.d && cores.py core.* 7:core.4711 hung.d && fold.py hung.d hung
"""
import concurrent.futures
import mmap
import os
import re
import sys
import time

import command_line
import processes
import sample

NAMES = sorted({name for rank, sizes in processes.LAUNCHERS for name in (rank,) + sizes})
VARIABLE = re.compile(('\\0(%s)=([0-9]{1,9})(?=\\0)' % '|'.join(NAMES)).encode('ascii'))


def told_by(memory):
    """The rank that a process was told and the size of its job, by what its memory has; None where it isn't clear.

    >>> told_by(b'..\\0PMI_RANK=7\\0PMI_SIZE=16\\0SLURM_PROCID=0\\0')
    (7, 16)
    >>> told_by(b'\\0PMI_RANK=7\\0\\0PMI_RANK=8\\0'), told_by(b'')
    (None, None)
    """
    found = {}
    for one in VARIABLE.finditer(memory):
        found.setdefault(one.group(1).decode('ascii'), set()).add(one.group(2).decode('ascii'))
    nearest = next((found[rank] for rank, _ in processes.LAUNCHERS if rank in found), set())
    if len(nearest) != 1:
        return None
    return processes.told({name: min(values) for name, values in found.items()})[:2]


def rank_of(word):
    """The rank, the size and the file of a word of the command line."""
    given = re.match(r'^(\d+):(.*)$', word)
    name = given[2] if given else word
    with open(name, 'rb') as file, mmap.mmap(file.fileno(), 0, access=mmap.ACCESS_READ) as memory:
        found = told_by(memory)
    if given:
        return int(given[1]), found[1] if found else 0, name
    return (found[0], found[1], name) if found else None


def printed(name, asked, until):
    """What eu-stack prints of a core, or why there is nothing; and the process' number. Nothing goes on after `until`."""
    limit = min(asked.each, until - time.monotonic())
    if limit <= 0:
        return 0, ' (no time was left)', ''
    command = ['eu-stack', '-n', '0', '-m', '-b'] + (['-i', '-s'] if asked.lines else []) + ['--core', name]
    try:
        found = sample.ended(command, limit)
    except OSError as error:
        return 0, ' (eu-stack: %s)' % error.strerror, ''
    if found is None:
        return 0, ' (eu-stack took over %.0f s)' % limit, ''
    pid = re.match(r'PID (\d+) ', found[0])
    if not pid or 'TID %s:\n#0 ' % pid[1] not in found[0]:
        return 0, ' (%s)' % sample.complaint(found[1], 0), ''
    return int(pid[1]), '', found[0]


def word_of(name):
    """A file's name as one word."""
    return re.sub(r'\s', '?', os.path.abspath(name))


def ranks_of(names):
    """The files of each rank, the size of the job, and how many files have no rank; says which."""
    files, size, left_out = {}, 0, 0
    for word in names:
        why = 'no rank is in it, or two are: RANK:%s says it' % word
        try:
            found = rank_of(word)
        except (OSError, ValueError) as error:
            found, why = None, 'cannot be read: %s' % (getattr(error, 'strerror', None) or 'it is empty')
        if found is None:
            print('cores.py: %s: %s' % (word, why), file=sys.stderr)
            left_out += 1
            continue
        files.setdefault(found[0], []).append(found[2])
        size = max(size, found[1])
    return files, size, left_out


def write(out, files, size, asked):
    """Writes the stacks of all files."""
    single = {rank: names[0] for rank, names in sorted(files.items()) if len(names) == 1}
    out.write('== host cores size %d mpi 0 by core others 0 job \n' % size)
    for rank in sorted(set(files) - set(single)):
        for name in files[rank]:
            out.write('== rank %d pid 0 of %s time 0 (two processes of this rank)\n' % (rank, word_of(name)))
    until = time.monotonic() + asked.all
    with concurrent.futures.ThreadPoolExecutor(len(os.sched_getaffinity(0))) as pool:
        for rank, (pid, why, text) in zip(single, pool.map(lambda name: printed(name, asked, until), single.values())):
            out.write('== rank %d pid %d of %s time 0%s\n%s' % (rank, pid, word_of(single[rank]), why, text))
    out.write('\n== end\n')


def main():
    parser = command_line.Parser(__doc__)
    sample.add_options(parser)
    parser.add_argument('cores', metavar='CORE', nargs='+')
    parser.add_argument('folder', metavar='FOLDER')
    asked = sample.options(parser)
    if not os.path.isdir(asked.folder):
        sample.stop('no folder ' + asked.folder)
    files, size, left_out = ranks_of(asked.cores)
    try:
        os.makedirs(os.path.join(asked.folder, 'hosts'), exist_ok=True)
        out, part, whole = sample.opened(os.path.join(asked.folder, 'hosts'), 'cores')
        with out:
            write(out, files, size, asked)
        os.rename(part, whole)
    except OSError as why:
        sample.stop('%s: %s' % (why.filename or asked.folder, why.strerror))
    sys.exit(left_out > 0)


if __name__ == '__main__':
    main()
