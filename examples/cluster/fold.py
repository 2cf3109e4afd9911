#!/usr/bin/env python3
"""Folds what sample.py gathered into the three files that `stat` reads.

    fold.py [OPTIONS] FOLDER OUT

For example, the ranks that a loop around MPI_Test parts are put together, and the classes are printed:

    fold.py --cut '^Comm::wait' hung.d hung
    ranktree direct --topology hung.top --samples hung.smp --script hung.scr

Written are OUT.top (a front end, and a daemon for each host), OUT.smp (which rank is where, and the stacks), OUT.scr (one
wave with all samples), and OUT.pids, with a line RANK HOST PID for each rank (of a core file, its name in place of PID).
The folder's files are read piece by piece.

Ranks that the job has, by its size, and that no host had, are seen in `(not found)`, below a daemon of that name; a rank
with two processes is seen in `(two processes of this rank)`. What is odd is said on standard error, too. Of a file that
has no end, what is whole is taken. Where no rank has a stack, nothing is written, and the status is 1. What can't be
read, or is none of sample.py's, ends with one line and status 2.
"""
import array
import collections
import os
import re
import sys

import command_line
import paths
import stacks

# What `stat` takes: docs/FORMATS.md.
RANKS, DAEMONS, PREFIXES, LINES, BYTES, TIMES = 1048576, 511, 2048, 262144, 33554432, 64
ADDRESS = re.compile(r'0x[0-9a-f]{9,}')
HOST = re.compile(r'[^A-Za-z0-9._-]')
HEAD = re.compile(r'^== host \S+ size (?P<size>\d{1,9}(?:,\d{1,9})*) mpi (?P<mpi>[01]) by (?P<by>\S+) '
                  r'others (?P<others>\d{1,9}) job (?P<job>.*)$', re.ASCII)
RECORD = re.compile(r'^rank (\d{1,18}) pid (\d{1,18})(?: of (\S+))? time (\d{1,18})(?: (\(.*\)))?$', re.ASCII)
TWO, NOT_FOUND, NO_STACK = '(two processes of this rank)', '(not found)', '(no stack)'
PIECE, KNOWN = 1 << 20, 1 << 14  # bytes that are read at once; texts whose paths are kept


class Refused(Exception):
    """Why nothing was folded, and the status that says so: 2 where what was gathered, or what was asked for, is no good."""

    def __init__(self, why, status=1):
        Exception.__init__(self, why)
        self.status = status


def refuse(why, status=1):
    """Ends the fold."""
    raise Refused(why, status)


def add_options(parser):
    """The options of folding, which stat-job has, too."""
    parser.add_argument('--cut', type=command_line.expression, action='append', default=[], metavar='REGEX',
                        help="end stacks at calls that REGEX finds, too, and not at MPI's alone; any number of times")
    parser.add_argument('--whole', action='store_true', help='keep stacks whole')
    parser.add_argument('--threads', action='store_true',
                        help="the threads that run the program's own code, too, as OpenMP's, and not the first alone")
    parser.add_argument('--depth', type=command_line.number(int, 1, paths.FRAMES), default=0, metavar='D',
                        help='at most D frames of each path, 1 to 128 (all, and both ends where there are more than 128)')


def choice(asked):
    """How stacks become paths, by what was asked for."""
    cut = None if asked.whole else re.compile('|'.join('(?:%s)' % text for text in [paths.CUT] + asked.cut))
    return paths.Choice(cut, asked.lines)


def pieces(file):
    """The parts of a host's file behind its first line that `== ` begins, each with the number of its line. Empty ones are
    left out, but at the end: there the last part is given as it is, so that the reader knows how the file ends.

    >>> import io
    >>> list(pieces(io.StringIO('== rank 0 pid 7 time 0\\nx\\n== rank 1 pid 8 time 0\\n== end\\n')))
    [(2, 'rank 0 pid 7 time 0\\nx'), (4, 'rank 1 pid 8 time 0'), (5, 'end\\n')]
    """
    rest, number = '\n', 1
    for block in iter(lambda: file.read(PIECE), ''):
        *whole, rest = (rest + block).split('\n== ')
        for part in whole:
            if part.strip():
                yield number, part
            number += 1 + part.count('\n')
    yield number, rest


def heads_of(folder):
    """What the first line of each host's file says; None where that is none of sample.py's, or isn't whole.

    A file that isn't whole, whose name begins with a dot, has what its host could write before it was ended.
    """
    found, names = {}, set(os.listdir(folder))
    for name in sorted(names):
        if name.startswith('.') and (name[1:] in names or name.startswith('.nfs')):
            continue
        with open(os.path.join(folder, name), encoding='utf-8', errors='replace') as file:
            found[name] = HEAD.match(file.readline().rstrip('\n'))
    return found


def ranges(numbers):
    """Ranks as the readers take them.

    >>> ranges([6, 0, 1, 2, 7, 4, 1])
    '0-2,4,6-7'
    """
    runs = []
    for number in sorted(set(numbers)):
        if runs and runs[-1][1] == number - 1:
            runs[-1][1] = number
        else:
            runs.append([number, number])
    return ','.join('%d' % a if a == b else '%d-%d' % (a, b) for a, b in runs)


def those_that_count(heads):
    """The hosts with ranks. Where some have MPI, one without counts only if its ranks were told in the same way.

    Else a launcher's daemons are there alone, whose numbers are no ranks.

    >>> head = HEAD.match('== host n1 size 16 mpi 1 by PMI_RANK others 0 job ')
    >>> daemon = HEAD.match('== host n2 size 4 mpi 0 by SLURM_PROCID others 0 job ')
    >>> sorted(those_that_count({'n1': head, 'n2': daemon, 'n3': None})), sorted(those_that_count({'n2': daemon}))
    (['n1'], ['n2'])
    """
    there = {name: head for name, head in heads.items() if head}
    ways = {head.group('by', 'size', 'job') for head in there.values() if head['mpi'] == '1'}
    return {name: head for name, head in there.items() if not ways or head.group('by', 'size', 'job') in ways}


def one_job(heads):
    """The size of the job that the hosts' first lines are about. More than one job is refused.

    >>> head = '== host n1 size 16 mpi 1 by PMI_RANK others 0 job SLURM_JOB_ID=8'
    >>> one_job([HEAD.match(head), HEAD.match(head.replace('16', '0').replace('SLURM_JOB_ID=8', ''))])
    16
    """
    sizes = {int(size) for head in heads for size in head['size'].split(',')} - {0}
    jobs = {job for head in heads for job in head['job'].split(',')} - {''}
    if len(jobs) > 1:
        refuse('more than one job; one of them is chosen by --where ' + ' or --where '.join(sorted(jobs)[:8]))
    if len(sizes) > 1:
        refuse('more than one job, of %s ranks: --exe or --where says which' % ', '.join(map(str, sorted(sizes))))
    return max(sizes, default=0)


def few(names):
    """Some names, and how many more there are.

    >>> few(['n%d' % i for i in range(1, 4)]), few(['n%d' % i for i in range(1000)])
    ('n1 n2 n3', 'n0 n1 n2 n3 n4 n5 n6 n7 and 992 more')
    """
    return ' '.join(names[:8]) + (' and %d more' % (len(names) - 8) if len(names) > 8 else '')


def some(numbers):
    """Ranks in a line that can be read: where they are many runs, the first of these, and how many there are in all.

    >>> some([0, 1, 2, 7]), some(range(0, 2000, 2))
    ('0-2,7', '0,2,4,6,8,10,12,14,16,18,20,22,24,26,28,30, .. (1000 ranks)')
    """
    items = ranges(numbers).split(',')
    return ','.join(items) if len(items) <= 32 else ','.join(items[:16]) + ', .. (%d ranks)' % len(set(numbers))


class Fold:
    """What the files of the hosts say, put together."""

    def __init__(self, asked):
        self.asked, self.choice = asked, choice(asked)
        self.home, self.two = {}, {}  # a rank's host and process; the ranks of which there are two, and where
        self.seen = collections.defaultdict(lambda: array.array('I'))  # the ranks of each time and path
        self.odd = collections.defaultdict(set)  # the ranks of each remark
        self.known, self.names = {}, {}  # the paths of texts; each path once
        self.size, self.times, self.too_long = 0, 1, set()
        self.hosts, self.without, self.broken, self.others = set(), [], [], 0

    def paths(self, text, pid, rank):
        """The paths of what was printed of a rank's process."""
        first = '' if self.asked.threads else stacks.first_thread(text, pid)
        key = ADDRESS.sub('', first) or text  # without addresses the text of many processes is the same
        if key not in self.known:
            if len(self.known) >= KNOWN:
                self.known.clear()
            all_stacks = [stacks.eu_stack(first.split('\n'))] if first else stacks.stacks(text, pid)
            self.known[key] = self.joined(paths.paths(all_stacks, self.choice, self.asked.threads))
        found, was_long = self.known[key]
        if was_long:
            self.too_long.add(rank)
        return found

    def joined(self, found):
        """The texts of paths, no longer than asked for; and whether one had too many frames."""
        was_long = any(paths.LEFT_OUT in one for one in found)
        if self.asked.depth:
            found = [one[:self.asked.depth] for one in found]
        return [';'.join(one) for one in found if one], was_long

    def add(self, host, file_name, number, part):
        """Takes a record of a host's file, which begins at a line."""
        head, _, text = part.partition('\n')
        words = RECORD.match(head) or refuse('%s: line %d: not a record: %.60s' % (file_name, number, head), 2)
        rank, pid, when = int(words[1]), int(words[2]), int(words[4])
        if rank >= RANKS or when >= TIMES:
            refuse('%s: line %d: rank %d at time %d, and stat takes ranks below %d and times below %d'
                   % (file_name, number, rank, when, RANKS, TIMES), 2)
        if self.is_placed(rank, (host, words[3] or words[2]), words[5] == TWO):
            found = self.paths(text, pid, rank) if text.strip() else []
            self.take(rank, when, found, words[5] or '')

    def is_placed(self, rank, where, are_two=False):
        """Gives a rank its place, a host and a process; whether it is the only one."""
        place = self.home.setdefault(rank, where)
        if place != where or are_two:
            self.two.setdefault(rank, set()).update([place, where])
        return rank not in self.two

    def both(self, rank):
        """The hosts and processes of a rank of which there are two."""
        return ' and '.join(sorted('%s %s' % where for where in self.two[rank]))

    def take(self, rank, when, found, why):
        """Takes the paths that a rank was seen in at a time, and what is odd about them."""
        if why:
            why = paths.text_of_frame(why)
            self.odd[why].add(rank)
            frames = paths.both_ends(found[0].split(';'), paths.FRAMES - 1) if found else []
            found = [';'.join(frames + [why])] + found[1:]
        self.times = max(self.times, when + 1)
        for one in found or [NO_STACK]:
            self.seen[when, self.names.setdefault(one, one)].append(rank)

    def read(self, folder):
        """Takes the files of all hosts that count."""
        heads = heads_of(folder)
        self.broken = [name.lstrip('.') for name, head in heads.items() if head is None]
        self.others = sum(int(head['others']) for head in heads.values() if head)
        counting = those_that_count(heads)
        self.size = one_job(list(counting.values()))
        if self.size > RANKS:
            refuse('the job has %d ranks, and stat takes ranks below %d' % (self.size, RANKS))
        for name, head in sorted(heads.items()):
            if head:
                host = host_of(name.lstrip('.'), self.hosts)
                (self.hosts.add if name in counting and self.has_ranks(folder, name, host) else self.without.append)(host)

    def has_ranks(self, folder, name, host):
        """Takes a host's file. What stands last in one that was cut off may be in part, and isn't taken."""
        last, count, file_name = '', 0, os.path.join(folder, name)
        with open(file_name, encoding='utf-8', errors='replace', newline='\n') as file:
            file.readline()
            for number, part in pieces(file):
                if last:
                    self.add(host, file_name, *last)
                    count += 1
                last = number, part
        if last[1].strip() != 'end' or name.startswith('.'):
            self.broken.append(name.lstrip('.'))
        return count > 0

    def settle(self):
        """Puts the ranks that nobody found, and those of which there are two, where the report shows them."""
        if self.two:
            for key, ranks in self.seen.items():
                self.seen[key] = array.array('I', (rank for rank in ranks if rank not in self.two))
            self.seen[0, TWO].extend(sorted(self.two))
        gone = set(range(max(self.size, max(self.home, default=0) + 1))) - set(self.home)
        if gone:
            self.seen[0, NOT_FOUND].extend(sorted(gone))
        return gone


def host_of(name, taken):
    """A host's name as a topology takes it, and no other host's.

    >>> host_of('größe-1.x_y', set()), host_of('n' * 80, {'n' * 63})[-5:]
    ('gr__e-1.x_y', 'nnn_2')
    """
    name, number = HOST.sub('_', name), 1
    own = name[:63]
    while own in taken:
        number += 1
        own = name[:63 - len('_%d' % number)] + '_%d' % number
    return own


def daemons(home, gone):
    """The ranks of each daemon: a host's; where there are more hosts than a topology takes, those of several.

    >>> daemons({0: ('a', '7'), 1: ('b', '8'), 2: ('a', '9')}, {3})
    {'a': [0, 2], 'b': [1], 'not-found': [3]}
    >>> many = daemons({rank: ('n%04d' % rank, '7') for rank in range(1000)}, set())
    >>> len(many), many['n0002']
    (500, [2, 3])
    """
    hosts = sorted({host for host, _ in home.values()})
    step = -(-len(hosts) // (DAEMONS - 1))
    first = {host: hosts[i - i % step] for i, host in enumerate(hosts)}
    found = collections.OrderedDict()
    for rank in sorted(home):
        found.setdefault(first[home[rank][0]], []).append(rank)
    found = dict(sorted(found.items()))
    if gone:
        name = 'not-found'
        while name in found:
            name += '_'
        found[name] = sorted(gone)
    return found


def depth_that_fits(all_paths):
    """The most frames of each path with which there are no more prefixes than `stat` takes; 0 where all fit.

    >>> depth_that_fits(['a;b', 'a;c']), depth_that_fits(['a;b%d;c' % i for i in range(1500)])
    (0, 2)
    """
    prefixes = collections.defaultdict(set)
    for text in all_paths:
        frames = text.split(';')
        for i in range(len(frames)):
            prefixes[i + 1].add(hash(tuple(frames[:i + 1])))
    total = 0
    for depth in sorted(prefixes):
        total += len(prefixes[depth])
        if total > PREFIXES:
            return max(1, depth - 1)
    return 0


def shortened(seen, depth):
    """The ranks of each time and path, with paths of at most `depth` frames; remarks in brackets stay at their ends."""
    found = collections.defaultdict(lambda: array.array('I'))
    for (when, text), ranks in seen.items():
        frames = text.split(';')
        if len(frames) > depth and paths.is_remark(frames[-1]):
            frames[depth - 1:] = frames[-1:]
        found[when, ';'.join(frames[:depth])].extend(ranks)
    return found


def fitted(seen):
    """What was seen, with paths that end where there would be more prefixes than `stat` takes; and where that is, or 0."""
    least = 0
    while True:
        depth = depth_that_fits({text for _, text in seen})
        if not depth:
            return seen, least
        if depth == least == 1:
            refuse('more than %d paths that have no frame in common: stat takes no more' % PREFIXES)
        seen, least = shortened(seen, depth), depth


def write(found, gone, out):
    """Writes the four files, if they are such as `stat` takes."""
    places = daemons(found.home, gone)
    front = 'front'
    while front in places:
        front += '_'
    samples = ['daemon %s:0 %s\n' % (name, ranges(ranks)) for name, ranks in places.items()]
    samples += ['stack %d %s %s\n' % (when, ranges(ranks), text) for (when, text), ranks in sorted(found.seen.items()) if ranks]
    size = sum(len(line.encode('utf-8')) for line in samples)
    if size > BYTES:
        refuse('%s.smp would have %d bytes, and stat takes %d: fewer samples, or --cut' % (out, size, BYTES))
    with open(out + '.top', 'w', encoding='utf-8') as top:
        top.write('%s:0 =>\n%s  ;\n' % (front, ''.join('  %s:0\n' % name for name in places)))
    with open(out + '.smp', 'w', encoding='utf-8') as smp:
        smp.writelines(samples)
    with open(out + '.scr', 'w', encoding='utf-8') as scr:
        scr.write('stream 0 wait-for-all waves 1 samples %d on all\n' % found.times)
    with open(out + '.pids', 'w', encoding='utf-8') as pids:
        pids.writelines('%d %s %s\n' % (rank, host, pid) for rank, (host, pid) in sorted(found.home.items()))


def remarks(found, gone):
    """What is to be known of what was gathered, line by line."""
    counts = len(found.home), len(found.hosts), found.times, len(found.seen)
    yield ', '.join(['%d rank%s on %d host%s', '%d sample%s', '%d stack%s']) % tuple(
        part for number in counts for part in (number, 's' * (number != 1)))
    if gone:
        yield 'not found, of %d: %s' % (max(found.size, max(found.home) + 1), some(gone))
    if not found.size:
        yield "the job's size isn't known: ranks above %d would be missing without a word" % max(found.home)
    beyond = [rank for rank in found.home if 0 < found.size <= rank]
    if beyond:
        yield 'the job has %d ranks, by their environment or by --size, and these are above: %s' % (found.size, some(beyond))
    for rank in sorted(found.two)[:10]:
        yield 'two processes of rank %d: %s' % (rank, found.both(rank))
    if len(found.two) > 10:
        yield 'two processes of ranks ' + some(found.two)
    for why, ranks in sorted(found.odd.items()):
        yield '%s: %s' % (why, some(ranks))
    if found.too_long:
        yield 'over 128 frames, of which both ends were kept: %s' % some(found.too_long)
    if found.broken:
        yield 'began and did not end: %s' % few(found.broken)
    if found.without:
        yield 'no rank on %s' % few(found.without)


def finish(found, out):
    """Writes the files of what was read, and returns what is to be known of it, line by line."""
    if not found.home:
        more = ['began and did not end: ' + few(found.broken)] * bool(found.broken)
        more += ['%d processes have a rank and were not asked for' % found.others] * bool(found.others)
        refuse('; '.join(['no rank was found'] + more))
    gone = found.settle()
    if all(paths.is_remark(text) and ';' not in text for (_, text), ranks in found.seen.items() if ranks):
        why = sorted({text for (_, text), ranks in found.seen.items() if ranks} - {NOT_FOUND})
        why += ['rank %d is %s' % (rank, found.both(rank)) for rank in sorted(found.two)[:1]]
        refuse('none of %d ranks has a stack: %s' % (len(found.home), ', '.join(why)))
    said = list(remarks(found, gone))
    found.seen, depth = fitted(found.seen)
    if depth:
        said.append('more than %d prefixes: paths end at frame %d; --cut says what to cut instead' % (PREFIXES, depth))
    if len(found.seen) > LINES:
        refuse('%d stacks, and stat takes %d: fewer samples, or --cut' % (len(found.seen), LINES))
    try:
        write(found, gone, out)
    except OSError as error:
        refuse('%s: cannot be written: %s' % (error.filename or out, error.strerror), 2)
    return said


def fold(folder, out, asked):
    """Folds a folder. What is to be known of it, line by line, and whether each rank was found once, on hosts that ended."""
    found = Fold(asked)
    try:
        found.read(os.path.join(folder, 'hosts'))
    except OSError as error:
        refuse('%s: cannot be read: %s' % (error.filename, error.strerror), 2)
    said = finish(found, out)
    return said, not (found.two or found.broken or any(text == NOT_FOUND for _, text in found.seen))


def main():
    parser = command_line.Parser(__doc__)
    add_options(parser)
    parser.add_argument('--lines', action='store_true', help='keep the numbers of lines, where they were sampled')
    parser.add_argument('folder', metavar='FOLDER')
    parser.add_argument('out', metavar='OUT')
    asked = parser.parse_args()
    try:
        print('\n'.join(fold(asked.folder, asked.out, asked)[0]), file=sys.stderr)
    except Refused as why:
        print('fold.py: %s' % why, file=sys.stderr)
        sys.exit(why.status)


if __name__ == '__main__':
    main()
