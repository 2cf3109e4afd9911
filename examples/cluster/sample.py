#!/usr/bin/env python3
"""Samples the ranks that run on this host into the file FOLDER/hosts/HOST.

    sample.py [OPTIONS] FOLDER

stat-job starts it once on each host of a job, with one folder that all hosts share; fold.py reads that folder. By hand, on
one host:

    mkdir -p hung.d && sample.py --times 1 hung.d && fold.py hung.d hung

The file has what eu-stack (of elfutils) or gdb printed, as it is, so that stacks can be folded in one way and then in another:

    == host NAME size N mpi M by V others O job J
                                    the size and the name of the job, by the environment of its ranks; M is 1 where some
                                    have MPI; V told them their ranks; O processes have one, too, and were not asked for
    == rank R pid P time T (WHY)    what was printed follows; WHY is why there is no stack, or what is odd about it
    ==                              and a blank: what stands above is whole
    == end                          the last line: a file without it was cut off

A file whose name begins with a dot is not whole yet. Where FOLDER/options.json is, it has the options; those of the
command line go before it. FOLDER/started has a file for each machine, so that a second start on it samples nothing. Where two
machines have one name, the file of the second one is HOST_2.
"""
import concurrent.futures
import json
import os
import re
import shutil
import signal
import socket
import subprocess
import sys
import time

import command_line
import processes

GDB = ['gdb', '-nx', '-batch', '-ex', 'set print frame-arguments none', '-ex', 'set backtrace past-main on']
REFUSED = re.compile(r'not permitted|[Pp]ermission denied|[Nn]o such process')


def add_options(parser):
    """The options of sampling, which stat-job has, too."""
    parser.add_argument('--times', type=command_line.number(int, 1, 64), default=3, metavar='N',
                        help='samples of each rank (3; at most 64)')
    parser.add_argument('--pause', type=command_line.number(float, 0, 3600), default=0.5, metavar='SECONDS',
                        help='between two samples (0.5; at most 3600)')
    parser.add_argument('--each', type=command_line.number(float, 0.1, 86400), default=60, metavar='SECONDS',
                        help='the longest that the sampler may take for a process, after which it is ended (60)')
    parser.add_argument('--all', type=command_line.number(float, 1, 86400), default=600, metavar='SECONDS',
                        help='the longest that all samples of a host may take; what is left then is said (600)')
    parser.add_argument('--lines', action='store_true',
                        help='inlined functions and lines, too: wants programs built with -g, and takes longer')
    parser.add_argument('--gdb', action='store_true', help='gdb, though there is eu-stack: 30 to 60 times slower')
    parser.add_argument('--python', action='store_true',
                        help="programs in Python: their own calls, by gdb's py-bt; wants what package python3-dbg has")
    parser.add_argument('--exe', type=command_line.expression, metavar='REGEX',
                        help='only processes whose command has REGEX in it')
    parser.add_argument('--where', type=command_line.condition, action='append', default=[], metavar='VAR=VALUE',
                        help='only processes with this in their environment, as SLURM_STEP_ID=0; any number of times')


def ended(words, limit):
    """What a command prints, or None where it took too long: then it was ended for sure, and is not waited for."""
    child = subprocess.Popen(words, stdin=subprocess.DEVNULL, stdout=subprocess.PIPE, stderr=subprocess.PIPE,
                             start_new_session=True)
    try:
        return [text.decode('utf-8', 'replace') for text in child.communicate(timeout=limit)]
    except subprocess.TimeoutExpired:
        os.killpg(child.pid, signal.SIGKILL)
        try:
            child.communicate(timeout=5)
        except subprocess.TimeoutExpired:
            pass  # it waits in the kernel; no one has to wait for it
        return None


def complaint(text, pid):
    """Why a sampler printed no stack: the last line that it wrote on standard error, alike for all processes.

    >>> complaint('eu-stack: dwfl_linux_proc_attach pid 71: Operation not permitted\\n', 71)
    'eu-stack: Operation not permitted'
    >>> complaint('eu-stack: dwfl_thread_getframes tid 71 at 0x55f7 in /home/x: No DWARF information found\\n', 71)
    'eu-stack: No DWARF information found'
    >>> complaint('warning: x\\nCould not attach to process.\\nptrace: Operation not permitted.\\n\\n', 71)
    'ptrace: Operation not permitted'
    """
    lines = [line.strip().rstrip('.') for line in text.splitlines() if line.strip()]
    last = re.sub(r'dwfl_\w+ [pt]id \d+( at 0x[0-9a-f]+)?( in [^:]*)?: ', '', lines[-1]) if lines else 'no stack'
    return re.sub(r'\b%d\b' % pid, 'PID', last)[:200]


def waits_in_kernel(pid):
    """The kernel's function in which a thread waits where no debugger can stop it, or nothing. Short waits don't count."""
    there = set(processes.threads(pid))
    for look in range(3):
        time.sleep(0.1 if look else 0)
        there = {thread for thread in there if processes.state(pid, thread) == 'D'}
        if not there:
            return ''
    return processes.slurp('/proc/%d/task/%d/wchan' % (pid, min(there))).strip('0\n ') or 'unknown'


def samplers(asked, pid):
    """The commands that may print the stacks of a process, the first to be tried first."""
    lines = ['-i', '-s'] if asked.lines else []
    eu_stack = ['eu-stack', '-n', '0', '-m', '-b'] + lines + ['-p', str(pid)]
    gdb = GDB + ['-p', str(pid), '-ex', 'thread apply all bt'] + (['-ex', 'py-bt'] if asked.python else [])
    wanted = [gdb] if asked.gdb or asked.python else [eu_stack, gdb]
    return [words for words in wanted if shutil.which(words[0])]


def modules(pid):
    """Where the files of a process are mapped, for the frames that gdb has no name of."""
    found = {}
    for line in processes.slurp('/proc/%d/maps' % pid).splitlines():
        words = line.split(None, 5)
        if len(words) == 6 and words[5].startswith('/'):
            first, last = words[0].split('-')
            found[words[5]] = (found.get(words[5], (first,))[0], last)
    return ''.join('module %s-%s %s\n' % (first, last, name) for name, (first, last) in found.items())


def go_on(pid):
    """Lets a process go on whose sampler was ended: the stop that it asked for may come when it is there no more."""
    try:
        os.kill(pid, signal.SIGCONT)
    except OSError:
        pass


def oddity(was, words, found, pid):
    """What is odd about a stack, if anything is."""
    if was == 'T':
        return 'stopped by a signal'
    if 'tid %d at ' % pid in found[1]:  # eu-stack could not go on to main
        return complaint(found[1], pid)
    return 'no Python calls by py-bt' if 'py-bt' in words and '\n  File "' not in found[0] else ''


def printed(pid, asked, until):
    """Why there is no stack of a process, or what is odd about it, if anything is; and what the sampler printed.

    Nothing goes on after the time `until`.
    """
    limit = min(asked.each, until - time.monotonic())
    if limit <= 0:
        return 'no time was left', ''
    was = processes.state(pid)
    waits = waits_in_kernel(pid)
    if waits:  # a debugger would wait as long as the process does
        return 'in the kernel: ' + waits, ''
    if was == 't':
        return 'held by another debugger', ''
    commands = samplers(asked, pid)
    missing = 'no gdb' if asked.gdb or asked.python else 'neither eu-stack nor gdb'
    why = '' if commands else missing + ' on this host'
    for words in commands:
        found = ended(words, limit)
        if found is None:
            if was != 'T':
                go_on(pid)
            return '%s took over %.0f s' % (words[0], limit), ''
        if re.search(r'^(TID %d|Thread 1 .*):\n#0 ' % pid, found[0], re.M):
            nameless = words[0] == 'gdb' and ' in ?? ()' in found[0]
            return oddity(was, words, found, pid), found[0].rstrip() + '\n' + (modules(pid) if nameless else '')
        why = complaint(found[1], pid)
        if REFUSED.search(why):
            break
    return why if processes.state(pid) not in ('', 'Z') else 'no process any more', ''


def host_name():
    """This host's name, as others reach it."""
    return os.environ.get('SLURMD_NODENAME') or socket.gethostname().partition('.')[0]


def head(found, others):
    """The first line of a host's file. Where its processes are of several jobs, it has all their sizes and names.

    >>> one = processes.Process(7, 0, 16, 'PMI_RANK', 'SLURM_JOB_ID=8', True, '', '')
    >>> head([one, one._replace(pid=8, rank=1, job='SLURM_JOB_ID=9')], 0).partition(' size ')[2]
    '16 mpi 1 by PMI_RANK others 0 job SLURM_JOB_ID=8,SLURM_JOB_ID=9\\n'
    """
    sizes = ','.join(map(str, sorted({one.size for one in found}))) or '0'
    by, jobs = [','.join(sorted(set(names) - {''})) for names in ((one.by for one in found), (one.job for one in found))]
    has_mpi = any(one.has_mpi for one in found)
    return '== host %s size %s mpi %d by %s others %d job %s\n' % (host_name(), sizes, has_mpi, by or '-', others, jobs)


def write(out, asked):
    """Writes all samples."""
    wanted = [tuple(word.partition('=')[::2]) for word in asked.where]
    ranks, others = processes.job(wanted, asked.exe or '')
    single = {rank: same[0].pid for rank, same in sorted(ranks.items()) if len(same) == 1}
    out.write(head([one for same in ranks.values() for one in same], others))
    for rank, same in sorted(ranks.items()):
        for one in same if len(same) > 1 else []:
            out.write('== rank %d pid %d time 0 (two processes of this rank)\n' % (rank, one.pid))
    until = time.monotonic() + asked.all
    with concurrent.futures.ThreadPoolExecutor(len(os.sched_getaffinity(0))) as pool:
        for when in range(asked.times if single else 0):
            time.sleep(asked.pause if when else 0)
            for rank, (why, text) in zip(single, pool.map(lambda pid: printed(pid, asked, until), single.values())):
                why = ' (%s)' % why if why else ''
                out.write('== rank %d pid %d time %d%s\n%s== \n' % (rank, single[rank], when, why, text))
                out.flush()  # what is there when this host is ended counts
    out.write('\n== end\n')


def options(parser):
    """What was asked for, by the command line and by FOLDER/options.json."""
    asked = parser.parse_args()
    name = os.path.join(asked.folder, 'options.json')
    if os.path.exists(name):
        try:
            with open(name, encoding='utf-8') as file:
                parser.set_defaults(**json.load(file))
        except (OSError, ValueError, TypeError) as why:
            stop('%s: line %d: no options of stat-job' % (name, getattr(why, 'lineno', 1)))
        asked = parser.parse_args()
    return asked


def stop(why, status=2):
    """Ends with one line, which names this host: there are many of them."""
    print('%s: %s: %s' % (os.path.basename(sys.argv[0]), host_name(), why), file=sys.stderr)
    sys.exit(status)


def machine():
    """What tells this machine, or container, from all others."""
    try:
        space = os.readlink('/proc/self/ns/pid')
    except OSError:
        space = ''
    boot = processes.slurp('/proc/sys/kernel/random/boot_id').strip()
    return '-'.join([host_name(), boot, space.partition('[')[2].rstrip(']')]).replace('/', '_')


def is_first_start(folder, name):
    """Whether nothing was started on the machine of this name before; it is remembered.

    >>> import tempfile
    >>> with tempfile.TemporaryDirectory() as folder:
    ...     [is_first_start(folder, name) for name in ('n1', 'n2', 'n1')]
    [True, True, False]
    """
    os.makedirs(os.path.join(folder, 'started'), exist_ok=True)
    try:
        os.close(os.open(os.path.join(folder, 'started', name), os.O_CREAT | os.O_EXCL | os.O_WRONLY, 0o644))
    except FileExistsError:
        return False
    return True


def opened(hosts, name):
    """A new file for what is sampled, with its names while it grows and when it is whole. No file is written over.

    >>> import tempfile
    >>> with tempfile.TemporaryDirectory() as folder:
    ...     for _ in range(2):
    ...         out, _, whole = opened(folder, 'n1')
    ...         out.close()
    ...         os.path.basename(whole)
    'n1'
    'n1_2'
    """
    for i in range(1, 10000):
        own = name if i == 1 else '%s_%d' % (name, i)
        part, whole = os.path.join(hosts, '.' + own), os.path.join(hosts, own)
        try:
            if not os.path.exists(whole):
                return open(part, 'x', encoding='utf-8', errors='replace'), part, whole
        except FileExistsError:
            pass
    raise FileExistsError(17, 'there are too many files of this name', whole)


def sample_into(folder, asked):
    """Samples this host's ranks into a file of its own."""
    if not os.path.isdir(folder):
        stop('no folder %s here: all hosts must share it' % folder)
    if not is_first_start(folder, machine()):
        if is_first_start(folder, machine() + '.again'):  # one line says it of any number of starts
            print('sample.py: %s: it was started here before, and further starts sample nothing' % host_name(), file=sys.stderr)
        return
    hosts = os.path.join(folder, 'hosts')
    os.makedirs(hosts, exist_ok=True)
    out, part, whole = opened(hosts, host_name())
    if os.path.basename(whole) != host_name():
        print('sample.py: another host is called %s, too; this one is %s here' % (host_name(), os.path.basename(whole)),
              file=sys.stderr)
    with out:
        write(out, asked)
    os.rename(part, whole)  # a file that is there is whole


def main():
    parser = command_line.Parser(__doc__)
    add_options(parser)
    parser.add_argument('folder', metavar='FOLDER')
    asked = options(parser)
    try:
        sample_into(asked.folder, asked)
    except OSError as why:
        stop('%s: %s' % (why.filename or asked.folder, why.strerror))


if __name__ == '__main__':
    main()
