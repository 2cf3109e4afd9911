"""Finds the processes of this host that are ranks of a parallel job, by what /proc says of them.

A launcher tells each process its rank by the environment. Wrappers, shells and the launcher's own daemons may have the same
variables, so a rank's process is chosen by rules; where they leave two, none is taken.
"""
import collections
import os
import re

# Variables with the rank, and with the size of the job; the launcher nearest to the process first. Below an mpirun in a
# batch script SLURM_PROCID is the number of the daemon that started the process, so Slurm's own comes last.
LAUNCHERS = (
    ('OMPI_COMM_WORLD_RANK', ('OMPI_COMM_WORLD_SIZE',)),
    ('MV2_COMM_WORLD_RANK', ('MV2_COMM_WORLD_SIZE',)),
    ('PMI_RANK', ('PMI_SIZE',)),
    ('JSM_NAMESPACE_RANK', ('JSM_NAMESPACE_SIZE',)),
    ('PALS_RANKID', ()),
    ('FLUX_TASK_RANK', ('FLUX_JOB_SIZE',)),
    ('PMIX_RANK', ('SLURM_STEP_NUM_TASKS', 'SLURM_NTASKS')),
    ('SLURM_PROCID', ('SLURM_STEP_NUM_TASKS', 'SLURM_NTASKS')),
)
SAMPLER = os.path.join(os.path.dirname(os.path.abspath(__file__)), 'sample.py')
MPI = re.compile(r'/lib(p?mpi|mpich|mpi_cray|mpi_gnu)[\w.-]*\.so')

# `by` is the variable that told the rank.
Process = collections.namedtuple('Process', 'pid rank size by job has_mpi program words')


def slurp(name):
    """The text of a file of /proc, or nothing where it can't be read."""
    try:
        with open(name, 'rb') as file:
            return file.read().decode('utf-8', 'replace')
    except OSError:
        return ''


def state(pid, thread=None):
    """One letter: R, S, D (waits in the kernel), T (was stopped), t (a debugger holds it), Z; nothing for no process."""
    name = '/proc/%d/stat' % pid if thread is None else '/proc/%d/task/%d/stat' % (pid, thread)
    return slurp(name).rpartition(') ')[2][:1]


def threads(pid):
    """The numbers of a process' threads."""
    try:
        return [int(name) for name in os.listdir('/proc/%d/task' % pid)]
    except OSError:
        return []


def parents():
    """The parent of each process."""
    found = {}
    for name in filter(str.isdigit, os.listdir('/proc')):
        words = slurp('/proc/%s/stat' % name).rpartition(') ')[2].split()
        if len(words) > 1:
            found[int(name)] = int(words[1])
    return found


def ancestors(pid, parent):
    """The processes above one.

    >>> ancestors(5, {5: 4, 4: 1, 1: 0})
    [4, 1]
    """
    found = []
    while parent.get(pid, 0) > 0 and parent[pid] not in found:
        pid = parent[pid]
        found.append(pid)
    return found


def is_number(text):
    """Whether a value of a variable is a number of ranks, or of one.

    >>> [is_number(text) for text in ('0', '65535', '', '-1', '²', None, '1' * 5000)]
    [True, True, False, False, False, False, False]
    """
    return bool(re.match(r'[0-9]{1,9}$', text or ''))


def told(environment):
    """The rank that a process was told, the size of the job (0: none was told), and by which variable; or None.

    >>> slurm = {'SLURM_PROCID': '1', 'SLURM_NTASKS': '4'}
    >>> told(dict(slurm, OMPI_COMM_WORLD_RANK='9', OMPI_COMM_WORLD_SIZE='16')), told(slurm)
    ((9, 16, 'OMPI_COMM_WORLD_RANK'), (1, 4, 'SLURM_PROCID'))
    >>> told({'PALS_RANKID': '3'}), told({})
    ((3, 0, 'PALS_RANKID'), None)
    """
    for rank, sizes in LAUNCHERS:
        if is_number(environment.get(rank)):
            size = next((environment[name] for name in sizes if is_number(environment.get(name))), '0')
            return int(environment[rank]), int(size), rank
    return None


def job_of(environment):
    """What tells a job from others, as VARIABLE=VALUE; nothing where no variable does.

    >>> job_of({'PMIX_NAMESPACE': '7', 'SLURM_JOB_ID': '8'}), job_of({'SLURM_JOB_ID': '8'}), job_of({})
    ('PMIX_NAMESPACE=7', 'SLURM_JOB_ID=8', '')
    >>> job_of({'SLURM_JOB_ID': '8', 'SLURM_HET_SIZE': '2'})  # a job of several numbers
    ''
    """
    names = ['PMIX_NAMESPACE'] + ['SLURM_JOB_ID'] * ('SLURM_HET_SIZE' not in environment)
    named = (name + '=' + environment[name] for name in names if re.match(r'[\w.@:-]+$', environment.get(name, '')))
    return next(named, '')


def environment_of(pid):
    """The environment that a process was started with."""
    return dict(word.partition('=')[::2] for word in slurp('/proc/%d/environ' % pid).split('\0') if '=' in word)


def process(pid, environment):
    """A process that has been told a rank, or None."""
    found = told(environment)
    words = slurp('/proc/%d/cmdline' % pid).replace('\0', ' ').strip()
    if not found or not words or state(pid) in ('', 'Z', 'X'):
        return None
    try:
        program = os.readlink('/proc/%d/exe' % pid)
    except OSError:
        program = ''
    has_mpi = bool(MPI.search(slurp('/proc/%d/maps' % pid)))
    return Process(pid, found[0], found[1], found[2], job_of(environment), has_mpi, program, words)


def way(one):
    """How a process was told its rank: ranks of one job are told in the same way."""
    return one.by, one.size, one.job


def chosen(found, parent):
    """The processes of each rank, one or, where the rules can't tell, several.

    Where some have MPI mapped, those without count only for ranks that none of these has, as one that hangs before it
    loads MPI, and only if they were told in the same way: a launcher's daemon was told its number by another variable.
    A process that another one of its rank forked from the same program isn't counted; of programs without MPI that
    start another one, as shells do, the innermost is the rank.

    >>> def a(pid, mpi, program, rank=0, by='PMI_RANK'): return Process(pid, rank, 2, by, '', mpi, program, '')
    >>> found = chosen([a(3, False, 'orted', 1, 'SLURM_PROCID'), a(4, True, 'x'), a(5, False, 'sh')], {4: 5})
    >>> [(rank, [p.pid for p in same]) for rank, same in found.items()]
    [(0, [4])]
    >>> sorted(chosen([a(4, True, 'python'), a(5, False, 'python', 1)], {}))
    [0, 1]
    >>> [p.pid for p in chosen([a(4, True, 'x'), a(5, True, 'x')], {5: 4})[0]]
    [4]
    >>> [p.pid for p in chosen([a(3, False, 'sh'), a(4, False, 'x'), a(5, False, 'x')], {5: 4, 4: 3})[0]]
    [4]
    >>> [p.pid for p in chosen([a(4, True, 'x'), a(5, True, 'x')], {})[0]]
    [4, 5]
    """
    with_mpi = [one for one in found if one.has_mpi]
    if with_mpi:
        ways, there = {way(one) for one in with_mpi}, {one.rank for one in with_mpi}
        found = with_mpi + [one for one in found if not one.has_mpi and way(one) in ways and one.rank not in there]
    ranks = collections.defaultdict(list)
    for one in sorted(found):
        ranks[one.rank].append(one)
    for rank, same in ranks.items():
        program = {one.pid: one.program for one in same}
        same = [one for one in same if not any(program.get(pid) == one.program for pid in ancestors(one.pid, parent))]
        above = {pid for one in same for pid in ancestors(one.pid, parent)}
        if not any(one.has_mpi for one in same):
            same = [one for one in same if one.pid not in above]
        ranks[rank] = same
    return dict(ranks)


def job(wanted, exe):
    """The processes of each rank on this host, and how many processes with a rank were left out as another job's.

    `wanted` is what their environment must have, as pairs of a variable and its value; the expression `exe` must find
    something in the command of each. Where this process runs in a Slurm job, those of other Slurm jobs are left out.
    """
    own, parent = os.environ.get('SLURM_JOB_ID', ''), parents()
    ours = set(ancestors(os.getpid(), parent)) | {os.getpid()}
    found, others = [], 0
    for pid in sorted(set(parent) - ours):
        environment = environment_of(pid)
        one = process(pid, environment)
        if one is None or SAMPLER in one.words:
            continue
        other = own and environment.get('SLURM_JOB_ID', own) != own
        if other or any(environment.get(name) != value for name, value in wanted) or not re.search(exe, one.words):
            others += 1
            continue
        found.append(one)
    return chosen(found, parent), others
