"""Makes call paths of stacks, such that ranks which do the same thing have the same path.

A path is the text that `stat` reads: frames, outermost first, joined by `;` (docs/FORMATS.md).
"""
import collections
import functools
import hashlib
import os
import re

from stacks import Frame  # what stacks are made of; the examples below make some

FRAMES, NAME_BYTES = 128, 1023  # what the readers of `stat` take
LEFT_OUT = '(frames left out)'

# How stacks become paths: `cut` finds the frames at which they end (None: they don't), `lines` keeps the lines' numbers.
Choice = collections.namedtuple('Choice', 'cut lines')

CUT = r'^MPI_[A-Z]|^MPI::'
BELOW = re.compile(r'_start$|__libc_start_|start_thread$|_*clone3?$|^generic_start_main')
LIBRARY = re.compile(r'^(/usr)?/lib|\.so(\.|$)|^\[|^linux-vdso')
OPENMP = re.compile(r'/?lib(gomp|omp|iomp5)\.so')
PLUMBING = '/usr/include/c++/'  # what stands between a std::function and what it calls
COPY = re.compile(r'( ?\[clone (\.(isra|part|constprop|cold|lto_priv)[.\d]*)+\])$|'
                  r'(\.(isra|part|constprop|cold|lto_priv)[.\d]*)+$|@@\S*$|@(GLIBC|plt)\S*$')
FORTRAN = re.compile(r'^p?mpi_([a-z]\w*?)_{0,2}$|^ompi_([a-z]\w*?)_f$|^P?MPI_([A-Z]{2,}[A-Z0-9_]*)$', re.ASCII)
FORTRAN_08 = re.compile(r'_f08(ts)?_?$')
MODULE = re.compile(r'^__(\w+)_MOD_(\w+)$')  # gfortran's
VERSION = re.compile(r'(\.so)[.\d]*$')
CONTROL = re.compile(r'[\0-\x1f\x7f]')
CYCLE = 8  # the longest cycle of calls that is seen as recursion


def mpi_name(text, in_library):
    """One name for what MPI calls by several: PMPI_X, and in a library the spellings of Fortran's compilers.

    >>> [mpi_name(name, True) for name in ('PMPI_Recv', 'pmpi_allreduce__', 'mpi_comm_rank_', 'ompi_wait_f')]
    ['MPI_Recv', 'MPI_Allreduce', 'MPI_Comm_rank', 'MPI_Wait']
    >>> [mpi_name(name, True) for name in ('MPI_BARRIER', 'mpi_wait_f08_', 'MPI_Send', 'MPI_T_init_thread')]
    ['MPI_Barrier', 'MPI_Wait', 'MPI_Send', 'MPI_T_init_thread']
    >>> mpi_name('ompi_request_wait', True), mpi_name('mpi_exchange_halo_', False)  # the last is the program's own
    ('ompi_request_wait', 'mpi_exchange_halo_')
    """
    if text.startswith('PMPI_'):
        text = text[1:]
    found = FORTRAN.match(text) if in_library else None
    if found:
        word = FORTRAN_08.sub('', found[1] or found[2] or found[3]).lower()
        return 'MPI_' + word[0].upper() + word[1:]
    return text


def fitting(text):
    """A name of at most 1,023 bytes. A longer one is both its ends and a number: different names stay different.

    >>> names = [fitting('a' * 2000 + end) for end in 'xy'] + [fitting('é' * 600 + 'x')]
    >>> names[0] != names[1], [len(name.encode('utf-8')) <= 1023 for name in names]
    (True, [True, True, True])
    """
    whole = text.encode('utf-8', 'replace')
    if len(whole) <= NAME_BYTES:
        return whole.decode('utf-8', 'replace')
    first, last = [part.decode('utf-8', 'ignore').strip() for part in (whole[:490], whole[-490:])]
    return '%s..(%s)..%s' % (first, hashlib.sha1(whole).hexdigest()[:8], last)


@functools.lru_cache(1 << 16)
def frame_name(frame, is_innermost):
    """A frame's name as `stat` takes it, the same in all builds; where it has none, its place in its module.

    >>> def name(text, module, is_innermost): return frame_name(Frame(text, module, '', '', '0xf2'), is_innermost)
    >>> name('PMPI_Recv', '/l/libmpi.so', True), name('f() [clone .isra.0]', '', False)
    ('MPI_Recv', 'f()')
    >>> name('', '/home/me/solver', False), name('', '/l/libx.so.1.2', True), name('', '', False)
    ('solver+0xf2', 'libx.so+?', '??')
    >>> name('g<(char)59>(a; b)\\t', '', False), name('__work_MOD_relax', '', False)
    ('g<(char)59>(a: b)', 'work::relax')
    """
    text = COPY.sub('', frame.name) if frame.name != '??' else ''
    if text:
        text = mpi_name(MODULE.sub(r'\1::\2', text), bool(LIBRARY.search(frame.module)))
    elif frame.module:
        # where a loop stands moves from sample to sample; the caller's place says which function it is
        offset = frame.offset if frame.offset and not is_innermost else '?'
        text = VERSION.sub(r'\1', os.path.basename(frame.module)) + '+' + offset
    return text_of_frame(text)


def is_own(frame):
    """Whether a frame is the program's own code: not a library's, nor one of the C library's that gdb has lines of.

    >>> [is_own(Frame('f', module, file, '', '')) for module, file in
    ...     (('/home/x', ''), ('/usr/lib/l.so.1', ''), ('', 'a.c'), ('', './nptl/x.c'), ('', ''))]
    [True, False, True, False, False]
    """
    if frame.module:
        return not LIBRARY.search(frame.module)
    return bool(frame.file) and not frame.file.startswith(('./', '../', '/usr/'))


def begin(stack, names, is_first):
    """Where a path begins: at main, or, in another thread than the first, at the program's own code."""
    if is_first and 'main' in names:
        return names.index('main')
    below = max((i for i, name in enumerate(names[:4]) if BELOW.search(name)), default=-1) + 1
    own = (i for i, frame in enumerate(stack) if is_own(frame))
    return min(below if is_first else next(own, below), len(names) - 1)


def waits_in_openmp(stack):
    """The outermost frame of OpenMP's library from which no code of the program's was called, if there is one."""
    for i, frame in enumerate(stack):
        if OPENMP.search(frame.module) and not any(map(is_own, stack[i:])):
            return i
    return None


def end(stack, names, cut):
    """How many frames a path may have: up to the outermost that is cut at, or that waits in OpenMP's library.

    >>> modules = ('/x', '/lib/libgomp.so.1', '/x', '/lib/libgomp.so.1', '/lib/libc.so.6')
    >>> stack = [Frame('', module, '', '', '0x1') for module in modules]
    >>> [end(stack, ['main', 'g', 'f', 'g', 'futex'], cut) for cut in (re.compile('none'), re.compile('f'), None)]
    [4, 3, 5]
    """
    if cut is None:
        return len(names)
    call = next((i for i, name in enumerate(names) if cut.search(name)), None)
    if call is None:
        call = waits_in_openmp(stack)
    return len(names) if call is None else call + 1


def once(names, shown):
    """What is shown of calls in which each recursion is there once: the inner calls take the place of the outer ones.

    >>> once(list('mffffgx'), list('mFGHIgx')), once(list('mfgfgfx'), list('mfgfgfx'))
    (['m', 'I', 'g', 'x'], ['m', 'f', 'g', 'f', 'x'])
    """
    kept, texts = [], []
    for name, text in zip(names, shown):
        kept.append(name)
        texts.append(text)
        for length in range(1, min(CYCLE, len(kept) // 2) + 1):
            if kept[-1] == kept[-1 - length] and kept[-length:] == kept[-2 * length:-length]:
                del kept[-2 * length:-length], texts[-2 * length:-length]
                break
    return texts


def text_of_frame(text):
    """A text as one frame that `stat` takes.

    >>> text_of_frame(' (ptrace:\\tno; not permitted) '), text_of_frame('')
    ('(ptrace: no: not permitted)', '??')
    """
    return fitting(CONTROL.sub(' ', text.replace(';', ':')).strip() or '??')


def is_remark(frame):
    """Whether a frame is a word of sample.py's or fold.py's, and no function.

    >>> [is_remark(frame) for frame in ('(not found)', LEFT_OUT, 'f(int)', '(anonymous namespace)::f(int)')]
    [True, True, False, False]
    """
    return frame.startswith('(') and frame.endswith(')') and not frame.startswith('(anonymous')


def both_ends(texts, most=FRAMES):
    """At most 128 frames, or as many as are asked for: of more, those at both ends, and a frame that says so.

    >>> len(both_ends(['f'] * 128)), len(both_ends(['f'] * 129)), both_ends([str(i) for i in range(400)])[62:65]
    (128, 128, ['62', '(frames left out)', '336'])
    >>> len(both_ends(['f'] * 128, 127)), both_ends(both_ends(['f'] * 129), 127).count('(frames left out)')
    (127, 1)
    """
    if len(texts) <= most:
        return texts
    return texts[:most // 2 - 1] + [LEFT_OUT] + texts[most // 2 - most:]


def with_line(name, frame):
    """A frame's name with the number of its line behind an `@`, where it is known."""
    known = frame.line and len(frame.line) < 10
    return fitting(name + '@' + frame.line) if known else name


def path(stack, choice, is_first=True):
    """The frames of the path of a stack.

    >>> names = ('_start', 'main', 'f', 'f', 'PMPI_Send', 'poll')
    >>> stack = [Frame(name, '/x', 'a.c', '7', '') for name in names]
    >>> path(stack, Choice(re.compile(CUT), False)), path(stack[2:], Choice(None, True))
    (['main', 'f', 'MPI_Send'], ['f@7', 'MPI_Send@7', 'poll@7'])
    """
    stack = [frame for frame in stack if not frame.file.startswith(PLUMBING)] or stack
    names = [frame_name(frame._replace(file='', line=''), i + 1 == len(stack)) for i, frame in enumerate(stack)]
    shown = [with_line(name, frame) for name, frame in zip(names, stack)] if choice.lines else names
    first, behind = begin(stack, names, is_first), end(stack, names, choice.cut)
    return both_ends(once(names[first:behind], shown[first:behind]) or shown[-1:])


def paths(stacks, choice, threads):
    """The paths of a process: that of its first thread, and with `threads` those of the threads in its own code."""
    found = [path(stack, choice) for stack in stacks[:1]]
    if threads:
        others = {tuple(path(stack, choice, False)) for stack in stacks[1:] if any(map(is_own, stack))}
        found += [list(one) for one in sorted(others.difference(map(tuple, found)))]
    return found
