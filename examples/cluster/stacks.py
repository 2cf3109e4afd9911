"""Reads the stacks in what eu-stack, gdb, and gdb's py-bt print of a process.

A stack is a list of frames, outermost first. A thread's number is that of the text: eu-stack has the kernel's numbers,
of which the process' own is its first thread's; gdb numbers threads from 1.
"""
import collections
import functools
import re

# What is known of a frame; all are texts, and what isn't known is empty.
Frame = collections.namedtuple('Frame', 'name module file line offset')

EU_FRAME = re.compile(r'^#\d+\s+0x[0-9a-f]+(?: (.*?))??(?: - ((?:/|\[|linux-|[\w.+-]+\.so).*))?$')
EU_LINE = re.compile(r'^    (\S.*?):(\d+)(?::\d+)?$')
EU_OFFSET = re.compile(r'^    \[[0-9a-f]*\]@0x[0-9a-f]+\+(0x[0-9a-f]+)$')
GDB_THREAD = re.compile(r'^Thread (\d+) ')
GDB_FRAME = re.compile(r'^#(\d+)\s+(?:0x([0-9a-f]+) in )?(.*)$')
GDB_TAIL = re.compile(r'^(?: at (.+):(\d+)| from (.+))?$')
GDB_MODULE = re.compile(r'^module ([0-9a-f]+)-([0-9a-f]+) (.*)$')
PY_FRAME = re.compile(r'^  File "(.*)", line (\d+), in (.*)$')
OPERATOR = re.compile(r'operator ?(<=>|<<=|>>=|->\*|->|<<|>>|<=|>=|<|>|\(\))|->')
QUOTED = re.compile(r'"(\\.|[^"\\])*"|\'(\\.|[^\'\\])+\'')


@functools.lru_cache(1 << 14)
def eu_frame(line):
    """A frame of a line of eu-stack, without its offset and its source line.

    >>> [eu_frame(line)[:2] for line in ('#0  0x00007f01 poll - /lib/libc.so.6', '#1  0x02 - /home/a b/x', '#2  0x02')]
    [('poll', '/lib/libc.so.6'), ('', '/home/a b/x'), ('', '')]
    """
    found = EU_FRAME.match(line)
    return Frame(found[1] or '', found[2] or '', '', '', '') if found else Frame('', '', '', '', '')


def eu_stack(lines):
    """The stack in the lines that eu-stack printed of a thread.

    >>> lines = ['#0  0x01 poll - /l.so', '#1  0x02 - /home/x', '    [77]@0x10+0xf2', '    /a.c:7:3', 'eu-stack: odd']
    >>> [frame[2:] for frame in eu_stack(lines)]
    [('/a.c', '7', '0xf2'), ('', '', '')]
    """
    frames = []
    for line in lines:
        if line.startswith('#'):
            frames.append(eu_frame(line))
        elif frames and line.startswith('    '):
            offset = EU_OFFSET.match(line)
            at = None if offset else EU_LINE.match(line)
            if offset:
                frames[-1] = frames[-1]._replace(offset=offset[1])
            elif at:
                frames[-1] = frames[-1]._replace(file=at[1], line=at[2])
    frames.reverse()
    return frames


def first_thread(text, pid):
    """What eu-stack printed of the first thread of a process; nothing where the text isn't eu-stack's.

    >>> first_thread('PID 7 - process\\nTID 7:\\n#0  0x1 f\\nTID 8:\\n#0  0x2 g\\n', 7), first_thread('#0  f ()', 7)
    ('#0  0x1 f', '')
    """
    mark = 'TID %d:\n' % pid
    start = text.find(mark)
    if start < 0:
        return ''
    end = text.find('\nTID ', start)
    return text[start + len(mark):end] if end >= 0 else text[start + len(mark):]


def eu_stacks(text):
    """The stacks in what eu-stack printed, as (thread, frames).

    >>> [(thread, len(frames)) for thread, frames in eu_stacks('TID 8:\\n#0  0x1 g\\nTID none\\n#0  0x1 h\\n')]
    [(8, 1)]
    """
    found = []
    for part in ('\n' + text).split('\nTID ')[1:]:
        thread, *lines = part.split('\n')
        if re.match(r'[0-9]{1,18}:?$', thread):
            found.append((int(thread.rstrip(':')), eu_stack(lines)))
    return [(thread, frames) for thread, frames in found if frames]


def closing(text, start):
    """Where the parenthesis that opens at `start` is closed, or -1. Quoted text counts for nothing."""
    depth, i = 0, start
    while i < len(text):
        quoted = QUOTED.match(text, i)
        if quoted:
            i = quoted.end()
            continue
        depth += {'(': 1, ')': -1}.get(text[i], 0)
        if depth == 0:
            return i
        i += 1
    return -1


@functools.lru_cache(1 << 14)
def gdb_function(text):
    """A frame as gdb prints it, as a name and its rest: NAME (ARGUMENTS), then at FILE:LINE or from LIBRARY.

    >>> gdb_function('app::Solver<double, 3>::step (this=0x7ffe28354800, rank=0) at hang.cpp:61')
    ('app::Solver<double, 3>::step', ' at hang.cpp:61')
    >>> gdb_function('std::function<void (int)>::operator()(int) const (this=0x1, __args#0=0) at /a (b)/function.h:591')
    ('std::function<void (int)>::operator()(int) const', ' at /a (b)/function.h:591')
    >>> gdb_function('(anonymous namespace)::wait_for (s="a) (b", c=40 \\'(\\') from /lib/x.so')
    ('(anonymous namespace)::wait_for', ' from /lib/x.so')
    >>> lines = ['operator< <char> (a=..., b=...) at x.cpp:1', 'decltype (auto) visit<int> (v=...) at x.cpp:2',
    ...          '?? () from /lib/libmpi.so.40', '<signal handler called>']
    >>> [gdb_function(line)[0] for line in lines]
    ['operator< <char>', 'decltype (auto) visit<int>', '??', '<signal handler called>']
    """
    depth, i = 0, 0
    while i < len(text):
        skipped = OPERATOR.match(text, i)
        if skipped:
            i = skipped.end()
            continue
        if depth == 0 and i > 0 and text.startswith(' (', i):
            end = closing(text, i + 1)
            if end >= 0 and GDB_TAIL.match(text[end + 1:]):
                return text[:i], text[end + 1:]
        depth += {'(': 1, '<': 1, '{': 1, ')': -1, '>': -1, '}': -1}.get(text[i], 0)
        i += 1
    return text, ''


def gdb_frame(number, address, text, modules):
    """A frame of gdb's; where it has no name, by its place in the module, as eu-stack counts it.

    >>> gdb_frame(0, '1f10', '?? () from /lib/x.so', [])[:2]
    ('', '/lib/x.so')
    >>> gdb_frame(1, '1f10', '?? ()', [(0x1000, 0x2000, '/home/a')])
    Frame(name='', module='/home/a', file='', line='', offset='0xf0f')
    """
    name, rest = gdb_function(text)
    at = GDB_TAIL.match(rest)
    module, offset = at[3] or '', ''
    if name == '??':
        name, place = '', int(address or '0', 16) - (number > 0)  # a caller's address is that of the next instruction
        for first, last, file in modules:
            if first <= place < last:
                module, offset = file, hex(place - first)
    return Frame(name, module, at[1] or '', at[2] or '', offset)


def gdb_stacks(text):
    """The stacks in what gdb printed, as (thread, frames), and below it, of sample.py, where the modules are.

    >>> text = 'Thread 2 (LWP 7):\\n#0  poll () from /l\\n\\nThread 1 (LWP 6):\\n#0  0x1 in f (x=1) at a.c:1\\n#1  main ()'
    >>> [(thread, [frame.name for frame in frames]) for thread, frames in gdb_stacks(text)]
    [(2, ['poll']), (1, ['main', 'f'])]
    """
    lines = text.splitlines()
    modules = [(int(found[1], 16), int(found[2], 16), found[3]) for found in map(GDB_MODULE.match, lines) if found]
    found, thread = [], 1
    for line in lines:
        header, frame = GDB_THREAD.match(line), GDB_FRAME.match(line)
        if header:
            thread = int(header[1])
        if frame:
            if frame[1] == '0':
                found.append((thread, []))
            if found:
                found[-1][1].append(gdb_frame(int(frame[1]), frame[2], frame[3].strip(), modules))
    return [(thread, frames[::-1]) for thread, frames in found]


def with_python(text, stack):
    """A stack of a Python program: the calls that gdb's py-bt printed, and below them what the innermost runs in C.

    >>> stack = [Frame(n, '', '', '', '') for n in ('main', '_PyEval_EvalFrameDefault', 'call', 'MPI_Barrier')]
    >>> [f.name for f in with_python('  File "a.py", line 9, in step\\n  File "a.py", line 12, in <module>', stack)]
    ['<module>', 'step', 'call', 'MPI_Barrier']
    """
    found = [PY_FRAME.match(line) for line in text.splitlines()]
    calls = [Frame(frame[3], '', frame[1], frame[2], '') for frame in reversed(found) if frame]
    last = max((i for i, frame in enumerate(stack) if frame.name.startswith('_PyEval_EvalFrameDefault')), default=-1)
    return calls + stack[last + 1:] if calls else stack


def stacks(text, pid):
    """The stacks in a text, the first thread's at the front; none where there is no stack of that one.

    >>> [frame.name for frame in stacks('TID 8:\\n#0  0x1 g\\nTID 7:\\n#0  0x1 f\\n', 7)[0]]
    ['f']
    >>> stacks('TID 8:\\n#0  0x1 g\\n', 7)
    []
    """
    found, first = eu_stacks(text), pid
    if not found:
        found, first = gdb_stacks(text), 1
    found.sort(key=lambda one: (one[0] != first, one[0]))
    if not found or found[0][0] != first:
        return []
    return [with_python(text, frames) if i == 0 else frames for i, (_, frames) in enumerate(found)]
