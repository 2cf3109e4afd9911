#!/usr/bin/env python3
"""A report as a graph, for Graphviz.

    dot.py [--stream S --wave W] [--most N] [--depth D] [REPORT.json] | dot -Tsvg > report.svg

A box is a frame, or several that the same ranks passed one after another. An edge has the ranks that went there. Boxes of the
same ranks have one colour, and other boxes have others. Small graphs go down; those with more than 12 ends go to the right.

Large trees are folded. Boxes are taken level by level from the root, until there are N. Of a level that has too many, each box
above keeps the same number of ways down, those of the most ranks: so where many ways leave one box they are folded first. What
has no box stands in a dashed one beside them, with its ranks, so no rank is left out unseen.
"""
import argparse

from report import add_choice, chosen, count, put, read_report, runs, set_text, stop

NAME_WIDTH, SET_WIDTH, TIP_WIDTH = 60, 32, 2000
FRAMES_SHOWN = 16  # of a box with more, the first and the last are shown
ENDS_DOWN = 12  # with more ends than this the graph goes to the right
HEAD = '''digraph ranks {
  rankdir=%s labelloc=t fontname="Helvetica" fontsize=12 label=%s
  node [shape=box style="filled,rounded" fontname="Helvetica" fontsize=11 color="#888888"]
  edge [fontname="Helvetica" fontsize=10 color="#888888"]
'''


class Box:
    """Frames that the same ranks passed one after another, with the boxes below, and what is folded below."""

    def __init__(self, row):
        self.frames, self.label, self.ends = [row['frame']], row['label'], row['ends']
        self.below, self.folded, self.folded_runs = [], 0, []

    def fold(self, label, frames):
        """Folds frames below this box that these ranks passed."""
        self.folded += frames
        self.folded_runs += runs(label)


def walk(box):
    """A box and those below it."""
    waiting = [box]
    while waiting:
        here = waiting.pop()
        yield here
        waiting += reversed(here.below)


def boxes(rows, depth):
    """The root's box over those of all rows. Frames deeper than `depth` are folded.

    >>> rows = [{'depth': i, 'ends': ends, 'frame': frame, 'label': '2:[0-1]'}
    ...         for i, (ends, frame) in enumerate([('0:[]', '/'), ('0:[]', 'main'), ('1:[1]', 'f'), ('2:[0-1]', 'g')])]
    >>> [box.frames for box in walk(boxes(rows, 9))]
    [['/'], ['main', 'f'], ['g']]
    >>> [(box.frames, box.folded) for box in walk(boxes(rows, 1))]
    [(['/'], 0), (['main'], 2)]
    """
    above = []
    for row in rows:
        if row['depth'] > depth:
            above[depth].fold(row['label'] if row['depth'] == depth + 1 else '0:[]', 1)
            continue
        del above[row['depth']:]
        above.append(Box(row))
        if row['depth']:
            above[-2].below.append(above[-1])
    for box in walk(above[0]):
        while box is not above[0] and joins(box):
            child = box.below[0]
            box.frames, box.ends, box.below = box.frames + child.frames, child.ends, child.below
            box.folded, box.folded_runs = child.folded, child.folded_runs
    return above[0]


def joins(box):
    """Whether a box and the one below it are one: no stack ends between them, and the same ranks pass both."""
    return len(box.below) == 1 and box.below[0].label == box.label and count(box.ends) == 0


def shares(widths, left):
    """How many of the ways below each box are kept, where each box has so many and `left` may be kept in all.

    >>> shares([80, 2, 1], 10), shares([1, 1, 1], 2), shares([1, 2], 9)
    ([7, 2, 1], [1, 1, 0], [1, 2])
    """
    kept = [0] * len(widths)
    while left > 0 and kept != widths:
        for i, width in enumerate(widths):
            if kept[i] < width and left > 0:
                kept[i], left = kept[i] + 1, left - 1
    return kept


def fold(root, most):
    """Folds boxes until there are `most`: those of the lowest levels, and of a level where most ways leave one box.

    >>> rows = [{'depth': min(i, 1), 'ends': '0:[]', 'frame': 'f%d' % i, 'label': label}
    ...         for i, label in enumerate(['6:[0-5]', '1:[5]', '3:[0-2]', '2:[3-4]'])]
    >>> root = boxes(rows, 9)
    >>> fold(root, 2)
    >>> [box.frames for box in walk(root)], root.folded, set_text(root.folded_runs)
    ([['f0'], ['f2']], 2, '3:[3-5]')
    """
    level, left = [root], most - 1
    while level:
        for box, share in zip(level, shares([len(box.below) for box in level], left)):
            kept = set(sorted(box.below, key=lambda child: -count(child.label))[:share])
            for child in box.below:
                if child not in kept:
                    box.fold(child.label, sum(len(lower.frames) + lower.folded for lower in walk(child)))
            box.below = [child for child in box.below if child in kept]
        level = [child for box in level for child in box.below]
        left -= len(level)


def shorter(text, width):
    """A text of at most so many characters: of a long one, the begin and the end.

    >>> shorter('std::vector<double>::operator[](unsigned long)', 30)
    'std::vector<double..gned long)'
    """
    return text if len(text) <= width else text[:width - width // 3 - 2] + '..' + text[-(width // 3):]


def shorter_set(text):
    """A set of at most some characters.

    >>> shorter_set('19:[0,2,4,6,8,10,12,14,16,18,20,22,24,26,28,30,32,34,36]')
    '19:[0,2,4,6,8,10,12,14,16,18,..]'
    """
    return text if len(text) <= SET_WIDTH else text[:text.rindex(',', 0, SET_WIDTH - 2) + 1] + '..]'


def quoted(text):
    r"""A text as Graphviz takes it; its lines begin at the left.

    >>> print(quoted('"a" & \\b') + quoted('f' + chr(10)))
    "\"a\" &amp; \\b""f\l"
    """
    text = text.replace('&', '&amp;').replace('\\', '\\\\').replace('"', '\\"')
    return '"%s"' % text.replace('\n', '\\l')


def colour(number):
    """The colour of a number: grey for 0, and no two alike.

    >>> colour(0), colour(1), len({colour(number) for number in range(3000)})
    ('0.000 0.000 0.950', '0.6180 0.250 1.000', 3000)
    """
    if number == 0:
        return '0.000 0.000 0.950'
    return '%.4f %.3f %.3f' % (number * 0.618034 % 1, 0.25 + 0.15 * (number // 10 % 3), 1 - 0.08 * (number // 30 % 3))


def heading(release):
    """The lines of the root's box: how many ranks, and which are missing or have no stack."""
    yield '%d ranks' % count(release['covered'])
    for missing in release['missing']:
        yield 'missing: %s, %s is %s' % (shorter_set(missing['ranks']), missing['daemon'], missing['state'])
    for found in release['classes']:
        if not found['paths']:
            yield 'without a stack: ' + shorter_set(found['ranks'])


def caption(box):
    """The lines in a box: its frames, and the ranks whose stacks end there though others go on.

    >>> rows = [(0, '0:[]', '/'), (1, '1:[1]', 'main'), (2, '2:[0-1]', 'f')]
    >>> root = boxes([{'depth': depth, 'ends': ends, 'frame': frame, 'label': '2:[0-1]'} for depth, ends, frame in rows], 9)
    >>> [caption(box) for box in walk(root)]
    [['/'], ['main', 'ends here: 1:[1]'], ['f']]
    >>> root.frames, root.below = ['f%d' % i for i in range(40)], []
    >>> caption(root)
    ['f0', 'f1', 'f2', 'f3', '.. 32 more ..', 'f36', 'f37', 'f38', 'f39']
    """
    goes_on = box.below or box.folded
    ends = ['ends here: ' + shorter_set(box.ends)] if goes_on and count(box.ends) else []
    frames = [shorter(frame, NAME_WIDTH) for frame in box.frames]
    if len(frames) > FRAMES_SHOWN:
        frames[4:-4] = ['.. %d more ..' % (len(frames) - 8)]
    return frames + ends


def statements(root):
    """The boxes and the edges, in Graphviz' words."""
    numbers, colours = {box: number for number, box in enumerate(walk(root))}, {}
    for box, number in numbers.items():
        lines = ''.join(line + '\n' for line in caption(box))
        tip = '\n'.join([box.label] + box.frames)[:TIP_WIDTH]
        shade = colour(colours.setdefault(box.label, len(colours)))
        yield 'n%d [label=%s tooltip=%s fillcolor="%s"]' % (number, quoted(lines), quoted(tip), shade)
        for child in box.below:
            yield 'n%d -> n%d [label=%s]' % (number, numbers[child], quoted(' ' + shorter_set(child.label)))
        if box.folded:
            ranks = set_text(box.folded_runs)
            lines = '%d more frame%s\n' % (box.folded, 's' * (box.folded > 1))
            yield 'f%d [label=%s tooltip=%s style=dashed]' % (number, quoted(lines), quoted(ranks[:TIP_WIDTH]))
            yield 'n%d -> f%d [style=dashed label=%s]' % (number, number, quoted(' ' + shorter_set(ranks)))


def graph(release, most, depth):
    """A release as a graph."""
    root = boxes(release['tree'], depth)
    fold(root, most)
    root.frames = list(heading(release))
    ends = sum(1 for box in walk(root) if not box.below or box.folded)
    title = 'stream %d, wave %d' % (release['stream'], release['wave'])
    head = HEAD % ('TB' if ends <= ENDS_DOWN else 'LR', quoted(title))
    return head + ''.join('  %s\n' % statement for statement in statements(root)) + '}\n'


def main():
    parser = argparse.ArgumentParser(description=__doc__, formatter_class=argparse.RawDescriptionHelpFormatter)
    add_choice(parser)
    parser.add_argument('--most', type=int, default=60, metavar='N', help='at most N boxes (60) besides the dashed ones')
    parser.add_argument('--depth', type=int, default=128, metavar='D', help='at most D frames of each stack')
    asked = parser.parse_args()
    if asked.most < 1 or asked.depth < 1:
        stop('--most and --depth are at least 1')
    put(graph(chosen(read_report(asked.report), asked.stream, asked.wave), asked.most, asked.depth))


if __name__ == '__main__':
    main()
