"""The words of the command lines of the scripts here: what is no good ends a script with one line and status 2."""
import argparse
import re


class Parser(argparse.ArgumentParser):
    """A parser that says in one line what is wrong, and shows the text of its script as its help."""

    def __init__(self, text):
        argparse.ArgumentParser.__init__(self, description=text, formatter_class=argparse.RawDescriptionHelpFormatter)

    def error(self, message):
        self.exit(2, '%s: %s (see %s --help)\n' % (self.prog, message, self.prog))


def refuse(text, why):
    """Ends the reading of a value."""
    raise argparse.ArgumentTypeError('%s %s' % (text or "''", why))


def number(kind, least, most):
    """A number of a kind and in a range.

    >>> number(int, 1, 64)('7'), number(float, 0, 9)('0.5')
    (7, 0.5)
    >>> for text in '65', '1.5', 'nan', '':
    ...     try:
    ...         number(int, 1, 64)(text)
    ...     except argparse.ArgumentTypeError as why:
    ...         print(why)
    65 is not from 1 to 64
    1.5 is not from 1 to 64
    nan is not from 1 to 64
    '' is not from 1 to 64
    """
    def read(text):
        try:
            value = kind(text)
        except ValueError:
            value = None
        return value if value is not None and least <= value <= most else refuse(text, 'is not from %g to %g' % (least, most))
    return read


def expression(text):
    """A regular expression; it stays a text. An empty one finds something in everything, so it is refused.

    >>> expression('^Comm::wait')
    '^Comm::wait'
    >>> expression('(')
    Traceback (most recent call last):
    argparse.ArgumentTypeError: ( is no regular expression: missing ), unterminated subpattern at position 0
    """
    try:
        re.compile(text)
    except re.error as why:
        refuse(text, 'is no regular expression: %s' % why)
    return text or refuse(text, 'finds something in everything')


def condition(text):
    """A variable and its value, as VAR=VALUE.

    >>> condition('SLURM_STEP_ID=0')
    'SLURM_STEP_ID=0'
    """
    return text if text.find('=') > 0 else refuse(text, 'is not VAR=VALUE')
