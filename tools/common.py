"""What the scripts in this folder share: how they are called, which executable they try, and how they end.

A script says what is wrong in one line on standard error. Its status is 2 where it was called in a wrong way or the
executable can't be started, and 1 where a check has failed. What it made in the folder for temporary files is removed
also where a signal ends it, as Ctrl-C does.
"""
import os
import signal
import subprocess
import sys

ROOT = os.path.dirname(os.path.dirname(os.path.abspath(__file__)))
PROVED = os.path.join(ROOT, 'crates/stat/out/stat')  # what `rt run` in crates/stat and `rt ci` leave
SIGNALS = (signal.SIGINT, signal.SIGTERM, signal.SIGHUP)


def name():
    """The name of the script."""
    return os.path.basename(sys.argv[0])


def stop(line, status=2):
    """Ends the script with one line on standard error."""
    print(line, file=sys.stderr)
    sys.exit(status)


def are_good(words, least, most, options):
    """Whether a script may be called with these words: so many, and of those that begin with a dash these alone.

    >>> are_good(['stat'], 0, 1, ()), are_good(['--try'], 0, 1, ('--try',))
    (True, True)
    >>> are_good(['--help'], 0, 1, ('--try',)), are_good(['a', 'b'], 0, 1, ())
    (False, False)
    >>> are_good([], 1, 1, ()), are_good([''], 1, 1, ())
    (False, False)
    """
    return least <= len(words) <= most and all(word and (word[0] != '-' or word in options) for word in words)


def arguments(usage, least=0, most=1, options=()):
    """The words that the script was called with. Where they are not as its usage says, it ends with a line of that."""
    words = sys.argv[1:]
    if not are_good(words, least, most, options):
        wrong(usage)
    return words


def wrong(usage):
    """Ends the script, since it was called in a wrong way."""
    stop(('usage: tools/%s %s' % (name(), usage)).rstrip())


def program(path=PROVED, words=()):
    """The whole name of an executable, which is started once, with these words, to see that it can be."""
    whole = os.path.abspath(path)
    try:
        subprocess.run([whole] + list(words), stdin=subprocess.DEVNULL, stdout=subprocess.DEVNULL,
                       stderr=subprocess.DEVNULL, check=False)
    except OSError as error:
        cannot_start(path, error)
    return whole


def cannot_start(path, error):
    """Ends the script, since a program can't be started."""
    stop('%s: cannot start %s: %s' % (name(), path, error.strerror))


def compile_library(source, path):
    """Compiles a library in C that can be preloaded."""
    words = ['cc', '-O1', '-shared', '-fPIC', '-w', '-x', 'c', '-o', path, '-', '-ldl']
    try:
        subprocess.run(words, input=source.encode('utf-8'), check=True)
    except OSError as error:
        cannot_start('cc', error)
    except subprocess.CalledProcessError:
        stop('%s: cc does not compile the library' % name())


def run(main):
    """Calls `main`, and sees to it that a signal ends it in such a way that temporary files are removed."""
    def end(number, _):
        for other in SIGNALS:
            signal.signal(other, signal.SIG_IGN)
        sys.exit(128 + number)
    for number in SIGNALS:
        if signal.getsignal(number) != signal.SIG_IGN:  # as nohup has it
            signal.signal(number, end)
    main()


def main():
    """For a script for sh: `common.py NAME USAGE WORDS..` prints the whole name of the executable to be tried."""
    usage = sys.argv[2]
    sys.argv[:3] = sys.argv[1:2]
    print(program(*arguments(usage)))


if __name__ == '__main__':
    main()
