"""scuttle: the commands of the package.

usage: python -m scuttle NAME WORDS

Each is also `scuttle-NAME`, and most are a script of tools/ in a clone. `python -m scuttle NAME --help` says more. `solve`, `check` and
the others of `scuttle help` are commands of `scuttle` itself, and of `python -m scuttle` too.
"""
import importlib
import os
import sys
from typing import List

from .commands import NO_PROGRAM, USAGE
from .errors import NoProgram
from .files import be_printable
from .running import find_launcher
from .version import VERSION

# What runs the launcher.
SHELL = '/bin/sh'
# The words with which the launcher begins, besides its options.
LAUNCHED = ('solve', 'check', 'front', 'models', 'check-models', 'upgrade', 'elaborate', 'trim', 'gen', 'trial', 'help', 'version')

# The commands, and what each does. The module of a command has its name, with `_` for `-`, and a function `main`.
COMMANDS = {
    'choices': 'what is left to choose among the plans of each compromise',
    'compare': 'what has changed between two lists',
    'describe': 'how many lines of each kind a log has, its ids, variables and solutions',
    'far': 'how far a search has come: the models of a log so far, as a list',
    'from-csv': 'an instance from a table of options',
    'from-lp': 'an instance from models in the LP format of CPLEX',
    'from-mps': 'an instance from models in the MPS format',
    'from-wcnf': 'an instance from weighted clauses',
    'join': 'one list and one log from those of the parts of an instance',
    'page': 'the front of a list, as a page for browsers in which it is explored',
    'picture': 'the front of a list, as an SVG file',
    'plan': 'the plans of a list in words, as a table or as JSON',
    'recheck': 'a second reading of a proof',
    'split': 'the parts of an instance, to be solved apart',
    'spread': 'every best compromise, on several processors',
    'to-lp': 'an instance as models in the LP format of CPLEX',
    'to-wcnf': 'an instance as weighted clauses',
    'watch': 'a log, followed while it grows',
}


def main(arguments: List[str]) -> int:
    """Runs the command that the first word names, with the words after it.

    >>> main(['--help'])  # doctest: +ELLIPSIS
    scuttle: the commands of the package.
    ...
    0
    """
    if arguments[:1] and arguments[0] in COMMANDS:
        return run_named(arguments[0], arguments[1:])
    if arguments[:1] and arguments[0] in LAUNCHED:
        return launch(arguments)
    if arguments == ['--version']:
        print('scuttle ' + VERSION)
        return 0
    is_asked = arguments[:1] in (['--help'], ['-h'], ['help'])
    be_printable()
    print(str(__doc__) + ''.join('\n  %-10s %s' % pair for pair in COMMANDS.items()), file=sys.stdout if is_asked else sys.stderr)
    return 0 if is_asked else USAGE


def run_named(name: str, arguments: List[str]) -> int:
    """Runs a command by its name.

    >>> run_named('plan', ['--help'])  # doctest: +ELLIPSIS
    plan: shows the plans of a list in the words of the instance's own comments.
    ...
    0
    """
    module = importlib.import_module('scuttle.' + name.replace('-', '_'))
    return int(module.main(arguments))


def launch(arguments: List[str]) -> int:
    """Becomes `scuttle` itself with these words; ends with 69 where it can't be run here.

    >>> launch.__name__
    'launch'
    """
    try:
        launcher = find_launcher()
        sys.stdout.flush()
        os.execv(SHELL, [SHELL, launcher] + arguments)
    except NoProgram as fault:
        print('scuttle: %s' % fault, file=sys.stderr)
    except OSError as fault:
        print('scuttle: %s: %s' % (SHELL, fault.strerror), file=sys.stderr)
    return NO_PROGRAM


def scuttle() -> int:
    """The entry point `scuttle`."""
    return launch(sys.argv[1:])


def entry() -> int:
    """The entry point `scuttle-NAME` of each command: its name says which."""
    return run_named(sys.argv[0].replace('\\', '/').split('/')[-1].split('scuttle-', 1)[-1], sys.argv[1:])


if __name__ == '__main__':
    sys.exit(main(sys.argv[1:]))
