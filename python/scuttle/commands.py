"""How a command of the package runs: its help, its usage, and the number with which it ends."""
import os
import sys
from typing import Callable, List

from .errors import NoProgram, ScuttleError
from .files import be_printable, printable

USAGE, BAD_INPUT, NO_PROGRAM, NO_FILE = 64, 65, 69, 74


def run_command(doc: str, body: Callable[[List[str]], int], arguments: List[str]) -> int:
    """Runs a command: `--help` prints its text; a file that is malformed or missing is told on standard error.

    >>> run_command('plan: shows plans.', lambda arguments: 0, ['--help'])
    plan: shows plans.
    0
    """
    name = doc.split(':')[0]
    be_printable()
    try:
        if '--help' in arguments or '-h' in arguments:
            print(_as_called(doc).strip())
            return 0
        number = body(arguments)
        sys.stdout.flush()
        return number
    except ScuttleError as fault:
        print('%s: %s' % (name, printable(str(fault))), file=sys.stderr)
        return NO_PROGRAM if isinstance(fault, NoProgram) else BAD_INPUT
    except BrokenPipeError:
        # Who reads has seen enough; what is left to say goes nowhere.
        os.dup2(os.open(os.devnull, os.O_WRONLY), sys.stdout.fileno())
        return 0
    except OSError as fault:
        print('%s: %s: %s' % (name, printable(str(fault.filename or 'standard output')), fault.strerror), file=sys.stderr)
        return NO_FILE


def usage(doc: str) -> int:
    """Prints how a command is called, and answers the number of wrong words.

    >>> usage('plan: shows plans.\\n\\nusage: tools/plan IN LIST')
    64
    """
    print([line for line in _as_called(doc).split('\n') if line.startswith('usage:')][0], file=sys.stderr)
    return USAGE


def _as_called(doc: str) -> str:
    """A command's text, with the words by which it was called: its script in tools/, `scuttle-NAME`, or `python -m scuttle NAME`."""
    called = os.path.basename(sys.argv[0]) if sys.argv else ''
    if called.startswith('scuttle-'):
        return doc.replace('tools/', 'scuttle-')
    return doc.replace('tools/', 'python -m scuttle ') if called == '__main__.py' else doc
