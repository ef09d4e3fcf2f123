"""far: how far a search has come: the models of a log so far, as a list.

usage: tools/far IN LOG [--to LIST]

IN is the instance, LOG the log of a search that runs, was stopped, or has ended. Prints a list, marked INCOMPLETE:
the best of the models that the log has, in rising order; a better one may be missing, and nothing was checked.
A line of the log that has no end yet is left out. With --to the list is written to the file LIST, all of it; where that
fails, LIST is a list without entries.
Ends with 64 where the words are wrong, 65 where a file isn't what it should be, 74 where one can't be read or written.
"""
import signal
import sys
from typing import Dict, List

from . import formats, progress

EMPTY = 's INCOMPLETE 0\n'


def text_of(models: Dict[progress.Costs, List[int]], best: List[progress.Costs]) -> str:
    """The text of a list that is incomplete."""
    lines = ['s INCOMPLETE %d' % len(best)]
    for costs in best:
        lines.append(' '.join(['o'] + [str(cost) for cost in costs]))
        lines.append(' '.join(['v'] + [str(literal) for literal in models[costs]] + ['0']))
    return '\n'.join(lines) + '\n'


def write_whole(path: str, text: str) -> None:
    """Writes a file in its place, so that links to it and its permissions stay. A signal that comes meanwhile waits for nothing: it
    does nothing, so that the file is whole. Raises `OSError` where it can't be written, as on a full disk."""
    for number in (signal.SIGINT, signal.SIGTERM, signal.SIGHUP):
        signal.signal(number, signal.SIG_IGN)
    try:
        with open(path, 'w', encoding='ascii', newline='\n') as file:
            file.write(text)
    except OSError as fault:
        with open(path, 'w', encoding='ascii', newline='\n') as file:
            file.write(EMPTY)
        raise OSError(fault.errno, fault.strerror, path)


def _body(arguments: List[str]) -> int:
    words, to = list(arguments), None
    if '--to' in words[:-1]:
        at = words.index('--to')
        to = words[at + 1]
        del words[at:at + 2]
    if len(words) != 2 or any(word.startswith('--') for word in words):
        return formats.usage(str(__doc__))
    instance = formats.read_instance(words[0])
    models = progress.models_of(words[1], instance)
    text = text_of(models, progress.best_of(models, formats.senses_of(instance, 0)))
    if to is None:
        sys.stdout.write(text)
    else:
        write_whole(to, text)
    return 0


def main(arguments: List[str]) -> int:
    """Runs the command."""
    return formats.run_command(str(__doc__), _body, arguments)
