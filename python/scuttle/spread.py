"""spread: solves an instance on several processors: in parts, with one list and one log.

usage: tools/spread IN LIST LOG [--jobs N] [--seconds S] [--parts K] [--cost N] [--by VARIABLES] [--folder FOLDER] [--log-version V] [--boost]

Does what tools/split, `solve` of each part and tools/join do, in one call: LIST gets every best compromise, and LOG the proof,
which `check` has then judged. --parts, --cost and --by are those of tools/split, and --boost is that of `solve`.
--jobs N          so many parts at a time; as many as there are processors where it is left out
--seconds S       stops after about so many seconds: LIST then has the best models so far, marked INCOMPLETE
--folder FOLDER   where the parts are, and stay; LOG.parts where it is left out, which goes when all is done
A part that fails is tried once more, and then named. What is solved stays in FOLDER, and the next call takes it up. Where no part
waits any more, one that still runs is cut again besides: its own run goes on, and whoever is done first counts.
Ends with 0 where `check` accepts, 10 where parts aren't solved (stopped, or failed twice), 11 where `check` refuses, 64 where the
words are wrong, 65 where IN isn't an instance, or is too large, 69 without an executable, 74 where a file fails.
"""
import contextlib
import fcntl
import os
import re
import shutil
import signal
import sys
import time
from concurrent.futures import ThreadPoolExecutor
from typing import Dict, Iterator, List, NamedTuple, Optional, Sequence, Tuple

from .commands import run_command, usage
from .dominance import best_of
from .errors import ScuttleError
from .files import write_text
from .instances import Costs, costs_of
from .join import UNSOLVED, Joined, join, say
from .lists import Entry, Listing, read_list, text_of
from .logs import models_of
from .part_runs import RUN, STOP
from .parts import PLAN, Source, Split
from .pool import Pool, Tell, Workers, executor_of
from .split import (COMMANDS, MAKEFILE, MOST_PARTS, PARTS_PER_PROCESSOR, PROBE, cuttable, make_split, number_of, options_of, processors,
                    variables_of)

class Settings(NamedTuple):
    """How an instance is spread: so many parts at a time, at most so many seconds, how it is cut (see `split.make_split`), the words for
    `solve`, the version of the joined log, the executable, and the folder of the parts (None: beside the log, and gone afterwards).

    >>> Settings(jobs=2).version
    1
    """

    jobs: Optional[int] = None
    seconds: Optional[float] = None
    parts: Optional[int] = None
    cost: Optional[int] = None
    by: Optional[Sequence[int]] = None
    words: Tuple[str, ...] = ()
    version: int = 1
    program: Optional[str] = None
    folder: Optional[str] = None


class Spread(NamedTuple):
    """What came of it: the split, what came of joining, and the parts that failed twice with what was said.

    >>> Spread.__name__
    'Spread'
    """

    split: Split
    joined: Joined
    failed: Dict[str, str]


def spread(path: str, listed: str, logged: str, settings: Settings, executor: Optional[Workers] = None,
           tell: Tell = lambda text: None) -> Spread:
    """Solves an instance in parts by an executor or a client of Dask (by threads of this process, each with a run of the program, where none is
    given), and joins them. Workers on other machines needn't see the folder: a part's text goes there, and list and log come back. Ctrl-C ends
    it as the time does; a worker that doesn't see the folder then ends its part first.

    With an executor and no number of jobs all parts are handed over at once, and none is cut again. `Failed` where the program doesn't take
    the instance, `Malformed` where the folder has parts of another.
    """
    others = None if executor is None else executor_of(executor)
    deadline = None if settings.seconds is None else time.time() + settings.seconds
    folder = os.path.abspath(settings.folder or logged + '.parts')
    jobs = settings.jobs or processors()
    with _alone_in(folder):
        split = _split_in(folder, path, jobs, settings)
        at_once = None if others is not None and settings.jobs is None else jobs
        pool = Pool(split, at_once, deadline, settings.words, settings.program, tell)
        # It starts threads as work is handed over: none, where the executor is another's.
        with ThreadPoolExecutor(jobs) as own:
            try:
                pool.work(others or own)
            except KeyboardInterrupt:
                pass
            finally:
                pool.stop()
        joined = join(split, listed, logged, settings.version, settings.program)
        if joined.unsolved:
            write_text(listed, text_of(models_so_far(split)))
        elif joined.refused is None and settings.folder is None:
            remove(split)
    return Spread(split, joined, pool.failed)


@contextlib.contextmanager
def _alone_in(folder: str) -> Iterator[None]:
    """Makes the folder, and sees to it that no other call works in it; an empty one goes at the end."""
    os.makedirs(folder, exist_ok=True)
    handle = os.open(folder, os.O_RDONLY)
    try:
        fcntl.flock(handle, fcntl.LOCK_EX | fcntl.LOCK_NB)
    except BlockingIOError:
        os.close(handle)
        raise ScuttleError('another call works in %s' % folder) from None
    try:
        yield
    finally:
        os.close(handle)
        with contextlib.suppress(OSError):
            # Where there were no parts to make, or they aren't needed any more, it is empty.
            os.rmdir(folder)


def _clear(split: Split) -> None:
    """Removes the folders of runs of these parts that have died, and the file that stopped some."""
    names = {str(node.name) for node, _ in split.parts()}
    for name in os.listdir(split.folder):
        path = os.path.join(split.folder, name)
        part, _, letters = name.rpartition(RUN)
        if part in names and re.fullmatch('[a-z0-9_]{8}', letters) and os.path.isdir(path) and not os.path.islink(path):
            shutil.rmtree(path, ignore_errors=True)
    stop = split.path(STOP, '')
    if os.path.exists(stop):
        if not os.path.isfile(stop) or os.path.getsize(stop):
            raise ScuttleError('%s stops all runs of these parts: take it away' % stop)
        os.remove(stop)


def _split_in(folder: str, path: str, jobs: int, settings: Settings) -> Split:
    """The parts that the folder has already, or new ones."""
    if os.path.exists(os.path.join(folder, PLAN)):
        split = Split.load(Source.of_file(path), folder)
        _clear(split)
        return split
    if os.listdir(folder):
        raise ScuttleError('%s is there already, and has no parts but something else' % folder)
    probe = PROBE if settings.seconds is None else min(PROBE, settings.seconds / 10)
    return make_split(path, folder, settings.parts or jobs * PARTS_PER_PROCESSOR, settings.cost, settings.by, probe, settings.program, jobs)


def models_so_far(split: Split) -> Listing:
    """The best of the models that the parts' logs have, as a list that isn't complete."""
    source, found = split.source, {}  # type: Source, Dict[Costs, List[int]]
    for node, _ in split.parts():
        log = split.path(str(node.name), '.log')
        if os.path.exists(log) and os.path.getsize(log):
            for model in models_of(log, source.statements).values():
                own = model[:source.instance.variables]
                found.setdefault(costs_of(source.instance, own), own)
    best = best_of(list(found), [objective.sense for objective in source.instance.objectives])
    return Listing(False, [Entry(costs, found[costs]) for costs in best])


def remove(split: Split) -> None:
    """Removes a folder's parts."""
    _clear(split)
    names = [PLAN, MAKEFILE, COMMANDS]
    names += [str(node.name) + ending for node, _ in split.parts() for ending in ('.opb', '.list', '.log', '.unfinished')]
    for name in names:
        path = os.path.join(split.folder, name)
        if os.path.exists(path):
            os.remove(path)


def settings_of(words: List[str], variables: int, costs: int) -> Optional[Settings]:
    """Takes the options out of the words; None where they are wrong."""
    has_boost = '--boost' in words
    if has_boost:
        words.remove('--boost')
    found = options_of(words, ('--jobs', '--seconds', '--parts', '--cost', '--by', '--folder', '--log-version'))
    if found is None or '--by' in found and '--cost' in found:
        return None
    by = variables_of(found['--by'], variables) if '--by' in found else None
    if '--by' in found and by is None:
        return None
    try:
        return Settings(number_of(found.get('--jobs'), 1, MOST_PARTS), number_of(found.get('--seconds'), 1, 10 ** 9),
                        number_of(found.get('--parts'), 1, MOST_PARTS), number_of(found.get('--cost'), 1, costs), by,
                        ('--boost',) * has_boost, number_of(found.get('--log-version'), 1, 2) or 1, None, found.get('--folder'))
    except ValueError:
        return None


def _body(arguments: List[str]) -> int:
    words = list(arguments)
    named = [word for word in words if word.endswith(('.opb', '.mopb', '.mcnf'))]
    source = Source.of_file(named[0]) if named and os.path.exists(named[0]) else None
    settings = settings_of(words, source.instance.variables, cuttable(source)) if source else settings_of(words, 0, 0)
    if settings is None or len(words) != 3 or len({os.path.realpath(word) for word in words}) < 3:
        return usage(str(__doc__))
    # A request to end ends it as Ctrl-C does: what is solved stays, and no run goes on alone.
    before = signal.signal(signal.SIGTERM, signal.default_int_handler)
    try:
        result = spread(words[0], words[1], words[2], settings, None, lambda text: print('spread: ' + text, file=sys.stderr, flush=True))
    except KeyboardInterrupt:
        print('spread: stopped before there were parts', file=sys.stderr)
        return UNSOLVED
    finally:
        signal.signal(signal.SIGTERM, before)
    if not result.joined.unsolved:
        return say('spread', result.joined, result.split)
    for name, what in result.failed.items():
        print('spread: %s failed twice: %s' % (name, what), file=sys.stderr)
    print('stopped: %d so far in %s' % (len(read_list(words[1]).entries), words[1]))
    print('spread: %d parts are left, and what is solved stays in %s' % (len(result.joined.unsolved), result.split.folder), file=sys.stderr)
    return UNSOLVED


def main(arguments: List[str]) -> int:
    """Runs the command."""
    return run_command(str(__doc__), _body, arguments)
