"""One part's run, on whatever machine: its text comes with the task, and what the run leaves goes back as the result, where the worker
doesn't see the folder of the parts; and when a part needn't be run any more.
"""
import os
import platform
import tempfile
import time
import uuid
from typing import Callable, List, NamedTuple, Optional, Sequence, Tuple

from .errors import NoProgram, ScuttleError
from .packed import pack_file, pack_text, unpack, unpack_to
from .running import run_until
from .version import VERSION

COMPLETE = 0
# A file of this name in the folder stops all runs of its parts.
STOP = 'stop'
# What stands between a part's name and chance letters in the name of a run's folder.
RUN = '.run-'


class Task(NamedTuple):
    """What a worker has to know: the folder, the part's name and its text, packed, the names of the parts that it was cut from, when it is to
    end by `time.time()` (None: never), more words for `solve`, and the executable (None: the worker's own); besides who hands it over, by
    `this_process`, and by which version, and a token, so that an engine that keeps results never takes two tasks for one.

    >>> Task('parts', 'part-1', b'', (), None, (), None).name
    'part-1'
    """

    folder: str
    name: str
    text: bytes
    uppers: Tuple[str, ...]
    deadline: Optional[float]
    words: Tuple[str, ...]
    program: Optional[str]
    caller: str = ''
    version: str = VERSION
    token: str = ''


class Outcome(NamedTuple):
    """Whether the part was solved, and the seconds that its run took. One that isn't was stopped, or isn't needed any more. From a worker
    that doesn't see the folder also who it is, and list and log, packed: empty, where there is none.

    >>> Outcome(True, 4.2).solved
    True
    """

    solved: bool
    seconds: float
    worker: str = ''
    listed: bytes = b''
    log: bytes = b''


class _NotWanted(Exception):
    """Others have done this part's work, or all runs are to stop."""


def this_process() -> str:
    """Who works here: the machine and the process.

    >>> this_process() == 'machine %s, process %d' % (platform.node(), os.getpid())
    True
    """
    return 'machine %s, process %d' % (platform.node(), os.getpid())


def task_of(folder: str, name: str, uppers: Tuple[str, ...], deadline: Optional[float], words: Tuple[str, ...], program: Optional[str]) -> Task:
    """The task of a part whose text stands in the folder."""
    with open(os.path.join(folder, name + '.opb'), 'rb') as file:
        text = pack_text(file.read())
    return Task(folder, name, text, uppers, deadline, words, program, this_process(), VERSION, uuid.uuid4().hex)


def solve_part(task: Task) -> Outcome:
    """Solves a part in a folder of its own: a run that dies leaves nothing, and two of the same part don't meet. A worker that sees the
    folder then gives log and list their names there; any other sends them back. The log of one that is stopped is left without a list.

    `NoProgram`, `ScuttleError` and `OSError` say what went wrong, and, from another process than the caller's, where.
    """
    if task.caller == this_process():
        return _solve(task)
    try:
        if task.version != VERSION:
            raise NoProgram('here is version %s of the package, and the caller has %s' % (VERSION, task.version))
        return _solve(task)
    except (ScuttleError, OSError) as fault:
        kind = NoProgram if isinstance(fault, NoProgram) else ScuttleError
        raise kind('on %s: %s' % (this_process(), fault)) from None


def _solve(task: Task) -> Outcome:
    begun = time.monotonic()
    if not sees_folder(task):
        return _solve_elsewhere(task, begun)
    if not _is_wanted(task):
        return Outcome(False, 0.0)
    with tempfile.TemporaryDirectory(prefix=task.name + RUN, dir=task.folder) as own:
        number = _run(task, [_path(task, '.opb'), os.path.join(own, 'list'), os.path.join(own, 'log')], lambda: _is_wanted(task))
        _keep(task.folder, task.name, own, number == COMPLETE)
    return Outcome(number == COMPLETE, time.monotonic() - begun)


def _solve_elsewhere(task: Task, begun: float) -> Outcome:
    """Solves a part on a machine that doesn't see the folder, so that nothing there can stop it."""
    with _scratch() as own:
        paths = [os.path.join(own, name) for name in ('part.opb', 'list', 'log')]
        with open(paths[0], 'wb') as out:
            out.write(unpack(task.text))
        is_solved = _run(task, paths, lambda: True) == COMPLETE
        listed = pack_file(paths[1]) if is_solved else b''
        log = pack_file(paths[2]) if os.path.exists(paths[2]) else b''
    return Outcome(is_solved, time.monotonic() - begun, this_process(), listed, log)


def sees_folder(task: Task) -> bool:
    """Whether this machine sees the caller's folder: the part stands there, with the very text that came with the task."""
    try:
        with open(_path(task, '.opb'), 'rb') as file:
            return os.access(task.folder, os.W_OK) and file.read() == unpack(task.text)
    except OSError:
        return False


def _scratch() -> 'tempfile.TemporaryDirectory[str]':
    try:
        return tempfile.TemporaryDirectory(prefix='scuttle-')
    except OSError as fault:
        raise ScuttleError('there is no folder for scratch files (TMPDIR names one): %s' % fault) from None


def keep_sent(folder: str, name: str, outcome: Outcome) -> None:
    """Writes what a worker that doesn't see the folder has sent back."""
    if not outcome.log:
        return
    with tempfile.TemporaryDirectory(prefix=name + RUN, dir=folder) as own:
        unpack_to(os.path.join(own, 'log'), outcome.log)
        if outcome.solved:
            unpack_to(os.path.join(own, 'list'), outcome.listed)
        _keep(folder, name, own, outcome.solved)


def _keep(folder: str, name: str, own: str, is_solved: bool) -> None:
    """Gives log and list of a run their names in the folder, the list last."""
    log, place = os.path.join(own, 'log'), os.path.join(folder, name)
    if os.path.exists(log) and not _has_list(folder, name):
        os.replace(log, place + '.log')
        if is_solved:
            os.replace(os.path.join(own, 'list'), place + '.list')


def _run(task: Task, paths: List[str], is_wanted: Callable[[], bool]) -> Optional[int]:
    seconds = None if task.deadline is None else max(0.0, task.deadline - time.time())

    def look() -> None:
        if not is_wanted():
            raise _NotWanted
    try:
        return run_until(task.program, ['solve'] + paths + list(task.words), seconds, look, (COMPLETE,))
    except _NotWanted:
        return None


def _is_wanted(task: Task) -> bool:
    return is_needed(task.folder, task.name, task.uppers) and os.path.isdir(task.folder) \
        and not os.path.exists(os.path.join(task.folder, STOP))


def cut_name(name: str, number: int) -> str:
    """The name of one of the parts into which a part is cut, numbered from 1.

    >>> cut_name('part-1', 2)
    'part-1-2'
    """
    return '%s-%d' % (name, number)


def is_needed(folder: str, name: str, uppers: Sequence[str]) -> bool:
    """Whether neither a part that this one was cut from is solved, nor all that it was cut into."""
    return not any(_has_list(folder, upper) for upper in uppers) and not _is_done_below(folder, name)


def _is_done_below(folder: str, name: str) -> bool:
    """Whether a part was cut, and all that it was cut into is solved."""
    number = 1
    while os.path.exists(os.path.join(folder, cut_name(name, number) + '.opb')):
        lower = cut_name(name, number)
        if not _has_list(folder, lower) and not _is_done_below(folder, lower):
            return False
        number += 1
    return number > 1


def _has_list(folder: str, name: str) -> bool:
    return os.path.exists(os.path.join(folder, name + '.list'))


def _path(task: Task, ending: str) -> str:
    return os.path.join(task.folder, task.name + ending)
