"""The parts of a split on their way through an executor: which wait and which run, which are tried again, and which are cut once more."""
import glob
import os
import time
from collections import deque
from concurrent.futures import FIRST_COMPLETED, Executor, Future, wait
from typing import Callable, Deque, Dict, List, Optional, Protocol, Tuple, Union, cast

from .errors import Malformed, NoProgram, ScuttleError
from .files import write_text
from .logs import models_of
from .part_runs import RUN, STOP, Outcome, is_needed, keep_sent, solve_part, task_of
from .parts import Split
from .split import cut_again, write_runners
from .version import VERSION

# How often the parts that run are looked at, and how long a part runs before idle workers share its work. Seconds.
PAUSE, LONG = 0.2, 2.0
# A part that failed is tried again once.
TRIES = 2
ENDED = 'its run was ended from outside, as for want of memory'
# What a task ends with on a worker that can't find its function, or that knows it with other arguments.
STRANGERS = (ImportError, AttributeError, TypeError)

Tell = Callable[[str], object]


class HasExecutor(Protocol):
    """What gives an executor for itself, as a client of Dask does."""

    def get_executor(self) -> Executor:
        """Its executor."""


# Who solves the parts.
Workers = Union[Executor, HasExecutor]


def executor_of(workers: Workers) -> Executor:
    """The executor that is given, or that of what has one; `ScuttleError` where it is neither.

    >>> executor_of(3)
    Traceback (most recent call last):
    ...
    scuttle.errors.ScuttleError: an executor is one of concurrent.futures, or has one as a client of Dask does, and this is a int
    """
    get_executor = getattr(workers, 'get_executor', None)
    executor = workers if get_executor is None else get_executor()
    if not callable(getattr(executor, 'submit', None)):
        raise ScuttleError('an executor is one of concurrent.futures, or has one as a client of Dask does, and this is a %s' %
                           type(workers).__name__)
    return cast(Executor, executor)


def models_of_run(split: Split, name: str) -> List[List[int]]:
    """The models that the log of a running part has so far."""
    logs = glob.glob(os.path.join(glob.escape(split.path(name, RUN)) + '*', 'log'))
    try:
        return [model for log in logs if os.path.getsize(log) for model in models_of(log, split.source.statements).values()]
    except (FileNotFoundError, Malformed):
        # It has just ended.
        return []


class Pool:
    """The parts that wait and those that run."""

    def __init__(self, split: Split, jobs: Optional[int], deadline: Optional[float], words: Tuple[str, ...], program: Optional[str],
                 tell: Tell) -> None:
        """So many parts at a time (None: all are handed over at once, and none is cut again), until `time.time()` is the deadline; with these
        words for `solve`, by this executable; `tell` hears of each part that ends."""
        self.split, self.jobs, self.deadline, self.words, self.program, self.tell = split, jobs, deadline, words, program, tell
        self.names = {str(node.name) for node, _ in split.parts()}
        self.waiting = deque(split.unsolved())  # type: Deque[str]
        self.running = {}  # type: Dict[Future[Outcome], Tuple[str, float]]
        self.tries = {}  # type: Dict[str, int]
        self.failed = {}  # type: Dict[str, str]

    def work(self, executor: Executor) -> None:
        """Runs all parts, as many at a time as there are jobs."""
        while self.waiting or self.running:
            if self._is_late():
                self.waiting.clear()
            else:
                self._fill(executor)
            for future in wait(self.running, PAUSE, FIRST_COMPLETED).done:
                self._take(future)

    def _fill(self, executor: Executor) -> None:
        while self.jobs is None or len(self.running) < self.jobs:
            if not self.waiting and (self.jobs is None or not self._share()):
                return
            name = self.waiting.popleft()
            uppers = self._uppers(name)
            if is_needed(self.split.folder, name, uppers):
                task = task_of(self.split.folder, name, uppers, self.deadline, self.words, self.program)
                self.tries[name] = self.tries.get(name, 0) + 1
                self.running[executor.submit(solve_part, task)] = name, time.monotonic()

    def stop(self) -> None:
        """Ends what still runs, and waits for what runs here. The file that says so stays, for workers elsewhere."""
        if self.running:
            write_text(self.split.path(STOP, ''), '')
            wait([future for future in self.running if not future.cancel()])

    def _take(self, future: 'Future[Outcome]') -> None:
        """Tells of a part that has ended; one that failed waits again, behind the others."""
        name, _ = self.running.pop(future)
        fault = future.exception()
        if isinstance(fault, NoProgram):
            raise fault
        if isinstance(fault, STRANGERS):
            raise NoProgram('a worker has no package scuttle, or not version %s as here: %s: %s' % (
                VERSION, type(fault).__name__, fault)) from fault
        if fault is not None:
            self._fail(name, str(fault) or type(fault).__name__)
            return
        outcome = future.result()
        keep_sent(self.split.folder, name, outcome)
        if outcome.solved:
            self.tell('%s: solved in %.1f s; %d run, %d wait' % (name, outcome.seconds, len(self.running), len(self.waiting)))
        elif self._was_ended(name):
            self._fail(name, ('on %s: ' % outcome.worker if outcome.worker else '') + ENDED)

    def _was_ended(self, name: str) -> bool:
        """Whether a run that was stopped is one that nobody here has stopped."""
        return not self._is_late() and is_needed(self.split.folder, name, self._uppers(name))

    def _is_late(self) -> bool:
        return self.deadline is not None and time.time() >= self.deadline

    def _fail(self, name: str, what: str) -> None:
        """A part that failed waits again, behind the others, or is named."""
        again = self.tries[name] < TRIES
        self.tell('%s: %s%s' % (name, what, '; it is tried again' if again else ''))
        if again:
            self.waiting.append(name)
        else:
            self.failed[name] = what

    def _share(self) -> bool:
        """Cuts the part that has run longest, if one has run long, so that idle workers take what it is cut into; whether they have something."""
        now = time.monotonic()
        begun = {name: at for name, at in self.running.values() if now - at >= LONG}
        parts = sorted(((node, path) for node, path in self.split.parts() if node.name in begun and not node.children),
                       key=lambda part: begun[str(part[0].name)])
        for node, path in parts:
            if cut_again(self.split, node, path, models_of_run(self.split, str(node.name))):
                self.split.save()
                write_runners(self.split, self.program)
                lower = [child.name for _, child in node.children if child.name]
                self.tell('%s: cut in %d' % (node.name, len(lower)))
                self.names.update(lower)
                self.waiting.extend(lower)
                if lower:
                    return True
        return False

    def _uppers(self, name: str) -> Tuple[str, ...]:
        """The parts that a part was cut from: its name without its last numbers."""
        upper = name.rpartition('-')[0]
        return (upper,) + self._uppers(upper) if upper in self.names else ()
