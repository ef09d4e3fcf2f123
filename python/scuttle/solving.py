"""Solves an instance: runs `solve` and `check` over its files, and reads what they leave."""
import os
import re
import tempfile
from typing import TYPE_CHECKING, Callable, List, NamedTuple, Optional

from .dominance import best_of, senses_of
from .errors import Failed, ModelError, ScuttleError
from .front import Front, Labels, Plan, Source
from .files import Line, write_text
from .instances import costs_of, instance_of, Instance
from .lists import Entry, Listing, read_list, text_of
from .logs import model_of, models_of
from .running import Follower, judge_seconds, run, run_until

if TYPE_CHECKING:
    from .pool import Workers

COMPLETE, INCOMPLETE, REFUSED = 0, 10, 11
SEARCHES = ('p-minimal', 'lower-bounding', 'bioptsat', 'turns')


class Settings(NamedTuple):
    """How long is searched and how: at most so many seconds or learned clauses (None: to the end), by which search (`p-minimal`,
    `lower-bounding`, `bioptsat`, `turns`, whose order `turns` says), with or without hardening and boosting, and the version of LOG; and on
    how many processors at a time, or by which executor, in parts (see `spread`; neither: one run).

    >>> Settings(learn=100, harden=True).words()
    ['--learn', '100', '--harden']
    """

    seconds: Optional[float] = None
    learn: Optional[int] = None
    search: Optional[str] = None
    turns: Optional[str] = None
    harden: bool = False
    boost: bool = False
    log_version: int = 1
    jobs: Optional[int] = None
    executor: 'Optional[Workers]' = None

    def judge(self) -> None:
        """`ModelError` where one of them can't be.

        >>> Settings(search='bioptsa').judge()
        Traceback (most recent call last):
        ...
        scuttle.errors.ModelError: search is p-minimal, lower-bounding, bioptsat or turns, and not 'bioptsa'
        """
        judge_seconds(self.seconds)
        if self.search is not None and self.search not in SEARCHES:
            raise ModelError('search is %s or %s, and not %r' % (', '.join(SEARCHES[:-1]), SEARCHES[-1], self.search))
        if (self.turns is not None) != (self.search == 'turns') or not re.fullmatch('[123]+', str(self.turns or 1)):
            raise ModelError("search='turns' wants turns, whose digits are 1 for p-minimal, 2 for lower-bounding, 3 for bioptsat, as turns='1112', "
                             'and no other search has them')
        for name, number in (('learn', self.learn), ('jobs', self.jobs)):
            if number is not None and (not hasattr(number, '__index__') or isinstance(number, bool) or number < 1):
                raise ModelError('%s is a whole number from 1, and this is a %s: %r' % (name, type(number).__name__, number))
        if self.log_version not in (1, 2):
            raise ModelError('log_version is 1 or 2, and not %r' % (self.log_version,))

    def words(self) -> List[str]:
        """The options of the command."""
        valued = [('--learn', self.learn), ('--search', self.search), ('--turns', self.turns),
                  ('--log-version', None if self.log_version == 1 else self.log_version)]
        words = [word for option, value in valued if value is not None for word in (option, str(value))]
        return words + ['--harden'] * self.harden + ['--boost'] * self.boost


def solve(source: Source, labels: Labels, settings: Settings, on_plan: Optional[Callable[[Plan], object]] = None,
          folder: Optional[str] = None) -> Front:
    """The front of an instance; its files stay in the folder, where one is given. See `Model.solve`. `ModelError` where it can't be solved
    in parts as it is asked.

    >>> solve(Source('a.opb', 'min: 3 x1 ;\\nx1 >= 1 ;\\n'), Labels(['pay'], ['min'], ['shop']), Settings())
    <front: 1 best compromise, accepted by check>
    """
    settings.judge()
    if (settings.jobs is not None or settings.executor is not None) and (settings.harden or settings.learn is not None or on_plan is not None):
        raise ModelError('in parts, by jobs or an executor, neither harden, learn nor on_plan can be had')
    if folder is None:
        with tempfile.TemporaryDirectory(prefix='scuttle-') as made:
            return _solve_in(made, source, labels, settings, on_plan)
    os.makedirs(folder, exist_ok=True)
    return _solve_in(folder, source, labels, settings, on_plan)


def _solve_in(folder: str, source: Source, labels: Labels, settings: Settings, on_plan: Optional[Callable[[Plan], object]]) -> Front:
    paths = [os.path.join(folder, name) for name in (source.name, 'model.list', 'model.log')]
    write_text(paths[0], source.text)
    for path in paths[1:]:
        # What an earlier run left would be taken for this one's.
        if os.path.exists(path):
            os.remove(path)
    if settings.jobs is not None or settings.executor is not None:
        return _solve_in_parts(source, labels, settings, paths)
    instance = instance_of(source.name, [Line(k, line) for k, line in enumerate(source.text.split('\n'), 1)])
    look = _Look(paths[2], instance, labels, on_plan)
    try:
        number = run_until(source.program, ['solve'] + paths + settings.words(), settings.seconds, look, (COMPLETE, INCOMPLETE))
    except KeyboardInterrupt:
        number = None
    if number is None:
        write_text(paths[1], text_of(_so_far(paths[2], instance)))
    return Front.of_listing(read_list(paths[1]), number == COMPLETE and _is_accepted(source, paths), labels, source)


def _solve_in_parts(source: Source, labels: Labels, settings: Settings, paths: List[str]) -> Front:
    # Imported where it is needed: it wants a system with file locks, which the rest of the package doesn't.
    from . import spread
    words = tuple(settings._replace(log_version=1).words())
    how = spread.Settings(settings.jobs, settings.seconds, words=words, version=settings.log_version, program=source.program)
    result = spread.spread(paths[0], paths[1], paths[2], how, settings.executor)
    if result.joined.refused is not None:
        raise Failed(REFUSED, result.joined.refused)
    if result.failed:
        raise ScuttleError('; '.join('%s failed twice: %s' % each for each in result.failed.items()))
    listing = read_list(paths[1])
    return Front.of_listing(listing, listing.complete, labels, source)


def _is_accepted(source: Source, paths: List[str]) -> bool:
    """Whether `check` accepts the very files that were written. It wasn't, where Ctrl-C ended it."""
    try:
        return run(source.program, ['check'] + paths, (0, REFUSED)) == 0
    except KeyboardInterrupt:
        return False


def _so_far(log: str, instance: Instance) -> Listing:
    """The best of the models that a log has, as a list that isn't complete."""
    models = models_of(log, instance) if os.path.exists(log) else {}
    best = best_of(list(models), senses_of(instance, 0))
    return Listing(False, [Entry(costs, models[costs]) for costs in best])


class _Look:
    """Tells of each plan that a log has since the last look."""

    def __init__(self, log: str, instance: Instance, labels: Labels, on_plan: Optional[Callable[[Plan], object]]) -> None:
        self.follower, self.instance, self.labels, self.on_plan = Follower(log), instance, labels, on_plan
        self.found = 0

    def __call__(self) -> None:
        if self.on_plan is None:
            return
        for line in self.follower.lines():
            model = model_of(line, self.instance.variables)
            self.found += 1
            self.on_plan(Plan(self.found, costs_of(self.instance, model), model, self.labels))
