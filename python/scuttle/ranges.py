"""Where a problem is cut: the values between which a cost lies on the front, and the variables that stand in most rows."""
import os
import tempfile
from concurrent.futures import ThreadPoolExecutor
from typing import List, NamedTuple, Optional, Sequence

from .errors import ScuttleError
from .files import write_text
from .instances import Instance, Names, Objective, Row, Term, sum_at
from .lists import read_list
from .logs import models_of
from .parts import LARGEST, Source
from .running import run_until
from .statements import text_of_statements

COMPLETE, INCOMPLETE = 0, 10


class Range(NamedTuple):
    """A cost, from 1, and about the least and the greatest value of its cost row's terms on the front.

    >>> Range(1, 40, 90).cost
    1
    """

    cost: int
    low: int
    high: int


class Quick(NamedTuple):
    """How quick runs are made: the seconds that each may take, how many at a time, and the executable.

    >>> Quick(10.0, 2, None).jobs
    2
    """

    seconds: float
    jobs: int
    program: Optional[str]


class NoModels(ScuttleError):
    """The rows have no model, so that there is nothing to cut."""


def find_range(source: Source, cost: Optional[int], quick: Quick) -> Range:
    """The range of a cost, from 1, or of the cost whose range is widest, by quick runs: for the least of each cost, and for this one's least
    value where another is least. What a run has found when its time is up counts. `NoModels` where there are none.

    A range that is too narrow or too wide makes parts uneven and nothing else, since the outer ones have no bound on that side.
    """
    costs = range(1, len(source.costs) + 1)
    least = {k: _least(source, source.costs[k - 1].terms, [], quick) for k in costs}
    found = {k: model for k, model in least.items() if model is not None}
    wanted = cost or max(costs, key=lambda k: _width(source, k, list(found.values())))
    seen = list(found.values())
    for k in costs:
        if k != wanted and k in found:
            bound = sum_at(source.costs[k - 1].terms, found[k])
            seen.append(_least(source, source.costs[wanted - 1].terms, [Row(source.costs[k - 1].terms, '<=', bound, 0)], quick) or found[k])
    # Of models that only say where another cost is least, those count in which the wanted one was made small.
    values = [source.value(wanted, model) for model in seen[len(found):] + ([found[wanted]] if wanted in found else [])]
    return Range(wanted, min(values, default=0), max(values, default=source.costs[wanted - 1].most))


def find_models(source: Source, cost: int, bounds: Sequence[int], quick: Quick) -> List[List[int]]:
    """For each bound a model of the normal form that is below it in this cost, and whose other costs sum to as little as a quick run found."""
    others = [term for k, row in enumerate(source.costs, 1) if k != cost for term in row.terms]
    if sum(weight for weight, _ in others) > LARGEST:
        others = list(source.costs[cost % len(source.costs)].terms)

    def find(bound: int) -> Optional[List[int]]:
        return _least(source, others, [Row(source.costs[cost - 1].terms, '<=', bound - 1, 0)], quick)
    with ThreadPoolExecutor(quick.jobs) as pool:
        return [model for model in pool.map(find, bounds) if model is not None]


def _width(source: Source, cost: int, models: Sequence[Sequence[int]]) -> int:
    values = [source.value(cost, model) for model in models]
    return max(values, default=0) - min(values, default=0)


def _least(source: Source, terms: Sequence[Term], rows: List[Row], quick: Quick) -> Optional[List[int]]:
    """A model in which a sum is least, or the best that the time allowed; None where it allowed none."""
    whole = source.statements
    goal = Objective('min', list(terms), [])
    problem = Instance(whole.variables, [goal], whole.rows + rows)
    with tempfile.TemporaryDirectory(prefix='scuttle-') as folder:
        paths = [os.path.join(folder, 'least' + ending) for ending in ('.opb', '.list', '.log')]
        write_text(paths[0], text_of_statements(problem, Names({}, {})))
        number = run_until(quick.program, ['solve'] + paths, quick.seconds, lambda: None, (COMPLETE, INCOMPLETE))
        if number == COMPLETE:
            entries = read_list(paths[1]).entries
            if not entries and not rows:
                raise NoModels('the rows of %s have no model' % source.path)
            return entries[0].model if entries else None
        models = models_of(paths[2], problem) if os.path.exists(paths[2]) and os.path.getsize(paths[2]) else {}
        return models[min(models)] if models else None


def busiest_variables(source: Source) -> List[int]:
    """The variables, those that stand in most rows first."""
    counts = [0] * (source.variables + 1)
    for row in source.statements.rows:
        for _, literal in row.terms:
            counts[abs(literal)] += 1
    return sorted(range(1, source.instance.variables + 1), key=lambda variable: (-counts[variable], variable))
