"""A front: its plans, what they share, and how they are filtered, compared and written."""
import os
import tempfile
from typing import Any, Callable, Dict, Iterator, List, Mapping, Optional, Sequence, Set, Tuple, Union, overload

from .errors import ScuttleError
from .files import read_lines, write_text
from .front_texts import Path, Texts, kept
from .instances import instance_of, name_of_objective, name_of_variable, names_of
from .lists import Choice, Entry, Listing, fits, read_list, read_models, text_of, title_of
from .names import Name
from .plans import Difference, Labels, More, Plan, Source
from .running import run, run_until

__all__ = ['Difference', 'Front', 'Labels', 'More', 'Plan', 'Source']


class Front(Texts):
    """The plans of a list: `complete` where they are all best compromises, `accepted` where `check` accepted list and log.

    `accepted` is None where `check` wasn't asked. A front is a sequence: `len(front)`, `front[0]`, `for plan in front`; plans are numbered
    from 1, as in lists and pictures, and counted from 0, as in Python. `listed` says of how many these are, after `where`; `conflict` is, where
    there is no plan, a small set of rows that can't hold together, if one was found; `choices` has for each plan others of the same compromise
    that `more` or a file of models gave, or None.

    >>> labels = Labels(['pay', 'joy'], ['min', 'max'], ['Ann', 'Ben'])
    >>> front = Front(True, True, [Plan(1, (3, 1), [1, -2], labels), Plan(2, (5, 2), [1, 2], labels)], labels)
    >>> front
    <front: 2 best compromises, accepted by check>
    >>> front.best('joy'), front.always(), front.never()
    (<plan 2: pay: 5; joy: 2>, ['Ann'], [])
    """

    def __init__(self, complete: bool, accepted: Optional[bool], plans: Sequence[Plan], labels: Optional[Labels] = None,
                 source: Optional[Source] = None, listed: Optional[int] = None) -> None:
        self.complete, self.accepted, self.plans = complete, accepted, list(plans)
        self.labels = labels or (self.plans[0].labels if self.plans else Labels([], [], []))
        self.source, self.listed = source, len(self.plans) if listed is None else listed
        self.conflict = []  # type: List[str]
        self.choices = [None] * len(self.plans)  # type: List[Optional[More]]

    @classmethod
    def of_listing(cls, listing: Listing, accepted: Optional[bool], labels: Labels, source: Optional[Source] = None) -> 'Front':
        """The front that a list holds."""
        plans = [Plan(number, entry.costs, entry.model, labels) for number, entry in enumerate(listing.entries, 1)]
        return cls(listing.complete, accepted, plans, labels, source)

    @classmethod
    def read(cls, instance: str, listed: str, log: Optional[str] = None, models: Optional[str] = None,
             program: Optional[str] = None) -> 'Front':
        """The front of files: of an instance with the names in its comments, and of its list. With a log `check` is asked whether it proves
        the list; with a text of models (`scuttle models`) each plan has others beside it. `Malformed` names the first wrong line.

        >>> with open('a.opb', 'w') as out:
        ...     _ = out.write('* x1 shop\\n* min 1 pay\\nmin: 3 x1 ;\\nx1 >= 1 ;\\n')
        >>> with open('a.list', 'w') as out:
        ...     _ = out.write('s COMPLETE 1\\no 3\\nv 1 0\\n')
        >>> Front.read('a.opb', 'a.list').plans
        [<plan 1: pay: 3>]
        """
        lines = read_lines(instance)
        parsed, names, listing = instance_of(instance, lines), names_of(instance, lines), read_list(listed)
        fits(listed, listing, parsed)
        labels = Labels(_different([name_of_objective(names, k) for k in range(1, len(parsed.objectives) + 1)]),
                        [objective.sense for objective in parsed.objectives],
                        list(_different([name_of_variable(names, k) for k in range(1, parsed.variables + 1)])))
        accepted = None if log is None else run(program, ['check', instance, listed, log], (0, 11)) == 0
        source = Source(os.path.basename(instance), ''.join(line.text + '\n' for line in lines), program)
        front = cls.of_listing(listing, accepted, labels, source)
        if models is not None:
            choices = read_models(models, parsed.variables)
            if len(choices) != len(front):
                raise ScuttleError('%s has %d entries, and %s %d' % (models, len(choices), listed, len(front)))
            front.choices = [front._more_of(plan, choice, None) for plan, choice in zip(front, choices)]
        return front

    def __len__(self) -> int:
        return len(self.plans)

    def __iter__(self) -> Iterator[Plan]:
        return iter(self.plans)

    def __getitem__(self, at: int) -> Plan:
        return self.plans[at]

    def __eq__(self, other: object) -> bool:
        return isinstance(other, Front) and (self.complete, self.accepted, self.plans) == (other.complete, other.accepted, other.plans)

    def title(self) -> str:
        """How many plans there are, and whether one may be missing.

        >>> Front(False, None, []).title()
        'INCOMPLETE: 0 so far; a better plan may be missing'
        """
        return title_of(self.complete, self.listed, len(self))

    def __repr__(self) -> str:
        asked = {True: ', accepted by check', False: ', not accepted by check', None: ''}[self.accepted if self.complete else None]
        return '<front: %s%s>' % (self.title(), asked)

    def __str__(self) -> str:
        conflict = ['these can\'t hold together:'] + ['   ' + row for row in self.conflict] if self.conflict else []
        return '\n'.join([self.title()] + conflict + ['\n' + str(plan) for plan in self.plans])

    # Which plan.

    def _objective(self, name: str) -> int:
        if name not in self.labels.objectives:
            raise KeyError('there is no cost %r; there are %s' % (name, ', '.join(map(repr, self.labels.objectives)) or 'none'))
        return self.labels.objectives.index(name)

    def best(self, name: str) -> Plan:
        """The plan with the best of one cost, the first of equal ones. `KeyError` where there is no such cost, `IndexError` where no plan.

        >>> from scuttle import Model
        >>> m = Model(); red, box = m.option('red'), m.option('box')
        >>> m.minimise('pay', 5 * red + 2 * box); m.maximise('joy', 3 * red + 2 * box)
        >>> front = m.solve()
        >>> front.best('joy')
        <plan 4: pay: 7; joy: 5>
        """
        k = self._objective(name)
        sign = 1 if self.labels.senses[k] == 'min' else -1
        if not self.plans:
            raise IndexError('there is no plan')
        return min(self.plans, key=lambda plan: sign * plan.vector[k])

    def where(self, condition: 'Union[None, Mapping[str, Callable[[int], object]], Callable[[Plan], object]]' = None,
              **costs: Callable[[int], object]) -> 'Front':
        """The front of those plans whose costs satisfy the conditions, or the one condition of a plan. Costs whose names are no Python
        words stand in a mapping. It is complete or not as this one is.

        >>> labels = Labels(['pay', 'the joy'], ['min', 'max'], ['Ann'])
        >>> front = Front(True, True, [Plan(1, (3, 1), [1], labels), Plan(2, (5, 2), [1], labels)], labels)
        >>> len(front.where(pay=lambda v: v <= 4)), len(front.where({'the joy': lambda v: v > 2})), front.where(lambda plan: plan['Ann'])
        (1, 0, <front: 2 best compromises, accepted by check>)
        """
        asked = dict(costs, **(condition if isinstance(condition, Mapping) else {}))
        tests = [(self._objective(name), test) for name, test in asked.items()]
        kept = [at for at, plan in enumerate(self.plans) if all(test(plan.vector[k]) for k, test in tests)
                and (condition is None or isinstance(condition, Mapping) or condition(plan))]
        front = Front(self.complete, self.accepted, [self.plans[at] for at in kept], self.labels, self.source, self.listed)
        front.choices = [self.choices[at] for at in kept]
        return front

    def knee(self) -> Plan:
        """The plan nearest to the ideal, which has the best of each cost, where each cost goes from 0 to 1 over the plans that are left;
        the first of equal ones. `IndexError` where there is none.

        >>> from scuttle import Model
        >>> m = Model(); red, box = m.option('red'), m.option('box')
        >>> m.minimise('pay', 5 * red + 2 * box); m.maximise('joy', 3 * red + 2 * box)
        >>> front = m.solve()
        >>> front.knee()
        <plan 2: pay: 2; joy: 2>
        """
        if not self.plans:
            raise IndexError('there is no plan')
        ends = [(min(column), max(column)) for column in zip(*[plan.vector for plan in self.plans])]  # type: List[Tuple[int, int]]

        def distance(plan: Plan) -> float:
            shares = [float((cost - least) if sense == 'min' else (greatest - cost)) / (greatest - least)
                      for cost, (least, greatest), sense in zip(plan.vector, ends, self.labels.senses) if least < greatest]
            return sum(share * share for share in shares)
        return min(self.plans, key=distance)

    def always(self) -> List[Name]:
        """The options that each of the plans takes.

        >>> from scuttle import Model
        >>> m = Model(); red, box = m.option('red'), m.option('box')
        >>> m.minimise('pay', 5 * red + 2 * box); m.maximise('joy', 3 * red + 2 * box)
        >>> front = m.solve()
        >>> front.where(pay=lambda v: v >= 5).always()
        ['red']
        """
        return self._shared(lambda counts: counts == len(self.plans)) if self.plans else []

    def never(self) -> List[Name]:
        """The options that none of the plans takes.

        >>> from scuttle import Model
        >>> m = Model(); red, box = m.option('red'), m.option('box')
        >>> m.minimise('pay', 5 * red + 2 * box); m.maximise('joy', 3 * red + 2 * box)
        >>> front = m.solve()
        >>> front.where(pay=lambda v: v < 5).never()
        ['red']
        """
        return self._shared(lambda counts: counts == 0) if self.plans else []

    def _shared(self, is_so: Callable[[int], bool]) -> List[Name]:
        counts = [0] * len(self.labels.options)
        for plan in self.plans:
            for literal in plan.model:
                counts[abs(literal) - 1] += literal > 0
        return [name for k, (name, count) in enumerate(zip(self.labels.options, counts), 1) if is_so(count) and k not in self.labels.helping]

    def diff(self, i: Union[int, Plan], j: Union[int, Plan]) -> Difference:
        """How the second plan differs from the first; each is a plan or its place, from 0.

        >>> from scuttle import Model
        >>> m = Model(); red, box = m.option('red'), m.option('box')
        >>> m.minimise('pay', 5 * red + 2 * box); m.maximise('joy', 3 * red + 2 * box)
        >>> front = m.solve()
        >>> front.diff(1, 2)
        Difference(costs={'pay': 3, 'joy': 1}, only_first=['box'], only_second=['red'])
        """
        first, second = [plan if isinstance(plan, Plan) else self.plans[plan] for plan in (i, j)]
        names = [dict.fromkeys(plan.taken) for plan in (first, second)]
        return Difference({name: second.costs[name] - cost for name, cost in first.costs.items()},
                          [name for name in names[0] if name not in names[1]], [name for name in names[1] if name not in names[0]])

    def more(self, i: Union[int, Plan], k: int, seconds: Optional[float] = None) -> More:
        """Up to k plans of costs as good as those of a plan, or of its place, from 0, by `models`; and whether they are all, which
        `check-models` judges. Plans that differ only in helping options are one, the first. When the seconds are up before the search has
        ended, it is that plan alone.

        >>> from scuttle import Model
        >>> m = Model(); m.exactly(1, m.option('red car'), m.option('blue car'))
        >>> more = m.solve().more(0, 10)
        >>> more.all, more.accepted, sorted(plan.taken for plan in more.plans)
        (True, True, [['blue car'], ['red car']])
        """
        plan = i if isinstance(i, Plan) else self.plans[i]
        if self.source is None:
            raise ScuttleError('this front has no instance that could be asked')
        with tempfile.TemporaryDirectory(prefix='scuttle-') as folder:
            paths = [os.path.join(folder, 'in', self.source.name), os.path.join(folder, 'one.list')]
            os.mkdir(os.path.dirname(paths[0]))
            write_text(paths[0], self.source.text)
            write_text(paths[1], text_of(Listing(True, [Entry(plan.vector, plan.model)])))
            words = paths + [str(k), os.path.join(folder, 'more')]
            if run_until(self.source.program, ['models'] + words, seconds, lambda: None, (0,)) is None:
                return More(False, None, [plan])
            accepted = run(self.source.program, ['check-models'] + words, (0, 11)) == 0
            choice = read_models(os.path.join(folder, 'more.models'), len(plan.model))[0]
        found = self._more_of(plan, choice, accepted)
        if plan in self.plans:
            self.choices[self.plans.index(plan)] = found
        return found

    def _more_of(self, plan: Plan, choice: Choice, accepted: Optional[bool]) -> More:
        plans = {}  # type: Dict[Tuple[int, ...], Plan]
        for model in choice.models:
            other = Plan(plan.number, plan.vector, model, self.labels)
            plans.setdefault(tuple(literal for literal in model if abs(literal) not in self.labels.helping), other)
        return More(choice.all, accepted, list(plans.values()))

    @overload
    def to_html(self, path: None = None, *, title: str = '') -> str: ...

    @overload
    def to_html(self, path: Path, *, title: str = '') -> None: ...

    def to_html(self, path: Optional[Path] = None, *, title: str = '') -> Optional[str]:
        """The page that `scuttle-page` makes, for any browser: with sliders, a table, and the plans. It needs nothing besides itself.

        >>> Front(True, True, []).to_html(title='a day').count('<h1><bdi>a day</bdi></h1>')
        1
        """
        from .page import page_of
        return kept(page_of(self, title), path)


def _different(names: Sequence[str]) -> 'List[Any]':
    """The names, with a number behind each that was there before."""
    seen = set()  # type: Set[str]
    found = []
    for name in names:
        shown, k = name, 1
        while shown in seen:
            k += 1
            shown = '%s (%d)' % (name, k)
        seen.add(shown)
        found.append(shown)
    return found
