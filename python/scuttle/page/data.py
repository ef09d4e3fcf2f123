"""What a page knows of a front: one JSON object, from which its script draws everything."""
from typing import Any, Dict, Iterable, List, Optional, Sequence, Tuple

from ..files import printable
from ..front import Front, More, Plan
from ..names import Name
from .grid import grid_of


def data_of(front: Front) -> Dict[str, Any]:
    """The object. The same front gives the same one.

    `complete`, `accepted` and `listed` are those of the front; `title` says them in words, and `conflict` has rows that can't hold together.
    `costs` have a `name`, a `sense` and their different `values`, best first, as texts, since scripts round numbers beyond 2^53. `options`
    are the names of all options but those that only help. `grid` is null, or has `rows`, `columns` and, for each option, its `row`, its
    `column`, -1 where it has none, and its `word`. `entries` have their `number`, the `ranks` of their costs among the values, and `plans`,
    the listed one first; `all` says whether there are no others, null where nobody knows, and `checked` whether `check-models` accepted that.
    A plan is its options by number, from 0, each as its distance from the one before.

    >>> from scuttle import Labels
    >>> labels = Labels(['pay', 'joy'], ['min', 'max'], ['Ann', 'Ben'])
    >>> front = Front(True, True, [Plan(1, (3, 1), [1, -2], labels), Plan(2, (5, 2), [1, 2], labels)], labels)
    >>> data = data_of(front)
    >>> data['costs'][1], [entry['ranks'] for entry in data['entries']], [entry['plans'] for entry in data['entries']]
    ({'name': 'joy', 'sense': 'max', 'values': ['2', '1']}, [[0, 1], [1, 0]], [[[0]], [[0, 1]]])
    """
    shown = [k for k in range(1, len(front.labels.options) + 1) if k not in front.labels.helping]
    names = [front.labels.options[k - 1] for k in shown]
    place = {number: at for at, number in enumerate(shown)}
    values = [_best_first((plan.vector[k] for plan in front), sense) for k, sense in enumerate(front.labels.senses)]
    ranks = [{value: rank for rank, value in enumerate(column)} for column in values]
    return {
        'complete': front.complete, 'accepted': front.accepted, 'listed': front.listed, 'title': front.title(),
        'conflict': [printable(row) for row in front.conflict],
        'costs': [{'name': printable(name), 'sense': sense, 'values': [str(value) for value in column]}
                  for name, sense, column in zip(front.labels.objectives, front.labels.senses, values)],
        'options': [_text_of(name) for name in names],
        'grid': _grid(names),
        'entries': [_entry(plan, more, [ranks[k][cost] for k, cost in enumerate(plan.vector)], place)
                    for plan, more in zip(front, front.choices)],
    }


def _text_of(name: Name) -> str:
    """A name in words, without what a page can't show."""
    return printable(' '.join(str(part) for part in name) if isinstance(name, tuple) else name)


def _best_first(costs: Iterable[int], sense: str) -> List[int]:
    return sorted(set(costs), reverse=sense == 'max')


def _grid(names: Sequence[Name]) -> Optional[Dict[str, Any]]:
    grid = grid_of(names)
    if grid is None:
        return None
    places = [place or (-1, -1, '') for place in grid.places]
    return {'rows': grid.rows, 'columns': grid.columns,
            'row': [row for row, _, _ in places], 'column': [column for _, column, _ in places], 'word': [word for _, _, word in places]}


def _entry(plan: Plan, more: Optional[More], ranks: List[int], place: Dict[int, int]) -> Dict[str, Any]:
    """A compromise with its plans. Plans that differ only in options that help are one."""
    plans = {_taken(each, place): None for each in [plan] + (more.plans if more else [])}
    return {'number': plan.number, 'ranks': ranks, 'plans': [_distances(taken) for taken in plans],
            'all': more.all if more else None, 'checked': more.accepted if more else None}


def _taken(plan: Plan, place: Dict[int, int]) -> Tuple[int, ...]:
    return tuple(place[literal] for literal in plan.model if literal in place)


def _distances(taken: Sequence[int]) -> List[int]:
    return [at - before for before, at in zip((0,) + tuple(taken), taken)]
