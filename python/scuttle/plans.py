"""Plans of a front, what they are called, and how two differ."""
from typing import Dict, FrozenSet, List, NamedTuple, Optional, Sequence, Union

from .instances import Costs
from .names import Name, text_of_name
from .sums import Option


class Labels(NamedTuple):
    """What the costs and options of a front are called: the objectives and their senses (`min` or `max`), the options as they were
    given, and the numbers, from 1, of those that only help.

    >>> Labels(['pay'], ['min'], ['shop']).helping
    frozenset()
    """

    objectives: List[str]
    senses: List[str]
    options: List[Name]
    helping: FrozenSet[int] = frozenset()


class Source(NamedTuple):
    """The instance that a front is of: the name of its file, whose ending says its format, its text, and the executable.

    >>> Source('model.opb', '').program is None
    True
    """

    name: str
    text: str
    program: Optional[str] = None


class Plan:
    """A plan: its costs by name, what it takes, and its number in the list, from 1.

    >>> plan = Plan(1, (24,), [1, -2], Labels(['pay'], ['min'], ['Ann', 'Ben']))
    >>> plan.costs, plan.taken, plan.values, plan['Ben']
    ({'pay': 24}, ['Ann'], {'Ann': True, 'Ben': False}, False)
    """

    __slots__ = ('number', 'vector', 'model', 'labels')

    def __init__(self, number: int, vector: Costs, model: Sequence[int], labels: Labels) -> None:
        self.number, self.vector, self.model, self.labels = number, vector, list(model), labels

    @property
    def costs(self) -> Dict[str, int]:
        """Each cost by its objective's name; of a maximised one the sum itself."""
        return dict(zip(self.labels.objectives, self.vector))

    @property
    def taken(self) -> List[Name]:
        """The options that it takes, without those that only help."""
        return [self.labels.options[literal - 1] for literal in self.model if literal > 0 and literal not in self.labels.helping]

    @property
    def values(self) -> Dict[Name, bool]:
        """For each option, also those that only help, whether it is taken."""
        return {self.labels.options[abs(literal) - 1]: literal > 0 for literal in self.model}

    def __getitem__(self, option: Union[Option, Name]) -> bool:
        """Whether an option, its opposite, or the option of a name is taken. `KeyError` where there is none."""
        if isinstance(option, Option):
            return self[option.name] != option.negated
        text = text_of_name(option)
        for name, value in self.values.items():
            if text_of_name(name) == text:
                return value
        raise KeyError(option)

    def __eq__(self, other: object) -> bool:
        return isinstance(other, Plan) and (self.costs, self.model) == (other.costs, other.model)

    def __repr__(self) -> str:
        return '<plan %d: %s>' % (self.number, '; '.join('%s: %d' % pair for pair in self.costs.items()) or 'no costs')

    def __str__(self) -> str:
        costs = '; '.join('%s: %d' % pair for pair in self.costs.items())
        return '\n'.join(['%d. %s' % (self.number, costs)] + ['   ' + text_of_name(name) for name in self.taken])


class Difference(NamedTuple):
    """How a second plan differs from a first: what its costs are more, and the options that only one of them takes.

    >>> Difference({'pay': 3}, ['Ann'], ['Ben']).only_second
    ['Ben']
    """

    costs: Dict[str, int]
    only_first: List[Name]
    only_second: List[Name]


class More(NamedTuple):
    """Further plans of one compromise: whether they are all, whether `check-models` accepted that (None: it wasn't asked), and they.

    >>> More(True, True, []).all
    True
    """

    all: bool
    accepted: Optional[bool]
    plans: List[Plan]
