"""Scuttle in Python: say a problem by names, have every best compromise found and checked, and look, compare and choose.

    >>> from scuttle import Model, exactly, no
    >>> m = Model()
    >>> work = m.options(['Ann', 'Ben'], ['Mon', 'Tue'])
    >>> for day in ('Mon', 'Tue'):
    ...     m.add(exactly(1, [work['Ann', day], work['Ben', day]]))
    >>> m.minimise('pay', sum((24 if name == 'Ann' else 20) * option for (name, day), option in work.items()))
    >>> m.minimise('wishes', 2 * work['Ben', 'Mon'] + 3 * work['Ben', 'Tue'])
    >>> front = m.solve(seconds=60)
    >>> for plan in front:
    ...     print(plan.costs, plan.taken)
    {'pay': 40, 'wishes': 5} [('Ben', 'Mon'), ('Ben', 'Tue')]
    {'pay': 44, 'wishes': 2} [('Ann', 'Tue'), ('Ben', 'Mon')]
    {'pay': 48, 'wishes': 0} [('Ann', 'Mon'), ('Ann', 'Tue')]

What `front.accepted` says was accepted by `check`, run over the very files. `python -m scuttle` lists the commands.
"""
from .errors import (BadName, CannotTake, Failed, Malformed, ModelError, NoProgram, NotAdded, NotWhole, ScuttleError,
                     UnknownName)
from .front import Difference, Front, Labels, More, Plan, Source
from .model import Model
from .sums import Option, Row, Sum, at_least, at_most, exactly, if_then, no, total
from .version import VERSION as __version__

__all__ = ['BadName', 'CannotTake', 'Failed', 'Malformed', 'ModelError', 'NoProgram', 'NotAdded', 'NotWhole', 'ScuttleError', 'UnknownName',
           '__version__', 'Difference', 'Front', 'Labels', 'More', 'Plan', 'Source', 'Model', 'Option', 'Row', 'Sum', 'at_least',
           'at_most', 'exactly', 'if_then', 'no', 'total']
