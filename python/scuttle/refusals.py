"""What the program refuses of a written model, in the model's own words: the row or the cost in place of a line's number."""
import re
from typing import List, Sequence

from .errors import Failed

# The words of the program, in a sentence. docs/help/kinds.txt has them all.
MEANT = {'NumberTooWide': 'a number is at most 2^63 - 1, about 9.2 * 10^18',
         'Weights': 'the weights of one cost sum up to at most 2^63 - 1, about 9.2 * 10^18',
         'Row': 'the coefficients of one row and its bound sum up to at most 2^63 - 1, about 9.2 * 10^18',
         'Objectives': 'there are at most 64 costs', 'Vars': 'there are at most 2^24 options'}


def named(fault: Failed, text: str, costs: Sequence[str], rows: Sequence[str]) -> Failed:
    """The fault with the cost or the row that it is about, where it names a line of the text; the names are those of all costs and rows in
    their order.

    >>> print(named(Failed(65, 'scuttle: line 2: NumberTooWide'), 'min: +1 x1 ;\\n+99 x1 >= 1 ;\\n', ['pay'], ['`the big row`']))
    the program ended with 65: the row `the big row`: a number is at most 2^63 - 1, about 9.2 * 10^18 (scuttle: line 2: NumberTooWide)
    """
    found = re.search(r'line ([0-9]+): (?:too large: )?(\w+)', fault.warning)
    lines = text.split('\n')
    if not found or not 1 <= int(found.group(1)) <= len(lines):
        return fault
    place = _place_of(lines[:int(found.group(1))], costs, rows)
    meant = MEANT.get(found.group(2))
    return Failed(fault.number, '%s: %s(%s)' % (place, meant + ' ' if meant else '', fault.warning)) if place else fault


def _place_of(lines: List[str], costs: Sequence[str], rows: Sequence[str]) -> str:
    """What stands in the last of these lines; nothing, where it is neither a row nor a cost."""
    goals = [line.startswith(('min:', 'max:')) for line in lines if line and not line.startswith('*')]
    is_statement = bool(goals) and bool(lines[-1]) and not lines[-1].startswith('*')
    number = goals.count(goals[-1]) - 1 if is_statement else 0
    named_by = costs if is_statement and goals[-1] else rows
    if not is_statement or number >= len(named_by):
        return ''
    return 'the %s %s' % ('cost' if goals[-1] else 'row', named_by[number])
